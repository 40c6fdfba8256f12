#!/usr/bin/env python3
"""Makes the archive of a release: release.py [--unproved] [PROGRAM]

dist/bidi-VERSION-x86_64-linux.tar.gz has the program, a manual page, completions for bash, zsh and fish, the fixtures and the other
clients of examples/clients, and the documents for users. dist/SHA256SUMS has its checksum, and a file of the same name in it those
of its files. The manual page and the completions are written from the help of the program.

PROGRAM is crates/bidi/out/bidi, which `rt run` or the gate proves and builds. A program without its proofs is refused; with
--unproved it is PROGRAM, crates/bidi/out/bidi-unproved, and the archive is named for it. A program that is older than a source is
refused, too. The same program and documents give the same archive, byte for byte.
"""
import argparse
import gzip
import hashlib
import io
import re
import subprocess
import sys
import tarfile
from dataclasses import dataclass
from pathlib import Path

ROOT = Path(__file__).resolve().parent.parent
OUT, DIST = ROOT / "crates/bidi/out", ROOT / "dist"
DOCUMENTS = ["README.md", "CHANGELOG.md", "docs/FORMATS.md", "docs/TESTING.md", "docs/CHECKING.md", "docs/TROUBLESHOOTING.md", "docs/look.png"]
CHECKED = b"__asan_"  # what only a program of `rt try`, which checks itself, has
OPTION = re.compile(r" +(?:-(\w), |    )--([\w-]+)(?: <(\w+)>)? +(.*)")
ARGUMENT = re.compile(r" +\[(\w+)\] +(.*)")
CHOICES = re.compile(r".*: (\w+) or (\w+)")


class Fault(Exception):
    """A fault that ends the run, with its message."""


# ---- the help of the program

@dataclass
class Option:
    """An option, or an argument, which has no name."""

    short: str
    name: str
    value: str
    about: str

    def choices(self):
        """The words that the value can be, if the help names all of them."""
        found = CHOICES.fullmatch(self.about) if self.value else None
        return list(found.groups()) if found else []

    def is_file(self):
        return self.value == "FILE"


@dataclass
class Help:
    """The help of the program, or of one of its commands."""

    name: str
    about: str
    usage: str
    arguments: list
    options: list
    notes: list


def help_of(program, *words):
    """Reads the help of the program, or of the command that a word names."""
    ran = subprocess.run([program, *words, "--help"], capture_output=True, text=True)
    about, *parts = ran.stdout.strip("\n").split("\n\n")
    usage = next((part[len("Usage: "):] for part in parts if part.startswith("Usage: ")), "")
    options, arguments, notes = [], [], []
    for title, *lines in [part.split("\n") for part in parts]:
        if title == "Options:":
            options = [Option(it[1] or "", it[2], it[3] or "", it[4]) for it in map(OPTION.fullmatch, lines) if it]
        elif title == "Arguments:":
            arguments = [Option("", "", it[1], it[2]) for it in map(ARGUMENT.fullmatch, lines) if it]
        elif title != "Commands:" and not title.startswith("Usage: "):
            notes += [title, *lines]
    if ran.returncode or not usage or not options:
        raise Fault(f"{program} {' '.join(words)} --help does not have the form of the help of bidi")
    return Help(words[0] if words else "bidi", about, usage, arguments, options, notes)


def commands_of(program):
    """The help of each command."""
    listed = subprocess.run([program, "--help"], capture_output=True, text=True).stdout
    block = re.search(r"^Commands:\n((?:  .*\n)+)", listed, re.M)
    return [help_of(program, line.split()[0]) for line in block[1].splitlines()] if block else []


# ---- completions

def bash(commands):
    cases = []
    for it in commands:
        for option in it.options:
            if option.value:
                words = "files" if option.is_file() else f"words '{' '.join(option.choices())}'"
                cases.append(f"    '{it.name} --{option.name}') {words} ;;")
        names = " ".join(f"--{option.name}" for option in it.options)
        cases.append(f"    '{it.name} '*) {'either' if any(each.is_file() for each in it.arguments) else 'words'} '{names}' ;;")
    return f"""\
# Completion of bidi for bash.
_bidi() {{
    local word=${{COMP_WORDS[COMP_CWORD]}}
    words() {{ mapfile -t COMPREPLY < <(compgen -W "$1" -- "$word"); }}
    files() {{ mapfile -t COMPREPLY < <(compgen -f -- "$word"); }}
    either() {{ case $word in -*) words "$1" ;; *) files ;; esac }}
    COMPREPLY=()
    if [ "$COMP_CWORD" -eq 1 ]; then
        words '{" ".join(it.name for it in commands)} --help --version'
        return
    fi
    case "${{COMP_WORDS[1]}} ${{COMP_WORDS[COMP_CWORD - 1]}}" in
{chr(10).join(cases)}
    esac
}}
complete -o filenames -F _bidi bidi
"""


def quoted(text):
    """A text in single quotes, for a shell."""
    return "'" + text.replace("'", "'\\''") + "'"


def zsh(commands):
    def spec(option):
        about = re.sub(r"([\[\]\\:])", r"\\\1", option.about)
        action = "_files" if option.is_file() else f"({' '.join(option.choices())})" if option.choices() else ""
        value = f":{option.value}:{action}" if option.value else ""
        if not option.name:
            return quoted(f"::{option.value}:{action}")
        if option.short:
            return f"'(-{option.short} --{option.name})'{{-{option.short},--{option.name}}}" + quoted(f"[{about}]{value}")
        return quoted(f"--{option.name}[{about}]{value}")

    listed = "\n".join("        " + quoted(f"{it.name}:{it.about}") for it in commands)
    cases = "\n".join(f"        {it.name})\n            _arguments -s " + " \\\n                ".join(map(spec, it.options + it.arguments))
                      + " ;;" for it in commands)
    return f"""\
#compdef bidi
# Completion of bidi for zsh.
_bidi() {{
    local state line
    local -a commands=(
{listed}
    )
    _arguments -C '(-h --help)'{{-h,--help}}'[Print help]' '--version[Print the version and the profile]' '1: :->command' '*:: :->rest'
    case $state in
    command) _describe command commands ;;
    rest)
        case $words[1] in
{cases}
        esac ;;
    esac
}}
_bidi "$@"
"""


def fish(commands):
    lines = ["# Completion of bidi for fish.", "complete -c bidi -f", "complete -c bidi -n __fish_use_subcommand -s h -l help -d 'Print help'",
             "complete -c bidi -n __fish_use_subcommand -l version -d 'Print the version and the profile'"]
    for it in commands:
        lines.append(f"complete -c bidi -n __fish_use_subcommand -a {it.name} -d {quoted(it.about)}")
        here = f"complete -c bidi -n '__fish_seen_subcommand_from {it.name}'"
        for option in it.options:
            value = (" -r -F" if option.is_file() else f" -x -a '{' '.join(option.choices())}'") if option.value else ""
            lines.append(f"{here}{f' -s {option.short}' if option.short else ''} -l {option.name}{value} -d {quoted(option.about)}")
        lines += [f"{here} -F" for each in it.arguments if each.is_file()]
    return "\n".join(lines) + "\n"


# ---- the manual page

def roff(text):
    """A line of a text, with nothing in it that roff takes as a request."""
    text = text.replace("\\", "\\e").replace("-", "\\-")
    return "\\&" + text if text.startswith((".", "'")) else text


def described(option):
    names = [f"-{option.short}"] * bool(option.short) + [f"--{option.name}"] * bool(option.name)
    term = ", ".join(rf"\fB{roff(name)}\fR" for name in names)
    value = rf"\fI{option.value}\fR" if option.value else ""
    return [".TP", " ".join(filter(None, [term, value])), roff(option.about)]


def paragraphs(notes):
    """The lines of notes: those with a space in front stay lines, and the others are filled up to the end of a sentence."""
    lines, is_new = [], True
    for note in notes:
        if note.startswith(" "):
            lines += [".br", roff(note.strip())]
        else:
            lines += [".PP"] * is_new + [roff(note)]
        is_new = note.endswith(".") or note.startswith(" ")
    return lines


def manual(whole, commands, version):
    lines = [f'.TH BIDI 1 "" "bidi {version}" "User Commands"', ".SH NAME", rf"bidi \- {roff(whole.about)}", ".SH SYNOPSIS", ".nf"]
    lines += [rf"\fB{roff(it.usage)}\fR" for it in commands] + [r"\fBbidi \-\-version\fR", ".fi", ".SH COMMANDS"]
    for it in commands:
        lines += [f'.SS "{it.name}"', roff(it.about) + "."]
        for option in it.arguments + it.options:
            lines += described(option)
        lines += paragraphs(it.notes)
    lines += [".SH SEE ALSO", "The files of docs, which come with the program: FORMATS.md, TESTING.md and CHECKING.md."]
    return "\n".join(lines) + "\n"


# ---- the archive

def is_unproved(program):
    """Whether a program was built without its proofs, or only starts such a program."""
    data = program.read_bytes()
    return not data.startswith(b"\x7fELF") or CHECKED in data


def version_of(program):
    ran = subprocess.run([program, "--version"], capture_output=True, text=True)
    found = re.fullmatch(r"bidi (\S+), profile \S+\n", ran.stdout)
    if ran.returncode or not found:
        raise Fault(f"{program} --version does not say the version of bidi")
    return found[1]


def check(program, may_be_unproved):
    """Fails if the program is not one to release."""
    if not program.is_file():
        raise Fault(f"no program {program}: build it with `rt run -- play < stdin` in crates/bidi")
    if is_unproved(program) and not may_be_unproved:
        raise Fault(f"{program} is not proved; an archive of it needs --unproved")
    newest = max((ROOT / "crates").glob("bidi*/src/**/*.rt"), key=lambda it: it.stat().st_mtime)
    if newest.stat().st_mtime > program.stat().st_mtime:
        raise Fault(f"{program} is older than {newest.relative_to(ROOT)}: build it again")


def contents(program, version):
    """The files of the archive by name, each with what it has and its mode."""
    whole, commands = help_of(program), commands_of(program)
    files = {"share/man/man1/bidi.1": manual(whole, commands, version).encode(),
             "share/bash-completion/completions/bidi": bash(commands).encode(),
             "share/zsh/site-functions/_bidi": zsh(commands).encode(),
             "share/fish/vendor_completions.d/bidi.fish": fish(commands).encode()}
    clients = subprocess.run(["git", "ls-files", "-z", "examples/clients"], cwd=ROOT, check=True, capture_output=True, text=True)
    for name in [*DOCUMENTS, *clients.stdout.split("\0")[:-1]]:
        files[name] = (ROOT / name).read_bytes()
    programs = [program, *program.parent.glob(program.name + ".program")]
    files |= {f"bin/{it.name}": it.read_bytes() for it in programs}
    files["SHA256SUMS"] = "".join(sums(files)).encode()
    return files


def sums(files):
    return [f"{hashlib.sha256(data).hexdigest()}  {name}\n" for name, data in sorted(files.items())]


def archive(folder, files):
    """The bytes of an archive that has these files in one folder."""
    made = io.BytesIO()
    with gzip.GzipFile(fileobj=made, mode="wb", mtime=0) as zipped, tarfile.open(fileobj=zipped, mode="w") as tar:
        for name, data in sorted(files.items()):
            it = tarfile.TarInfo(f"{folder}/{name}")
            it.size, it.mode = len(data), 0o755 if name.startswith("bin/") else 0o644
            tar.addfile(it, io.BytesIO(data))
    return made.getvalue()


def main():
    parser = argparse.ArgumentParser(description="Makes the archive of a release, in dist/.")
    parser.add_argument("--unproved", action="store_true", help="takes a program without its proofs")
    parser.add_argument("program", nargs="?", type=Path, metavar="PROGRAM", help="the program (crates/bidi/out/bidi)")
    given = parser.parse_args()
    program = (given.program or OUT / ("bidi-unproved" if given.unproved else "bidi")).resolve()
    check(program, given.unproved)
    version = version_of(program)
    folder = f"bidi-{version}{'-unproved' * is_unproved(program)}-x86_64-linux"
    made = {f"{folder}.tar.gz": archive(folder, contents(program, version))}
    DIST.mkdir(exist_ok=True)
    for name, data in {**made, "SHA256SUMS": "".join(sums(made)).encode()}.items():
        (DIST / name).write_bytes(data)
        print((DIST / name).relative_to(ROOT))


if __name__ == "__main__":
    try:
        main()
    except Fault as fault:
        sys.exit(f"release: {fault}")
