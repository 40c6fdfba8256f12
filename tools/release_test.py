#!/usr/bin/env python3
"""Tests tools/release.py: python3 tools/release_test.py

It makes an archive of a program that writes the help below, which has the form of the help of clap.
"""
import hashlib
import io
import subprocess
import sys
import tarfile
import tempfile
import unittest
from pathlib import Path

RELEASE = Path(__file__).resolve().parent / "release.py"
sys.path.insert(0, str(RELEASE.parent))
import release  # noqa: E402

PROGRAM = """\
#!/bin/sh
case $1 in
--version) echo 'bidi 1.2.3, profile P9' ;;
--help) cat <<'END'
The whole

Usage: bidi <COMMAND>

Commands:
  show  Shows a file's [lines]
  host  Hosts

Options:
  -h, --help  Print help

Notes.
END
;;
show) cat <<'END'
Shows a file's [lines]

Usage: bidi show --from <END> [FILE]

Arguments:
  [FILE]  Reads this file; without it, the standard input

Options:
      --from <END>  The end: local or remote
  -h, --help        Print help

.The first sentence
ends. The next one.
  `an-example`
The last.
END
;;
host) cat <<'END'
Hosts

Usage: bidi host [OPTIONS]

Options:
      --page <FILE>  Plays this file
      --port <PORT>  The port: 0 to 65535 [default: 9222]
      --once         Ends
  -h, --help         Print help
END
;;
esac
"""

# The words of a command line, and how they can be completed; `data.txt` is the only file.
COMPLETIONS = [
    ("", "show host --help --version"), ("h", "host"), ("show --from ''", "local remote"), ("show --from r", "remote"),
    ("show -", "--from --help"), ("show ''", "data.txt"), ("host --page d", "data.txt"), ("host --port ''", ""), ("host --p", "--page --port"),
    ("host ''", "--page --port --once --help"), ("other ''", "")]

MANUAL = r"""
.SS "show"
Shows a file's [lines].
.TP
\fIFILE\fR
Reads this file; without it, the standard input
.TP
\fB\-\-from\fR \fIEND\fR
The end: local or remote
.TP
\fB\-h\fR, \fB\-\-help\fR
Print help
.PP
\&.The first sentence
ends. The next one.
.br
`an\-example`
.PP
The last.
""".lstrip()


class ReleaseTest(unittest.TestCase):
    """Makes an archive in a folder of its own."""

    def setUp(self):
        folder = tempfile.TemporaryDirectory()
        self.addCleanup(folder.cleanup)
        self.folder = Path(folder.name)
        self.program = self.folder / "bidi"
        self.program.write_text(PROGRAM)
        self.program.chmod(0o755)

    def test_the_archive_has_its_files_with_their_checksums(self):
        files = release.contents(self.program, "1.2.3")
        data = release.archive("bidi-1.2.3", files)
        self.assertEqual(data, release.archive("bidi-1.2.3", dict(reversed(files.items()))))
        with tarfile.open(fileobj=io.BytesIO(data)) as tar:
            found = {it.name: (it.mode, tar.extractfile(it).read()) for it in tar}
        self.assertEqual(found["bidi-1.2.3/bin/bidi"], (0o755, PROGRAM.encode()))
        for name in ["docs/FORMATS.md", "docs/TESTING.md", "docs/CHECKING.md", "docs/TROUBLESHOOTING.md", "examples/clients/pytest/conftest.py", "examples/clients/node/host.cjs",
                     "share/man/man1/bidi.1", "share/bash-completion/completions/bidi", "share/zsh/site-functions/_bidi",
                     "share/fish/vendor_completions.d/bidi.fish"]:
            self.assertEqual(found["bidi-1.2.3/" + name][0], 0o644, name)
        sums = dict(reversed(line.split("  ")) for line in found.pop("bidi-1.2.3/SHA256SUMS")[1].decode().splitlines())
        self.assertEqual(sums, {name[len("bidi-1.2.3/"):]: hashlib.sha256(each).hexdigest() for name, (_, each) in found.items()})

    def test_bash_completes_each_word(self):
        (self.folder / "data").mkdir()
        (self.folder / "data/data.txt").write_text("")
        script = release.bash(release.commands_of(self.program)) + "".join(
            f"COMP_WORDS=(bidi {words or chr(39) * 2}); COMP_CWORD=$((${{#COMP_WORDS[@]}} - 1)); _bidi; echo \"${{COMPREPLY[*]}}\"\n" for words, _ in COMPLETIONS)
        ran = subprocess.run(["bash", "-c", script], cwd=self.folder / "data", capture_output=True, text=True)
        self.assertEqual(dict(zip([words for words, _ in COMPLETIONS], ran.stdout.split("\n"))), dict(COMPLETIONS))
        self.assertEqual(ran.stderr, "")

    def test_zsh_and_fish_have_each_option(self):
        commands = release.commands_of(self.program)
        for text in [r"'show:Shows a file'\''s [lines]'", "'--from[The end\\: local or remote]:END:(local remote)'", "'::FILE:_files'",
                     "'--page[Plays this file]:FILE:_files'", r"'--port[The port\: 0 to 65535 \[default\: 9222\]]:PORT:'",
                     "'(-h --help)'{-h,--help}'[Print help]'"]:
            self.assertIn(text, release.zsh(commands))
        here = "complete -c bidi -n '__fish_seen_subcommand_from"
        for line in [r"complete -c bidi -n __fish_use_subcommand -a show -d 'Shows a file'\''s [lines]'", f"{here} show' -F",
                     f"{here} show' -l from -x -a 'local remote' -d 'The end: local or remote'", f"{here} host' -l page -r -F -d 'Plays this file'",
                     f"{here} host' -l once -d 'Ends'", f"{here} host' -s h -l help -d 'Print help'"]:
            self.assertIn(line + "\n", release.fish(commands))

    def test_the_manual_page_has_each_command(self):
        page = release.manual(release.help_of(self.program), release.commands_of(self.program), "1.2.3")
        self.assertIn(MANUAL, page)
        self.assertTrue(page.startswith('.TH BIDI 1 "" "bidi 1.2.3" "User Commands"\n.SH NAME\nbidi \\- The whole\n'))

    def test_a_program_that_is_not_to_be_released_is_refused(self):
        checks_itself = self.folder / "checks"
        checks_itself.write_bytes(b"\x7fELF .. " + release.CHECKED)
        for name, arguments, status, wanted in [
                ("a script", [self.program], 1, f"release: {self.program.resolve()} is not proved; an archive of it needs --unproved\n"),
                ("a program that checks itself", [checks_itself], 1, f"release: {checks_itself.resolve()} is not proved; an archive of it needs --unproved\n"),
                ("no program", [self.folder / "none"], 1, f"release: no program {self.folder.resolve()}/none: build it with `rt run -- play < stdin` in crates/bidi\n"),
                ("an option that does not exist", ["--proved"], 2, "release.py: error: unrecognized arguments: --proved\n")]:
            with self.subTest(name):
                ran = subprocess.run([sys.executable, RELEASE, *arguments], capture_output=True, text=True)
                self.assertEqual((ran.returncode, ran.stdout), (status, ""))
                self.assertTrue(ran.stderr.endswith(wanted), ran.stderr)

    def test_another_program_is_refused(self):
        for call in (release.version_of, release.help_of):
            with self.subTest(call.__name__), self.assertRaises(release.Fault):
                call("/bin/true")


if __name__ == "__main__":
    unittest.main()
