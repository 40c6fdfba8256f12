"""Reads the libraries of this repository: their public calls with each clause, and the definitions that clauses cite.

Sources are laid out by `rt fmt`, so an item is known by its indent: a method stands four columns further in than its `impl`,
a clause four further in than its call.
"""
import hashlib
import re
from dataclasses import dataclass
from functools import cache
from pathlib import Path

ROOT = Path(__file__).resolve().parent.parent


@dataclass
class Clause:
    kind: str  # "requires", "ensures", "always" for what holds of each value of a type, "has" for what a trait's clauses speak of
    name: str  # empty for a clause without one
    text: str  # as it stands in the source, from the keyword to the closing brace
    says: str  # the `//` lines directly above it, as one sentence


@dataclass
class Call:
    crate: str
    path: Path
    owner: str  # the type or trait that has the call, or nothing
    name: str  # empty for what a type says of all its values
    is_pub: bool
    clauses: list

    @property
    def title(self):
        return "::".join(filter(None, [self.owner, self.name]))


@dataclass
class Definition:
    crate: str
    path: Path
    module: str  # the place of its file under specs/, with dots
    name: str
    text: str  # as it stands in the source, without the lines above it
    says: str
    example: str
    parts: set  # its constructors and fields


@cache
def libraries():
    """The crates that have a root file of a library, from the lowest up."""
    lines = (line.split("#")[0] for line in (ROOT / "crates.txt").read_text().splitlines())
    names = [line.split(":")[0].split()[0] for line in lines if ":" in line]
    return [it for it in names if it.startswith("bidi") and (ROOT / "crates" / it / "src/lib.rt").exists()]


def head_of(crate):
    """The first line of the root file: what the crate has, in one sentence."""
    return (ROOT / "crates" / crate / "src/lib.rt").read_text().splitlines()[0].removeprefix("//! ")


# ---- which names a crate makes public

DECLARED = r"^pub (?:struct|enum|trait|const|type|(?:final |const |unsafe )*fn) {}\b"


@cache
def text_of(path):
    return path.read_text() if path.exists() else ""


def child(path, name):
    """The file of a module that a file names."""
    folder = path.parent if path.name == "lib.rt" else path.with_suffix("")
    return folder / f"{name}.rt"


def passed_on(path):
    """What a file passes on by `pub use`: the path of each name, as a list of words."""
    for use in re.findall(r"^pub use ([^;]+);", text_of(path), re.M):
        front, _, names = re.sub(r"\s", " ", use).partition("{")
        for name in filter(None, names.replace(" ", "").rstrip("}").split(",")) if names else [""]:
            yield [it for it in f"{front}{name}".strip().split("::") if it not in ("", "self", "crate")]


def home(path, words):
    """The file that declares a name, which stands under these words from a file on; none if that is another crate's."""
    *modules, name = words
    for module in modules:
        path = child(path, module)
    if not path.exists() or re.search(DECLARED.format(name), text_of(path), re.M):
        return path if path.exists() else None
    return next((home(path, it) for it in passed_on(path) if it[-1] == name), None)


def public(path):
    """The public names of a file, each with the file that declares it."""
    found = {words[-1]: home(path, words) for words in passed_on(path)}
    for module in re.findall(r"^pub mod (\w+);", text_of(path), re.M):
        file = child(path, module)
        names = re.findall(DECLARED.format(r"(\w+)"), text_of(file), re.M)
        found.update({name: file for name in names} | public(file))
    return {name: file for name, file in found.items() if file}


# ---- calls and clauses

FN = re.compile(r"( *)(pub )?(?:final |const |unsafe )*fn (\w+)")
OWNER = re.compile(r"(?:pub )?(?:(impl)(?:<.*?>)? (?:.* for )?|trait |struct )(\w+)")
CLAUSE = re.compile(r" *(requires|ensures)\*?(?: (\w+))? \{")
ALWAYS = re.compile(r"    pub ghost (\w+): \{|    ghost (\w+): \{")


def statement(lines, at):
    """The text from this line on to the brace that closes its first one, and the number of the line behind it."""
    depth, end = 0, at
    while True:
        braces = re.sub(r'"(?:\\.|[^"\\])*"', "", lines[end])
        depth += braces.count("{") - braces.count("}")
        end += 1
        if depth <= 0 or end == len(lines):
            return "\n".join(lines[at:end]), end


def sentence(lines, at, mark):
    """The comment directly above a line, as one sentence, and its example, which follows `example:`."""
    start = at
    while start and re.match(rf" *{mark}(?!/)", lines[start - 1]):
        start -= 1
    words = [line.strip()[len(mark):].strip() for line in lines[start:at]]
    example = " ".join(it.removeprefix("example:").strip() for it in words if it.startswith("example:"))
    return " ".join(it for it in words if not it.startswith(("example:", "----"))), example


def with_clauses(call, lines, at):
    """Reads the clauses of the function whose head begins at this line, and gives the number of the line behind them."""
    while True:
        line = lines[at]
        if clause := CLAUSE.match(line):
            text, at = statement(lines, at)
            says, _ = sentence(lines, at - text.count("\n") - 1, "//")
            call.clauses.append(Clause(clause[1], clause[2] or "", text.strip().rstrip(";"), says))
            if text.endswith(";"):
                return at
            continue
        at += 1
        # The head ends where the body begins, which may be empty, or at the semicolon of a trait's function without one.
        if not line.strip().startswith("//") and line.endswith(("{", "{}", ";")):
            return at


def of_type(owner, crate, path, lines, at, name):
    """What a type or a trait says in a ghost member, as a call without a name."""
    text, _ = statement(lines, at)
    says = sentence(lines, at, "//")[0] or sentence(lines, at, "///")[0]
    is_trait = "trait " in owner[0]
    clause = Clause("has" if is_trait else "always", name, text.strip().rstrip(",;"), says)
    return Call(crate, path, owner[2], "", True, [clause])


def calls_in(crate, path):
    """The functions of a file, and the ghost members of its types, each with its clauses."""
    lines, at, owner = text_of(path).splitlines(), 0, None
    while at < len(lines):
        line, fn = lines[at], FN.match(lines[at])
        if line[:1].strip(" /}"):
            owner = None if fn else OWNER.match(line)
        if fn:
            of_trait = bool(owner) and "trait " in owner[0]
            call = Call(crate, path, owner[2] if fn[1] and owner else "", fn[3], bool(fn[2]) or of_trait, [])
            at = with_clauses(call, lines, at)
            yield call
            continue
        if owner and not owner[1] and (ghost := ALWAYS.match(line)):
            yield of_type(owner, crate, path, lines, at, ghost[1] or ghost[2])
        at += 1


@cache
def calls(crate):
    """The public calls of a library, in the order of its files."""
    source = ROOT / "crates" / crate / "src"
    names, found = public(source / "lib.rt"), []
    for path in sorted(source.rglob("*.rt")):
        for call in calls_in(crate, path):
            name = call.owner or call.name
            here, declared = names.get(name), re.search(DECLARED.format(name), text_of(path), re.M)
            # A method may stand in any file of the crate, unless that file has a type of its own of the same name.
            if call.is_pub and here and (here == path or call.owner and not declared):
                found.append(call)
    return found


# ---- which definitions a public clause cites

USE = re.compile(r"use Rattle\.(\w+)\.specs\.([\w.]+?)(?:\.\{([^}]*)\})?(?: as (\w+))?;?$", re.M)


def brought(text):
    """What the uses in a text bring: under each new name a crate, a module and a name there; a module has no name."""
    for crate, module, names, alias in USE.findall(text):
        if not names:
            yield alias or module.split(".")[-1], (crate, module, "")
        for one in filter(None, (it.strip() for it in names.split(","))):
            yield one.split()[-1], (crate, module, one.split()[0])


@cache
def known(crate):
    """The definitions of a library by module and name, a constructor as its type, and what its files pass on."""
    found = {}
    for it in definitions(crate):
        found.update({(it.module, name): it for name in {it.name} | it.parts})
    specs = ROOT / "crates" / crate / "specs"
    for path in specs.rglob("*.antt"):
        module = ".".join(path.relative_to(specs).with_suffix("").parts)
        uses = "\n".join(re.findall(r"^ *(?:abbrev )?pub (use .*)$", text_of(path), re.M))
        found.update({(module, new): place for new, place in brought(uses) if (module, new) not in found})
    return found


def definition_at(crate, module, name):
    """The definition that a name of a module stands for, if it is one of this repository."""
    found = known(crate).get((module, name)) if crate in libraries() else None
    return definition_at(*found) if isinstance(found, tuple) else found


@cache
def scope(path):
    """What the names of a file of code stand for in its clauses."""
    found = {}
    for new, place in brought(text_of(path)):
        found.setdefault(new, set()).add(place)
    return found


def named(path, text, crate="", module=""):
    """The definitions that a text of a file names; of a file of definitions the crate and the module are known, too."""
    words = {word.partition(".")[::2] for word in re.findall(r"[^\s(){}\[\],;]+", text)}
    firsts, names = {first for first, _ in words}, scope(path)
    mixed = {name for name in names if "◌" in name and firsts.issuperset(filter(None, name.split("◌")))}
    for first, rest in sorted(words | {(name, "") for name in mixed}):
        places = names.get(first, set()) | ({(crate, module, first)} if module else set())
        for place, file, known_as in sorted(places):
            if it := definition_at(place, file, known_as or rest):
                yield it


def models(crate):
    """What public types give for the parts of a trait that its clauses speak of: each file with such a text."""
    source = ROOT / "crates" / crate / "src"
    names = public(source / "lib.rt")
    for path in sorted(source.rglob("*.rt")):
        lines, owner = text_of(path).splitlines(), None
        for at, line in enumerate(lines):
            owner = OWNER.match(line) if line[:1].strip(" /}") else owner
            if owner and owner[2] in names and re.match(r"    ghost \w+ = \{", line):
                yield path, statement(lines, at)[0]


def cited():
    """The definitions that a public clause names, or a model that it speaks of, in the order of the libraries."""
    found = {}
    for crate in libraries():
        clauses = [(call.path, it.text) for call in calls(crate) for it in call.clauses]
        for path, text in clauses + list(models(crate)):
            found.update({(it.path, it.name): it for it in named(path, text)})
    return list(found.values())


# ---- definitions

DEFINED = re.compile(r"( *)(abbrev pub|pub data|pub record) (?!use\b)(\S+)")
IN_BLOCK = re.compile(r"( *)(pub) (?!(?:data|record|use|mod)\b)(\S+) :")


@cache
def definitions(crate):
    """The public definitions of a library, in the order of its files."""
    specs, found = ROOT / "crates" / crate / "specs", []
    for path in sorted(specs.rglob("*.antt")):
        module = ".".join(path.relative_to(specs).with_suffix("").parts)
        lines, block = path.read_text().splitlines(), None
        for at, line in enumerate(lines):
            if line.strip() and block is not None and not line.startswith(re.match(" *", lines[block])[0] + " "):
                block = None
            if line.strip() in ("mutual", "abbrev mutual"):
                block = at
            elif m := DEFINED.match(line) or block is not None and "abbrev" in lines[block] and IN_BLOCK.match(line):
                it = definition(crate, path, module, m, lines, at)
                # The sentence of a block is that of its first definition.
                if block is not None and not it.says and not any("pub " in before for before in lines[block:at]):
                    it.says, example = sentence(lines, block, "--")
                    it.example = it.example or example
                found.append(it)
    return found


def definition(crate, path, module, head, lines, at):
    """One definition: it goes on over the lines that are further in than its head, and over the equations of its name."""
    indent, kind, name = head.groups()
    has_equations, end = kind in ("abbrev pub", "pub"), at + 1
    equation = re.compile(rf"{indent}{'.*' if '◌' in name else re.escape(name)}(?![^\s(])")
    while end < len(lines):
        ahead = end
        while ahead < len(lines) and (not lines[ahead].strip() or lines[ahead].strip().startswith("--")):
            ahead += 1
        line = lines[ahead] if ahead < len(lines) else ""
        is_own = line.startswith(indent + " ") or has_equations and equation.match(line) and not DEFINED.match(line)
        if not is_own:
            break
        end = ahead + 1
    text = "\n".join(line.removeprefix(indent) for line in lines[at:end]).rstrip()
    parts = set() if has_equations else set(re.findall(r"^ +(?:pub )?(\S+) :", text, re.M))
    return Definition(crate, path, module, name, text, *sentence(lines, at, "--"), parts)


def header(path):
    """The comment at the top of a file of definitions: its subject, and its source if it has one."""
    lines = path.read_text().splitlines()
    end = next((at for at, line in enumerate(lines) if not line.startswith("--")), len(lines))
    return sentence(lines, end, "--")[0]


# ---- pages that a script makes

def checksum(text):
    """Six digits that change when a clause or a definition does. Comments, white space and line breaks do not count."""
    words = " ".join(re.sub(r"^ *(--|//).*$", "", text, flags=re.M).split())
    return hashlib.sha256(words.encode()).hexdigest()[:6]


def cell(text):
    """A text as it stands in a table."""
    return text.replace("|", "\\|")


def link(path):
    """A link from a page in docs/ to a file."""
    return f"[{path.name}](../{path.relative_to(ROOT)})"


def page(name, made, mode):
    """Writes the page that a script makes, compares it with the file, or prints it, as the script was asked to."""
    path = ROOT / "docs" / name
    if mode == "write":
        path.write_text(made)
    elif mode == "check" and (not path.exists() or path.read_text() != made):
        raise SystemExit(f"docs/{name} is not what its script makes: run it with --write")
    elif mode is None:
        print(made, end="")
