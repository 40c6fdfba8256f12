#!/usr/bin/env python3
"""Compares the rules of docs/FORMATS.md with those that the contracts use: profile.py

A rule stands in three places: as CDDL in docs/FORMATS.md, as an equation of `term_of` in Profile.antt, and in the doc comment of
the type that it gives. Each is written here as one line of CDDL, and the lines have to be equal. The rows of the tables of
commands and of events are compared too. FORMATS.md says in prose which rules have at most 60 levels; here that is CAPPED.
A line is printed for each difference, then a count; the status is 1 if there is a difference.
"""
import re
import sys

import options
import sources

FORMATS = (sources.ROOT / "docs/FORMATS.md").read_text()
PROFILE = next(sources.ROOT.glob("crates/*/specs/**/Profile.antt")).read_text()
CAPPED = {"LocalValue", "RemoteValue", "Info"}
TOKEN = re.compile(r'"[^"]*"|[A-Za-z][\w-]*|[{}\[\]()/:,?*+]')


def line(text):
    """A rule on one line, with a space between all that it is made of, and no comma before a closing brace."""
    return re.sub(r" ,(?= [}\]])", "", " ".join(TOKEN.findall(text)))


BASE = []  # the members of the group Base of FORMATS.md


def with_base(rule):
    return rule.replace("Base ,", BASE[0] + " ,")


# ---- docs/FORMATS.md

def in_formats():
    """The rules of the CDDL blocks, and the rows of the tables: the params and the result of each method."""
    blocks = "\n".join(re.findall(r"^```cddl\n(.*?)^```", FORMATS, re.M | re.S))
    parts = re.split(r"^([A-Za-z][\w-]*) +=", blocks, flags=re.M)
    rules = {name: line(text) for name, text in zip(parts[1::2], parts[2::2])}
    for name in ("js-uint", "js-int", "Extensible"):
        rules.pop(name)
    BASE.append(rules.pop("Base").strip("() "))
    rows = re.findall(r"^\| `?([a-z]\w*\.\w+)`? \| `?([A-Z]\w+)`? \|(?: `?([A-Z]\w+)`? \|)?$", FORMATS, re.M)
    commands, events = [it for it in rows if it[2]], [it for it in rows if not it[2]]
    for name, method, params, known in [("Command", "M", "P", commands), ("Event", "E", "Q", events)]:
        rule = rules[name].replace(f'"{method}"', '"{}"').replace(f"params : {params} ", "params : {} ")
        rule = rule.replace("{ ", "{{ ", 1)[:-1] + "}}"
        rules[name] = " / ".join(rule.format(*row) for row in known)
    return {name: with_base(text) for name, text in rules.items()}, rows


# ---- Profile.antt

WORDS = {"text": "text", "bool": "bool", "null": "null", "any": "any", "js_uint": "js-uint", "js_int": "js-int"}


def type_name(rule):
    return "".join(word.capitalize() for word in rule.split("_"))


class Equation:
    """The words of a term of Profile.antt, taken one after another and written as CDDL."""

    def __init__(self, text, base=None):
        self.words, self.base = re.findall(r'"[^"]*"|\w+|[()]', re.sub(r"--.*", "", text)), base

    def take(self):
        return self.words.pop(0)

    def inside(self, read):
        """What stands in parentheses, or a word without them."""
        if self.words[0] != "(":
            return read()
        self.take()
        found = read()
        self.take()
        return found

    def choice(self):
        found = [self.one()]
        while self.words[:1] == ["or"]:
            self.take()
            found.append(self.one())
        return " / ".join(found)

    def one(self):
        if self.words[0] == "(":
            return self.inside(self.choice)
        word = self.take()
        if word == "the":
            return self.take()
        if word == "rule":
            return type_name(self.take())
        if word == "capped":
            return self.one()
        if word in ("any_number_of", "at_least_one"):
            return f"[ {'*' if word == 'any_number_of' else '+'} {self.one()} ]"
        if word == "pair_of":
            return f"[ {self.one()} , {self.one()} ]"
        if word in ("open_map", "closed_map"):
            return self.map(self.inside(self.rows), word == "open_map")
        if word in ("typed", "typed_value"):
            kind = f"type : {self.take()}"
            return self.map([kind] + ([f"value : {self.one()}"] if word == "typed_value" else []), False)
        return WORDS[word]

    def map(self, rows, is_open):
        return "{ " + " , ".join(rows + ["Extensible"] * is_open) + " }"

    def rows(self):
        word = self.take()
        if word == "no_more":
            return []
        if word == "rows":
            return []
        if word == "held":
            return ["? handle : text", "? internalId : text"] + self.inside(self.rows)
        if word == "base":
            return self.base + self.inside(self.rows)
        need = "? " if self.take() == "may_be" else ""
        row = f"{need}{word[1:-1]} : {self.choice()}"
        self.take()
        return [row] + self.rows()


def in_profile():
    """The rules of the equations, and the rows of commands and events."""
    base = Equation(re.search(r"^base rows =\n(.*?)\n\n", PROFILE, re.M | re.S)[1]).rows()
    equations = re.findall(r"^term_of (\w+) =(.*\n(?:(?!term_of ).*\n?)*)", PROFILE, re.M)
    rules = {type_name(name): text for name, text in equations}
    capped = {name for name, text in rules.items() if text.split()[0] == "capped"}
    found = {name: Equation(text, base).choice() for name, text in rules.items() if name not in ("Command", "Event")}
    rows = [(method, type_name(params), type_name(result)) for method, params, result in
            re.findall(r'(?:command|event)_row "([\w.]+)" (\w+) ?(\w*)', PROFILE)]
    maps = {kind: re.search(rf"^{kind}_map \w =(.*?)\n\n", PROFILE, re.M | re.S)[1] for kind in ("command", "event")}
    for kind, name in [("command", "Command"), ("event", "Event")]:
        one = re.sub(r"the \w\.method", 'the "{}"', maps[kind]).replace("rule c.params", "rule PARAMS").replace("rule e.params", "rule PARAMS")
        rule = Equation(one).choice().replace("{ ", "{{ ", 1)[:-1] + "}}"
        rule = rule.replace("Params", "{}")
        found[name] = " / ".join(rule.format(*row) for row in rows if bool(row[2]) == (kind == "command"))
    return found, rows, capped


# ---- doc comments

def in_docs(names):
    """The rule in the doc comment of each type that has the name of one."""
    for path in sorted(sources.ROOT.glob("crates/bidi*/src/**/*.rt")):
        for doc, name in re.findall(r"((?:^///.*\n)+)(?:#\[.*\n)*pub (?:struct|enum) (\w+)", path.read_text(), re.M):
            shown = re.search(r'`([{"\[][^`]*)`', re.sub(r"^///", "", doc, flags=re.M))
            if name in names and shown:
                yield path.relative_to(sources.ROOT), name, with_base(line(shown[1]))


def main():
    options.parser(__doc__).parse_args()
    (rules, rows), (terms, term_rows, capped) = in_formats(), in_profile()
    told = [f"{name}: FORMATS.md has {rules.get(name)}\n{' ' * len(name)}  Profile.antt has {terms.get(name)}"
            for name in sorted(rules.keys() | terms.keys()) if rules.get(name) != terms.get(name)]
    told += [f"row {row}: on one side only" for row in sorted(set(rows) ^ set(term_rows))]
    told += [f"{name}: capped on one side only" for name in sorted(capped ^ CAPPED)]
    docs = list(in_docs(rules))
    told += [f"{path}: the doc of {name} has another rule than FORMATS.md" for path, name, text in docs if text != rules[name]]
    print(*told, f"profile: {len(rules)} rules, {len(rows)} rows, {len(docs)} docs of types, {len(told)} differences", sep="\n")
    return 1 if told else 0


sys.exit(main())
