#!/usr/bin/env python3
"""What a reader must believe: the definitions of specs/ on which the public contracts rest. Run by itself it prints them.

A public contract is the `ensures` of a public call without `requires`, a function or a method of a type (named `Type::method`), in a crate
that docs/ARCHITECTURE.md calls neither internal nor a test; what a public type there says of itself for a trait (the ghost lines of
`Trait for Type`); and each record or statement of specs/ (a name with a capital letter) that README.md names between backquotes. It rests on
the definitions that it cites and on those that these use, in turn, on the types of its head, of a method also on its own type, and on what
the ghost fields of these types cite; bound names, fields and projections are no use of a definition.
A definition is a record, a data type or a function, with all its clauses; its lines are those that are neither empty nor comment.
"""
import re
import sys
from collections import defaultdict
from fnmatch import fnmatch

from rattle_files import ROOT, all_files, has, module_file, words

CALL = re.compile(r'^pub (?:unsafe )?(?:extern "C" )?fn (\w+)(.*?)^\{', re.MULTILINE | re.DOTALL)
IMPL = re.compile(r"^impl(?:<[^>]*>)? (\w+)(?:<[^>]*>)? \{(.*?)^\}", re.MULTILINE | re.DOTALL)
TRAIT = re.compile(r"^impl(?:<[^>]*>)? (?:\w+::)*(\w+)(?:<[^>]*>)? for (\w+)(?:<[^>]*>)? \{(.*?)^\}", re.MULTILINE | re.DOTALL)
METHOD = re.compile(r"^    pub fn (\w+)(.*?)^    \{", re.MULTILINE | re.DOTALL)
TYPE_OF_CODE = re.compile(r"^pub (?:struct|enum) (\w+)", re.MULTILINE)
STRUCT = re.compile(r"^pub struct (\w+)[^{;(]*\{(.*?)^\}", re.MULTILINE | re.DOTALL)
LAW = re.compile(r"^    ghost \w+: (.*?)(?=^    \S|\Z)", re.MULTILINE | re.DOTALL)
GIVEN = re.compile(r"^    ghost \w+ = (.*?);$", re.MULTILINE | re.DOTALL)
DECLARED = re.compile(r"Rattle\.(\w+)\.specs\.declared\.(?:[a-z]\w*\.)*(\w+)")
NAME = r"[^\s(){}\[\]:;,.=]+"
BINDER = re.compile(rf"[({{]({NAME}(?: {NAME})*) : ")
BOUND = (BINDER, re.compile(rf"λ ((?:{NAME} )*{NAME})\."), re.compile(rf"let ({NAME}) ="))
FIELD = re.compile(rf"(?:pub )?({NAME}(?: {NAME})*) : ?")
TYPED = re.compile(r"(?:pub )?(record|data) ")


def fields(lines):
    """The names that the body of a record or data type declares, and the body without them."""
    names, rest = [], []
    for line in lines:
        found = FIELD.match(line)
        names += found[1].split() if found else []
        rest.append(line[found.end():] if found else line)
    return names, rest


class House:
    """The files of specs/ with their definitions, and what each of these uses."""

    def __init__(self, files):
        self.files = files
        self.specs = {name: file for name, file in files.items() if "/specs/" in name}
        self.type_of = {}  # of a constructor, by its file and name
        for name, file in self.specs.items():
            for owner in file.line:
                if file.text[owner][0].removeprefix("pub ").startswith("data "):
                    self.type_of.update({(name, one): owner for one in fields(file.text[owner][1:])[0]})
        self.known = {}
        self.types = defaultdict(set)  # of the code, by their crate
        self.laws = {}  # what the ghost fields of a type of the code cite
        for file in files.values():
            if file.path.suffix == ".rt":
                crate, code = file.name.split("/")[1], "\n".join(file.lines)
                self.types[crate].update(TYPE_OF_CODE.findall(code))
                self.laws.update({(crate, name): self.cited_by_fields(file, body) for name, body in STRUCT.findall(code)})

    def cited_by_fields(self, file, body):
        """What the ghost fields of a struct cite, from its body."""
        text = " ".join(LAW.findall(body))
        bound = set(re.findall(r"(\w+):", body)) | {one for names in BINDER.findall(text) for one in names.split()}
        return set(self.resolve(file, words(text) - bound))

    def resolve(self, file, found):
        """The definitions, and the types of the code (crate, type), that words of a file mean."""
        own = [(file.name, one) for one in [*file.line, *(name for of, name in self.type_of if of == file.name)] if has(found, one)]
        for local, (module, name, _) in file.imports.items():
            if name and has(found, local):
                own.append((module_file(module), name))
            elif any(isinstance(word, tuple) and word[0] == local for word in found):
                own += [(module_file(module), word[1]) for word in found if isinstance(word, tuple) and word[0] == local]
            else:
                continue
            declared = DECLARED.match(module)
            if declared:
                yield declared.groups()
        for place, name in own:
            name = self.type_of.get((place, name), name)
            if place in self.specs and name in self.specs[place].line:
                yield place, name

    def uses(self, place, name):
        """What a definition uses."""
        if (place, name) not in self.known:
            file = self.specs[place]
            found = set()
            for lines, bound in self.pieces(file, name):
                text = "\n".join(lines)
                for pattern in BOUND:
                    bound.update(one for names in pattern.findall(text) for one in names.split())
                found |= {word for word in words(text) if word not in bound}
            self.known[place, name] = set(self.resolve(file, found)) - {(place, name)}
        return self.known[place, name]

    def pieces(self, file, name):
        """The text of a definition in pieces, each with the names that it binds without a type."""
        lines, around = file.text[name], file.around[name]
        if TYPED.match(lines[0]):
            names, body = fields(lines[1:])
            yield around + [re.sub(rf"^(pub )?(record|data) {NAME}", "", lines[0]), *body], set() if "data " in lines[0] else set(names)
            return
        clauses = [at for at, line in enumerate(lines) if at and line.split()[0] == name]
        yield around + lines[:clauses[0] if clauses else None], set()
        for at, end in zip(clauses, [*clauses[1:], None]):
            text = "\n".join(lines[at:end])
            left = words(re.split(r" =(?:\s|$)", text, maxsplit=1)[0])
            bound = {word for word in left if not isinstance(word, tuple) and not self.is_constructor(file, word)}
            yield around + lines[at:end], bound

    def is_constructor(self, file, word):
        module, name, _ = file.imports.get(word, (None, None, None))
        return (file.name, word) in self.type_of or module is not None and (module_file(module) not in self.specs or (module_file(module), name) in self.type_of)

    def closure(self, start):
        """All that these rest on, themselves included."""
        seen, waiting = set(), list(start)
        while waiting:
            one = waiting.pop()
            if one not in seen:
                seen.add(one)
                waiting += self.uses(*one) if one[0] in self.specs else self.laws.get(one, ())
        return seen

    def definitions(self, seen):
        return {(place, name) for place, name in seen if place in self.specs}

    def lines(self, seen):
        return sum(len(self.specs[place].text[name]) for place, name in self.definitions(seen))


def closed_crates(architecture):
    """Patterns for the names of the crates that are internal or tests, by the house's table."""
    rows = re.findall(r"^\| (\w+) \| (`.*?) \| (.*?) \|", architecture, re.MULTILINE)
    return [name for floor, names, what in rows if "(internal)" in what or floor == "tests" for name in re.findall(r"`([\w*]+)`", names)]


def calls_of(code):
    """The public calls of a file, functions and methods: name, own type of a method or None, text from the parameters to the body."""
    for name, text in CALL.findall(code):
        yield name, None, text
    for owner, body in IMPL.findall(code):
        for name, text in METHOD.findall(body):
            yield f"{owner}::{name}", owner, text


def given_of(code):
    """What the types of a file say of themselves for a trait: name, type, the text of the ghost lines."""
    for trait, owner, body in TRAIT.findall(code):
        text = "\n".join(GIVEN.findall(body))
        if text:
            yield f"{trait} for {owner}", owner, text


def contracts(house, architecture, readme):
    """Each public call (crate, name) and each statement that README names ("README", name), with what it cites."""
    cited, shut = {}, closed_crates(architecture)
    for place, file in house.files.items():
        crate = place.split("/")[1]
        if file.path.suffix != ".rt" or any(fnmatch(crate, name) for name in shut):
            continue
        types = {name: module.split("::")[0] for name, (module, _, _) in file.imports.items() if "::" in module and not module.startswith("std::")}
        types |= {name: crate for name in house.types[crate]}
        for name, owner, text in given_of("\n".join(file.lines)):
            if owner in types:
                bound = {one for names in BOUND[1].findall(text) for one in names.split()}
                cited[crate, name] = {*house.resolve(file, words(text) - bound), (types[owner], owner)}
        for name, owner, text in calls_of("\n".join(file.lines)):
            head, ensures, contract = text.partition("ensures")
            if ensures and "requires" not in text:
                bound = {one for names in BOUND[1].findall(contract) for one in names.split()} | set(re.findall(r"(\w+):", head))
                cited[crate, name] = set(house.resolve(file, words(contract) - bound))
                cited[crate, name] |= {(types[word], word) for word in [owner, *re.findall(r"\w+", head)] if word in types}
    named = {word for code in re.findall(r"`([^`]+)`", readme) for word in code.split() if word[0].isupper()}
    for place, file in house.specs.items():
        if not place.endswith("/Inner.antt"):
            cited.update({("README", name): {(place, name)} for name in sorted(named & set(file.line))})
    return cited


def rests_on(house=None):
    """The house, and for each public contract all that it rests on."""
    house = house or House(all_files())
    texts = [(ROOT / name).read_text(encoding="utf-8") for name in ("docs/ARCHITECTURE.md", "README.md")]
    return house, {contract: house.closure(cited) for contract, cited in contracts(house, *texts).items()}


def main():
    house, rests = rests_on()
    everything = set().union(*rests.values())
    for (crate, name), seen in [*rests.items(), (("all", "public contracts"), everything)]:
        print(f"{crate} {name}: {len(house.definitions(seen))} definitions, {house.lines(seen)} lines")
    by_file = defaultdict(list)
    for place, name in sorted(everything):
        by_file[place].append(name)
    for place, names in by_file.items():
        rest = [name for name in house.specs[place].line if name not in names] if place in house.specs else []
        print(f"{place}: {' '.join(names)}" + (f"   (not needed: {' '.join(rest)})" if rest else ""))
    return 0


if __name__ == "__main__":
    sys.exit(main())
