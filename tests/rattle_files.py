"""Rattle files as text: their imports, and their declarations with the names that each one uses. For tests/lint and tests/believed.py."""
import re
from collections import defaultdict
from pathlib import Path

ROOT = Path(__file__).resolve().parent.parent

IMPORT = re.compile(r"(?:ghost )?use ([^\s{;]+?)(?:\.\{([^}]*)\})?(?: as ([^\s;]+))?;?")
HEAD = re.compile(r" *(?:(?:unfoldable|abbrev) )?(?:pub )?([^\s(){}:;,.]+) :(?:\s|$)")
TYPE = re.compile(r" *(?:pub )?(?:record|data) ([^\s({]+) ")
MODULE = re.compile(r"Rattle\.(\w+)\.(specs|proofs)\.([\w.+]+)")
ATTRIBUTE = re.compile(r"\bcrate::(specs|proofs)::((?:\w+::)*\w+)::(\w+)")


def words(text):
    """The names in a piece of proof text; of module.name both and the pair. Fields and projections of records are none."""
    text = re.sub(r"([{;]\s*)[^\s(){}\[\];,.]+(?=\s*=\s)", r"\1", text)
    found = {"[]"} if "[]" in text else set()
    for word in re.findall(r"[^\s(){}\[\];,⌜⌝]+", text):
        if word[0] == "." and len(word) > 1:
            continue
        word = word.rstrip(".")
        module, dot, name = word.partition(".")
        found.update((word, module, (module, name)) if dot else (word,))
    return found


def has(found, name):
    """Whether a name occurs among words; of an operator such as ◌+◌ each part."""
    return name in found or "◌" in name and all(part in found for part in name.split("◌") if part)


def module_file(module):
    """The file of crates/ that a module is, or None."""
    found = MODULE.fullmatch(module)
    return found and f"crates/{found[1]}/{found[2]}/{found[3].replace('.', '/')}.antt"


class File:
    """A file's imports (local name to module, name, line), and its declarations (name to line, whether kept, the text and its words).

    The text that stands in no declaration is under None. `around` has, for a declaration in a module with parameters, the text of these.
    """

    def __init__(self, path):
        self.path, self.name = path, str(path.relative_to(ROOT))
        self.lines = path.read_text(encoding="utf-8").splitlines()
        self.imports, self.line, self.kept, self.text = {}, {}, set(), defaultdict(list, {None: []})
        self.around = {}
        self.split("--" if path.suffix == ".antt" else "//")
        self.words = {name: words("\n".join(text)) for name, text in self.text.items()}
        if path.suffix == ".rt":
            text, crate = "\n".join(self.text[None]), self.name.split("/")[1]
            self.words[None] |= set(re.findall(r"\w+", text))
            # lemmas and definitions that an attribute names, as crate::proofs::Sums::sum_same
            for part, module, name in ATTRIBUTE.findall(text):
                module = f"Rattle.{crate}.{part}.{module.replace('::', '.')}"
                self.imports.setdefault(f"{module}.{name}", (module, name, 0))
                self.words[None].add(f"{module}.{name}")
        self.used = set().union(*self.words.values())

    def split(self, comment):
        comments = re.compile(rf"(?:^|\s){comment}(?:[\s-].*|$)")
        owner, record, kept, places, module = None, None, False, set(), []
        for number, line in enumerate(self.lines, 1):
            code = comments.sub("", line).rstrip()
            if not code:
                kept = bool(line) and (kept or bool(re.search(r"kept (?:for R-\d|since the port)", line)))
                continue
            found = IMPORT.fullmatch(code.lstrip())
            if found:
                self.add_import(number, *found.groups())
                continue
            column = len(code) - len(code.lstrip())
            if record is not None and column <= record:
                record = None
            head = TYPE.match(code) or not code.endswith(";") and HEAD.match(code)  # a field of a record's value is no declaration
            if head and record is None and comment == "--":
                owner = head[1]
                record = column if TYPE.match(code) else None
                self.line.setdefault(owner, number)
                self.around[owner] = module if column else []
                places.add((column, owner))
                if kept or self.exports(code):
                    self.kept.add(owner)
            elif (column, code.split()[0]) in places:
                owner = code.split()[0]  # a clause that comes after local definitions
            elif code.lstrip().startswith("module "):
                owner, module = None, []
            kept = False
            self.text[owner].append(code.strip())
            if owner is None:
                module.append(code.strip())

    def exports(self, head):
        """Whether this declaration is there for its own sake: the proof of a function, or a worked case."""
        cases = self.path.stem.startswith("Cases") or self.path.stem.endswith("Cases")
        return self.path.name in ("Invariants.antt", "Answers.antt") and " : goal." in head or cases

    def add_import(self, number, module, names, alias):
        if names is None:
            self.imports[alias or re.split(r"::|\.", module)[-1]] = (module, None, number)
            return
        for one in names.split(","):
            name, _, local = one.strip().partition(" as ")
            self.imports[local or name] = (module, name, number)


def all_files():
    """Every Rattle file of crates/ in src, specs and proofs, by its name from the root on."""
    parts = (f"crates/*/{part}/**/*.{kind}" for part in ("src", "specs", "proofs") for kind in ("rt", "antt"))
    return {file.name: file for file in map(File, sorted(path for part in parts for path in ROOT.glob(part)))}
