"""What tests/lint asks of README.md and the pages of docs/, and the check of these checks.

  reading  the table "Reading order" of docs/ARCHITECTURE.md has a file, type or call on which no public contract rests, lacks one, has
           one twice, or has a file that uses one further down (tests/believed.py says what is counted)
  figure   README.md gives another number of definitions than the contract rests on, or a number of lines that is not the counted
           one rounded to the nearest ten
  order    a page besides docs/FORMAT.md, which has the table, and docs/CHANGES.md, the history, repeats the order of the refusals
  section  a section of docs/CHANGES.md has more than 40 lines
  long     a line has more than 200 characters
  check    a page that is right, made wrong on purpose, passes one of these checks
"""
import re

from believed import rests_on
from rattle_files import ROOT

LONGEST_LINE, LONGEST_SECTION = 200, 40
ARCHITECTURE, CHANGES, FORMAT, README = "docs/ARCHITECTURE.md", "docs/CHANGES.md", "docs/FORMAT.md", "README.md"
ORDER = re.compile(r"\b1, 2, 3, 4, |\b1 to 4(,| and) 14, 5\b|\b13, 12, 11, 5\b")
FIGURE = re.compile(r"(?:of `(\w+)`(?: rests)?|(together)) on ([\d,]+)(?: definitions)?, some ([\d,]+) lines")


def rows_of(page):
    """The rows of the table "Reading order": line number, crate, files of specs/, types and calls of src/."""
    inside = False
    for number, line in enumerate(page.splitlines(), 1):
        inside = line == "## Reading order" if line.startswith("## ") else inside
        if inside and line.startswith("| `"):
            cells = [re.findall(r"`([^`]+)`", cell) for cell in line.split("|")[1:4]]
            yield number, cells[0][0], cells[1], cells[2]


def reading(page, house, rests):
    """What is wrong with the table "Reading order", where the public contracts rest on these."""
    needed = set().union(*rests.values())
    calls = {one for one in rests if one[0] != "README"} | {one for one in needed if one[0] not in house.specs}
    places = [(number, f"crates/{crate}/specs/{name}.antt") for number, crate, files, _ in rows_of(page) for name in files]
    code = [(number, (crate, name)) for number, crate, _, names in rows_of(page) for name in names]
    listed, above = {place for _, place in places}, set()
    files = {place for place, _ in house.definitions(needed)}
    for place in sorted(files - listed):
        yield 1, f"reading  {place} is not in the table: {' '.join(sorted(name for of, name in needed if of == place))}"
    for crate, name in sorted(calls - {one for _, one in code}):
        yield 1, f"reading  {name} of crates/{crate}/src is not in the table"
    for number, (crate, name) in code:
        if (crate, name) not in calls:
            yield number, f"reading  {crate} has no public call or type {name}"
    for number, place in places:
        if place in above:
            yield number, f"reading  {place} stands twice"
        if place not in files:
            yield number, f"reading  no public contract rests on {place}"
        above.add(place)
        for of, name in sorted(house.definitions(needed)):
            for below, used in sorted(house.uses(of, name)) if of == place else ():
                if below in files & listed - above:
                    yield number, f"reading  {place} uses {used} of {below}, which stands further down"


def figures(page, house, rests):
    """The numbers of README.md that are not those counted."""
    counted = {name: seen for (crate, name), seen in rests.items() if crate != "README"}
    counted["together"] = set().union(*rests.values())
    missing = {"solve", "solve_groups", "join", "together"}
    for found in FIGURE.finditer(re.sub(r"\s", " ", page)):
        name, number = found[1] or found[2], page[:found.start()].count("\n") + 1
        missing.discard(name)
        if name not in counted:
            yield number, f"figure  {name} is no public call"
            continue
        right = len(house.definitions(counted[name])), round(house.lines(counted[name]), -1)
        if [int(one.replace(",", "")) for one in found.groups()[2:]] != [*right]:
            yield number, f"figure  {name}: {right[0]:,} definitions, some {right[1]:,} lines"
    yield from ((1, f"figure  {name}: not given") for name in sorted(missing))


def orders(page):
    return [(number, "order   docs/FORMAT.md has it: cite that") for number, line in enumerate(page.splitlines(), 1) if ORDER.search(line)]


def sections(page):
    """The sections of docs/CHANGES.md that are too long."""
    start, title = 1, None
    for number, line in enumerate([*page.rstrip().splitlines(), "## "], 1):
        if line.startswith("## "):
            if title and number - start > LONGEST_SECTION:
                yield start, f"section  {number - start} lines: {title}"
            start, title = number, line


def long_lines(page):
    return [(number, f"long    {len(line)} characters") for number, line in enumerate(page.splitlines(), 1) if len(line) > LONGEST_LINE]


def findings(texts, house, rests):
    """All that is wrong with these pages: (page, line number, what)."""
    found = [(name, *one) for name, text in texts.items() for one in long_lines(text)]
    found += [(name, *one) for name, text in texts.items() if name not in (FORMAT, CHANGES) for one in orders(text)]
    found += [(CHANGES, *one) for one in sections(texts[CHANGES])]
    found += [(ARCHITECTURE, *one) for one in reading(texts[ARCHITECTURE], house, rests)]
    return found + [(README, *one) for one in figures(texts[README], house, rests)]


def raised(by):
    """Another number at the end of what was found."""
    return lambda found: re.sub(r"[\d,]+$", lambda number: str(int(number[0].replace(",", "")) + by), found[0])


# A page, a place in it, what is put there to make the page wrong, and words of the finding that must come.
WRONG = (
    (ARCHITECTURE, r"(\| `kernel` \| `Numbers`), `Slices`", r"\1", "kernel/specs/Slices.antt is not in the table: Slices"),
    (ARCHITECTURE, r"(\| `kernel` \| `Numbers`), `Slices`", r"\1, `Slices`, `Kernel`", "no public contract rests on crates/kernel/specs/Kernel.antt"),
    (ARCHITECTURE, r"\n\| `range` \| `Range` .*", "", "range/specs/Range.antt is not in the table: picked"),
    (ARCHITECTURE, r"(## Reading order\n[^|]*)", r"\1| `range` | `Range` | | |\n", "uses Ops of crates/markov/specs/Elimination.antt, which stands further down"),
    (ARCHITECTURE, r"(\| `kernel` \| `Numbers`), `Slices`", r"\1, `Slices`, `Slices`", "kernel/specs/Slices.antt stands twice"),
    (ARCHITECTURE, r", `Chain::row_rates`", "", "Chain::row_rates of crates/chain/src is not in the table"),
    (ARCHITECTURE, r"`Chain`; (`Chain::check`)", r"\1", "Chain of crates/chain/src is not in the table"),
    (ARCHITECTURE, r", `Chain::row_rates`", r"\g<0>, `SoundChain::rate_of`", "chain has no public call or type SoundChain::rate_of"),
    (README, r"of `solve` rests\s+on\s+\d+", raised(1), "figure  solve: "),
    (README, r"of `solve` rests\s+on\s+\d+ definitions,\s+some\s+\d+", raised(10), "figure  solve: "),
    (README, r"together on", "in all", "together: not given"),
    (README, r"\n## ", "\nThe first refusal of 1, 2, 3, 4, 14, 5, 6.\n\n## ", "order   docs/FORMAT.md has it"),
    (CHANGES, r"\n## ", "\n## Long" + LONGEST_SECTION * "\n" + "end\n\n## ", f"section  {LONGEST_SECTION + 2} lines: ## Long"),
    ("docs/THEORY.md", r"\n", "\n" + (LONGEST_LINE + 1) * "x" + "\n", f"long    {LONGEST_LINE + 1} characters"),
)


def broken_pages(house=None):
    """What is wrong with the pages, as tests/lint prints it."""
    house, rests = rests_on(house)
    texts = {str(path.relative_to(ROOT)): path.read_text(encoding="utf-8") for path in (ROOT / README, *sorted(ROOT.glob("docs/*.md")))}
    found = findings(texts, house, rests)
    right = set(texts) - {page for page, _, _ in found}
    for page, place, new, words in WRONG:
        wrong = {**texts, page: re.sub(place, new, texts[page], count=1)}
        if page in right and (wrong == texts or not any(name == page and words in what for name, _, what in findings(wrong, house, rests))):
            found.append((page, 1, f"check   a page made wrong is not found: {words}"))
    return [f"{page}:{number}: {what}" for page, number, what in found]
