#!/usr/bin/env python3
"""Brings the repository's own definitions, lemmas and fields to the spelling of today's Rattle: words in snake case.

Ran once, after the kit's port.py (docs/PORT.md); it is kept so that the port can be made again.

    tools/respell.py            respells .antt, .rt and .edit files below crates/, and the names in backticks of the pages
    tools/respell.py --names    prints the old and the new name of each

A name is a repository's own where a file of specs/ or proofs/ declares it. Names of functions of src/ and goals that Rattle
names keep their spelling; so do types, which begin with a capital.
"""
import collections
import glob
import os
import re
import sys

ROOT = os.path.dirname(os.path.dirname(os.path.abspath(__file__)))
WORD = r"[^\s(){}\[\];.,:@⌜⌝\"`&|«»]+"
DECLARES = re.compile(r"^\s*(?:pub |abbrev |unfoldable )*((?:[^\s(){}\[\];.,:]+ )*[^\s(){}\[\];.,:]+) : (.*)")
LOCAL = re.compile(r"\blet ([^\s(){}\[\];.,:]+) [:=]")
KEYWORDS = {'pub', 'abbrev', 'unfoldable', 'record', 'data', 'let', 'module', '_', 'where', 'in', 'use', 'as'}

# A definition and a lemma, or two scopes, that would fall together
CHOSEN = {
    'in-two-rows': 'state_in_two_rows',
    'in-no-row': 'state_in_no_row',
    'exact-weights': 'exact_weights_are',
    'columns-in': 'within_columns',
    'rates-in': 'within_rates',
    'get_d_replicate': 'get_or_replicate',
}


def declared(root):
    """The names that the repository's files of specs/ and proofs/ declare."""
    names = collections.defaultdict(set)
    for path in glob.glob(root + '/crates/*/**/*.antt', recursive=True):
        by_hand = os.path.basename(path) == 'Proof.antt'
        with open(path, encoding='utf-8') as file:
            for line in file:
                code = line.split('--')[0]
                found = DECLARES.match(code)
                if found and not (by_hand and re.search(r'\bNeed-|\bstatement\b', found.group(2))):
                    for name in found.group(1).split():
                        names[name].add(path)
                for name in LOCAL.findall(code):
                    names[name].add(path)
    return {name for name in names if name not in KEYWORDS and not name.startswith('+')}


def snake(name):
    if name in CHOSEN:
        return CHOSEN[name]
    if name[:1].isupper():
        return name
    name = name.replace('-', '_')
    return re.sub(r'([a-z0-9])([A-Z])', lambda m: m.group(1) + '_' + m.group(2).lower(), name)


def renames(root):
    own = declared(root)
    changed = {name: snake(name) for name in own if snake(name) != name}
    kept = own - set(changed)
    by_new = collections.defaultdict(set)
    for old, new in changed.items():
        by_new[new].add(old)
    for new, olds in by_new.items():
        dashed = [old for old in olds if '-' in old and old not in CHOSEN]
        if len(olds) > 1 or new in kept:
            # a field of that name falls together with nothing: it is only reached through a value
            for old in dashed:
                if old not in FIELDS:
                    changed[old] = new + '_lem'
    return changed


# fields, each reached through a value alone, whose name a definition of another crate has too
FIELDS = {'is-zero'}


def in_code(text, changed, by_hand):
    def one(m):
        word = m.group(0)
        # what a proof by hand cites of Rattle's own making keeps its name
        if by_hand and text[m.start() - 1:m.start()] == '.' and re.match(r'\.(ensures|entry|exit|result|requires|was|is)\b', text[m.end():]):
            return word
        return changed.get(word, word)
    return re.sub(WORD, one, text)


def in_ticks(text, changed):
    return re.sub(r'`[^`\n]*`', lambda t: '`' + re.sub(WORD, lambda m: changed.get(m.group(0), m.group(0)), t.group(0)[1:-1]) + '`', text)


def respell(text, changed, ending, by_hand):
    """Names stand in code, and in backticks in comments and pages."""
    if ending == 'md':
        return in_ticks(text, changed)
    lines = []
    for line in text.split('\n'):
        if ending == 'edit':
            lines.append(in_code(line, changed, by_hand) if re.match('(old|new): ', line) else in_ticks(line, changed))
            continue
        mark = '--' if ending == 'antt' else '//'
        code, sep, comment = line.partition(mark)
        lines.append(in_code(code, changed, by_hand) + sep + in_ticks(comment, changed))
    return '\n'.join(lines)


def main():
    root = ROOT
    arguments = [a for a in sys.argv[1:]]
    if arguments and not arguments[0].startswith('--'):
        root = os.path.abspath(arguments.pop(0))
    if not any(glob.iglob(root + '/crates/*/proofs/**/Proof.antt', recursive=True)):
        sys.exit('respell: these files have today\'s form already, and names that Rattle makes would be changed')
    changed = renames(root)
    if '--names' in arguments:
        for old, new in sorted(changed.items()):
            print(old, new)
        return
    for ending in ('antt', 'rt', 'edit'):
        for path in sorted(glob.glob(f'{root}/crates/*/**/*.{ending}', recursive=True)):
            rewrite(path, changed, ending)
    for path in [root + '/README.md'] + sorted(glob.glob(root + '/docs/*.md')):
        rewrite(path, changed, 'md')


def rewrite(path, changed, ending):
    with open(path, encoding='utf-8') as file:
        text = file.read()
    new = respell(text, changed, ending, os.path.basename(path) == 'Proof.antt')
    if new != text:
        with open(path, 'w', encoding='utf-8') as file:
            file.write(new)


if __name__ == '__main__':
    main()
