#!/usr/bin/env python3
"""Spells the repository's own definitions and lemmas anew: words in snake case, a dash only between two names.

usage: tools/respell.py [--table]      at the top of the repository, after the toolchain's own script for older repositories

It reads what specs/ and proofs/ declare, makes a table of old and new names, and turns whole words by it in .antt files, in .rt files (there only ghost
text holds such words), in .edit files, and in the code spans of README.md and docs/. Text in quotes stays. --table prints the table and writes nothing.

levelPages -> level_pages      made-next -> made_next      length-decimal stays where `length` and `decimal` are both names
The library's AllByRecursion, which files import under a name of their own, is Each there: All is another word of the library.
A new name that another name has already is not taken: the old one keeps its dash, or stands in BY_HAND. A second run changes nothing.
"""

import glob
import os
import re
import sys

WORD = re.compile(r"[^\s(){}\[\].,;:=λ|`\"«»]+")
DECLARED = re.compile(r"^[ ]*(?:(?:abbrev|unfoldable|opaque|pub|instance)[ ]+)*(?:(?:record|data)[ ]+)?([^\s(){}\[\].,;:=λ|`\"«»]+)(?:[ ]+[({][^=]*?)?[ ]*(:[^\n]*)?$", re.M)
KEYWORDS = {"let", "use", "mod", "pub", "module", "where", "in", "elim", "record", "data", "unfolding", "abbrev", "unfoldable", "opaque", "open", "infixr", "infixl", "infix", "ruleset", "_"}
HUMP = re.compile(r"(?<=[a-z0-9])(?=[A-Z])")
CAMEL = re.compile(r"[a-z][a-z0-9]*(?:[A-Z][a-z0-9]*)+'*$")
QUOTED = re.compile(r'"(?:[^"\\\n]|\\.)*"')
SPAN = re.compile(r"`[^`\n]+`")

# Names that would fall together with another are told apart here.
BY_HAND = {
    "at-most": "at_most_lem",
    "first-halt": "first_halt_lem",
    "is-done": "is_done_lem",
    "is-halted": "is_halted_lem",
    "is-searching": "is_searching_lem",
    "lines-of": "lines_of_lem",
    "meter-from": "metered_from",
    "or-else": "or_else_lem",
    "station-line": "station_line_lem",
    "up-to": "up_to_lem",
}


def read(path):
    with open(path, encoding="utf-8", newline="") as it:
        return it.read()


def bare(text):
    return QUOTED.sub('""', re.sub(r"--[^\n]*", "", text))


def files(*kinds):
    for kind in kinds:
        for path in sorted(glob.glob(f"crates/*/{kind}", recursive=True)):
            if "/out/" not in path:
                yield path


def lower_humps(name):
    return "-".join(HUMP.sub("_", part).lower() if CAMEL.match(part) else part for part in name.split("-"))


def table():
    declared, fields, goals, foreign, words = set(), set(), set(), set(), set()
    for path in files("specs/**/*.antt", "proofs/**/*.antt"):
        text = bare(read(path))
        words |= set(WORD.findall(text))
        for m in re.finditer(r"^[ ]*(?:pub[ ]+)?use[ ]+(?:Rattle\.std\.|borrow\.|denote\.|Prim|Rattle\.\w+\.proofs\.\S*(?:Goals|Given)\.)[^{\n]*\{([^}]*)\}", text, re.M):
            for item in m[1].split(","):
                foreign |= set(item.split(" as "))
        in_folder = os.path.dirname(path).split("/")[3:] if "/proofs/" in path else []
        for m in DECLARED.finditer(text):
            name, kind = m[1], m[2] or ""
            if name in KEYWORDS or name[0] in "◌?" or not kind:
                continue
            if re.search(r"\bgoal\.", kind):
                goals.add(name)
            else:
                declared.add(name)
                if "/specs/" in path and m[0].startswith(" "):
                    fields.add(name)
    foreign = {w.strip() for w in foreign}
    rust = set()
    for path in files("src/**/*.rt"):
        rust |= set(re.findall(r"\bfn (\w+)", read(path)))
        words |= set(WORD.findall(bare(read(path))))
    own = {n for n in declared if n not in goals and n not in foreign and n[0].islower()}
    names = {lower_humps(n) for n in own if "-" not in n} | {n for n in foreign if "-" not in n} | rust | {n.lower() for n in foreign if n.isalpha()}
    turned = {}
    taken = {n for n in own} | foreign | goals
    for name in sorted(own):
        new = lower_humps(name)
        if "-" in new and (name in fields or not all(part.strip("'") in names for part in new.split("-"))):
            new = new.replace("-", "_")
        if new != name:
            turned[name] = new
    said = []
    for name, new in sorted(turned.items()):
        others = [n for n, t in turned.items() if t == new and n != name]
        if (new in taken and turned.get(new, new) == new) or others:
            said.append(f"{name} -> {new} falls together with {new if new in taken else others}")
    turned.update(BY_HAND)
    return turned, said


def own_each(text):
    if "AllByRecursion as All" not in text:
        return text
    return re.sub(r"(?<![\w.'-])All(?![\w'-])", "Each", text)


def turn(text, names):
    return WORD.sub(lambda m: names.get(m[0], m[0]), text)


def outside(text, quiet, names):
    at, out = 0, []
    for m in quiet.finditer(text):
        out += [turn(text[at : m.start()], names), m[0]]
        at = m.end()
    return "".join(out) + turn(text[at:], names)


def main(argv):
    names, said = table()
    if "--table" in argv:
        for old, new in sorted(names.items()):
            print(old, new, sep="\t")
        print("\n".join(said), file=sys.stderr)
        return
    for path in files("specs/**/*.antt", "proofs/**/*.antt", "src/**/*.rt", "must-fail/*.edit"):
        old = read(path)
        new = own_each(outside(old, QUOTED, names))
        if new != old:
            with open(path, "w", encoding="utf-8", newline="") as it:
                it.write(new)
    for path in ["README.md", *sorted(glob.glob("docs/*.md"))]:
        old = read(path)
        new = SPAN.sub(lambda m: turn(m[0], names), old)
        if new != old:
            with open(path, "w", encoding="utf-8", newline="") as it:
                it.write(new)


if __name__ == "__main__":
    main(sys.argv[1:])
