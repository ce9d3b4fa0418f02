#!/usr/bin/env python3
"""Respells this repository's own names: words in snake case, facts and types in camel case.

usage: tools/spell.py     once, at the top of a checkout whose sources have today's form (the port's first script has run)

The port's first script respells the library's names and some of ours. This one respells the rest, in code's clauses, definitions, proofs
and must-fail edits alike, by these rules:
  - a name that begins small and has a capital inside gets underscores: `primeOf` becomes `prime_of`, `toLamp1` `to_lamp_1`;
  - a lemma that is named after the library's old `getD` is named after its `get_or`;
  - a record's field and a definition have underscores where they had dashes: `deal-first` becomes `deal_first`; a law keeps its dashes;
  - names of EXCEPTIONS, where the rule would give a name that something else has, or a fact a small letter.
In edits, which the first script leaves, the names that it respelled in the sources get that spelling by the same rules, and a projection
is written tight, as it writes it. An edit whose text does not stand in its file once then is told, for mending by hand.
"""

import os
import re

NAME = re.compile(r"(?<![A-Za-z0-9_'₀-₉-])[a-z][A-Za-z0-9_'₀-₉⁰¹²³ᴰ-]*")
CAMEL = re.compile(r"[a-z0-9][A-Z]")
EXCEPTIONS = {
    "sameNumber": "same_number_or_none",
    "tooFew": "too_few_sent",
    "accepts": "AcceptedSays",
    "getD": "get_or",
    "all_get_d": "all-get_or",
    "distinct-getD": "distinct-get_or",
}
# A fact's name that is a field's name elsewhere: it is respelled in these files alone.
ONLY_IN = {"accepts": ("agreement/specs/Demand1.antt", "agreement/proofs/Refusals.antt")}


def respelled(name):
    if name in EXCEPTIONS:
        return EXCEPTIONS[name]
    if re.match(r"get_d_", name):
        return "get_or-" + name[6:]
    parts = []
    for part in name.split("-"):
        part = part.replace("getD", "get_or")
        if CAMEL.search(part):
            part = re.sub(r"(?<=[A-Za-z0-9])([A-Z])", lambda m: "_" + m.group(1).lower(), part)
            part = re.sub(r"([a-z])([0-9]+)$", r"\1_\2", part)
        parts.append(part)
    return "-".join(parts)


def written(path, text, fields):
    def one(match):
        name = match.group(0)
        tail = ""
        while name.endswith("-"):
            name, tail = name[:-1], tail + "-"
        if name in fields:
            return respelled(name).replace("-", "_") + tail
        if name in ONLY_IN and not path.replace(os.sep, "/").endswith(ONLY_IN[name]):
            return match.group(0)
        if name in EXCEPTIONS or CAMEL.search(name) or name.startswith("get_d_"):
            return respelled(name) + tail
        return match.group(0)

    return NAME.sub(one, text)


FIELD = re.compile(r"\s+(?:pub )?([a-z][A-Za-z0-9_'-]*) :")
DEFINED = re.compile(r"\s*(?:abbrev|unfoldable)(?: pub)? ([a-z][A-Za-z0-9_'-]*) :")
# What Rattle asks of a proof by name: an invariant, a measure.
ASKED = ("invariant-", "decreases-")
# Fields that stay, since a definition has the name that they would get.
KEPT = {"same-width", "its-points"}


def dashed():
    """The fields of records, and the definitions outside of functions' own proofs, that have dashes."""
    found = set()
    for path in files():
        if not path.endswith(".antt"):
            continue
        own = os.path.basename(path) in ("Proof.antt", "Answers.antt", "Invariants.antt") and os.sep + "proofs" + os.sep in path
        record = None
        with open(path, encoding="utf-8") as f:
            for line in f.read().split("\n"):
                indent = len(line) - len(line.lstrip())
                if re.match(r"\s*(?:pub )?record \S+", line):
                    record = indent
                elif not line.strip():
                    record = None
                elif record is not None and indent > record and FIELD.match(line):
                    found.add(FIELD.match(line).group(1))
                elif DEFINED.match(line) and not own:
                    found.add(DEFINED.match(line).group(1))
    return {name for name in found if "-" in name and not name.startswith(ASKED)} - KEPT


WORD = re.compile(r"(--   )(\S.*?)( {2,})(\S.*)$")


def columns(text):
    """The vocabulary at a file's head, its meanings in one column again: that of most of its lines."""
    lines = text.split("\n")
    head = next((at for at, line in enumerate(lines) if not line.startswith("--")), len(lines))
    found = [WORD.match(line) for line in lines[:head]]
    places = [match.start(4) for match in found if match]
    if places:
        column = max(sorted(set(places)), key=places.count)
        for at, match in enumerate(found):
            if match:
                left = match.group(1) + match.group(2)
                line = (left.ljust(column) if len(left) + 2 <= column else left + "   ") + match.group(4)
                lines[at] = line if len(line) <= 140 else lines[at]
    return "\n".join(lines)


def tight(text, bare, grouped):
    """Projections without a space; of a variable without parentheses, where `bare`; of an application, behind its own, where `grouped`."""
    if bare:
        text = re.sub(r"\((\w+(?: \.\w+)+)\)", lambda m: m.group(1).replace(" ", ""), text)
    if grouped:
        text = re.sub(r"\(([^()]*(?:\([^()]*\)[^()]*)*) \.(\w+)\)", r"(\1).\2", text)
    return re.sub(r"(?<=[\w)'₀-₉]) \.(?=[a-z0-9])", ".", text)


def mended(path, text):
    """An edit's text, in the spelling in which its file has the text that it replaces; and what is left."""
    lines, left, target = text.split("\n"), [], None
    for at, line in enumerate(lines):
        if line.startswith("file: "):
            with open(os.path.join(os.path.dirname(os.path.dirname(path)), line[6:].strip()), encoding="utf-8") as f:
                target = f.read()
        if not line.startswith("old: ") or target is None or not line[5:].strip():
            continue
        for how in [lambda t: t] + [lambda t, b=b, g=g: tight(t, b, g) for b in (False, True) for g in (False, True)]:
            if target.count(how(line[5:])) == 1:
                lines[at] = "old: " + how(line[5:])
                if at + 1 < len(lines) and lines[at + 1].startswith("new: "):
                    lines[at + 1] = "new: " + how(lines[at + 1][5:])
                break
        else:
            left.append(line[5:])
        if at + 1 < len(lines) and lines[at + 1].startswith("new: ") and target.count(lines[at][5:]) == 1:
            target = target.replace(lines[at][5:], lines[at + 1][5:])
    return "\n".join(lines), left


def files():
    for folder, dirs, names in os.walk("crates"):
        dirs[:] = sorted(d for d in dirs if d != "out")
        for name in sorted(names):
            if name.endswith((".antt", ".rt")):
                yield os.path.join(folder, name)
    # Edits last, when the files that they edit are respelled.
    for folder, dirs, names in os.walk("crates"):
        dirs[:] = sorted(d for d in dirs if d != "out")
        for name in sorted(names):
            if name.endswith(".edit"):
                yield os.path.join(folder, name)


def main():
    changed = 0
    fields = dashed()
    for path in files():
        with open(path, encoding="utf-8") as f:
            before = f.read()
        after = written(path, before, fields)
        if path.endswith(".antt"):
            after = columns(after)
        if path.endswith(".edit"):
            after, left = mended(path, after)
            for text in left:
                print(f"by hand: {path}: {text}")
        if after != before:
            with open(path, "w", encoding="utf-8") as f:
                f.write(after)
            changed += 1
    print(f"spell: {changed} files")


if __name__ == "__main__":
    main()
