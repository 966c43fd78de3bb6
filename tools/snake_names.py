#!/usr/bin/env python3
"""Brings the definitions and lemmas of specs/ and proofs/ to snake case: usage: python3 tools/snake_names.py [ROOT]

A name in mixed case that begins small, as inColumn, becomes in_column in every .rt, .antt and .edit file below ROOT/crates,
and in a file that was one of these and is set aside as a text. A name that is declared in specs/ or proofs/ with dashes between
plain words, as linked-after, becomes linked_after wherever it stands; the names of goals and of their steps, which Rattle makes,
keep their dashes. Types, facts and modules begin with a capital and stay, and so do texts in quotation marks. It writes nothing
where two names that have to stay apart would become one. A second run changes nothing."""

import pathlib
import re
import sys

TEXT = re.compile(r'b?"(?:[^"\\\n]|\\.)*"')
NAME = re.compile(r"[^\W\d][\w'′]*(?:-[\w'′*+≤≡]+)*")
MIXED = re.compile(r"[a-z][a-z0-9]*(?:[A-Z][a-z0-9]*)+[₀-₉'′]*")
DECLARED = re.compile(r"^\s*(?:unfoldable |abbrev )?(?:pub )?(?:data |record |ruleset )?([^\W\d][\w'-]*)(?: [({][^=]*?[)}])* :(?: |$)")
BOUND = re.compile(r"\blet ([^\W\d][\w'-]*) [:=(]")

# Names that meet another one which is never in scope beside them, or which means the same: a definition and a function of
# src/ with its name, a field of one record and a field of another, and the older spelling in an edit of a definition whose
# new spelling stands in the file that it edits.
MAY_MEET = {
    "byDegree", "fillOf", "firstFrom", "nextRecord", "nextWord", "outcomeOf", "placeAt", "recordRule", "wordRule",
    "orderedOnce", "pastIs", "rowsIs", "startIs", "stopIs", "targetIs",
    "isSome", "isZero", "linkAt", "placeOf", "storeOf",
}  # fmt: skip

# Lemmas that would have the name of the definition that they are about, or of one of the library.
APART = {
    "at-end": "at_end_lem",
    "bit-and": "bit_at-and",
    "bit-or": "bit_at-or",
    "bit-xor": "bit_at-xor",
    "by-label": "by_label_lem",
    "column-of": "column_of_lem",
    "first-label": "first_label_lem",
    "link-at": "link_at_lem",
    "link-by": "link_by_lem",
    "shown-table": "shown_table_lem",
}

# Lemmas with the name of a step of a goal, as w.next-is: what stands behind a dot is the step.
STEPS = {"at-is", "next-is", "worked-is"}


def kind(path):
    """The ending of a file's name, or what it was before the file was set aside as a text."""
    return pathlib.Path(path.name.removesuffix(".txt")).suffix


def small(part):
    return re.sub(r"[A-Z]", lambda m: "_" + m[0].lower(), part) if MIXED.fullmatch(part) else part


def turned(name):
    return "-".join(small(part) for part in name.split("-"))


def outside_texts(text, change):
    """The text with change made to each stretch that is not in quotation marks."""
    out, at = [], 0
    for quoted in TEXT.finditer(text):
        out += [change(text[at : quoted.start()]), quoted[0]]
        at = quoted.end()
    return "".join(out) + change(text[at:])


def names(text):
    return set(NAME.findall(TEXT.sub(" ", text)))


def dashed(texts):
    """The new name of each name with dashes that specs/ and proofs/ declare, goals aside."""
    found = set()
    for path, text in texts.items():
        if kind(path) != ".antt":
            continue
        for line in text.splitlines():
            declared = DECLARED.match(line)
            if declared and not re.search(r": goal\b", line) and not line.startswith("use "):
                found.add(declared[1])
            found.update(BOUND.findall(line))
    return {name: APART.get(name, name.replace("-", "_")) for name in found if "-" in name and name not in APART.values()}


def renamed(text, new):
    def one(m):
        behind_a_dot = m.start() > 0 and m.string[m.start() - 1] == "."
        return m[0] if behind_a_dot and m[0] in STEPS else new.get(m[0], m[0])

    return outside_texts(text, lambda part: NAME.sub(one, part))


def main(root):
    files = [p for p in sorted(pathlib.Path(root, "crates").rglob("*")) if kind(p) in (".rt", ".antt", ".edit") and "out" not in p.parts]
    before = {p: p.read_text(encoding="utf-8") for p in files}

    used = set().union(*map(names, before.values()))
    mixed = {name: turned(name) for name in sorted(used) if turned(name) != name}
    news = list(mixed.values())
    meeting = [name for name, new in mixed.items() if (new in used or news.count(new) > 1) and name not in MAY_MEET]
    after = {p: outside_texts(t, lambda part: NAME.sub(lambda m: turned(m[0]), part)) for p, t in before.items()}

    joined = dashed(after)
    for p, text in after.items():
        here = names(text)
        # square's Places has a lemma two-way for a field two_way, which may have one name
        meeting += [name for name, new in joined.items() if name in here and new in here and name != "two-way"]
    if meeting:
        print("these would fall together with another name: " + ", ".join(sorted(set(meeting))), file=sys.stderr)
        return 1

    for p, text in after.items():
        if (new := renamed(text, joined)) != before[p]:
            p.write_text(new, encoding="utf-8")
    print(f"{len(mixed) + len(joined)} names: " + ", ".join(f"{name} {new}" for name, new in sorted((mixed | joined).items())))
    return 0


if __name__ == "__main__":
    raise SystemExit(main(sys.argv[1] if len(sys.argv) > 1 else "."))
