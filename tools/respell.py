#!/usr/bin/env python3
"""Brings the names of this repository's definitions and lemmas to one spelling.

Run once at the top of the repository, after the library's own names were respelled. A function, a
lemma, a field and a constructor of antt is in snake case, a type in upper camel case:

    nameCall -> name_call    names-put -> names_put    Law-of-runs -> LawOfRuns

A dash stays where it joins a type to a name (Later-refl). A lemma whose name would then be its
function's gets the ending _lem. Functions of src/, strings, inputs and outputs keep their names.
It prints each name that it changed, and stops before it writes where two names would fall together.
"""
import collections
import pathlib
import re
import sys

# Answers and invariants are named by the checker, so the names that they declare are not ours.
MADE = {"Answers.antt", "Invariants.antt", "Choices.antt", "Proof.antt"}
# A lemma's type, then its name.
JOINED = {"Later-refl", "Later-trans"}
# Names that would fall together with another's.
APART = {
    "name-at": "name_at_lem",
    "type-at": "type_at_lem",
    "same-fields": "same_fields_lem",
    "is-full": "is_full_lem",
    # A parameter of `run` has the plain name, and would hide the definition in its contract.
    "onDraft": "called_on_draft",
    "onSealed": "called_on_sealed",
}
# Names that a `ghost use` gives with `as`.
GIVEN = re.compile(r"\bas ([a-z][\w'-]*[A-Z][\w'-]*)")
DECLARED = re.compile(
    r"^\s*(?:unfoldable |abbrev )?(?:pub )?(?:record |data )?([A-Za-z][\w'-]*)\s*(?:[({].*)?:(?!=)"
)
SKIPPED = ("use ", "--", "module ", "pub mod ", "mod ")


def snake(name):
    return re.sub(r"(?<=[a-z0-9])([A-Z])", lambda m: "_" + m.group(1).lower(), name).replace("-", "_")


def camel(name):
    return "".join(part[:1].upper() + part[1:] for part in name.split("-"))


def respelled(name):
    if name in JOINED:
        return name
    if name in APART:
        return APART[name]
    return camel(name) if name[0].isupper() else snake(name)


def antt_files(root):
    for folder in ("specs", "proofs"):
        yield from sorted(root.glob(f"crates/*/{folder}/**/*.antt"))


def declared(root):
    names = collections.defaultdict(set)
    for file in antt_files(root):
        if file.name in MADE:
            continue
        for line in file.read_text().splitlines():
            match = None if line.startswith(SKIPPED) else DECLARED.match(line)
            if match:
                names[match.group(1)].add(str(file))
    for file in sorted(root.glob("crates/*/src/**/*.rt")):
        for name in GIVEN.findall(file.read_text()):
            names[name].add(str(file))
    return names


def main():
    root = pathlib.Path(".")
    names = declared(root)
    changes = {name: respelled(name) for name in names if respelled(name) != name}
    bad = False
    for old, new in sorted(changes.items()):
        others = [o for o in names if o != old and respelled(o) == new]
        if others:
            bad = True
            print(f"fall together: {old} and {', '.join(others)} as {new}", file=sys.stderr)
    if bad:
        return 1
    if not changes:
        return 0
    words = "|".join(re.escape(name) for name in sorted(changes, key=len, reverse=True))
    token = re.compile(rf"(?<![\w'-])(?:{words})(?![\w'-])")
    quoted = re.compile(r"`[^`\n]*`")

    def put(text):
        return token.sub(lambda m: changes[m.group(0)], text)

    files = list(antt_files(root)) + sorted(root.glob("crates/*/src/**/*.rt"))
    files += sorted(root.glob("crates/*/must-fail/*.edit"))
    for file in files:
        old = file.read_text()
        if put(old) != old:
            file.write_text(put(old))
    for file in [root / "README.md"] + sorted(root.glob("docs/*.md")):
        old = file.read_text()
        new = quoted.sub(lambda m: put(m.group(0)), old)
        if new != old:
            file.write_text(new)
    for old, new in sorted(changes.items()):
        print(f"{old} -> {new}")
    return 0


sys.exit(main())
