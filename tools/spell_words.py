#!/usr/bin/env python3
"""Spells the repository's own definitions and lemmas as today's Rattle spells names.

usage: python3 tools/spell_words.py      once, at the top, on what the kit's port.py wrote

Words that were written as walkPlace become walk_place, in specs/, proofs/, the clauses of src/ and must-fail/.
Functions of src/ keep their names. A definition that is a fact gets a capital (FACTS), and three names that would
fall together with a word get another (CLASHES).
"""

import os
import re

# definitions that are facts, by their old names
FACTS = {
    "nothingElse": "NothingElse",
    "noteRule": "NoteRule",
    "noticeRule": "NoticeRule",
    "updateRule": "UpdateRule",
    "placeRule": "PlaceRule",
    "insertRule": "InsertRule",
    "checkRule": "CheckRule",
    "getD": "get_or",
}
# file, old name, new name: before the words are respelled
CLASHES = [
    ("crates/page/proofs/Computing.antt", "shown_by", "shown_by_lem"),
    ("crates/screen/proofs/Keeping.antt", "on_row", "rows_on_row"),
    ("crates/session/proofs/Letters.antt", "in_row", "row_is"),
]
# the definition `needs` of page/specs/Rules.antt is a fact too; the word also names other things elsewhere
NEEDS = ["crates/page/specs/Rules.antt"]

WORD = re.compile(r"(?<![\w'\\])[A-Za-z_][\w']*")
CAMEL = re.compile(r"[a-z][a-z0-9]*(?:[A-Z][a-z0-9]*)+'?$")
NUMBER = re.compile(r"x[0-9A-F]+$|xHH$|xc3A$|xe2A$|x98A$")


def spelled(word):
    if word in FACTS:
        return FACTS[word]
    if not CAMEL.match(word) or NUMBER.match(word):
        return word
    return re.sub(r"(?<=[a-z0-9])([A-Z])", lambda m: "_" + m.group(1).lower(), word)


def files():
    for folder, dirs, names in os.walk("crates"):
        dirs[:] = sorted(d for d in dirs if d != "out")
        for name in sorted(names):
            if name.endswith((".antt", ".rt", ".edit")):
                yield os.path.join(folder, name)


def main():
    for path, old, new in CLASHES:
        if os.path.exists(path):
            with open(path, encoding="utf-8") as f:
                text = f.read()
            with open(path, "w", encoding="utf-8") as f:
                f.write(re.sub(r"(?<![\w'.-])" + old + r"(?![\w'-])", new, text))
    for path in files():
        with open(path, encoding="utf-8") as f:
            text = f.read()
        turned = WORD.sub(lambda m: spelled(m.group(0)), text)
        if path in NEEDS or "page.specs.Rules.{" in turned and re.search(r"Rules\.\{[^}]*\bneeds\b", turned):
            lines = [l if l.lstrip().startswith(("--", "//")) else re.sub(r"(?<![\w'.-])needs(?![\w'-])", "Needs", l) for l in turned.split("\n")]
            turned = "\n".join(lines)
        if turned != text:
            with open(path, "w", encoding="utf-8") as f:
                f.write(turned)
            print(path)


if __name__ == "__main__":
    main()
