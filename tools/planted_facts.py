#!/usr/bin/env python3
"""Tries the slips in the definitions of `page`, of what `screen` says of output, of what a ready terminal is, of what the checks of texts
answer and of which bracket is lit by the worked facts, and says which facts fail under each.

    tools/planted_facts.py [--scratch FOLDER] [--only WORD]

A slip in a definition is mostly refused because a proof written for the text as it was no longer fits, which says little. Here no lemma of
these crates stands in the way: for each slip their definitions with the slip, and the worked facts about them (`crates/worked`), are
written under names of their own into one crate of a copy of the repository, and one `rt check` of that crate says which facts are false.
One such set has no slip, and all of its facts are to hold. A slip under which all facts are true is not judged by this.

RT, as in `tools/plant_bugs.py`, says how rt is called. The verdicts are put into planted/results.txt; `tools/plant_bugs.py --table` then
writes the tables. A fact about refusals or steps has a proof that is more than computing: where it is named, its proof no longer fits.
"""
import os
import re
import shutil
import subprocess
import sys

sys.dont_write_bytecode = True
import plant_bugs

ROOT = plant_bugs.ROOT
BELOW = ["text", "widths", "layout", "screen", "terminal", "highlight", "page", "worked"]
DEFINITIONS = {"page": ["Acts", "Output", "Page", "Rules", "Law", "Runs"], "screen": ["Output", "Sequences"], "terminal": ["Windows"], "text": ["Checks"], "highlight": ["Brackets", "Lighting"]}
FACTS = ["Writes", "Pages", "Rules", "Steps", "Rows", "Readiness", "Texts", "Brackets"]
MODULES = [(crate, it) for crate, modules in DEFINITIONS.items() for it in modules]
PROOFS = ["Writing", "Paging", "Refusing", "Stepping", "Reading", "Readying", "Checking", "Bracketing"]


def renamed(text, mark):
    """A text that speaks of the definitions and facts under a slip's own names."""
    for crate, modules in DEFINITIONS.items():
        text = re.sub(rf"Rattle\.{crate}\.specs\.({'|'.join(modules)})\b", rf"Rattle.planted.specs.{mark}{crate.title()}\1", text)
    text = re.sub(rf"Rattle\.worked\.specs\.({'|'.join(FACTS)})\b", rf"Rattle.planted.specs.{mark}Worked\1", text)
    return re.sub(rf"Rattle\.worked\.proofs\.({'|'.join(PROOFS)})\b", rf"Rattle.planted.proofs.{mark}\1", text)


def read(path):
    with open(path, encoding="utf-8") as it:
        return it.read()


def write(path, text):
    os.makedirs(os.path.dirname(path), exist_ok=True)
    with open(path, "w", encoding="utf-8") as it:
        it.write(text)


def prepare(scratch):
    """A copy of the crates below, `page` without its lemmas, and an empty crate `planted` above them."""
    for name in BELOW:
        for part in ("src", "specs", "proofs"):
            to = f"{scratch}/crates/{name}/{part}"
            shutil.rmtree(to, ignore_errors=True)
            if os.path.isdir(f"{ROOT}/crates/{name}/{part}") and (name, part) != ("page", "proofs"):
                shutil.copytree(f"{ROOT}/crates/{name}/{part}", to)
    lines = [it for it in read(f"{ROOT}/crates.txt").split("\n") if it.partition(":")[0] in BELOW]
    write(f"{scratch}/crates.txt", "\n".join([*lines, f"planted: {' '.join(BELOW)}", ""]))
    shutil.rmtree(f"{scratch}/crates/planted/specs", ignore_errors=True)
    shutil.rmtree(f"{scratch}/crates/planted/proofs", ignore_errors=True)
    write(f"{scratch}/crates/planted/src/lib.rt", "//! Slips.\n#![tactic(auto)]\n\npub fn one() -> u8 {\n    1\n}\n")


def plant(scratch, mark, crate, changed):
    """Writes the definitions, some of a crate changed, and the facts about them under the names of a slip."""
    folder = f"{scratch}/crates/planted"
    for name, it in MODULES:
        text = (changed.get(f"specs/{it}.antt") if name == crate else "") or read(f"{ROOT}/crates/{name}/specs/{it}.antt")
        write(f"{folder}/specs/{mark}{name.title()}{it}.antt", renamed(text, mark))
    for it in FACTS:
        write(f"{folder}/specs/{mark}Worked{it}.antt", renamed(read(f"{ROOT}/crates/worked/specs/{it}.antt"), mark))
    for it in PROOFS:
        write(f"{folder}/proofs/{mark}{it}.antt", renamed(read(f"{ROOT}/crates/worked/proofs/{it}.antt"), mark))


def declare(scratch, marks):
    folder = f"{scratch}/crates/planted"
    write(f"{folder}/specs/Lib.antt", "".join(f"pub mod {mark}{it}\n" for mark in marks for it in [*(f"{name.title()}{it}" for name, it in MODULES), *(f"Worked{it}" for it in FACTS)]))
    write(f"{folder}/proofs/Lib.antt", "".join(f"pub mod {mark}{it}\n" for mark in marks for it in PROOFS))


def fact_at(path, number):
    """The worked fact that a line of a proof is about, or the lemma that it belongs to."""
    lines = read(path).split("\n")[:number]
    field = re.match(r" +([\w-]+) = ", lines[-1])
    above = [it[1] for it in (re.match(r" *(?:pub )?([\w-]+) : ", line) for line in lines) if it]
    return field[1] if field else above[-1]


def failed(scratch, said):
    """The facts that fail under each slip, by its mark."""
    facts = {}
    for line in said.split("\n"):
        at = re.match(r"(?:note: )?\./(proofs|specs)/(S\d+)(\w+)\.antt:(\d+):\d+: error: (.*)", line)
        if at and "depend" not in at[5]:
            fact = fact_at(f"{scratch}/crates/planted/proofs/{at[2]}{at[3]}.antt", int(at[4])) if at[1] == "proofs" else "not read"
            facts.setdefault(at[2], [])
            facts[at[2]] += [fact] if fact not in facts[at[2]] else []
    return facts


def edits_like(only):
    """The edits of the definitions that are copied, by their crate."""
    found = []
    for name, modules in DEFINITIONS.items():
        for it in plant_bugs.edits_of(name):
            _, _, pairs = plant_bugs.read_edit(f"{ROOT}/planted/{name}/{it}")
            if re.search(only, it) and all(file in [f"specs/{module}.antt" for module in modules] for file, _, _ in pairs):
                found.append((name, it))
    return found


def main(words):
    scratch, only = "/tmp/planted_facts", ""
    while words:
        scratch, only, words = (words[1], only, words[2:]) if words[0] == "--scratch" else (scratch, words[1], words[2:])
    edits = edits_like(only)
    prepare(scratch)
    plant(scratch, "S0", "", {})
    for number, (name, edit) in enumerate(edits, 1):
        _, _, pairs = plant_bugs.read_edit(f"{ROOT}/planted/{name}/{edit}")
        plant(scratch, f"S{number}", name, plant_bugs.applied(f"{ROOT}/crates/{name}", pairs))
    declare(scratch, [f"S{it}" for it in range(len(edits) + 1)])
    ran = subprocess.run([*plant_bugs.RT, "check"], cwd=f"{scratch}/crates/planted", stdout=subprocess.PIPE, stderr=subprocess.STDOUT, text=True)
    facts, results = failed(scratch, ran.stdout), plant_bugs.known()
    if "S0" in facts or "logic=" not in ran.stdout.split("\n")[-2]:
        print(f"nothing is judged: {facts.get('S0') or ran.stdout[-400:]}")
        return 1
    for number, key in enumerate(edits, 1):
        found = ", ".join(f"`{it}`" for it in facts.get(f"S{number}", [])[:5])
        print(f"{'/'.join(key)}: {found or 'all facts hold'}")
        if found and results.get(key, ("",))[0] != "false":
            results[key] = "fact", f"in `worked`: {found}"
    plant_bugs.keep(results)
    return 0


if __name__ == "__main__":
    sys.exit(main(sys.argv[1:]))
