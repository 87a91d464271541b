#!/usr/bin/env python3
"""Tries planted slips, and writes what came of them to docs/PLANTED.md.

    tools/plant_bugs.py [--together [--rounds N]] [--scratch FOLDER] [--only WORD] [--untried] NAME..   tries planted/NAME/*.edit and writes the table
    tools/plant_bugs.py --table                                   writes the table anew of what is known
    tools/plant_bugs.py --list                                    says which edits cannot be applied

An edit has the lines of a must-fail edit (file:, old:, new:), and before them
    slip: what the slip is, in words
    above: CRATE ..   the crates that state laws or facts about the definition that it changes, tried where its own crate is still proved

It is planted in a copy of the repository: planted/NAME stands there in the place of crates/NAME/must-fail, and `rt must-fail NAME` says
what came of it. An edit that is still proved is then tried in the crates above, one after the other, with the copy's file changed.

With --together the slips in code that are in functions of their own are planted together, and one `rt check` says what came of each: the
proof of a function takes nothing from the body of another, so each verdict is the same as alone, and much sooner had.

Verdicts: `fact` a goal failed that the changed code or definition has to meet; `written proof` a proof written for the text as it was no
longer fits (weaker: another proof could do); `name` only a name or a type is wrong (shows nothing: replace the edit); `survived`.
"""
import os
import re
import shutil
import subprocess
import sys

ROOT = os.path.dirname(os.path.dirname(os.path.abspath(__file__)))
TABLE = f"{ROOT}/docs/PLANTED.md"
RESULTS = f"{ROOT}/planted/results.txt"
# how rt is called: RT="/path/slot rt" has each call wait for its turn
RT = os.environ.get("RT", "rt").split()
NAMES = re.compile(r"has no field|is not in scope|has no `|was not admitted|mismatched types|is no name")


def read_edit(path):
    """The slip in words, the crates above, and the pairs of old and new text by their file."""
    slip, above, file, pairs, old = "", [], "", [], None
    with open(path, encoding="utf-8") as it:
        for line in it.read().split("\n"):
            word, _, rest = line.partition(": ")
            if line == "new:":
                word, rest = "new", ""
            if word == "slip":
                slip = rest
            elif word == "above":
                above = rest.split()
            elif word == "file":
                file = rest
            elif word == "old":
                old = rest
            elif word == "new":
                pairs.append((file, old, rest))
    return slip, above, pairs


def edits_of(name):
    folder = f"{ROOT}/planted/{name}"
    return sorted(it for it in os.listdir(folder) if it.endswith(".edit")) if os.path.isdir(folder) else []


def applied(folder, pairs):
    """The new texts of the files below a crate's folder, or none where an old text is not there exactly once."""
    texts = {}
    for file, old, new in pairs:
        if file not in texts:
            if not os.path.isfile(f"{folder}/{file}"):
                return None
            with open(f"{folder}/{file}", encoding="utf-8") as it:
                texts[file] = it.read()
        if texts[file].count(old) != 1:
            return None
        texts[file] = texts[file].replace(old, new)
    return texts


def applied_together(folder, pairs):
    """The new texts of the files, each pair applied to the text as it was."""
    texts = {}
    for file in {file for file, _, _ in pairs}:
        with open(f"{folder}/{file}", encoding="utf-8") as it:
            text = it.read()
        places = sorted(((text.index(old), old, new) for where, old, new in pairs if where == file), reverse=True)
        for at, old, new in places:
            text = text[:at] + new + text[at + len(old) :]
        texts[file] = text
    return texts


def class_of(line):
    """Whether a line tells of a fact, of a written proof, or of a name."""
    if NAMES.search(line):
        return "name"
    return "written proof" if re.match(r"(note: )?(\./)?proofs/", line) else "fact"


def said(line):
    """A verdict and its fact, from a line of rt must-fail."""
    _, _, rest = line.partition(".edit: ")
    if rest.startswith("refused"):
        fact = rest.partition(": ")[2]
        if "only because a proof file names" in rest:
            return "name", fact
        if "only by a limit" in rest:
            return "limit", fact
        return class_of(fact), fact
    if rest.startswith("NOT REFUSED"):
        return "survived", ""
    return ("name" if rest.startswith("BAD EDIT") else "not tried"), rest


def copy_to(scratch):
    """The repository's crates in the scratch folder, with what checks kept there."""
    os.makedirs(f"{scratch}/crates", exist_ok=True)
    shutil.copy(f"{ROOT}/crates.txt", scratch)
    if os.path.isfile(f"{ROOT}/HANDLES"):
        shutil.copy(f"{ROOT}/HANDLES", scratch)
    for name in sorted(os.listdir(f"{ROOT}/crates")):
        to = f"{scratch}/crates/{name}"
        os.makedirs(to, exist_ok=True)
        for part in os.listdir(f"{ROOT}/crates/{name}"):
            source = f"{ROOT}/crates/{name}/{part}"
            if part == "out":
                continue
            if os.path.isdir(source):
                shutil.rmtree(f"{to}/{part}", ignore_errors=True)
                shutil.copytree(source, f"{to}/{part}")
            else:
                shutil.copy(source, to)


def try_own(scratch, name, edits):
    """What rt must-fail says of each edit."""
    folder = f"{scratch}/crates/{name}/must-fail"
    shutil.rmtree(folder, ignore_errors=True)
    os.makedirs(folder)
    for it in edits:
        shutil.copy(f"{ROOT}/planted/{name}/{it}", folder)
    ran = subprocess.run([*RT, "must-fail", name], cwd=scratch, stdout=subprocess.PIPE, stderr=subprocess.STDOUT, text=True)
    results = {}
    for line in ran.stdout.split("\n"):
        at = re.search(rf"must-fail {name}/([\w-]+\.edit): ", line)
        if at:
            results[at[1]] = said(line)
    if len(results) < len(edits):
        print(ran.stdout[-2000:])
    return results


def function_at(text, at):
    """The function in which a place of a text lies, as its number among the text's functions, and its name; 0 where it is in none, as a constant."""
    found = list(re.finditer(r"^( *)(?:pub(?:\([a-z]+\))? )?fn (\w+)", text[:at], re.M))
    if not found or f"\n{found[-1][1]}}}\n" in text[found[-1].start() : at]:
        return 0, ""
    return len(found), found[-1][2]


def homes_of(folder, pairs):
    """The functions that an edit changes, with their files."""
    homes = set()
    for file, old, _ in pairs:
        with open(f"{folder}/{file}", encoding="utf-8") as it:
            text = it.read()
        homes.add((file, *function_at(text, text.index(old))))
    return homes


def blames(line, homes, texts, name):
    """Whether an error is one of these functions: it stands in one, or in the proof written for it."""
    at = re.match(r"(?:note: )?(?:\./)?(\S+?):(\d+):", line)
    if not at:
        return False
    if at[1].startswith("proofs/"):
        return any(function in at[1].replace("/+", "/").split("/") for _, _, function in homes)
    file = at[1].removeprefix(f"crates/{name}/")
    if file not in texts:
        return False
    place = sum(len(it) + 1 for it in texts[file].split("\n")[: int(at[2])])
    return (file, *function_at(texts[file], place)) in homes


def try_together(scratch, name, edits, rounds):
    """What comes of slips in code, those in functions of their own planted together: no function is proved by the body of another."""
    folder, left, results, alone = f"{scratch}/crates/{name}", list(edits), {}, False
    while left and rounds:
        rounds -= 1
        taken, homes, texts = [], set(), {}
        for edit in left:
            _, _, pairs = read_edit(f"{ROOT}/planted/{name}/{edit}")
            own = homes_of(folder, pairs)
            if not own & homes and (not taken or not alone and all(number for _, number, _ in own | homes)):
                taken.append((edit, own, pairs))
                homes |= own
        everything = [pair for _, _, pairs in taken for pair in pairs]
        were = {file: open(f"{folder}/{file}", encoding="utf-8").read() for file, _, _ in everything}
        texts = applied_together(folder, everything)
        for file, text in texts.items():
            with open(f"{folder}/{file}", "w", encoding="utf-8") as it:
                it.write(text)
        ran = subprocess.run([*RT, "check"], cwd=folder, stdout=subprocess.PIPE, stderr=subprocess.STDOUT, text=True)
        for file, text in were.items():
            with open(f"{folder}/{file}", "w", encoding="utf-8") as it:
                it.write(text)
        with open(f"{scratch}/{name}.log", "a", encoding="utf-8") as it:
            it.write(ran.stdout)
        lines = [it for it in ran.stdout.split("\n") if re.match(r"(note: )?\S+:\d+:\d+:", it) and (": error" in it or it.startswith("note: "))]
        states = re.findall(r"^fn (\S+): (.*)", ran.stdout, re.M)
        for edit, own, _ in taken:
            blamed = [it for it in lines if blames(it, own, texts, name)]
            state = [said for path, said in states if path.split("::")[-1] in {function for _, _, function in own}]
            waits = any(re.search(r"it calls|waits for|a call of|does not cover", said) for said in state)
            if blamed:
                first = next((it for it in blamed if not re.match(r"(note: )?(\./)?proofs/", it)), blamed[0])
                results[edit] = class_of(first), first[:200]
            elif not states and (len(taken) == 1 or not lines):
                results[edit] = "not tried", (lines or [ran.stdout[-160:]])[0][:200]
            elif states and len(taken) == 1 and lines:
                results[edit] = class_of(lines[0]), lines[0][:200]
            elif states and not waits:
                results[edit] = ("survived", "") if all(said.startswith("proved") for said in state) else ("fact", state[0][:200])
        rest = [it for it in left if it not in results]
        if len(rest) == len(left) and alone:
            results[rest.pop(0)] = "not tried", (lines or [ran.stdout[-160:]])[0][:200]
        left, alone = rest, len(rest) == len(left)
    return results


def try_above(scratch, name, edit, above, pairs):
    """The first crate above that is not proved with the edit, and its first fact."""
    folder = f"{scratch}/crates/{name}"
    texts = applied(folder, pairs)
    were = {}
    for file, text in texts.items():
        with open(f"{folder}/{file}", encoding="utf-8") as it:
            were[file] = it.read()
        with open(f"{folder}/{file}", "w", encoding="utf-8") as it:
            it.write(text)
    try:
        for crate in above:
            ran = subprocess.run([*RT, "check"], cwd=f"{scratch}/crates/{crate}", stdout=subprocess.PIPE, stderr=subprocess.STDOUT, text=True)
            if ran.returncode:
                lines = [it for it in ran.stdout.split("\n") if re.match(r"(note: )?\S+:\d+:\d+:", it)]
                told = [it for it in lines if ": error" in it] or lines
                # what is told first of src/ or specs/ tells more than a proof that no longer fits
                first = next((it for it in told if not re.match(r"(note: )?(\./)?proofs/", it)), told[0] if told else ran.stdout[-160:])
                return class_of(first), f"in `{crate}`: {first[:160]}"
    finally:
        for file, text in were.items():
            with open(f"{folder}/{file}", "w", encoding="utf-8") as it:
                it.write(text)
    return "survived", f"also in {', '.join(above)}"


def known():
    """What came of each edit so far."""
    results = {}
    if os.path.isfile(RESULTS):
        with open(RESULTS, encoding="utf-8") as it:
            for line in it:
                name, edit, verdict, fact = line.rstrip("\n").split("\t")
                results[name, edit] = verdict, fact
    return results


def keep(results):
    with open(RESULTS, "w", encoding="utf-8") as it:
        for (name, edit), (verdict, fact) in sorted(results.items()):
            if edit in edits_of(name):
                fact = re.sub(r"\s+", " ", fact).strip()
                it.write(f"{name}\t{edit}\t{verdict}\t{fact}\n")


def order():
    with open(f"{ROOT}/crates.txt", encoding="utf-8") as it:
        return [line.partition(":")[0].strip() for line in it if ":" in line and not line.startswith("#")]


def write_table(results):
    """The rows below the table's mark, of each edit that was tried."""
    with open(TABLE, encoding="utf-8") as it:
        head = it.read().partition("<!-- rows -->")[0]
    rows, counts, untried = [], {}, {}
    for name in order():
        for edit in edits_of(name):
            slip, _, pairs = read_edit(f"{ROOT}/planted/{name}/{edit}")
            verdict, fact = results.get((name, edit), ("not tried", ""))
            counts[verdict] = counts.get(verdict, 0) + 1
            if verdict == "not tried":
                untried.setdefault(name, []).append(edit[:-5])
                continue
            of_specs = all(file.startswith("specs/") for file, _, _ in pairs)
            fact = fact.replace("|", "\\|")
            place = pairs[0][0]
            rows.append((of_specs, f"| `{name}/{edit[:-5]}` | {slip} | `{place}` | {verdict} | {fact} |"))
    told = ", ".join(f"{number} {verdict}" for verdict, number in sorted(counts.items()))
    line = "| edit | slip | file | verdict | the first fact that failed |\n|---|---|---|---|---|\n"
    code = "\n".join(row for of_specs, row in rows if not of_specs)
    specs = "\n".join(row for of_specs, row in rows if of_specs)
    waiting = "\n".join(f"- `{name}`: {', '.join(edits)}" for name, edits in untried.items())
    with open(TABLE, "w", encoding="utf-8") as it:
        it.write(f"{head}<!-- rows -->\n\nIn all: {told}.\n\n## Slips in code\n\n{line}{code}\n\n## Slips in definitions\n\n{line}{specs}\n\n## Not tried yet\n\n{waiting}\n")


def main(words):
    if words == ["--list"]:
        for name in order():
            for edit in edits_of(name):
                _, _, pairs = read_edit(f"{ROOT}/planted/{name}/{edit}")
                if applied(f"{ROOT}/crates/{name}", pairs) is None:
                    print(f"{name}/{edit} cannot be applied")
        return 0
    results = known()
    if words != ["--table"]:
        scratch, only, together, untried, rounds = "/tmp/planted", "", False, False, -1
        while words and words[0].startswith("--"):
            if words[0] == "--together":
                together, words = True, words[1:]
            elif words[0] == "--untried":
                untried, words = True, words[1:]
            elif words[0] == "--rounds":
                rounds, words = int(words[1]), words[2:]
            elif words[0] == "--scratch":
                scratch, words = words[1], words[2:]
            else:
                only, words = words[1], words[2:]
        copy_to(scratch)
        for name in words:
            edits = [it for it in edits_of(name) if re.search(only, it)]
            edits = [it for it in edits if not untried or results.get((name, it), ("not tried",))[0] == "not tried"]
            code = [it for it in edits if not it.startswith("spec_")] if together else []
            tried = try_together(scratch, name, code, rounds) if code else {}
            others = [it for it in edits if it not in code]
            tried |= try_own(scratch, name, others) if others else {}
            for edit, (verdict, fact) in tried.items():
                _, above, pairs = read_edit(f"{ROOT}/planted/{name}/{edit}")
                if verdict == "survived" and above and os.environ.get("ABOVE") != "no":
                    verdict, fact = try_above(scratch, name, edit, above, pairs)
                now = known()
                now[name, edit] = verdict, fact
                keep(now)
                print(f"{name}/{edit}: {verdict} {fact}", flush=True)
        results = known()
    write_table(results)
    return 0


if __name__ == "__main__":
    sys.exit(main(sys.argv[1:]))
