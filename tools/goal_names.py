#!/usr/bin/env python3
"""Spells the names of goals and steps in proof files as this kit makes them.

usage: rt names OUT                              at the top
       python3 tools/goal_names.py OUT [CRATE..] at the top

A name of an older kit had a dash where a word of the source has an underscore (copy-from-slice, in-err-x). The kit
lists the names that it makes for each function; where one of them differs in dashes and underscores alone, it is taken.
"""

import json
import os
import re
import sys

NAME = re.compile(r"(?<![\w'-])[A-Za-z_+][\w'+]*(?:-[\w'+]+)*")


def strings(value):
    if isinstance(value, str):
        yield value
    elif isinstance(value, list):
        for v in value:
            yield from strings(v)
    elif isinstance(value, dict):
        for k, v in value.items():
            yield k
            yield from strings(v)


def plain(name):
    return name.replace("_", "-")


def source_words(crate):
    """The words of a crate's sources that have an underscore, by how an older kit wrote them."""
    words = {}
    for folder, _, files in os.walk(os.path.join("crates", crate, "src")):
        for file in files:
            with open(os.path.join(folder, file), encoding="utf-8") as f:
                for word in re.findall(r"[A-Za-z_][A-Za-z0-9_]*", f.read()):
                    if "_" in word:
                        words[plain(word)] = word
    return words


def main(out, crates):
    for crate in crates or sorted(os.listdir(os.path.join(out, "crates"))):
        with open(os.path.join(out, "crates", crate, "names.json"), encoding="utf-8") as f:
            functions = json.load(f)
        words = source_words(crate)
        for key, value in functions.items():
            head = f"Rattle-{crate}-proofs."
            if not key.startswith(head) or ".Lts" not in key:
                continue
            folder = os.path.join("crates", crate, "proofs", *key[len(head):].split(".Lts")[0].split("."))
            if not os.path.isdir(folder):
                continue
            made = set()
            for s in strings(value):
                made.update(NAME.findall(s))
            made.update(n[0].lower() + n[1:] for n in list(made) if re.match(r"(Then|Else|In)[-_]", n))
            by_plain = {}
            for name in sorted(made):
                by_plain.setdefault(plain(name), set()).add(name)
            for file in sorted(os.listdir(folder)):
                if file not in ("Answers.antt", "Invariants.antt"):
                    continue
                path = os.path.join(folder, file)
                with open(path, encoding="utf-8") as f:
                    text = f.read()

                def turned(m):
                    name = m.group(0)
                    if name in made or "-" not in name:
                        return name
                    for head in ("", "invariant-", "decreases-", "returns-"):
                        if head and not name.startswith(head):
                            continue
                        found = by_plain.get(plain(name[len(head):]))
                        if found and len(found) == 1:
                            return head + next(iter(found))
                    parts = re.split(r"(-via-|\+)", name)
                    if len(parts) > 1:
                        return "".join(turned(NAME.match(p)) if NAME.match(p) and i % 2 == 0 else p for i, p in enumerate(parts))
                    for tail in ("-init", "-preserved", "-smaller", "-whole"):
                        if name.endswith(tail):
                            found = by_plain.get(plain(name[: -len(tail)]))
                            if found and len(found) == 1:
                                return next(iter(found)) + tail
                    return name

                def field(m):
                    return "." + words.get(m.group(1), m.group(1))

                lines = []
                for line in text.split("\n"):
                    keep = line.startswith("--") or (line.startswith("use ") and ".Goals" not in line and ".Given" not in line)
                    line = line if keep else NAME.sub(turned, line)
                    lines.append(line if keep else re.sub(r"(?<=[\w)'])\.(-?[A-Za-z][\w']*(?:-[\w']+)*)", field, line))
                new = "\n".join(lines)
                if new != text:
                    with open(path, "w", encoding="utf-8") as f:
                        f.write(new)
                    print(path)


if __name__ == "__main__":
    main(sys.argv[1], sys.argv[2:])
