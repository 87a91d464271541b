#!/usr/bin/env python3
"""Lists the places in crates/*/src that a design pass looks at, point by point, with their counts.

Usage: python3 tools/design_places.py [FOLDER] [--counts]

FOLDER is a checkout (this one by default). Each point prints the places that its pattern finds; which of them are
places to change is a reader's judgement, which docs/DESIGN-PASS.md gives. With --counts only the counts are printed.
"""
import collections
import pathlib
import re
import sys

HAND_ON = re.compile(
    r"Err\([a-z_]+\) => (return )?(Err|None)|None => (return )?(Err|None)|Err\([a-z_]+\) => \{$"
)
LOOP = re.compile(
    r"^\s*(while|loop|let [a-z]+ = loop)\b"
    r"|^\s*for (\([a-z_]+, [a-z_]+\)|[a-z_]+) in (\(?[a-z0-9_]+( as usize)?( \+ 1)?\.\.|.*enumerate\(\))"
)
FUNCTION = re.compile(r"\bfn (\w+)(<[^(]*>)?\(((?:[^()]|\([^()]*\))*)\)")
BY_HAND = re.compile(
    r"^\s*impl.*\b(PartialEq|Eq|PartialOrd|Ord|Clone|Copy|Hash|From<|TryFrom<|FromStr|Display)\b.* for "
    r"|fn (number|word|compare|equals?|same|copy)\b"
)
BESIDE = re.compile(r"^\s*(pub(\(crate\))? )?\w*len: (usize|Option<usize>),")
SWITCH = re.compile(r"\bdyn |\bimpl Fn|\bfn\(|: Fn(Mut|Once)?\(|match (name|word|\w+\.as_str\(\)) \{")


def sources(folder):
    for path in sorted(pathlib.Path(folder).glob("crates/*/src/**/*.rt")):
        yield path.relative_to(folder), path.read_text()


def lines_that(folder, test):
    for path, text in sources(folder):
        for number, line in enumerate(text.split("\n"), 1):
            if not line.lstrip().startswith("//") and test(line):
                yield f"{path}:{number}: {line.strip()}"


def bodies(folder):
    """Each function's name, and its body with every name and number replaced by a sign."""
    for path, text in sources(folder):
        for match in re.finditer(r"\bfn (\w+)", text):
            opening = re.search(r"^\s*\{$|\{$", text[match.end():], re.M)
            if not opening:
                continue
            depth, at = 0, match.end() + opening.start()
            start = at
            while at < len(text):
                depth += {"{": 1, "}": -1}.get(text[at], 0)
                at += 1
                if text[at - 1] == "}" and depth == 0:
                    break
            shape = re.sub(r"//.*", "", text[start:at])
            shape = re.sub(r"b?\"[^\"]*\"|b?'[^']*'|0x[0-9a-f]+|\b[0-9_]+\b", "N", shape)
            shape = re.sub(r"\b(?!let|mut|if|else|match|for|in|while|loop|return|break)[A-Za-z_]\w*", "x", shape)
            yield f"{path}: {match.group(1)}", re.sub(r"\s+", " ", shape)


def twins(folder):
    groups = collections.defaultdict(list)
    for name, shape in bodies(folder):
        groups[shape].append(name)
    for shape, names in groups.items():
        if len(names) > 1 and len(shape) >= 60:
            yield " ~ ".join(names)


def repeated_facts(folder):
    facts = collections.Counter()
    for _, text in sources(folder):
        for line in text.split("\n"):
            found = re.match(r"\s*requires \w* ?\{ (.*) \}", line)
            if found:
                facts[re.sub(r"\.(old|now|new)\b", "", found.group(1))] += 1
    for fact, count in facts.most_common():
        if count >= 3:
            yield f"{count} times: {fact}"


def many_parameters(folder):
    for path, text in sources(folder):
        for match in FUNCTION.finditer(text):
            parameters = [p for p in match.group(3).split(",") if ":" in p or "self" in p]
            if len(parameters) >= 5:
                yield f"{path}: {match.group(1)} takes {len(parameters)}"


POINTS = [
    ("1 enums", lambda f: lines_that(f, lambda l: re.match(r"(pub(\(crate\))? )?enum ", l))),
    ("1 functions that answer a bool", lambda f: lines_that(f, lambda l: re.search(r"fn .*-> (Result<)?bool", l))),
    ("1 functions that answer or take a number for a kind", lambda f: lines_that(f, lambda l: re.search(r"fn .*-> u8|number: u8", l))),
    ("1 results handed on by a match", lambda f: lines_that(f, HAND_ON.search)),
    ("2 functions of one shape", twins),
    ("3 loops that may count by hand", lambda f: lines_that(f, LOOP.search)),
    ("4 comparisons, conversions and printing by hand", lambda f: lines_that(f, BY_HAND.search)),
    ("5 facts required three times or more", repeated_facts),
    ("5 functions of five parameters or more", many_parameters),
    ("6 lengths beside a buffer", lambda f: lines_that(f, BESIDE.search)),
    ("7 switches and function values", lambda f: lines_that(f, SWITCH.search)),
]


def main():
    arguments = [a for a in sys.argv[1:] if a != "--counts"]
    folder = arguments[0] if arguments else pathlib.Path(__file__).resolve().parent.parent
    for title, find in POINTS:
        places = list(find(folder))
        print(f"{len(places):4}  {title}")
        if "--counts" not in sys.argv:
            for place in places:
                print(f"        {place}")


if __name__ == "__main__":
    main()
