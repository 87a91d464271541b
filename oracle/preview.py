#!/usr/bin/env python3
"""preview.py [--columns N] [--rows N] [--table latin|eastern] [--prompt TEXT] [--brackets] < SCRIPT

What `caption preview` must print, written from the rules in docs/ and independent of the Rattle sources:
crates/caption/stdout was made by it (see docs/PROOFS.md, "What is only tested")."""
import argparse, re, sys

ZERO = [(0x300, 0x36F), (0x200D, 0x200D)]
WIDE = [(0x3041, 0x3096), (0x30A1, 0x30FA), (0x4E00, 0x9FFF), (0xAC00, 0xD7A3), (0xFF01, 0xFF60)]
PAIRS = {"(": ")", "[": "]", "{": "}"}
BACK = {close: opening for opening, close in PAIRS.items()}


def control(c):
    return c < 0x20 or 0x7F <= c <= 0x9F


def width(c, eastern):
    if any(a <= c <= b for a, b in ZERO) or control(c):
        return 0
    return 2 if eastern and any(a <= c <= b for a, b in WIDE) else 1


def good(raw):
    """The characters of a good text, or None."""
    try:
        text = raw.decode("utf-8")
    except UnicodeDecodeError:
        return None
    return None if any(control(ord(c)) and c != "\n" for c in text) else text


def draw(text, cols, eastern):
    """The rows of a block: lists of [character with its mark, columns], and the place of its end."""
    rows, col, last = [[]], 0, None
    for c in text:
        if c == "\n":
            rows.append([]); col = 0; last = None
            continue
        w = width(ord(c), eastern)
        if w == 0:
            if last is not None:
                last[0] = last[0][0] + c
            continue
        if col + w > cols:
            rows.append([]); col = 0
        last = [c, w]
        rows[-1].append(last)
        col += w
    end = (len(rows) - 1, col) if col < cols else (len(rows), 0)
    return rows, end


def bracket(raw):
    """The byte and index of the bracket that lights with the cursor behind the caption."""
    line = raw.decode("latin-1")
    if len(line) < 2 or line[-1] not in BACK:
        return None
    own, partner, depth = line[-1], BACK[line[-1]], 1
    for at in range(len(line) - 2, -1, -1):
        depth += (line[at] == own) - (line[at] == partner)
        if depth == 0:
            return partner, at
    return None


def main():
    p = argparse.ArgumentParser()
    p.add_argument("--columns", type=int, default=40)
    p.add_argument("--rows", type=int, default=6)
    p.add_argument("--table", default="latin")
    p.add_argument("--prompt", default="> ")
    p.add_argument("--brackets", action="store_true")
    a = p.parse_args()
    eastern = a.table == "eastern"
    shown = re.sub("\x1b\\[[0-9;]*m", "", a.prompt)
    script = sys.stdin.buffer.read()
    lines = script.split(b"\n")
    if lines[-1] == b"":
        lines.pop()
    out, stand, refused, highest = [], 0, 0, 0
    for n, raw in enumerate(lines, 1):
        text = good(raw)
        why = None
        if text is None:
            why = "3 text"
        elif len(raw) > 4096:
            why = "4 long"
        else:
            rows, (end, col) = draw(shown + text, a.columns, eastern)
            if end + 1 > a.rows:
                why = "6 tall"
        if why:
            out.append(f"line {n}: refused {why}")
            refused += 1
            continue
        stand += 1
        highest = max(highest, end + 1)
        lit = ""
        if a.brackets:
            b = bracket(raw)
            lit = f"; lights {b[0]} at byte {b[1]}" if b else "; lights nothing"
        out.append(f"line {n}: {end + 1} row{'' if end == 0 else 's'}, ends in row {end}, column {col}{lit}")
        for r in range(end + 1):
            cells = rows[r] if r < len(rows) else []
            out.append("  |" + "".join(c for c, _ in cells) + " " * (a.columns - sum(w for _, w in cells)) + "|")
    all_ = stand + refused
    out.append(f"{all_} caption{'' if all_ == 1 else 's'}: {stand} stand, {refused} refused; the highest takes {highest} of {a.rows} rows")
    sys.stdout.buffer.write(("\n".join(out) + "\n").encode("utf-8"))


main()
