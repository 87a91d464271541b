#!/usr/bin/env python3
"""Copies the crate's text out of its sources (the folder crate/, or $CRATE_SRC) into src/. Whole files are byte copies; cuts are
line ranges found by pattern, set into the frames of frames/. Prints what was taken; nothing is edited."""
import hashlib, os
HERE = os.path.dirname(os.path.abspath(__file__))
S = os.environ.get("CRATE_SRC", f"{HERE}/crate")
def src(n): return open(f"{S}/{n.replace('--', '/')}.rs", encoding="utf-8").read()
os.makedirs(f"{HERE}/src/tty", exist_ok=True)
def put(path, text):
    p = f"{HERE}/src/{path}"
    if not os.path.exists(p) or open(p, encoding="utf-8").read() != text:
        open(p, "w", encoding="utf-8").write(text)
# 1. whole files, byte for byte
for n, p in [("layout", "layout.rs"), ("highlight", "highlight.rs"), ("prompt", "prompt.rs"), ("hint", "hint.rs"),
             ("line_buffer", "line_buffer.rs"), ("undo", "undo.rs"), ("edit", "edit.rs"), ("config", "config.rs"),
             ("tty--mod", "tty/mod.rs")]:
    t = src(n)
    put(p, t)
    print(f"whole  {p:16} sha256 {hashlib.sha256(t.encode()).hexdigest()[:16]} {t.count(chr(10))} lines")
# 2. cuts
def cut(name, first, last, after=None):
    """from the line that starts with `first` to the next line equal to `last`, both included"""
    ls = src(name).split("\n")
    i = 0
    if after is not None:
        i = next(k for k, l in enumerate(ls) if l.startswith(after))
    a = next(k for k in range(i, len(ls)) if ls[k].startswith(first))
    b = next(k for k in range(a, len(ls)) if ls[k] == last)
    t = "\n".join(ls[a:b + 1]) + "\n"
    assert t in src(name)
    print(f"cut    {name}.rs {a+1}-{b+1}")
    return t
def assemble(path, frame, **cuts):
    t = open(f"{HERE}/frames/{frame}", encoding="utf-8").read()
    for k, v in cuts.items():
        mark = f"//@CUT {k}\n"
        assert t.count(mark) == 1, (frame, k)
        t = t.replace(mark, f"// ---- cut: {k}\n{v}// ---- end of cut: {k}\n")
    assert "//@CUT" not in t
    put(path, t)
assemble("tty/unix.rs", "unix.rs",
    consts=cut("tty--unix", "const BEGIN_SYNCHRONIZED_UPDATE", 'const END_SYNCHRONIZED_UPDATE: &str = "\\x1b[?2026l";'),
    renderer_struct=cut("tty--unix", "/// Console output writer", "}"),
    renderer_own=cut("tty--unix", "impl PosixRenderer {", "}"),
    renderer=cut("tty--unix", "impl Renderer for PosixRenderer {", "}"),
    digits=cut("tty--unix", "fn read_digits_until", "}"),
    write_all=cut("tty--unix", "fn write_all", "}"))
assemble("keymap.rs", "keymap.rs",
    commands=cut("keymap", "/// The number of times one command", "}", after="/// The number"),
    rest=cut("keymap", "impl Cmd {", "}") + cut("keymap", "const fn repeat_count", "}") + cut("keymap", "/// Different word definitions", "}")
      + cut("keymap", "/// Where to move with respect", "}") + cut("keymap", "/// Where to paste", "}") + cut("keymap", "/// character search", "}")
      + cut("keymap", "impl CharSearch", "}") + cut("keymap", "/// Where to move", "}", after="impl CharSearch") + cut("keymap", "impl Movement", "}"),
    invoke=cut("keymap", "/// Provide indirect mutation", "}") + cut("keymap", "impl Invoke for &str", "}") + cut("keymap", "pub trait Refresher", "}"))
assemble("main.rs", "main.rs",
    result=cut("lib", "/// The error type for I/O", "pub type Result<T> = result::Result<T, ReadlineError>;"),
    helper=cut("lib", "/// Syntax specific helper.", "impl Helper for () {}"),
    context=cut("lib", "/// Completion/suggestion context", "}") + cut("lib", "impl<'h> Context<'h> {", "}"))

# a second copy of the private bracket functions, so that their bare answers can be printed
assemble("bracket_probe.rs", "bracket_probe.rs",
    brackets=cut("highlight", "fn find_matching_bracket", "}") + cut("highlight", "// check under or before", "}")
      + cut("highlight", "const fn matching_bracket", "}") + cut("highlight", "const fn is_open_bracket", "}") + cut("highlight", "const fn is_close_bracket", "}"))
