#!/usr/bin/env python3
"""depth.py [PROGRAM]: runs the deepest models on a stack of 1 MiB, on values and on terms.

Each row is a model whose brackets hold one form of expression or statement as deep as may be: 64 brackets, the body's
own among them, types of width 32, 64 functions that call each other. PROGRAM is the built exec_cases, which reads the
text, checks it, runs the pair on values and on terms and compares them. Prints for each row whether it ended as it
should. Its status is 0 where all did.
"""
import pathlib
import resource
import subprocess
import sys

BUILT = pathlib.Path(__file__).resolve().parent.parent / "crates/exec_cases/out/exec_cases"
STACK = 1 << 20
# Beside the brace of the body.
BRACKETS = 63
# How often an option may be in an option.
OPTIONS = 31
FUNCTIONS = 64


def within(opening, inner, closing, count):
    return opening * count + inner + closing * count


def go(declarations, parameters, reply, body):
    return f"{declarations} call go({parameters}) -> {reply} {{ {body} }}"


def returns(declarations, parameters, reply, opening, inner, closing, count=BRACKETS):
    body = f"return {within(opening, inner, closing, count)};"
    return go(declarations, parameters, reply, body)


def chain_of_functions():
    """Each function has a call of the one before in 62 brackets."""
    first = f"fn f0(b: bool) -> bool {{ return {within('R(', 'b', ').a', BRACKETS)}; }}"
    others = [
        f"fn f{n}(b: bool) -> bool {{ return {within('R(', f'f{n - 1}(b)', ').a', BRACKETS - 1)}; }}"
        for n in range(1, FUNCTIONS)
    ]
    return " ".join(["record R { a: bool }", first, *others])


def cases(count):
    """Blocks in blocks, each under an option that is there."""
    text = "return true;"
    for n in range(count):
        text = f"case x {{ none {{ }} some v{n} {{ {text} }} }}"
    return text + " return false;"


def shifts(count):
    """Numbers that are taken into a range, one more and one less by turns."""
    text = "x"
    for n in range(count):
        text = f"C({text} {'+-'[n % 2]} 1)"
    return text


def settings(count):
    """Records with a field of another such record."""
    text = "r"
    for _ in range(count):
        text = f"r with {{ a: ({text}).a }}"
    return text


def options():
    deep = within("option(", "E", ")", OPTIONS)
    value = within("some(", "e", ")", OPTIONS)
    return f"sort E; state x: {deep}; call go(e: E) -> {deep} {{ x = {value}; return {value}; }}"


def rows():
    """Names, models, cells, arguments of both calls, and how the pair ends."""
    record = "record R { a: bool, c: bool }"
    # The argument is turned 63 times, and is the reply.
    yield "not", returns("", "b: bool", "bool", "not (", "b", ")"), "", ".1", ".0", "commutes"
    yield "and", returns("", "b: bool", "bool", "b and (", "b", ")"), "", ".1", ".1", "commutes"
    yield "or", returns("", "b: bool", "bool", "b or (", "b", ")"), "", ".0", ".0", "commutes"
    yield "equal", returns("", "b: bool", "bool", "b == (", "b", ")"), "", ".1", ".0", "commutes"
    yield "parentheses", returns("", "b: bool", "bool", "(", "b", ")"), "", ".1", ".0", "commutes"
    yield "number", go("int C 0..9;", "x: C", "C", f"return {shifts(BRACKETS)};"), "", "3", "4", "commutes"
    # The tenth number is no C.
    yield "number-out", go("int C 0..9;", "x: C", "C", f"return {shifts(BRACKETS)};"), "", "3", "9", "blocked"
    yield "record", returns(record, "b: bool", "bool", "R(b, ", "b", ").c"), "", ".1", ".0", "commutes"
    yield "with", go(record, "r: R", "R", f"return {settings(BRACKETS // 2)};"), "", ".1,.0", ".0,.1", "commutes"
    turn = "fn turn(b: bool) -> bool { return not b; }"
    yield "call", returns(turn, "b: bool", "bool", "turn(", "b", ")"), "", ".1", ".0", "commutes"
    both = "fn both(b: bool, c: bool) -> bool { return b and c; }"
    yield "last-argument", returns(both, "b: bool", "bool", "both(b, ", "b", ")"), "", ".1", ".0", "commutes"
    wide = "record W { w: bool } fn f(b: bool) -> W { return W(b); }"
    mixed = returns(wide, "b: bool", "bool", "not f(", "b", ").w == true and true")
    yield "mixed", mixed, "", ".1", ".0", "commutes"
    # Each element is the value at itself.
    look_up = returns("sort K; state m: map K -> K;", "k: K", "K", "m[", "k", "]")
    yield "look-up", look_up, "0[#1]=#1", "#1", "#0", "commutes"
    key = within("m[", "k", "]", BRACKETS)
    write = go("sort K; state m: map K -> K;", "k: K", "bool", f"{key} = {key}; return true;")
    yield "key-written", write, "0[#1]=#1", "#1", "#0", "commutes"
    yield "if", go("", "b: bool", "bool", within("if b { ", "return true;", " }", BRACKETS) + " return false;"), \
        "", ".1", ".0", "commutes"
    yield "case", go("sort E;", "x: option(E)", "bool", cases(OPTIONS)), "", "some#1", "none", "commutes"
    # Two options of width 32 that stay some all the way down, and a cell that both calls write.
    yield "options", options(), "", "#1", "#1", "commutes"
    yield "options-differ", options(), "", "#1", "#2", "differs"
    holds = within("not (", "not it", ")", BRACKETS + 1)
    invariant = go(f"state on: bool where {holds};", "b: bool", "bool", "on = b; return true;")
    yield "invariant", invariant, "", ".1", ".1", "commutes"
    yield "invariant-fails", invariant, "0=.1", ".1", ".1", "blocked"
    yield "functions", go(chain_of_functions(), "b: bool", "bool", f"return f{FUNCTIONS - 1}(b);"), \
        "", ".1", ".0", "commutes"


def ended(program, row):
    """What the program says of a row, or how it ended."""
    limit = lambda: resource.setrlimit(resource.RLIMIT_STACK, (STACK, STACK))
    done = subprocess.run([program], input=row + "\n", capture_output=True, text=True, preexec_fn=limit, timeout=60)
    return done.stdout.strip() if done.returncode == 0 else f"status {done.returncode}: {done.stderr.strip()}"


def main(program=BUILT):
    failed = 0
    for name, model, cells, a, b, end in rows():
        told = ended(program, f"{model}|0 0|{cells}|{a}|{b}")
        right = told.startswith(f"same, {end}:")
        failed += not right
        print(f"{name}: {end if right else 'FAILED ' + told[:200]}")
    return 1 if failed else 0


sys.exit(main(*sys.argv[1:]))
