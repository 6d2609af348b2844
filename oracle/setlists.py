#!/usr/bin/env python3
"""setlists.py DIR N: writes chunks in which SETLIST has a C of 0 and its count in the next word.

DIR/luac: programs whose tables have around 511 times 50 items and more, compiled by luac5.1 (Debian's package lua5.1). Counts from 512 on look
like instructions, 546 and each 64th behind it like another SETLIST with C 0.
DIR/made: N chunks of made-up code in which each word is one that PrintCode can print, half of them SETLIST with C 0, so that such words
stand in a row, behind CLOSURE, and as counts. Only a luac without luaG_checkcode loads them.
"""
import os
import random
import struct
import subprocess
import sys

from inputs import HEADER, string

FIRST = 511 * 50
MOVE, LOADBOOL, LOADNIL, GETUPVAL, NEWTABLE, JMP, CALL, RETURN, SETLIST, CLOSE, CLOSURE = 0, 2, 3, 4, 10, 22, 28, 30, 34, 35, 36


def table(n, last=""):
    return "{" + "true," * n + last + "}"


def texts():
    # around the first of them, around a count that looks like SETLIST, and as many as fit a function
    for n in FIRST - 1, FIRST, FIRST + 1, FIRST + 51, 545 * 50, 545 * 50 + 1, 546 * 50 + 1, 610 * 50, 30000, 60000:
        yield f"return {table(n)}"
    # before a call and before ..., which have as many items as they give; two tables
    for n in FIRST, 545 * 50:
        for last in "f()", "...":
            yield f"return {table(n, last)}"
    yield f"local a, b = {table(FIRST + 1)}, {table(FIRST + 1)}"
    # between CLOSUREs, whose next words are MOVE or GETUPVAL; in a function inside another
    closures = "local f = function() return a, b end "
    yield f"local a, b = 1, 2 {closures} local t = {table(545 * 50 + 1)} {closures} return t"
    yield f"local a, b return function() {closures} local t = {table(FIRST + 1)} {closures} return {table(FIRST + 1, 'f(t)')} end"


def word(children):
    if random.random() < 0.5:
        return SETLIST | random.randrange(256) << 6 | random.randrange(256) << 23
    op = random.choice([MOVE, LOADBOOL, LOADNIL, GETUPVAL, NEWTABLE, JMP, CALL, RETURN, SETLIST, CLOSE, CLOSURE])
    if op == CLOSURE:
        return op | random.randrange(256) << 6 | random.randrange(children) << 14 if children else 0
    return op | random.randrange(2**25) << 6


def ints(items):
    return struct.pack(f"<I{len(items)}I", len(items), *items)


def function(source, depth):
    """Behind a last SETLIST with C 0 stands a count, and the last word is RETURN. Lines are none, or one for each word and not 0."""
    children = [function(None, depth - 1) for _ in range(random.randrange(3))] if depth else []
    code = [word(len(children)) for _ in range(random.choice([0, 1, 2, 3, 5, 8, 40]))] + [RETURN, RETURN]
    lines = [random.randrange(1, 2**31) for _ in code] if random.random() < 0.5 else []
    head = (struct.pack("<Q", 0) if source is None else string(source)) + struct.pack("<II", depth, depth) + bytes([random.randrange(3), 0, 2, 250])
    return head + ints(code) + ints([]) + struct.pack("<I", len(children)) + b"".join(children) + ints(lines) + ints([]) + ints([])


def main(folder, n):
    random.seed(5)
    for part in "luac", "made":
        os.makedirs(os.path.join(folder, part), exist_ok=True)
    for k, text in enumerate(texts(), 1):
        program = os.path.join(folder, "luac", f"{k}.lua")
        with open(program, "w") as f:
            f.write(text)
        subprocess.run(["luac5.1", "-o", program + "c", program], check=True)
    for k in range(n):
        with open(os.path.join(folder, "made", f"{k}.luac"), "wb") as f:
            f.write(HEADER + function(b"@made.lua", random.randrange(3)))


if __name__ == "__main__":
    main(sys.argv[1], int(sys.argv[2]))
