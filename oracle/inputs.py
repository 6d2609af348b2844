#!/usr/bin/env python3
"""inputs.py DIR: writes the chunks that the benchmark times. Needs luac5.1 (Debian's package lua5.1).

strings, numbers: one function with 65,535 string or number constants. flat: one function with thousands of instructions and constants.
many: 11,340 functions in one. grouped1, 2, 4, 8: the like in 100 functions, about so many MB,
so that no function has more than some hundred strings.
nested: 200 functions, one inside the other.
"""
import os
import struct
import subprocess
import sys

HEADER = b"\x1bLua\x51\x00\x01\x04\x08\x04\x08\x00"

BODY = """function M.f{k}(self, a, b, c)
  local result, total = {{}}, 0
  for i = 1, #a do
    local value = a[i] * b + {k}
    if value > c then result[#result + 1] = tostring(value) .. "item{k}"; total = total + value
    else print("too small", value, self.limit{k}) end
  end
  return result, total, M
end
"""


def string(s):
    return struct.pack("<Q", len(s) + 1) + s + b"\0"


def function(source, constants, children):
    """A function of 64 instructions, RETURN 0 1 each, with their lines; no source where it is None."""
    code = struct.pack("<I", 64) + struct.pack("<I", 0x0080001E) * 64
    lines = struct.pack("<I", 64) + struct.pack("<I", 1) * 64
    head = (struct.pack("<Q", 0) if source is None else string(source)) + struct.pack("<II", 0, 0) + bytes([0, 0, 2, 2])
    lists = struct.pack("<I", len(constants)) + b"".join(constants) + struct.pack("<I", len(children)) + b"".join(children)
    return head + code + lists + lines + struct.pack("<II", 0, 0)


def nested(depth):
    """Functions one inside the other, each with 40 string constants."""
    strings = [b"\x04" + string(b"constant %d" % k) for k in range(40)]
    chunk = function(None, strings, [])
    for _ in range(depth - 2):
        chunk = function(None, strings, [chunk])
    return function(b"@nested.lua", strings, [chunk])


def group(g, size):
    return f"local function group{g}()\n local M = {{}}\n" + "".join(BODY.format(k=g * size + k) for k in range(size)) + " return M\nend\n"


def main(folder):
    os.makedirs(folder, exist_ok=True)
    os.chdir(folder)
    strings = [b"\x04" + string(b"string constant number %d" % k) for k in range(65535)]
    numbers = [b"\x03" + struct.pack("<d", k * 1.5) for k in range(65535)]
    chunks = {"strings": function(b"@strings.lua", strings, []), "numbers": function(b"@numbers.lua", numbers, []), "nested": nested(200)}
    for name, chunk in chunks.items():
        with open(name + ".luac", "wb") as f:
            f.write(HEADER + chunk)
    texts = {
        "flat": "".join(f"t.field{k} = {k}.5 + u.other{k}\n" for k in range(7000)),
        "many": "local M = {}\n" + "".join(BODY.format(k=k) for k in range(11340)) + "return M\n",
    }
    for megabytes in 1, 2, 4, 8:
        texts[f"grouped{megabytes}"] = "".join(group(g, 14 * megabytes) for g in range(100))
    for name, text in texts.items():
        with open(name + ".lua", "w") as f:
            f.write(text)
        subprocess.run(["luac5.1", "-o", name + ".luac", name + ".lua"], check=True)
        os.remove(name + ".lua")


if __name__ == "__main__":
    main(sys.argv[1])
