#!/usr/bin/env python3
# long_lists.py: makes stdin and stdout of the program gate_long_lists. Run at the repository's root; the oracle has to be built (oracle/README.md).
# stdin: four call lists, one after the other. stdout: what the oracle prints for each, after a line with its name.
import subprocess

ANCHOR = bytes([7, 0])
INSTALL = b"\x02" + ANCHOR


def slot(n):
    return n.to_bytes(20, "big") + n.to_bytes(32, "big")


def put(n, value):
    return b"\x06" + ANCHOR + slot(n) + value.to_bytes(32, "big")


def look(n):
    return b"\x04" + ANCHOR + slot(n)


def read(n):
    return b"\x07" + ANCHOR + slot(n)


OPEN = b"\x01\x10\x00"
TAKE = b"\x08" + ANCHOR
# An output of 65,536 bytes takes lines up to byte 58,299. An install of the installed anchor prints 12.
parts = OPEN + 21800 * INSTALL
across = OPEN + 4800 * INSTALL + put(1, 9) + put(2, 8) + put(1, 7) + read(3) + read(4) + 100 * INSTALL
across += look(1) + look(2) + look(3) + read(3) + TAKE + INSTALL
# 65,536 bytes, the last of which ends a call, and calls past them.
whole = OPEN + INSTALL + b"".join(put(n % 16, n) for n in range(752)) + look(15) + 17 * INSTALL
assert len(whole) == 65536
past = put(1, 1) + look(1) + 200 * look(2) + b"\xff"
# The limit stands inside a put.
inside = OPEN + INSTALL + b"".join(put(n % 16, n) for n in range(755)) + 10 * look(1)
lists = [
    (b"several parts", parts),
    (b"a put looked up in the next part", across),
    (b"calls past the limit", whole + past),
    (b"the limit inside a call", inside),
]
text = []
for name, data in lists:
    text += [name + b"\n", subprocess.run(["oracle/target/release/oracle", "calls"], input=data, stdout=subprocess.PIPE, check=True).stdout]
open("crates/gate_long_lists/stdin", "wb").write(b"".join(data for _, data in lists))
open("crates/gate_long_lists/stdout", "wb").write(b"".join(text))
