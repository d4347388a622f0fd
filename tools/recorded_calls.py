#!/usr/bin/env python3
# recorded_calls.py: makes data/lists and stdout of the program gate_recorded_calls from oracle/recorded. Run at the repository's root.
# data/lists: for each list its number of bytes, as 8 bytes, the highest first, and its bytes. stdout: what the oracle printed for it.
import glob

lists, text = [], []
for path in sorted(glob.glob("oracle/recorded/*.calls")):
    data = open(path, "rb").read()
    if not data:
        continue
    name = path[: -len(".calls")]
    lists.append(len(data).to_bytes(8, "big") + data)
    text += [b"listing\n", open(name + ".listing", "rb").read(), b"detail\n", open(name + ".detail", "rb").read()]
open("crates/gate_recorded_calls/data/lists", "wb").write(b"".join(lists))
open("crates/gate_recorded_calls/stdout", "wb").write(b"".join(text) + b"%d lists\n" % len(lists))
