#!/usr/bin/env python3
# store_damaged.py: makes stdout of the program gate_store_damaged. The answers on damaged copies come from a reading of their bytes by docs/LAYOUT.md and by
# "When bytes are a store" of docs/REFERENCE.md, which shares nothing with the code. Run at the repository's root.
from collections import Counter

# docs/LAYOUT.md: words of a record and of an awaiting slot, and where layer ends, awaiting slots and records begin.
RECORD, AWAITING = 14, 10
ENDS, QUEUE, RECORDS = 24, 280, 920
MAGIC = 0x706F78696C6D6502
CALLS = """look before open 20
open 0 1
open 4097 1
open depth 256 2
open 5 9
open 4 0
look 21
install 101
install again 100
put 1 0
put 2 0
put elsewhere 22
get 1 1007
get 3 100
put 3 0
put 4 0
put 5 23
put 4 again 0
look 4 1006
read 5 101
read 5 again 102
take 101
read 6 101
"""


def slot(n):
    return (17, 0, n, 0, 0, 0, n)


def prepared():
    """The store after these calls: capacity 4, depth limit 1, idle 2, at block 10 with hash 5, four records in the top, two awaiting slots."""
    words = [MAGIC, 4, 1, 1, 2, 1, 10, 1, 0, 0, 0, 5, 0, 4, 2]
    words += [3, 0, 3, 0, 0, 0, 0, 0, 1] + [0] * 256
    words += slot(5) + (2, 1, 0) + slot(6) + (1, 0, 0) + (0,) * (RECORDS - QUEUE - 2 * AWAITING)
    for n, value in ((1, 7), (2, 8), (3, 3), (4, 6)):
        words += slot(n) + (10, 1, 0, 0, 0, value, 0)
    return b"".join(w.to_bytes(8, "big") for w in words)


def rising(slots):
    return all(a < b for a, b in zip(slots, slots[1:]))


def serves(bounded, idle, use, now):
    return not bounded or max(0, now - use) <= idle


def generation(w, records):
    """The layers, the top and whether the rules hold, of a store with a generation."""
    now, depth, count, awaiting = w[6], w[12], w[13], w[14]
    if depth > w[2] or count > w[1] or awaiting > 64 or w[7] > 1 or (w[7] == 0 and any(w[8:12])):
        return None
    ends = w[ENDS : ENDS + depth + 1]
    if any(w[ENDS + depth + 1 : QUEUE]) or ends != sorted(ends) or ends[-1] > count or any(any(r) for r in records[count:]):
        return None
    waits = [tuple(w[QUEUE + AWAITING * i : QUEUE + AWAITING * (i + 1)]) for i in range(64)]
    if any(any(a) for a in waits[awaiting:]) or not rising([a[:7] for a in waits[:awaiting]]):
        return None
    if any(a[0] >= 2**32 or a[7] < 1 or a[8] > 1 or a[9] for a in waits[:awaiting]):
        return None
    accepted, served, waiting, valued, refused, rounds, members, errors, coalesced = w[15:24]
    if accepted > 2**32 - 1 or accepted != served + waiting + valued + refused or waiting != sum(a[7] for a in waits):
        return None
    if coalesced + members + awaiting != waiting + valued + refused or rounds > members or errors > members:
        return None
    below, start = {}, 0
    for end in ends + [count]:
        layer = records[start:end]
        if not rising([r[:7] for r in layer]):
            return None
        for r in layer:
            key, use, flag = r[:7], r[7], r[8]
            old = below.get(key)
            if r[0] >= 2**32 or flag > 1 or use > now or (flag == 0 and any(r[9:13])) or r[13] or (old and use < old[0]):
                return None
            if flag == 0 and (old is None or (start == ends[-1] and not serves(w[3], w[4], old[0], now))):
                return None
        for r in layer:
            below[r[:7]] = (r[7], r[9:13] if r[8] else below[r[:7]][1])
        start = end
    return below


def look(data):
    """A look of slot 1 at block 10 with hash 5."""
    if len(data) < 8 * (RECORDS + RECORD):
        return "no store"
    w = [int.from_bytes(data[i : i + 8], "big") for i in range(0, len(data) - 7, 8)]
    if w[0] != MAGIC or not 1 <= w[1] <= 4096 or not 1 <= w[2] <= 255 or w[3] > 1 or (w[3] == 0 and w[4]) or w[5] > 1 or len(data) < 8 * (RECORDS + RECORD * w[1]):
        return "no store"
    if w[5] == 0:
        return "no store" if any(w[6 : RECORDS + RECORD * w[1]]) else "other refusals"
    held = generation(w, [tuple(w[RECORDS + RECORD * i : RECORDS + RECORD * (i + 1)]) for i in range(w[1])])
    if held is None:
        return "no store"
    if w[6:12] != [10, 1, 0, 0, 0, 5]:
        return "other refusals"
    use, value = held.get(slot(1), (0, None))
    if value is None or not serves(w[3], w[4], use, 10):
        return "none"
    return "same value" if value == (0, 0, 0, 7) else "another value"


def tally(title, copies):
    counts = Counter(map(look, copies))
    return title + "\n" + "".join(f"  {k} {counts[k]}\n" for k in ("no store", "same value", "another value", "none", "other refusals"))


def damaged(data, change):
    return (data[:i] + bytes([change(b)]) + data[i + 1 :] for i, b in enumerate(data) if change(b) != b)


store = prepared()
text = CALLS + tally("truncated copies", (store[:n] for n in range(len(store))))
text += tally("copies with a byte one more", damaged(store, lambda b: (b + 1) % 256))
text += tally("copies with a byte's top bit flipped", damaged(store, lambda b: b ^ 128))
text += tally("copies with a byte 0", damaged(store, lambda b: 0))
text += tally("copies with a byte 255", damaged(store, lambda b: 255))
open("crates/gate_store_damaged/stdout", "w").write(text + "look 1 1007\n")
