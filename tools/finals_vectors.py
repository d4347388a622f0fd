#!/usr/bin/env python3
# finals_vectors.py ORACLE OUT: makes the data file of the program gate_final_writes_vectors.
# Lists come from `ORACLE gen-finals SEED` and from hand, answers from `ORACLE finals`; the refusals 9 and 10 are document 01's.
# A vector: 16 numbers of 8 bytes (the lengths of the five lists and of the two outputs; form and number of each cap;
# 0 and a refusal's number, or 1 and the four counts), the five lists, the writes and the reads that the outputs begin with.
import random, subprocess, sys

ORACLE, OUT = sys.argv[1], sys.argv[2]
BIG = 2 ** 64 - 1


class Reader:
    def __init__(self, data):
        self.data, self.at = data, 0

    def take(self, n):
        self.at += n
        return self.data[self.at - n:self.at]

    def number(self):
        x = shift = 0
        while True:
            b = self.take(1)[0]
            x |= (b & 127) << shift
            shift += 7
            if b < 128:
                return x

    def cap(self):
        return self.number() if self.take(1)[0] else None


def number(x):
    out = b''
    while x >= 128:
        out += bytes([x % 128 + 128])
        x //= 128
    return out + bytes([x])


# An input as (addresses, cap, cap, accounts); an account as (address, slots, reads); a slot as (index, changes).
def parse(data):
    r = Reader(data)
    addresses = [r.take(20) for _ in range(r.number())]
    caps = r.cap(), r.cap()
    accounts = []
    for _ in range(r.number()):
        address = r.take(20)
        slots = []
        for _ in range(r.number()):
            index = r.take(32)
            slots.append((index, [(r.number(), r.take(32)) for _ in range(r.number())]))
        accounts.append((address, slots, [r.take(32) for _ in range(r.number())]))
    return addresses, caps[0], caps[1], accounts


def written(addresses, max_writes, max_reads, accounts):
    out = number(len(addresses)) + b''.join(addresses)
    for c in (max_writes, max_reads):
        out += b'\0' if c is None else b'\1' + number(c)
    out += number(len(accounts))
    for address, slots, reads in accounts:
        out += address + number(len(slots))
        for index, changes in slots:
            out += index + number(len(changes)) + b''.join(number(i) + v for i, v in changes)
        out += number(len(reads)) + b''.join(reads)
    return out


def oracle(words, data=b''):
    return subprocess.run([ORACLE] + words, input=data, stdout=subprocess.PIPE, check=True).stdout


# What the Rust answers: writes, reads, filtered, capped.
def answer(plan):
    writes, reads, counts = [], [], {}
    for line in oracle(['finals'], written(*plan)).decode().splitlines():
        f = line.split()
        if f[0] == 'write':
            writes.append(bytes.fromhex(f[1] + f[2]))
        elif f[0] == 'read':
            reads.append(bytes.fromhex(f[1]))
        else:
            counts[f[0]] = int(f[1])
    return writes, reads, counts['filtered'], counts['capped']


def u64(x):
    return x.to_bytes(8, 'big')


# The five lists, and the numbers of slots and reads.
def flat(plan):
    addresses, _, _, accounts = plan
    slots = [s for a in accounts for s in a[1]]
    lists = [
        b''.join(a + u64(len(s)) + u64(len(r)) for a, s, r in accounts),
        b''.join(i + u64(len(c)) for i, c in slots),
        b''.join(u64(i) + v for s in slots for i, v in s[1]),
        b''.join(i for a in accounts for i in a[2]),
        b''.join(addresses),
    ]
    return lists, len(slots), len(lists[3]) // 32


def vector(plan, lists, outputs, said):
    head = [len(l) for l in lists] + outputs
    for c in plan[1:3]:
        head += [0, 0] if c is None else [1, c]
    if isinstance(said, int):
        return b''.join(map(u64, head + [0, said, 0, 0, 0])) + b''.join(lists)
    writes, reads, filtered, capped = said
    head += [1, len(writes), len(reads), filtered, capped]
    return b''.join(map(u64, head)) + b''.join(lists + writes + reads)


def ragged(lists, r):
    return [l + bytes(r.randrange(256) for _ in range(r.randrange(w))) for l, w in zip(lists, (36, 40, 40, 32, 20))]


# A count changed by one, or two counts so that their sum passes 2^64.
def miscounted(lists, r):
    places = [(0, 36 * k + o) for k in range(len(lists[0]) // 36) for o in (20, 28)] + [(1, 40 * k + 32) for k in range(len(lists[1]) // 40)]
    if not places:
        return None
    l, at = r.choice(places)
    old = int.from_bytes(lists[l][at:at + 8], 'big')
    new = r.choice([old + 1, BIG, 2 ** 63] + ([old - 1] if old else []))
    out = list(lists)
    out[l] = lists[l][:at] + u64(new) + lists[l][at + 8:]
    return out


def wrapped(lists, o):
    if len(lists[0]) < 72:
        return None
    a = bytearray(lists[0])
    total = sum(int.from_bytes(a[k + o:k + o + 8], 'big') for k in range(0, len(a), 36))
    rest = total - sum(int.from_bytes(a[k + o:k + o + 8], 'big') for k in (0, 36))
    a[o:o + 8] = u64(BIG)
    a[36 + o:36 + o + 8] = u64(total - rest + 1)
    return [bytes(a)] + lists[1:]


A = [bytes(19) + bytes([k]) for k in range(3)] + [b'\xff' * 20, b'\0\0\0\1' + bytes(16), bytes(11) + b'\1' + bytes(8)]
W = [bytes(31) + bytes([k]) for k in range(4)] + [b'\xff' * 32]


# Lists made by hand: nothing, an account without entries, slots without a change, an address twice on the list and on the plan, addresses that differ in one word.
def by_hand():
    none = (A[0], [], [])
    bare = (A[1], [(W[0], []), (W[1], [])], [])
    one = (A[0], [(W[0], [(1, W[1]), (2, W[2])]), (W[1], []), (W[0], [(5, W[3]), (5, W[4]), (0, W[0])])], [W[2], W[2]])
    two = (A[0], [(W[3], [(BIG, W[4])])], [W[0]])
    reads = (A[2], [], [W[0], W[4], W[1]])
    groups = [[], [none], [bare], [none, bare, none], [one], [one, two], [two, reads, one], [reads], [bare, reads, bare],
              [(a, [(W[1], [(7, W[k % 5])])], [W[k % 5]]) for k, a in enumerate(A)]]
    caps = [(None, None), (0, 0), (1, None), (BIG, 2)]
    k = 0
    for g in groups:
        for addresses in [], [A[0]], [A[0], A[0]], [A[5], A[3], A[1]], [A[4]]:
            k += 3
            for mw, mr in caps[k % 4], caps[(k + 1) % 4]:
                yield addresses, mw, mr, g


def vectors():
    r = random.Random(28)
    inputs = [oracle(['gen-finals', str(k)]) for k in range(120)]
    seeds = [parse(i) for i in inputs if not oracle(['finals'], i).startswith(b'no')]
    for plan in list(by_hand()) + seeds:
        lists, slots, reads = flat(plan)
        exact = [84 * slots, 52 * reads]
        said = answer(plan)
        yield vector(plan, lists, exact, said)
        # caps exactly at and one below what was found, other addresses, longer outputs, bytes past the lists
        free = (plan[0], None, None, plan[3])
        whole = answer(free)
        kind = r.randrange(4)
        if kind < 2:
            caps = (len(whole[0]), len(whole[1])) if kind else (max(0, len(whole[0]) - 1), max(0, len(whole[1]) - 1))
            capped = (plan[0],) + caps + (plan[3],)
            yield vector(capped, lists, exact, answer(capped))
        elif kind == 2:
            chosen = (r.sample([a[0] for a in plan[3]], len(plan[3]) // 2) * 2, 0, None, plan[3])
            yield vector(chosen, flat(chosen)[0], exact, answer(chosen))
        else:
            yield vector(plan, ragged(lists, r), [exact[0] + r.randrange(200), exact[1] + r.randrange(200)], said)
        # outputs one entry or one byte too short, a count one off, and both
        if slots and r.randrange(2):
            yield vector(plan, lists, [exact[0] - r.choice([1, 84]), exact[1] + r.randrange(60)], 9)
        if reads and r.randrange(2):
            yield vector(plan, lists, [exact[0] + r.randrange(90), exact[1] - r.choice([1, 52])], 9)
        bad = miscounted(lists, r)
        if bad:
            yield vector(plan, bad, exact if r.randrange(2) else [0, 0], 10)
        bad = wrapped(lists, r.choice([20, 28]))
        if bad and r.randrange(3) == 0:
            yield vector(plan, bad, exact, 10)


count = size = 0
with open(OUT, 'wb') as f:
    for v in vectors():
        assert all(int.from_bytes(v[8 * k:8 * k + 8], 'big') <= 8192 for k in range(7))
        f.write(v)
        count, size = count + 1, size + len(v)
print(count, 'vectors', size, 'bytes')
