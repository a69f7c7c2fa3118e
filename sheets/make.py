#!/usr/bin/env python3
"""Writes the sample sheets into the folder of this file, and prints the table of README.md.

The model below reads docs/SPECIFICATION.md in Python and shares nothing with the crates: sheets, runs,
transfers, the built sequence, recognition as the smallest set of the two rules, certification. The
lines of judging and of the refusals are written out beside their sheets.
"""
import os
from itertools import product

HERE = os.path.dirname(os.path.abspath(__file__))


class Machine:
    def __init__(self, table):
        """table[s][c] is (next state, answer)."""
        self.table, self.n, self.k = table, len(table), len(table[0])

    def run(self, s, commands):
        for c in commands:
            s = self.table[s][c][0]
        return s

    def answers(self, s, commands):
        out = []
        for c in commands:
            s, a = self.table[s][c]
            out.append(a)
        return out

    def payload(self):
        return bytes([self.n, self.k] + [b for row in self.table for pair in row for b in pair])


def transfer(m, a, b):
    """The shortest command string from a to b, first in byte order among those."""
    for length in range(m.n):
        level = [([], a)]
        for _ in range(length):
            seen, onward = set(), []
            for path, s in level:  # in byte order: the first path to a state is the one to keep
                for c in range(m.k):
                    t = m.table[s][c][0]
                    if t not in seen:
                        seen.add(t)
                        onward.append((path + [c], t))
            level = onward
        for path, s in level:
            if s == b:
                return path
    return None


def build(m, word):
    t = []
    for s in range(m.n):
        path = transfer(m, m.run(s, word), (s + 1) % m.n)
        if path is None:
            return None
        t.append(list(word) + path)
    xs = [c for s in list(range(m.n)) + [0] for c in t[s]]
    here = m.run(0, xs)
    for s, c in product(range(m.n), range(m.k)):
        while here != s:
            xs += t[here]
            here = m.run(here, t[here])
        to = m.table[s][c][0]
        xs += [c] + t[to]
        here = m.run(to, t[to])
    return xs


def recognised(m, word, xs):
    """The smallest set of the two rules, by pairs of places, until nothing is added."""
    n, size = len(xs), len(word)
    states = [0]
    for c in xs:
        states.append(m.table[states[-1]][c][0])
    marks = [xs[p:p + size] == list(word) and p + size <= n for p in range(n + 1)]
    changed = True
    while changed:
        changed = False
        places = [p for p in range(n + 1) if marks[p]]
        for p, q in product(places, places):
            if p == q or states[p] != states[q]:
                continue
            i = 0
            while p + i < n and q + i < n and xs[p + i] == xs[q + i]:
                i += 1
                if marks[p + i] and not marks[q + i]:
                    marks[q + i] = changed = True
    return marks, states


def certify(m, word, xs):
    marks, states = recognised(m, word, xs)
    number = None
    if not marks[0]:
        number = 0
    else:
        for s, c in product(range(m.n), range(m.k)):
            if not any(states[i] == s and xs[i] == c and marks[i] and marks[i + 1] for i in range(len(xs))):
                number = 1 + s * m.k + c
                break
    count = sum(marks)
    return f"CERTIFIED {count}" if number is None else f"OPEN {number} recognised {count}"


def record(kind, payload):
    return len(payload).to_bytes(4, "little") + kind.to_bytes(2, "little") + bytes(payload)


def sheet(*payloads):
    return b"".join(record(kind, p) for kind, p in enumerate(payloads, 1))


TWIN = Machine([[(1, 0), (0, 5)], [(0, 1), (1, 5)]])
HOUSE = Machine([
    [(0, 31), (1, 6), (2, 6), (0, 21)],
    [(1, 2), (0, 6), (3, 6), (1, 21)],
    [(2, 31), (2, 21), (2, 21), (0, 6)],
    [(3, 2), (3, 21), (3, 21), (1, 6)],
])
# Stands where no answer came, and is no answer that a table may have.
SILENCE = 255
# The last command leads to the next state, all others stay: the longest sequence that there is.
RING = Machine([[((8 * s + c + 1) // 8 % 10, (8 * s + c) % 9) for c in range(8)] for s in range(10)])
RING_WORD = list(range(8)) * 2

rows = []


def row(service, name, expected):
    rows.append((service, name, expected))


def put(name, data, service, expected):
    with open(os.path.join(HERE, name), "wb") as f:
        f.write(data)
    row(service, name, expected)


def listed(payload):
    return " ".join(str(b) for b in payload)


def unit(name, m, word):
    xs = build(m, word)
    ys = m.answers(0, xs)
    front = (m.payload(), bytes(word))
    put(name, sheet(*front), "build", f"{name}-built")
    row("read 1", name, listed(m.payload()))
    row("read 2", name, listed(word))
    put(f"{name}-built", sheet(*front, xs), "certify", certify(m, word, xs))
    put(f"{name}-passed", sheet(*front, xs, ys), "judge", f"PASS {len(xs)} end {m.run(0, xs)}")
    bad = list(ys)
    bad[6] = 6 if ys[6] != 6 else 7
    put(f"{name}-wrong", sheet(*front, xs, bad), "judge", f"WRONG at 6 want {ys[6]} got {bad[6]}")
    put(f"{name}-unfinished", sheet(*front, xs, ys[:4]), "judge", "UNFINISHED 4")
    row("read 4", f"{name}-unfinished", listed(ys[:4]))
    start4 = len(sheet(*front, xs))
    put(f"{name}-refused", sheet(*front, xs, ys + [0]), "judge", f"REFUSED 10 at {start4} answers")


def unheard(name, m, word, ys, place):
    """ys are the answers to the built sequence, the first that did not come at this place."""
    put(f"{name}-unheard", sheet(m.payload(), bytes(word), build(m, word), ys), "judge", f"UNHEARD at {place}")


unit("twin", TWIN, [0])
row("read 3", "twin-built", listed(build(TWIN, [0])))
row("read 4", "twin-refused", listed(TWIN.answers(0, build(TWIN, [0])) + [0]))
unheard("twin", TWIN, [0], TWIN.answers(0, build(TWIN, [0]))[:3] + [SILENCE], 3)
row("read 4", "twin-unheard", "0 1 0 255")
for kind in "3", "0", "7", "65535":
    row(f"read {kind}", "twin", f"REFUSED 2 at {len(sheet(TWIN.payload(), [0]))} record kind")
put("twin-word", sheet(TWIN.payload(), [1], [0], []), "judge", "REFUSED 6 at 1 word does not separate")
row("build", "twin-word", "REFUSED 6 at 1 word does not separate")
row("read 0002", "twin-word", "1")
row("read 4", "twin-word", "")
put("twin-open", sheet(TWIN.payload(), [0], [0, 0, 1, 0, 1, 0], []), "certify", certify(TWIN, [0], [0, 0, 1, 0, 1, 0]))
row("judge", "twin-open", "REFUSED 11 at 2 not certified")
DISCONNECTED = Machine([[(1, 0), (0, 5)], [(1, 1), (1, 5)]])  # entry (1, 0) leads to 1
put("twin-split", sheet(DISCONNECTED.payload(), [0]), "build", "REFUSED 8 at 1 not connected")
SILENT = Machine([[(1, 0), (0, SILENCE)], [(0, 1), (1, SILENCE)]])  # command 1 is specified to have no answer
xs = build(TWIN, [0])
put("twin-silent", sheet(SILENT.payload(), [0], xs, SILENT.answers(0, xs)), "judge", "REFUSED 12 at 11")
for service in "certify", "build":
    row(service, "twin-silent", "REFUSED 12 at 11")
row("read 1", "twin-silent", listed(SILENT.payload()))
put("twin-cut", sheet(TWIN.payload(), [0])[:-1], "certify", "REFUSED 1 at 16 sheet cut or too long")
row("read 1", "twin-cut", "REFUSED 1 at 16 sheet cut or too long")
unit("house", HOUSE, [0, 1])
unheard("house", HOUSE, [0, 1], [SILENCE] * len(build(HOUSE, [0, 1])), 0)  # its plug is out
row("house", "none", "house")
ring = build(RING, RING_WORD)
put("longest", sheet(RING.payload(), RING_WORD, ring, RING.answers(0, ring)), "judge", f"PASS {len(ring)} end {RING.run(0, ring)}")

print("| service | sheet | expected |")
print("|---|---|---|")
for service, name, expected in rows:
    print(f"| {service} | {name} | `{expected}` |" if expected else f"| {service} | {name} | |")
