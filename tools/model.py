#!/usr/bin/env python3
"""A second model of recordings: what is printed of one, by the rules of docs/ and with no code of the crates."""

NAMES = {1: "program", 2: "program", 3: "replay", 4: "replay", 5: "replay", 6: "replay", 7: "buffer", 8: "replay",
         9: "replay", 10: "replay", 11: "buffer", 12: "buffer", 13: "replay", 14: "replay", 15: "replay",
         16: "recording", 17: "recording", 18: "recording"}
M32 = 1 << 32


class Refused(Exception):
    def __init__(self, number):
        self.number = number


def le(bs):
    return sum(b << (8 * i) for i, b in enumerate(bs))


class Run:
    """The ledger of docs/replay.md."""

    def __init__(self, buffer, strong):
        self.buffer, self.strong = buffer, strong
        self.lines = []
        self.label = [0] * 8
        self.regs = [[0] * 8 for _ in range(8)]
        self.mem = [0] * 16
        self.actions = [[] for _ in range(8)]     # dicts
        self.waiting = [[] for _ in range(8)]     # (name, cell, value), oldest first
        self.drained = [[] for _ in range(16)]    # names
        self.delayed = set()

    # --- adding
    def add(self, f):
        if len(self.lines) >= 128:
            raise Refused(1)
        thread, label, nxt, form, reg, op, ta, tb = f[:8]
        a, b = le(f[8:12]), le(f[12:16])
        ok = thread < 8 and label < 64 and nxt < 64 and form < 5
        uses_reg = form in (0, 3)
        uses_op = form == 3
        uses_a = form in (0, 1, 3, 4)
        uses_b = form in (1, 3)

        def operand(used, tag, v):
            if not used:
                return tag == 0 and v == 0
            return (tag == 0 and v < 8) or tag == 1
        ok = ok and (reg < 8 if uses_reg else reg == 0)
        ok = ok and (op < 6 if uses_op else op == 0)
        ok = ok and operand(uses_a, ta, a) and operand(uses_b, tb, b)
        if not ok:
            raise Refused(2)
        self.lines.append((thread, label, nxt, form, reg, op, (ta, a), (tb, b)))

    # --- rules of the buffers
    def free_to_step(self, t):
        if any(c in self.strong for _, c, _ in self.waiting[t]):
            return False
        if self.buffer == 0:
            return not any(self.waiting)
        return True

    def drain_free(self, t, cell):
        w = self.waiting[t]
        if self.buffer == 1:
            return bool(w) and w[0][1] == cell
        return any(c == cell for _, c, _ in w)

    def value(self, t, o):
        tag, v = o
        return v if tag == 1 else self.regs[t][v]

    def run(self, t, n):
        if t > 7:
            raise Refused(3)
        if n >= len(self.lines) or self.lines[n][0] != t:
            raise Refused(4)
        _, label, nxt, form, reg, op, a, b = self.lines[n]
        if self.label[t] != label:
            raise Refused(5)
        if sum(map(len, self.actions)) >= 256:
            raise Refused(6)
        if not self.free_to_step(t):
            raise Refused(7)
        name = (t, len(self.actions[t]))
        late = bool(self.waiting[t])
        act = {"kind": None}
        va, vb = self.value(t, a), self.value(t, b)
        if form == 0:
            if va > 15:
                raise Refused(9)
            own = [w for w in self.waiting[t] if w[1] == va]
            if own:
                src, v = own[-1][0], own[-1][2]
            elif self.drained[va]:
                src, v = self.drained[va][-1], self.mem[va]
            else:
                src, v = None, 0
            act = {"kind": "load", "cell": va, "src": src}
            self.regs[t][reg] = v
        elif form == 1:
            if va > 15:
                raise Refused(9)
            if len(self.waiting[t]) >= 16:
                raise Refused(11)
            self.waiting[t].append((name, va, vb))
            act = {"kind": "store", "cell": va}
        elif form == 2:
            if self.waiting[t]:
                raise Refused(8)
        elif form == 3:
            r = [(va + vb) % M32, (va - vb) % M32, va & vb, va ^ vb, int(va == vb), int(va < vb)][op]
            self.regs[t][reg] = r
        else:
            if va == 0:
                raise Refused(10)
        if late:
            self.delayed.add(t)
        self.actions[t].append(act)
        self.label[t] = nxt

    def drain(self, t, cell):
        if t > 7:
            raise Refused(3)
        if cell > 15:
            raise Refused(9)
        if not self.drain_free(t, cell):
            raise Refused(12)
        w = next(x for x in self.waiting[t] if x[1] == cell)
        self.waiting[t].remove(w)
        self.drained[cell].append(w[0])
        self.mem[cell] = w[2]

    # --- judgement
    def edges(self):
        es = set()
        for t in range(8):
            for k in range(len(self.actions[t]) - 1):
                es.add(((t, k), (t, k + 1)))
        for c in range(16):
            for x, y in zip(self.drained[c], self.drained[c][1:]):
                es.add((x, y))
        for t in range(8):
            for k, a in enumerate(self.actions[t]):
                if a["kind"] == "load":
                    line = self.drained[a["cell"]]
                    if a["src"] is not None:
                        es.add((a["src"], (t, k)))
                        i = line.index(a["src"]) + 1
                    else:
                        i = 0
                    if i < len(line):
                        es.add(((t, k), line[i]))
        return es

    def judge(self):
        if any(self.waiting):
            raise Refused(14)
        names = [(t, k) for t in range(8) for k in range(len(self.actions[t]))]
        es = self.edges()
        placed, done = [], set()
        while True:
            for n in names:          # names ascend by thread, then position
                if n not in done and all(x in done for x, y in es if y == n):
                    placed.append(n)
                    done.add(n)
                    break
            else:
                break
        if len(placed) == len(names):
            return "sequential", placed
        return "violation", ring(names, es)


def ring(names, es):
    """The ring, which must be the only one."""
    after = {n: sorted(y for x, y in es if x == n) for n in names}
    found = []

    def walk(path, start):
        for y in after[path[-1]]:
            if y == start:
                found.append(list(path))
            elif y > start and y not in path:
                walk(path + [y], start)
    for n in names:
        walk([n], n)
    assert len(found) == 1, found
    return found[0]


SIZES = {1: 8, 2: 20, 3: 6, 4: 6}


def text(bs):
    bs = bytes(bs)
    at, number, run, moved = 0, 0, None, False
    try:
        while at < len(bs):
            if len(bs) - at < 4:
                raise Refused(16)
            size, kind = le(bs[at:at + 2]), le(bs[at + 2:at + 4])
            if SIZES.get(kind) != size:
                raise Refused(17)
            if len(bs) - at < size:
                raise Refused(16)
            body = bs[at + 4:at + size]
            if kind == 1 and (body[0] > 2 or body[1] != 0):
                raise Refused(17)
            first = run is None
            if (kind == 1) != first or (kind == 2 and moved):
                raise Refused(18)
            if kind == 1:
                mask = le(body[2:4])
                run = Run(body[0], {c for c in range(16) if mask >> c & 1})
            elif kind == 2:
                run.add(body)
            else:
                moved = True
                (run.run if kind == 3 else run.drain)(body[0], body[1])
            at += size
            number += 1
        if run is None:
            raise Refused(18)
        word, names = run.judge()
    except Refused as e:
        return f"refused {e.number} {NAMES[e.number]} {number} {at}\n"
    return f"{word} {len(names)} {len(run.delayed)}\n" + "".join(f"{t} {k}\n" for t, k in names)


if __name__ == "__main__":
    import sys
    for p in sys.argv[1:]:
        print("==", p)
        print(text(open(p, "rb").read()), end="")
