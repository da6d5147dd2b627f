#!/usr/bin/env python3
"""A model of the listing program, written from the rules (docs/RULES.md) alone: it reads one line from standard input and prints the
listing.

It runs the pebblers as objects, a round at a time, as the section "The published recursion" tells it, and shares no code and no closed
form with the library: a pebbler works out its y's one hash at a time, and hands them to its children after its round 2^k.
"""
import sys

NAMES = ["rushing", "speed-1", "speed-2", "optimal"]


def hashes_in(schedule, k, r):
    """t(k, r), for k >= 1 and r from 1 to 2^k - 1."""
    last, half = 2**k - 1, 2 ** (k - 1)
    if schedule == "rushing":
        return last if r == last else 0
    if schedule == "speed-1":
        return 1
    if schedule == "speed-2":
        return 0 if r < half else 2 if r < last else 1
    if r < half:
        return 0
    length = (2**k - r).bit_length()
    return ((k + r) % 2 + k + 1 - ((2 * r) % 2**length).bit_length()) // 2


class Pebbler:
    """P_k(x), with x at a position of the chain. A value is known by its position."""

    def __init__(self, schedule, k, position):
        self.schedule, self.k, self.round = schedule, k, 1
        self.y = {k: position}  # i to the position of y_i
        self.newest, self.left = k, 0  # the newest y, and the hashes that it still takes
        self.children = None

    def held(self):
        if self.children is not None:
            return [p for child in self.children for p in child.held()]
        return list(self.y.values())

    def hash(self):
        if self.left == 0:
            source = self.y[self.newest]
            self.newest -= 1
            self.y[self.newest], self.left = source, 2**self.newest
        self.y[self.newest] += 1
        self.left -= 1

    def run(self):
        """One round: the hashes done, and the positions put out."""
        done, out = 0, []
        if self.children is not None:
            for child in self.children:
                did, gave = child.run()
                done, out = done + did, out + gave
        elif self.round < 2**self.k:
            done = hashes_in(self.schedule, self.k, self.round)
            for _ in range(done):
                self.hash()
        else:
            out = [self.y[0]]
            self.children = [Pebbler(self.schedule, i, self.y[i + 1]) for i in range(self.k)]
        self.round += 1
        # a pebbler that has run all its rounds holds nothing
        if self.round == 2 ** (self.k + 1):
            self.children = []
        return done, out


def listing(schedule, k):
    lines, total = [f"pebbles {schedule} {k}"], 0
    card = Pebbler(schedule, k, 0)
    for r in range(1, 2 ** (k + 1)):
        held = sorted(card.held(), reverse=True)
        done, out = card.run()
        assert len(out) <= 1
        total += done
        lines.append(f"{r} {done} {len(held)} {','.join(map(str, held))} {out[0] if out else '-'}")
    lines.append(f"total {total}")
    return "\n".join(lines) + "\n"


def answer(data):
    line = data.split(b"\n", 1)[0]
    for name in NAMES:
        for k in range(11):
            if line == f"{name} {k}".encode():
                return listing(name, k)
    return "refused\n"


if __name__ == "__main__":
    sys.stdout.write(answer(sys.stdin.buffer.read()))
