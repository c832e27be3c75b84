#!/usr/bin/env python3
"""What `rig` must print, worked out from the rules of a block store alone.

This is an independent model: a dictionary of the blocks that are out, and for each store the rule by which it picks a free number.
`python3 tests/rig.py | diff - crates/rig/stdout` shows nothing when the stored output is what the rules say.
"""

SIZE = 128
SENTENCE = {
    1: "no block left",
    2: "the block is not out",
    3: "the block has 65535 holders",
    4: "a block has sixteen words",
}


class Refused(Exception):
    """A refusal, by its number."""


class Store:
    def __init__(self, rule):
        self.rule = rule
        self.out = {}  # number -> [holders, words]
        self.freed = list(range(SIZE))  # the one freed last first
        self.last = SIZE - 1

    def take(self):
        if not self.freed:
            raise Refused(1)
        if self.rule == "lowest":
            b = min(self.freed)
        elif self.rule == "freed last":
            b = self.freed[0]
        else:
            b = next((self.last + k) % SIZE for k in range(1, SIZE + 1) if (self.last + k) % SIZE in self.freed)
        self.freed.remove(b)
        self.out[b] = [1, [0] * 16]
        self.last = b
        return b

    def block(self, b):
        if b not in self.out:
            raise Refused(2)
        return self.out[b]

    def keep(self, b):
        block = self.block(b)
        if block[0] == 65535:
            raise Refused(3)
        block[0] += 1

    def release(self, b):
        block = self.block(b)
        block[0] -= 1
        if block[0] == 0:
            del self.out[b]
            self.freed.insert(0, b)

    def word(self, b, i):
        block = self.block(b)
        if i > 15:
            raise Refused(4)
        return block[1]


def often(act, times):
    for done in range(times):
        try:
            act()
        except Refused as e:
            return f"{done} done, then refused {e}: {SENTENCE[e.args[0]]}"
    return str(times)


def play(rule, calls):
    """The answer to each call, with the number that was picked or None."""
    store, picks, answers = Store(rule), [], []
    for name, *args in calls:
        if args and isinstance(args[0], str):
            args[0] = picks["abcdefghijklmnopqrstuvwxyz".index(args[0])]
        try:
            picked = None
            if name == "size":
                told = SIZE
            elif name == "left":
                told = len(store.freed)
            elif name == "take":
                picked = store.take()
                picks.append(picked)
                told = "out"
            elif name == "rest":
                told = often(store.take, SIZE + 1)
            elif name == "often":
                told = often(lambda: store.keep(args[0]), args[1])
            elif name == "get":
                told = store.word(args[0], args[1])[args[1]]
            elif name == "put":
                store.word(args[0], args[1])[args[1]] = args[2]
                told = "done"
            elif name == "holders":
                told = store.block(args[0])[0]
            else:
                getattr(store, name)(args[0])
                told = "done"
        except Refused as e:
            told = f"refused {e}: {SENTENCE[e.args[0]]}"
        answers.append((str(told), picked))
    return answers


def asked(name, *args):
    who = args[0] if args and isinstance(args[0], str) else f"number {args[0]}" if args else ""
    return {
        "rest": "take until refused",
        "often": f"keep {who} {args[1]} times" if len(args) > 1 else "",
        "get": f"get {who} word {args[1]}" if len(args) > 1 else "",
        "put": f"put {who} word {args[1]}: {args[2]}" if len(args) > 2 else "",
    }.get(name, f"{name} {who}".strip())


CALLS = [
    ("size",), ("left",), ("take",), ("take",), ("take",), ("take",), ("left",),
    ("put", "a", 0, 7), ("put", "a", 15, 4294967295), ("get", "a", 0), ("get", "a", 15), ("get", "b", 0),
    ("get", "a", 16), ("put", 128, 16, 1),
    ("keep", "b"), ("holders", "b"), ("release", "b"), ("holders", "b"),
    ("release", "a"), ("release", "c"), ("get", "a", 0), ("release", "a"), ("left",),
    ("take",), ("get", "e", 0), ("take",), ("take",), ("left",),
    ("often", "d", 70000), ("holders", "d"),
    ("rest",), ("take",), ("left",), ("release", "b"), ("left",), ("take",),
]

print("One list of calls on three block stores of 128 blocks. A block goes by a letter, in the order of the takes.")
print(f"{'call':<28}{'answer':<48}{'map':>5}{'chain':>7}{'ring':>6}")
runs = [play(rule, CALLS) for rule in ("lowest", "freed last", "round")]
for call, (told, x), (b, y), (c, z) in zip(CALLS, *runs):
    assert told == b == c, call
    print(f"{asked(*call):<28}" + (told if x is None else f"{told:<48}{x:>5}{y:>7}{z:>6}"))
print("All answers agree; only the numbers that take picked differ.")
