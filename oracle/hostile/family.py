"""What a family of hostile inputs is: a function of a few parameters that makes one image and library within document 01's limits.

A line such as `script_tower k=20 levels=8 use=plain` names a case wholly; `damaged 17 LINE` is that case damaged.
"""
import math
import random

from image import CLASSES, Parts, join_case, parts

FAMILIES = {}

# What waits for change request S-3 (equal types get equal words): two equal towers built apart are compared part by part.
S3 = "S-3"


class UpTo:
    """Numbers from low to high: one of these two, or one between, the smaller as likely as the larger."""

    def __init__(self, low, high):
        self.low, self.high = low, high

    def __iter__(self):
        return iter((self.low, self.high))

    def draw(self, rng):
        between = round(math.exp(rng.uniform(math.log(max(self.low, 1)), math.log(self.high))))
        return rng.choice((self.low, self.high, self.high, between, between, rng.randint(self.low, self.high)))


class Family:
    def __init__(self, make, choices, waits):
        self.make, self.choices, self.waits = make, choices, waits

    def draw(self, rng):
        return {name: values.draw(rng) if isinstance(values, UpTo) else rng.choice(values) for name, values in self.choices.items()}


def family(waits=lambda **_: None, **choices):
    """choices: which values a random search tries; waits: what a case of these parameters waits for, or None."""
    def named(make):
        FAMILIES[make.__name__] = Family(make, choices, waits)
        return make
    return named


def of_line(line):
    """(family, parameters)"""
    name, *given = line.split()
    chosen = FAMILIES[name]
    values = dict(g.split("=", 1) for g in given)
    return chosen, {p: type(next(iter(chosen.choices[p])))(values[p]) for p in chosen.choices}


def to_line(name, values):
    return " ".join([name] + ["%s=%s" % v for v in values.items()])


def made(line):
    """(bytes of the case, what it waits for). Parameters that lead past a limit: ValueError."""
    if line.startswith("damaged "):
        _, seed, rest = line.split(" ", 2)
        chosen, values = of_line(rest)
        return join_case(damage(parts(*chosen.make(**values)), random.Random(line))), chosen.waits(**values)
    chosen, values = of_line(line)
    return join_case(parts(*chosen.make(**values))), chosen.waits(**values)


def other_word(w, words, places, rng):
    """What a word is replaced with: near it, far from it, another kind, another payload, another word of its class."""
    near = (0, 1, w + 1, w - 1, w + 2, 2 * w, 2048, 4096, 8191, 8192)
    far = (0xFFFFFFFF, 0xFFFFFFF, 0x7FFFFFFF, rng.randrange(2 ** 32), w ^ 1 << rng.randrange(32))
    parted = ((w & 0xF0000000) | rng.randrange(2 ** 28), (w & 0xF0000000) | rng.randrange(9000), (rng.randrange(16) << 28) | w & 0xFFFFFFF)
    return rng.choice(near + far + parted + (words[rng.choice(places)],)) & 0xFFFFFFFF


def damage(p, rng):
    """One to four words, each of a class drawn at random, replaced; or a text spoilt; sometimes the words cut off."""
    script, image, text, library = bytearray(p.script), list(p.image), bytearray(p.text), list(p.library)
    for _ in range(rng.choice((1, 1, 1, 2, 4))):
        if rng.random() < 0.05:
            spoilt = rng.choice((script, text))
            spoilt[rng.randrange(len(spoilt))] = rng.choice((0x80, 0xC0, 0xFF, 0xE2))
            continue
        words = rng.choice((image, library))
        kind = rng.choice([c for c in CLASSES if any(type(w) is c for w in words)])
        places = [k for k, w in enumerate(words) if type(w) is kind]
        # The first and the last of a class are drawn as often as all between them.
        at = rng.choice((rng.choice(places), places[0], places[-1]))
        words[at] = kind(other_word(words[at], words, places, rng))
    if rng.random() < 0.1:
        words = rng.choice((image, library))
        del words[rng.randrange(len(words) + 1):]
    return Parts(bytes(script), image, bytes(text), library)
