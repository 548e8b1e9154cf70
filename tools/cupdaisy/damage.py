"""Damaged copies of streams, drawn by seeds."""
import random

from cupdaisy.streams import START


def flip(rng, text):
    for _ in range(rng.choice((1, 1, 1, 3, 10))):
        text[rng.randrange(len(text))] ^= 1 << rng.randrange(8)


def cut(rng, text):
    at = rng.randrange(len(text))
    del text[at:at + rng.choice((1, 1, 2, 5, 50))]


def put_in(rng, text):
    at = rng.randrange(len(text))
    text[at:at] = bytes(rng.choices((0, 0, 0, 1, 2, 3, 0x67, 0x68, 0xFF), k=rng.randint(1, 6)))


def shorten(rng, text):
    del text[rng.randrange(len(text)):]


def move_unit(rng, text):
    units = bytes(text).split(START)
    unit = units[rng.randrange(len(units))]
    if rng.random() < 0.7:
        units.remove(unit)
    units.insert(rng.randint(0, len(units)), unit)
    text[:] = START.join(units)


def damaged(seed, text):
    """A damaged copy, the same for the same seed."""
    rng, text = random.Random(seed), bytearray(text)
    for _ in range(rng.choice((1, 1, 2, 4))):
        if text:
            rng.choice((flip, flip, cut, put_in, shorten, move_unit, move_unit))(rng, text)
    return bytes(text)
