"""A stream is loaded, decoded by a decoder of the program's own, shown, and edited. docs/EMBEDDING.md has the same in other languages.

    PYTHONPATH=python python3 examples/embed.py FILE
"""
import sys
from functools import reduce

import cupdaisy


def mixed(sum, number):
    """Mixes a number into a sum (FNV-1a)."""
    return (sum ^ number) * 0x01000193 & 0xFFFFFFFF


def decode(session, job):
    """What the decoder makes of the surfaces that a job refers to, and of its bytes: here a number in the place of a picture."""
    picture = reduce(mixed, (each.surface for each in session.job_references(job.number)), 0)
    for slice in range(session.job_input(job.number).slices):
        picture = reduce(mixed, session.job_bytes(job.number, slice), picture)
    return picture


def play(session):
    """Decodes what is missing, and shows all in output order."""
    decoded = 0
    for job in session.jobs():
        session.land(job.number, decode(session, job))
        decoded += 1
    shown = [session.show(unit) for unit in session.in_output_order()]
    print(f"decoded {decoded}, shown {len(shown)}, together {reduce(mixed, shown, 0):08x}")


with cupdaisy.Session(cache=4) as session:
    with open(sys.argv[1], "rb") as stream:
        session.load(stream.read())
    play(session)
    session.delete(12)
    play(session)
    print("given back", len(list(session.released())))
