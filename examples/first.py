"""Loads a stream, decodes its pictures by a function, and prints what is shown of each unit.

    PYTHONPATH=python python3 examples/first.py FILE
"""
import hashlib
import sys

import cupdaisy


def decode(job):
    """Makes a surface's picture of a job: here a sum of its slices and of the surfaces that it refers to."""
    slices = [session.job_bytes(job.number, place) for place in range(session.job_input(job.number).slices)]
    references = [reference.surface for reference in session.job_references(job.number)]
    return hashlib.sha256(b"".join(slices + references)).digest()


with cupdaisy.Session() as session:
    with open(sys.argv[1], "rb") as stream:
        session.load(stream.read())
    for job in session.jobs():
        session.land(job.number, decode(job))
    for unit in session:
        surface = session.show(unit)
        print(unit, surface.hex() if surface else "no picture")
