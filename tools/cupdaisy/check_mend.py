"""Runs `preview mend` on damaged streams, compares it with the model, and plans what it writes."""
import concurrent.futures
import os
import pathlib
import random

from cupdaisy.command_line import add_numbers, keep, parser_of
from cupdaisy.damage import damaged
from cupdaisy.mending import mended
from cupdaisy.processes import run
from cupdaisy.program import program
from cupdaisy.streams import START

SECONDS = 10
# NAL units that no command reads, by their first bytes.
FOREIGN = (b"\x6E\x40\x80", b"\x02\x80", b"\xE7\x42", b"\x67\x42", b"\x68\x00", b"\x25\x88\x84", b"\x05\x88\x84", b"\x65\x9A\x23",
           b"\x41\x94\x23", b"")


def drawn(seed, text):
    """A damaged copy, in some of which something foreign stands in front or between NAL units."""
    rng = random.Random(seed)
    for _ in range(rng.choice((0, 0, 1, 3))):
        parts = damaged(rng.randrange(1 << 30), text).split(START)
        parts.insert(rng.randint(1, len(parts)), rng.choice(FOREIGN) + bytes(rng.choice((0, 0, 1, 2))))
        text = rng.choice((b"", b"", b"\0", b"\0\x0A\0")) + START.join(parts)
    return damaged(seed, text)


def wrong(text):
    """What is wrong with how a text is mended, if anything."""
    ran = run([program(), "mend", "-"], text, SECONDS)
    written, lines = mended(text)
    if ran.status != 0:
        return f"status {ran.status}"
    if ran.errors.decode() != lines:
        return f"{ran.errors.decode()!r} is told, and not {lines!r}"
    if ran.output != written:
        return f"{len(ran.output)} bytes are written that aren't the model's {len(written)}"
    again = run([program(), "mend", "-"], written, SECONDS)
    if (again.status, again.output, again.errors) != (0, written, b""):
        return "mending it again changes it"
    planned = run([program(), "plan", "-"], written, SECONDS)
    if written and planned.status != 0:
        return f"what is written has status {planned.status} of plan: {planned.output[:100]!r}"
    before = run([program(), "plan", "-"], text, SECONDS)
    if before.status == 0 and (written != text or lines):
        return "it isn't refused, and changes"
    return ""


def main(doc):
    parser = parser_of(doc)
    add_numbers(parser, count=10000, seed=0)
    parser.add_argument("--keep", type=pathlib.Path, metavar="FOLDER")
    parser.add_argument("files", type=pathlib.Path, metavar="FILE", nargs="+")
    options = parser.parse_args()
    texts = [file.read_bytes() for file in options.files]

    def one(seed):
        text = drawn(seed, texts[seed % len(texts)])
        return seed, text, wrong(text)

    failures = 0
    with concurrent.futures.ThreadPoolExecutor(os.cpu_count()) as pool:
        for seed, text, found in pool.map(one, range(options.seed, options.seed + options.count)):
            if found:
                failures += 1
                print(f"seed {seed}: {found}", flush=True)
                keep(options.keep, f"{seed}.264", text)
    print(f"{options.count} texts mended, {failures} failures")
    return 1 if failures else 0
