"""Runs the program on damaged streams, and scripts over damaged units."""
import concurrent.futures
import os
import pathlib
import random
import re

from cupdaisy import scripts
from cupdaisy.command_line import keep, parser_of
from cupdaisy.damage import damaged
from cupdaisy.processes import run
from cupdaisy.program import program
from cupdaisy.session import Open
from cupdaisy.streams import SLICES, split, text_of, texts_of, type_of

SECONDS, COMMANDS, UNITS = 1, 40, 12
NUMBER, SIGNED = r"(0|[1-9]\d*)", r"(0|-?[1-9]\d*)"
NAMED = NUMBER + r" [A-Z][A-Za-z]+"
LIST = r"(-|(\d+|x)(,(\d+|x))*)"
ENTRY = rf"{NUMBER}:{SIGNED}:[37]"
REFUSED = re.compile(rf"(unit {NUMBER} )?refused {NAMED}")
FORMS = re.compile("|".join([
    rf"unit {NUMBER} position {NUMBER} counts {SIGNED} {SIGNED} requests {NUMBER}",
    rf"unit {NUMBER} fault {NAMED}",
    rf"unit {NUMBER} no picture",
    rf"request {NUMBER}\.{NUMBER} ts {NUMBER} bits {NUMBER} type [012] frame {NUMBER} "
    rf"dpb (-|{ENTRY}(,{ENTRY})*) l0 {LIST} l1 {LIST} hold [01]"]))


def wrong(ran):
    """What is wrong with a run that ended, if anything."""
    lines = ran.output.decode("ascii", errors="replace").splitlines()
    refused = len(lines) == 1 and bool(REFUSED.fullmatch(lines[0]))
    if ran.status != (1 if refused else 0):
        return f"status {ran.status}"
    if ran.errors:
        return f"on standard error {ran.errors[:200]!r}"
    strange = [line for line in lines if not refused and not FORMS.fullmatch(line)]
    return f"a line of no form: {strange[0]!r}" if strange else "" if lines else "nothing printed"


def verdict(command, text):
    """What is wrong with the run on a text, if anything."""
    ran = run([*command, "-"], text, SECONDS)
    return f"no end within {SECONDS} s" if ran.status is None else wrong(ran)


def sets_of(text):
    """A text of the NAL units of a unit that aren't slices, or of a delimiter where there are none."""
    return text_of([nal for nal in split(text) if type_of(nal) not in SLICES] or [bytes((9, 0x10))])


def script_of(seed, texts):
    """A script that begins with the units in order and goes on with commands drawn from a seed; some units have no slice, and
    some edits stand in groups."""
    rng, lines, jobs = random.Random(seed), [], 0
    for number, text in enumerate(texts):
        lines.append(f"insert after {number} {text.hex()}" if number else f"insert first {text.hex()}")
    for _ in range(COMMANDS):
        at, number = rng.randrange(len(texts)), rng.randint(0, len(texts) + 4)
        near = rng.choice((texts[at], texts[at], damaged(rng.randrange(1 << 30), texts[at]),
                           damaged(rng.randrange(1 << 30), texts[at]), sets_of(texts[at]), sets_of(texts[0])))
        mends = f"replace {at + 1} {texts[at].hex()}", f"replace {at + 1} {near.hex()}"
        edits = (f"delete {number}", f"replace {number} {near.hex()}", f"insert after {number} {near.hex()}",
                 f"insert after {at} {texts[at].hex()}", f"insert first {near.hex()}")
        kind = rng.choices(("take", "jobs", "looks", "settle", "drop", "mark", "mends", "edits", "group"), (6, 6, 4, 2, 2, 2, 3, 2, 1))[0]
        if kind == "group":
            lines += ["group", *rng.choices(mends + edits, k=rng.randint(0, 4)), "end"]
            continue
        # About so many jobs were given; one of the last.
        jobs += {"take": 1, "settle": len(texts) // 2}.get(kind, 0)
        job = max(jobs - rng.randint(0, 4), 0)
        lines.append(rng.choice({
            "take": ("take", f"take {at + 1}", f"take {number}"), "jobs": (f"land {job}", f"land {job}", f"give {job}"),
            "looks": (f"show {at + 1}", f"show {number}", f"unit {number}"),
            "settle": ("settle", f"settle {at + 1}", f"settle {number}"),
            "drop": (f"drop {at + 1}", f"drop {at + 1}", f"drop {number}", "clear"),
            "mark": ("mark", f"altered {at + 1}", f"altered {number}"),
            "mends": mends, "edits": edits}[kind]))
    lines += ["settle"] + [f"{word} {number}" for number in range(1, len(texts) + 20) for word in ("unit", "show", "altered")]
    return "".join(line + "\n" for line in lines).encode(), rng.choice((1, 2, 5, 64))


def script_verdict(task):
    """What is wrong with the run of a script, if anything, or None where the model leaves its answer open."""
    command, (script, room) = task
    try:
        model = scripts.run(script, room, True)
    except Open:
        return None
    ran = run([*command, "--hex", "--cache", str(room), "-"], script, 10 * SECONDS)
    if ran.status is None:
        return f"no end within {10 * SECONDS} s"
    if (ran.status, ran.errors) != (model.status, model.message.encode()):
        return f"status {ran.status}, on standard error {ran.errors[:200]!r}"
    pairs = zip(ran.output.decode().split("\n"), model.lines.split("\n"))
    return next((f"{found!r}, not {wanted!r}" for found, wanted in pairs if found != wanted), "")


def run_scripts(options, texts):
    """Runs scripts over the units of the texts, and counts those that fail."""
    command, failures, left_open = [program(), "run"], 0, 0
    parts = [texts_of(text)[:UNITS] for text in texts]
    seeds = range(options.seed, options.seed + (options.count or 1000))
    drawn = [script_of(seed, parts[seed % len(parts)]) for seed in seeds]
    with concurrent.futures.ProcessPoolExecutor(os.cpu_count()) as pool:
        tasks = ((command, script) for script in drawn)
        for seed, script, found in zip(seeds, drawn, pool.map(script_verdict, tasks)):
            left_open += found is None
            if found:
                failures += 1
                print(f"seed {seed}, cache {script[1]}: {found}", flush=True)
                keep(options.keep, f"{seed}.script", script[0])
    print(f"{len(drawn)} scripts, {left_open} left open, {failures} failures")
    return 1 if failures else 0


def main(doc):
    parser = parser_of(doc)
    parser.add_argument("--scripts", action="store_true")
    parser.add_argument("--count", type=int)
    parser.add_argument("--seed", type=int, default=0)
    parser.add_argument("--keep", type=pathlib.Path, metavar="FOLDER")
    parser.add_argument("files", type=pathlib.Path, metavar="FILE", nargs="+")
    options = parser.parse_args()
    texts = [file.read_bytes() for file in options.files]
    if options.scripts:
        return run_scripts(options, texts)
    command, count = [program(), "plan"], options.count or 10000

    def one(seed):
        text = damaged(seed, texts[seed % len(texts)])
        return seed, text, verdict(command, text)

    failures = 0
    with concurrent.futures.ThreadPoolExecutor(os.cpu_count()) as pool:
        for seed, text, found in pool.map(one, range(options.seed, options.seed + count)):
            if found:
                failures += 1
                print(f"seed {seed}, of {options.files[seed % len(texts)]}: {found}", flush=True)
                keep(options.keep, f"{seed}.264", text)
    print(f"{count} damaged streams, {failures} failures")
    return 1 if failures else 0
