"""Kills a server with a journal, spoils its file and its disk, and looks at what stands then."""
import contextlib
import json
import os
import pathlib
import random
import shutil
import subprocess
import tempfile
import threading
import time

from cupdaisy import processes, serve_model
from cupdaisy.command_line import add_numbers, parser_of
from cupdaisy.program import program
from cupdaisy.serve_check import FILES, UNITS, Drawn, Wrong
from cupdaisy.session import Open
from cupdaisy.streams import texts_of

SECONDS, PAGE, PHASES = 60, 1000, 3
KINDS = {"insert": 6, "delete": 3, "replace": 4, "group": 3, "load": 2, "undo": 4, "redo": 3, "reset": 0.5, "compact": 2, "find": 1}
LAYERS = "", "-wal"


def request(number, method, **parameters):
    return json.dumps({"jsonrpc": "2.0", "id": number, "method": method, "params": parameters}).encode() + b"\n"


def command(chosen, file, workers=0):
    return [chosen, "serve", "--workers", str(workers), "--journal", str(file)]


class State:
    """What a session has that is started over a journal: the edits since the file was written anew, and the units."""

    def __init__(self, entries, units, ids):
        self.entries, self.units, self.ids = entries, units, ids

    def __eq__(self, other):
        return (self.entries, self.units) == (other.entries, other.units)


def state_of(model):
    entries = [{"edits": [*map(serve_model.told_edit, entry)]} for entry in model.entries[model.compacted[2]:]]
    return State(entries, [(number, text) for number, text in model.history.units], model.session.ids)


def asked(chosen, file, workers=0):
    """The state that a server over the file tells, or its status and what it says where it doesn't begin."""
    lines = [request(at, "journal", **{"from": at * PAGE, "count": PAGE}) for at in range(3)]
    lines += [request(3, "units", **{"from": 0, "count": PAGE})]
    first = processes.run(command(chosen, file, workers), b"".join(lines), SECONDS)
    if first.status != 0:
        return first.status, first.errors.decode(errors="replace")
    answers = [json.loads(line)["result"] for line in first.output.splitlines()]
    entries, numbers = answers[0] + answers[1] + answers[2], [unit["unit"] for unit in answers[3]]
    texts = processes.run(command(chosen, file, workers), b"".join(request(number, "text", id=number) for number in numbers), SECONDS)
    told = [json.loads(line)["result"]["bytes"] for line in texts.output.splitlines()]
    return State(entries, [*zip(numbers, map(serve_model.base64.b64decode, told))], None)


def carried(model):
    """A model of the server that is started over the journal of another."""
    new = serve_model.Server(model.workers, has_journal=True)
    units, ids, made = model.compacted
    if ids:
        new.begin_from(units, ids)
    for entry in model.entries[made:]:
        if len(entry) == 1:
            new.made(entry[0])
        else:
            new.together(entry)
    new.history.done, new.history.undone, new.history.step = [], [], []
    return new


class Kill:
    """A run of a server that is killed, over a journal."""

    def __init__(self, chosen, file, drawn, count):
        self.chosen, self.file, self.drawn, self.count = chosen, file, drawn, count
        self.states, self.lines, self.found = [state_of(drawn.model)], [], []

    def draw(self):
        """Draws the messages, with the state after each."""
        for _ in range(self.count):
            message = self.drawn.message() | {"id": len(self.lines)}
            line = json.dumps(message).encode()
            self.drawn.model.line(line)
            self.lines.append(line + b"\n")
            self.states.append(state_of(self.drawn.model))

    def answered(self, delay):
        """How many messages are answered until the server is killed, after so many seconds."""
        with subprocess.Popen(command(self.chosen, self.file, self.drawn.model.workers), stdin=subprocess.PIPE, stdout=subprocess.PIPE,
                              stderr=subprocess.DEVNULL) as process:
            threading.Thread(target=self.write, args=(process,), daemon=True).start()
            reader = threading.Thread(target=lambda: self.found.append(process.stdout.read()))
            reader.start()
            time.sleep(delay)
            process.kill()
            reader.join()
        return len([line for line in self.found[0].split(b"\n")[:-1] if b'"method":' not in line])

    def write(self, process):
        """Writes the messages, for as long as the server reads them."""
        with contextlib.suppress(BrokenPipeError, ValueError):
            process.stdin.write(b"".join(self.lines))
            process.stdin.flush()

    def stands(self, answered):
        """The state that stands, which has to be that after the messages that were answered, or after the next one."""
        found = asked(self.chosen, self.file, self.drawn.model.workers)
        for at in (answered, answered + 1):
            if at < len(self.states) and found == self.states[at]:
                return at
        raise Wrong(f"after {answered} answers: {found if isinstance(found, tuple) else found.entries}, "
                    f"not {self.states[answered].entries}")


def kills(chosen, seed, workers, texts, count):
    """What is wrong where a server is killed and started again several times, if anything."""
    rng = random.Random(seed)
    with tempfile.TemporaryDirectory() as folder:
        file, model = pathlib.Path(folder) / "edits.journal", serve_model.Server(workers, has_journal=True)
        for phase in range(PHASES):
            drawn = Drawn(rng.randrange(1 << 30), workers, texts, 0, folder)
            drawn.kinds, drawn.model, begin = KINDS, model, carried(model)
            kill = Kill(chosen, file, drawn, rng.randint(1, count))
            kill.draw()
            at = kill.stands(kill.answered(rng.choice((0.02, 0.05, 0.1, 0.3)) * rng.random() + 0.01))
            model = begin
            for line in kill.lines[:at]:
                model.line(line)
            model = carried(model)
    return None


def short_journal(chosen, folder, texts):
    """A journal of some records, whose server was killed: its files, and its states, from none of its records on."""
    file, model = pathlib.Path(folder) / "short.journal", serve_model.Server(0, has_journal=True)
    lines = [request(0, "load", bytes=serve_model.base64.b64encode(b"".join(texts[:3])).decode()), request(1, "delete", id=2),
             request(2, "group", edits=[{"delete": {"id": 1}}, {"insert": {"after": None, "bytes": serve_model.base64.b64encode(texts[0]).decode()}}]),
             request(3, "undo")]
    states = [state_of(model)]
    for line in lines:
        model.line(line)
        states.append(state_of(model))
    with subprocess.Popen(command(chosen, file), stdin=subprocess.PIPE, stdout=subprocess.PIPE) as process:
        process.stdin.write(b"".join(lines))
        process.stdin.flush()
        for _ in lines:
            process.stdout.readline()
        process.kill()
        with contextlib.suppress(BrokenPipeError):
            process.stdin.close()
    return {layer: pathlib.Path(f"{file}{layer}").read_bytes() for layer in LAYERS if os.path.exists(f"{file}{layer}")}, states


def cuts(chosen, texts, step):
    """What is wrong where the files of a short journal are cut, if anything."""
    with tempfile.TemporaryDirectory() as folder:
        whole, states = short_journal(chosen, folder, texts)
        file = pathlib.Path(folder) / "cut.journal"
        for layer, content in whole.items():
            for size in [*range(0, len(content), step), len(content)]:
                if (wrong := cut(chosen, file, whole | {layer: content[:size]}, states)):
                    return f"{layer or 'the file'} cut to {size} bytes of {len(content)}: {wrong}"
    return None


def cut(chosen, file, contents, states):
    """What is wrong where a journal has these files, if anything."""
    for layer in LAYERS:
        pathlib.Path(f"{file}{layer}").write_bytes(contents[layer]) if layer in contents else pathlib.Path(f"{file}{layer}").unlink(True)
    found = asked(chosen, file)
    if isinstance(found, State):
        return None if found in states else f"{found.entries}"
    left = {layer: pathlib.Path(f"{file}{layer}").read_bytes() for layer in LAYERS if os.path.exists(f"{file}{layer}")}
    if found[0] != 1 or not found[1].endswith(f"{file}\n"):
        return f"{found}"
    return None if left.get("") == contents.get("") else "a file that is refused is changed"


def refusals(chosen, texts):
    """What is wrong with files that are none, or that another server has open, if anything."""
    with tempfile.TemporaryDirectory() as folder:
        file = pathlib.Path(folder) / "none"
        for content in (b"x", b"SQLite format 3\0" + bytes(5000), texts[0], bytes(4096)):
            file.write_bytes(content)
            if (found := asked(chosen, file)) != (1, f"not a journal: {file}\n") or file.read_bytes() != content:
                return f"{content[:20]!r}: {found}"
        if (found := asked(chosen, folder))[0] != 1 or (found := asked(chosen, f"{folder}/none/here"))[0] != 1:
            return f"a folder, or a file in none: {found}"
        file = pathlib.Path(folder) / "one.journal"
        with subprocess.Popen(command(chosen, file), stdin=subprocess.PIPE, stdout=subprocess.PIPE) as process:
            process.stdin.write(request(1, "insert", after=None, bytes=serve_model.base64.b64encode(texts[0]).decode()))
            process.stdin.flush()
            process.stdout.readline()
            found = asked(chosen, file)
            process.stdin.close()
        if found != (1, f"another process has the journal open: {file}\n"):
            return f"a second server: {found}"
        return None if len(asked(chosen, file).entries) == 1 else "the first server's edit is lost"


def answers_until_refused(process, texts, most):
    """Inserts units until one is refused with 25, and looks that all behind it are: how many were made."""
    text, made = serve_model.base64.b64encode(max(texts, key=len)).decode(), 0
    for number in range(most):
        process.stdin.write(request(number, "insert", after=None, bytes=text))
        process.stdin.flush()
        answer = json.loads(process.stdout.readline())
        if "result" in answer:
            made += 1
        elif answer["error"]["code"] != 25:
            raise Wrong(f"{answer}")
        else:
            return made
    raise Wrong(f"{most} edits are made")


def filled(chosen, texts, folder, wrapped=(), most=4000):
    """What is wrong where the journal in a folder can't be written from some edit on, if anything."""
    file = pathlib.Path(folder) / "full.journal"
    with subprocess.Popen([*wrapped, *command(chosen, file)], stdin=subprocess.PIPE, stdout=subprocess.PIPE) as process:
        made = answers_until_refused(process, texts, most)
        process.stdin.write(request(0, "stats"))
        process.stdin.flush()
        units = json.loads(process.stdout.readline())["result"]["units"]
        process.stdin.close()
        status = process.wait(SECONDS)
    if (units, status) != (made, 0):
        return f"{units} units after {made} edits, status {status}"
    found = asked(chosen, shutil.copytree(folder, f"{folder}.copy") + "/full.journal")
    if not isinstance(found, State) or len(found.entries) not in (made, made + 1):
        return f"{found if isinstance(found, tuple) else len(found.entries)} after {made} edits"
    return None


@contextlib.contextmanager
def mounted(size):
    """A small disk."""
    with tempfile.TemporaryDirectory() as folder:
        subprocess.run(["mount", "-t", "tmpfs", "-o", f"size={size}", "none", folder], check=True)
        try:
            yield folder
        finally:
            subprocess.run(["umount", "-l", folder], check=True)
            shutil.rmtree(f"{folder}.copy", ignore_errors=True)


def disks(chosen, texts):
    """What is wrong on a disk that is full, and on one that is read-only, if anything."""
    with mounted("256k") as folder:
        if (wrong := filled(chosen, texts, folder)):
            return f"a full disk: {wrong}"
    with mounted("256k") as folder:
        subprocess.run(["mount", "-o", "remount,ro", folder], check=True)
        if (found := asked(chosen, f"{folder}/one.journal"))[0] != 1:
            return f"a disk that is read-only: {found}"
    return None


def syncs(chosen, texts, rng):
    """What is wrong where synchronisations fail from one on, if anything."""
    for _ in range(8):
        # (to begin takes 19, and the client waits for an answer)
        first = rng.randint(24, 60)
        with tempfile.TemporaryDirectory() as folder:
            wrapped = ["strace", "-f", "-qq", "-o", "/dev/null", "-e", f"inject=fsync,fdatasync:error=EIO:when={first}+"]
            try:
                if (wrong := filled(chosen, texts, folder, wrapped, 100)):
                    return f"synchronisations fail from {first} on: {wrong}"
            finally:
                shutil.rmtree(f"{folder}.copy", ignore_errors=True)
    return None


def tried(name, ask):
    """Whether something is wrong, which is told then."""
    try:
        wrong = ask()
    except Wrong as found:
        wrong = str(found)
    except Open:
        wrong = None
    print(f"{name}: {wrong or 'as it has to be'}", flush=True)
    return bool(wrong)


def main(doc):
    parser = parser_of(doc)
    add_numbers(parser, kills=20, messages=60, seed=0, step=1)
    parser.add_argument("--workers", default="0,1,4", metavar="N,N..")
    parser.add_argument("--streams", type=pathlib.Path, default=FILES, metavar="FILE", nargs="+")
    parser.add_argument("program", metavar="PROGRAM", nargs="?")
    options = parser.parse_args()
    chosen, rng = options.program or program(), random.Random(options.seed)
    parts = [texts_of(file.read_bytes())[:UNITS] for file in options.streams]
    failures = 0
    for workers in map(int, options.workers.split(",")):
        for seed in range(options.seed, options.seed + options.kills):
            failures += tried(f"{workers} workers, kill {seed}", lambda: kills(chosen, seed, workers, parts[seed % len(parts)], options.messages))
    failures += tried("files that are cut", lambda: cuts(chosen, parts[0], options.step))
    failures += tried("files that are refused", lambda: refusals(chosen, parts[0]))
    if os.geteuid() == 0:
        failures += tried("disks", lambda: disks(chosen, parts[0]))
    if shutil.which("strace"):
        failures += tried("synchronisations", lambda: syncs(chosen, parts[0], rng))
    print(f"{failures} failures")
    return 1 if failures else 0
