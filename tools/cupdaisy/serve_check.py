"""Drives the server by drawn messages, and holds its answers against a plain model."""
import base64
import json
import pathlib
import queue
import random
import subprocess
import tempfile
import threading

from cupdaisy import check_mend, processes, serve_model
from cupdaisy.command_line import add_numbers, parser_of
from cupdaisy.program import program
from cupdaisy.session import Open
from cupdaisy.streams import texts_of
from cupdaisy.workspace import SAMPLES

SECONDS, UNITS, DEEP, LOADS = 60, 12, 10_000, 100
FILES = sorted(SAMPLES.glob("*.264"))


class Wrong(Exception):
    """The server answers otherwise."""


class Client:
    """A server in a process of its own, and the lines that it writes."""

    def __init__(self, program, workers):
        self.process = subprocess.Popen([program, "serve", "--workers", str(workers), "--cache", "4096"],
                                        stdin=subprocess.PIPE, stdout=subprocess.PIPE)
        self.lines = queue.Queue()
        threading.Thread(target=self.read, daemon=True).start()

    def read(self):
        for line in self.process.stdout:
            self.lines.put(line)
        self.lines.put(b"")

    def send(self, line):
        self.process.stdin.write(line)
        self.process.stdin.flush()

    def receive(self):
        try:
            line = self.lines.get(timeout=SECONDS)
        except queue.Empty:
            raise Wrong(f"nothing within {SECONDS} s") from None
        if not line.endswith(b"\n"):
            raise Wrong(f"a line isn't whole: {line[:200]!r}")
        return json.loads(line)

    def end(self):
        """Closes the input: the status, once all that was written is read."""
        self.process.stdin.close()
        left = list(iter(lambda: self.lines.get(timeout=SECONDS), b""))
        return self.process.wait(SECONDS), left


def opened(wanted):
    """What is wanted, with each id that is a number with a point left open."""
    if isinstance(wanted, list):
        return [*map(opened, wanted)]
    return wanted | ({"id": serve_model.ANY} if isinstance(wanted.get("id"), serve_model.Float) else {})


def text_of(data):
    return base64.b64encode(data).decode()


class Drawn:
    """Messages drawn over the units of a stream."""

    def __init__(self, seed, workers, texts, damage, folder):
        self.rng, self.texts, self.damage, self.folder = random.Random(seed), texts, damage, folder
        self.model, self.number, self.saved = serve_model.Server(workers), 0, {}
        self.kinds = {"insert": 6, "delete": 3, "replace": 4, "group": 3, "units": 2, "find": 2, "show": 4, "want": 2, "drop": 2,
                      "stats": 1, "load": 1, "save": 2, "undo": 5, "redo": 4, "wrong": 2, "mark": 1, "text": 2, "journal": 1, "initialize": 0.3,
                      "reset": 0.3, "compact": 0.3} | ({} if workers else {"take": 10, "land": 8, "give_back": 2})

    def line(self):
        """The next message or batch, damaged now and then."""
        value = self.message() if self.rng.random() < 0.9 else [self.message() for _ in range(self.rng.randint(1, 4))]
        line = json.dumps(value).encode()
        # Nothing is saved but in the folder.
        return self.damaged(line) if self.rng.random() * 100 < self.damage and b'"save"' not in line else line

    def message(self):
        kind = self.rng.choices(list(self.kinds), list(self.kinds.values()))[0]
        self.number += 1
        message = {"jsonrpc": "2.0"} | ({"id": self.number} if self.rng.random() < 0.9 else {})
        return message | ({"method": kind, "params": getattr(self, kind)()} if kind != "wrong" else self.wrong())

    def damaged(self, line):
        line = bytearray(line)
        for _ in range(self.rng.randint(1, 3)):
            at = self.rng.randrange(len(line) + 1)
            part = self.rng.choice((b"", b"", b"0", b"9", b'"', b",", b"null", b"[", b"}", b"\\", b"-", b".5", b"=", b"\xff"))
            line[at:at + self.rng.choice((0, 1, 1, 5, 40))] = part
        return bytes(line)

    def id(self):
        """The id of a unit, mostly of one that is there."""
        stream = self.model.session.stream
        if not stream or self.rng.random() < 0.1:
            return self.rng.choice((0, self.model.session.ids, self.model.session.ids + 1, 1 << 32, (1 << 64) - 1))
        return self.rng.choice(stream)[0]

    def bytes(self):
        text = self.rng.choice(self.texts)
        return text_of(text if self.rng.random() < 0.9 else text[:self.rng.randrange(len(text))])

    def insert(self):
        return {"after": None if self.rng.random() < 0.2 else self.id(), "bytes": self.bytes()}

    def delete(self):
        return {"id": self.id()}

    def replace(self):
        return {"id": self.id(), "bytes": self.bytes()}

    def group(self):
        names = self.rng.choices(("insert", "delete", "replace"), k=self.rng.choice((0, 1, 2, 2, 3)))
        return {"edits": [{name: getattr(self, name)()} for name in names]}

    def units(self):
        return {"from": self.rng.randrange(20), "count": self.rng.choice((0, 1, 5, 1000, 1001)),
                "controls": self.rng.random() < 0.2}

    def journal(self):
        return {"from": self.rng.randrange(40), "count": self.rng.choice((0, 1, 5, 1000, 1001))}

    def find(self):
        return {"position": self.rng.randrange(20)}

    show = text = delete

    def want(self):
        ids = [self.id() for _ in range(self.rng.choice((0, 1, 3, 5, 65)))]
        return {"ids": ids} | ({"rest": self.rng.random() < 0.5} if self.rng.random() < 0.5 else {})

    def drop(self):
        return {} if self.rng.random() < 0.3 else self.delete()

    take = drop

    def land(self):
        return {"job": self.rng.choice([job.number for job in self.model.session.out] or [1])}

    give_back = land

    def stats(self):
        return self.rng.choice(({}, []))

    initialize = mark = reset = compact = undo = redo = stats

    def load(self):
        units = self.texts[:self.rng.randint(1, 4)] if len(self.model.session.stream) < 40 else []
        text = b"".join(units) if self.rng.random() < 0.5 else check_mend.drawn(self.rng.randrange(1 << 30), b"".join(units))
        source = {"bytes": text_of(text)} if self.rng.random() < 0.8 else {"path": "missing"}
        return source | self.rng.choice(({}, {}, {"mend": False}, {"mend": True}, {"mend": True}, {"mend": 1}))

    def save(self):
        return {"path": f"{self.folder}/{self.rng.choice(('one', 'two', 'two', '', 'none/one'))}"}

    def wrong(self):
        return self.rng.choice(({"method": "sow"}, {"method": 1}, {"method": "find", "params": []}, {"method": "show", "params": [1]},
                                {"method": "stats", "params": [1]}, {"method": "land", "params": {"job": "1"}}, {}))


class Run:
    """A drawn run beside a server, and what was told of each wanted unit since the last `want`."""

    def __init__(self, client, drawn):
        self.client, self.drawn, self.model, self.told = client, drawn, drawn.model, {}
        # The pictures that wanted units may have, after each message since the last one that was answered.
        self.may_be = [{}]
        # The notifications that are due beside workers, whatever these have done.
        self.due = []

    def message(self, line):
        """Sends a line, and holds what comes of it against the model."""
        wanted, news = self.model.line(line)
        self.client.send(line + b"\n")
        if self.model.workers and wanted is not None:
            self.tell_until_answer(line, wanted)
            if self.due:
                raise Wrong(f"{self.due} isn't told")
        elif not self.model.workers:
            for each in ([] if wanted is None else [wanted]) + news:
                self.compare(line, each, self.client.receive())
        self.due += news if self.model.workers else []
        if wanted is not None:
            self.compare_files()
        pictures = {number: self.model.picture(number) for number in self.model.wanted}
        self.may_be = [pictures] if wanted is not None else self.may_be + [pictures]

    def compare(self, line, wanted, found):
        if opened(wanted) != found:
            raise Wrong(f"{line[:300]!r}: {found}, not {wanted}")

    def compare_files(self):
        """Holds the files that were saved against the texts of the stream as it was, and nothing else stands there."""
        found = {str(file): file.read_bytes() for file in pathlib.Path(self.drawn.folder).iterdir()}
        if found != self.drawn.saved | self.model.saved:
            raise Wrong(f"files: {[*found]}")
        self.drawn.saved |= self.model.saved

    def tell_until_answer(self, line, wanted):
        """Reads notifications, which are of the stream before a message, and its answer."""
        while "method" in (found := self.client.receive()):
            self.tell(found)
        self.compare(line, wanted, found)
        for answer in found if isinstance(found, list) else [found]:
            if isinstance(answer.get("result"), dict) and "ready" in answer["result"]:
                self.told = {told["id"]: told["picture"] for told in answer["result"]["ready"]}

    def tell(self, found):
        """Holds a notification against the pictures that its unit may have and the one that was told last."""
        number = found["params"]["id"]
        if found["method"] == "changed":
            return self.tell_change(number, found)
        picture = found["params"]["picture"]
        is_right = found == {"jsonrpc": "2.0", "method": "ready", "params": {"id": number, "picture": picture}}
        if not is_right or all(pictures.get(number) != picture for pictures in self.may_be):
            raise Wrong(f"{found} of {self.may_be}")
        if len(self.may_be) == 1 and self.told.get(number) == picture:
            raise Wrong(f"{found} is told again")
        self.told[number] = picture

    def tell_change(self, number, found):
        """Holds the notification of a change against those that are due, or against the units that have a picture."""
        if found == {"jsonrpc": "2.0", "method": "changed", "params": {"id": number, "state": "pending"}}:
            if all(pictures.get(number) is None for pictures in self.may_be):
                raise Wrong(f"{found} of {self.may_be}")
        elif [found] != self.due[:1]:
            raise Wrong(f"{found}, and not {self.due[:1]}")
        else:
            self.due.pop(0)
        self.told.pop(number, None)

    def finish(self):
        """Wants units of the stream, of which each valid one has to be told, and ends the server."""
        ids = [number for number, _ in self.model.session.stream][:serve_model.MOST_WANTED]
        line = json.dumps({"jsonrpc": "2.0", "id": 0, "method": "want", "params": {"ids": ids}}).encode()
        self.message(line)
        left = {number for number in ids if self.model.picture(number)} - set(self.told)
        while self.model.workers and left:
            self.tell(self.client.receive())
            left -= set(self.told)
        if (ended := self.client.end()) != (0, []):
            raise Wrong(f"it ends with {ended}")


def run(program, workers, seed, texts, options):
    """What is wrong with a drawn run, if anything."""
    with tempfile.TemporaryDirectory() as folder:
        return run_in(folder, program, workers, seed, texts, options)


def run_in(folder, program, workers, seed, texts, options):
    client = Client(program, workers)
    try:
        drawn = Drawn(seed, workers, texts, options.damage, folder)
        running = Run(client, drawn)
        for _ in range(options.messages):
            running.message(drawn.line())
        running.finish()
    except Wrong as wrong:
        return str(wrong)
    except Open:
        return None
    finally:
        client.process.kill()
        client.process.wait()
    return None


def replies(program, workers, text):
    """What a server writes for an input, and its status."""
    ran = processes.run([program, "serve", "--workers", str(workers)], text, SECONDS)
    return [json.loads(line) for line in ran.output.splitlines()], ran.status


def edges(program, workers):
    """What is wrong at the edges, if anything."""
    call, nothing = b'{"jsonrpc":"2.0","id":1,"method":"drop"}', {"jsonrpc": "2.0", "id": 1, "result": "cleared"}
    over = {"jsonrpc": "2.0", "id": None, "error": {"code": -32600, "message": "Invalid Request"}}
    unread = {"jsonrpc": "2.0", "id": None, "error": {"code": -32700, "message": "Parse error"}}
    shutdown = b'{"jsonrpc":"2.0","id":1,"method":"shutdown"}\n'
    untold, ended = call.replace(b'"id":1,', b""), nothing | {"result": None}
    rows = [(call, [nothing]), (call + b"\r\n", [nothing]), (b"", []),
            (call.ljust(serve_model.MOST_LINE) + b"\n" + call, [nothing, nothing]),
            (call.ljust(serve_model.MOST_LINE + 1) + b"\n" + call, [over, nothing]),
            (shutdown + call, [ended]), (b"[]\n" + call, [over, nothing]), (b"[" + untold + b"," + untold + b"]\n" + call, [nothing]),
            (b"[1,[" + call + b"]," + untold + b"," + call + b"]", [[over, over, nothing]]),
            (b"[" + call + b"," + shutdown.strip() + b"," + call + b"]\n" + call, [[nothing, ended, nothing]]),
            (b"[" * DEEP + b"]" * DEEP + b"\n" + call, [unread, nothing]), (b"\xff\n\n" + call, [unread, unread, nothing])]
    for text, wanted in rows:
        if (found := replies(program, workers, text)) != (wanted, 0):
            return f"{text[:60]!r}: {found}"
    if (wrong := long_load(program, workers)):
        return wrong
    with open("/dev/full", "wb") as full:
        ran = processes.run([program, "serve", "--workers", str(workers)], call, SECONDS, stdout=full)
    if ran.status != 1:
        return f"a full disk: status {ran.status}"
    return closed_output(program, workers, call + b"\n", json.dumps(nothing, separators=(",", ":")).encode() + b"\n")


def long_load(program, workers):
    """What is wrong where a load of more units than a group of a caller may have edits is undone and done again, if anything."""
    text = (SAMPLES / "clock.264").read_bytes() * LOADS
    count = len(texts_of(text))
    methods = [("load", {"bytes": text_of(text)}), ("undo", {}), ("stats", {}), ("redo", {}), ("text", {"id": count + 1}), ("undo", {}),
               ("undo", {})]
    lines = [json.dumps({"jsonrpc": "2.0", "id": at, "method": name, "params": given}) for at, (name, given) in enumerate(methods)]
    found, status = replies(program, workers, "\n".join(lines).encode())
    answers = [answer.get("result", answer.get("error")) for answer in found]
    ids, again = [*range(count, 0, -1)], [*range(count + 1, 2 * count + 1)]
    wanted = [count, ids, 0, again, text_of(texts_of(text)[0]), again[::-1], 26]
    told = [answer.get(member) for answer, member in zip(answers, ("units", "ids", "units", "ids", "bytes", "ids", "code"))]
    return None if (told, status) == (wanted, 0) else f"a load of {count} units is undone otherwise: {str(answers)[:300]}, status {status}"


def closed_output(program, workers, call, line):
    """What is wrong where nobody reads the output any more after so many bytes, if anything."""
    for count in (0, 1, len(line), len(line) + 7):
        command = [program, "serve", "--workers", str(workers)]
        process = subprocess.Popen(command, stdin=subprocess.PIPE, stdout=subprocess.PIPE, bufsize=0)
        process.stdin.write(call * 4)
        found = b""
        while len(found) < count:
            found += process.stdout.read(count - len(found))
        process.stdout.close()
        try:
            for _ in range(1000):
                process.stdin.write(call)
            process.stdin.close()
        except BrokenPipeError:
            pass
        status = process.wait(SECONDS)
        if status != 1 or found != (line * 4)[:count]:
            return f"an output that is closed after {count} bytes: {found!r}, status {status}"
    return None


def main(doc):
    parser = parser_of(doc)
    add_numbers(parser, runs=8, messages=300, seed=0, damage=20)
    parser.add_argument("--workers", default="0,1,4", metavar="N,N..")
    parser.add_argument("--streams", type=pathlib.Path, default=FILES, metavar="FILE", nargs="+")
    parser.add_argument("program", metavar="PROGRAM", nargs="?")
    options = parser.parse_args()
    chosen = options.program or program()
    parts = [texts_of(file.read_bytes())[:UNITS] for file in options.streams]
    failures, seeds = 0, range(options.seed, options.seed + options.runs)
    for workers in map(int, options.workers.split(",")):
        found = {f"seed {seed}": run(chosen, workers, seed, parts[seed % len(parts)], options) for seed in seeds}
        for name, wrong in (found | {"edges": edges(chosen, workers)}).items():
            if wrong:
                failures += 1
                print(f"{workers} workers, {name}: {wrong}", flush=True)
        print(f"{workers} workers: {len(seeds)} runs of {options.messages} messages", flush=True)
    print(f"{failures} failures")
    return 1 if failures else 0
