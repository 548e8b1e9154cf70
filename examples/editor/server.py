"""`preview serve` as a child: calls with their answers, and the notifications that come between them."""
import contextlib
import json
import os
import pathlib
import queue
import subprocess
import threading

PREVIEW = os.environ.get("PREVIEW") or pathlib.Path(__file__).resolve().parent.parent.parent / "bin/preview"


class Refused(Exception):
    """What the server or the program answers to what can't be done: a sentence or a refusal's name."""

    def __init__(self, name, number=None):
        super().__init__(name)
        self.number = number


class Ended(Refused):
    """The server was killed, or was started on a journal that it refuses: then it has said why on standard error."""

    def __init__(self):
        super().__init__("the server has ended")


class Server:
    def __init__(self, workers, journal=None):
        self.command = [PREVIEW, "serve", "--workers", str(workers), *(["--journal", journal] if journal else [])]
        self.journal, self.lock, self.listeners, self.calls = journal, threading.Lock(), set(), 0
        self.begin()

    def begin(self):
        self.process = subprocess.Popen(self.command, stdin=subprocess.PIPE, stdout=subprocess.PIPE)
        self.answers = queue.Queue()
        threading.Thread(target=self.read, args=(self.process.stdout, self.answers), daemon=True).start()

    def begin_again(self):
        """Starts a server anew that has ended, on its journal. Listeners are told, as what they wanted is forgotten."""
        with self.lock:
            if not self.journal:
                raise Ended
            self.end()
            self.begin()
        self.tell({"method": "listening"})

    def end(self):
        """Ends the process, by the end of its input, and waits until it has let go of its journal."""
        with contextlib.suppress(BrokenPipeError):
            self.process.stdin.close()
        self.process.wait()

    def read(self, lines, answers):
        for line in lines:
            if not line.endswith(b"\n"):
                break    # the server was killed as it wrote
            message = json.loads(line)
            if "method" in message:
                self.tell(message)
            else:
                answers.put(message)
        answers.put(None)

    def tell(self, message):
        for listener in list(self.listeners):
            listener.put(message)

    def call(self, method, **params):
        with self.lock:
            self.calls += 1
            request = {"jsonrpc": "2.0", "id": self.calls, "method": method, "params": params}
            try:
                self.process.stdin.write(json.dumps(request).encode() + b"\n")
                self.process.stdin.flush()
            except (BrokenPipeError, ValueError) as error:
                raise Ended from error
            answer = self.answers.get()
        if answer is None:
            raise Ended
        if "error" in answer:
            raise Refused(answer["error"]["message"], answer["error"]["code"])
        return answer["result"]

    def close(self):
        """Ends the server for good."""
        with self.lock:
            self.journal = None
            self.end()
