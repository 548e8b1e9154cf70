#!/usr/bin/env python3
"""A client of `preview serve`, and what an editor does with it.

    preview_client.py PROGRAM STREAM [SAVED]

It starts the server, loads the stream without what no command reads, shows where an edit leads, waits for pictures that become
ready, takes the edit back, and saves the stream as SAVED. The messages are those of docs/SERVER.md.
"""
import base64
import json
import subprocess
import sys
from collections import deque


class Refused(Exception):
    """The server refuses a call: its code, the name of that, and what is told beside them."""

    def __init__(self, code, message, data=None):
        super().__init__(f"{code} {message}" + (f" {data}" if data is not None else ""))
        self.code, self.data = code, data


class Preview:
    """A server in a process of its own. Preview(program, "--journal", "edits.journal") begins with the edits of that file, ids as they
    were, and records further ones there."""

    def __init__(self, program, *options):
        self.process = subprocess.Popen([program, "serve", *options], stdin=subprocess.PIPE, stdout=subprocess.PIPE)
        self.number, self.ready, self.changed = 0, deque(), deque()

    def __enter__(self):
        return self

    def __exit__(self, *_):
        self.process.stdin.close()
        self.process.stdout.close()
        self.process.wait()

    def receive(self):
        """The next message of the server."""
        line = self.process.stdout.readline()
        if not line:
            raise EOFError("the server has ended")
        return json.loads(line)

    def call(self, method, **parameters):
        """Calls a method, and gives its result. Notifications that come before it are kept."""
        self.number += 1
        message = {"jsonrpc": "2.0", "id": self.number, "method": method, "params": parameters}
        self.process.stdin.write(json.dumps(message).encode() + b"\n")
        self.process.stdin.flush()
        while "method" in (answer := self.receive()):
            self.keep(answer)
        if "error" in answer:
            raise Refused(**answer["error"])
        return answer["result"]

    def keep(self, told):
        """Keeps a notification: of a picture that is ready, or of a unit that an edit changed."""
        (self.ready if told["method"] == "ready" else self.changed).append(told["params"])

    def next_ready(self):
        """Waits for the next wanted unit that is ready, and gives it with its picture."""
        while not self.ready:
            self.keep(self.receive())
        return self.ready.popleft()


def text_of(data):
    """Bytes as parameters have them."""
    return base64.b64encode(data).decode()


def pictures_of(preview, ids, rest=True):
    """Waits until the wanted units among these have pictures, and gives them. Units that aren't valid have none."""
    answer = preview.call("want", ids=ids, rest=rest)
    pictures = {told["id"]: told["picture"] for told in answer["ready"]}
    while len(pictures) + len(answer["not_now"]) < len(ids):
        told = preview.next_ready()
        pictures[told["id"]] = told["picture"]
    return pictures


def main():
    if len(sys.argv) < 3:
        sys.exit("usage: preview_client.py PROGRAM STREAM [SAVED]")
    program, stream, *saved = sys.argv[1:]
    with Preview(program, "--workers", "2") as preview:
        with open(stream, "rb") as file:
            loaded = preview.call("load", bytes=text_of(file.read()), mend=True)
        for part in loaded["left_out"]:
            print("byte {byte}: left out {bytes} bytes: {why}".format(**part))
        print(f"{loaded['units']} units")
        ids = list(range(loaded["first"], min(loaded["last"], loaded["first"] + 7) + 1))
        before = pictures_of(preview, ids)
        edit = preview.call("delete", id=ids[1])
        print(f"edit {edit['edit']} deletes unit {edit['id']}, in {edit['steps']} steps")
        for unit in preview.call("units", **{"from": 0, "count": len(ids) - 1}):
            print("unit {} {}".format(unit["unit"], unit["fault"]["name"] if "fault" in unit else "is valid"))
        after = pictures_of(preview, ids)
        for unit in ids:
            print(f"unit {unit}", "has no picture" if unit not in after
                  else "keeps its picture" if after[unit] == before.get(unit) else "has another picture")
        for told in preview.changed:
            print("unit {id} was told to be {state}".format(**told))
        back = preview.call("undo")
        print(f"edit {back['edit']} takes that back: unit {edit['id']} is unit {back['ids'][0]} now")
        for path in saved:
            print("saved {units} units, {bytes} bytes".format(**preview.call("save", path=path)))
        preview.call("shutdown")


if __name__ == "__main__":
    main()
