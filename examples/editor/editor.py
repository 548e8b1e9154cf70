#!/usr/bin/env python3
"""An editor of H.264 streams to try in a browser, over `preview serve`.

    examples/editor/editor.py [FILE] [--port N] [--workers N]

It prints the address to open, http://127.0.0.1:8264/ by default, and listens on this machine alone. A page has one stream
open. FILE is written when the page saves, and not before; until then its edits are in FILE.journal, and the next start finds
them there. A file that is dropped on the page stays as it is, and the page downloads what it saves. What the server refuses
is shown, and changes nothing.
"""
import argparse
import http.server
import json
import pathlib
import queue
import signal
import subprocess
import sys
import tempfile
import threading
import urllib.parse

import thumbnails
from document import Document
from server import PREVIEW, Ended, Refused

HERE = pathlib.Path(__file__).resolve().parent
KINDS = {".html": "text/html", ".js": "text/javascript", ".css": "text/css"}
QUESTIONS = ("units", "show", "want", "find", "stats")
MOST_BYTES = 1 << 30


class Handler(http.server.BaseHTTPRequestHandler):
    protocol_version = "HTTP/1.1"
    workers, port, folder, document, refused, edits = 1, 0, None, None, None, threading.Lock()

    def log_message(self, *_):
        pass

    def answer(self, content, kind="application/json", status=200, **headers):
        content = content if isinstance(content, bytes) else json.dumps(content, separators=(",", ":")).encode()
        self.send_response(status)
        self.send_header("Content-Type", kind)
        self.send_header("Content-Length", str(len(content)))
        self.send_header("Cache-Control", "no-store")
        for name, value in headers.items():
            self.send_header(name.replace("_", "-"), value)
        self.end_headers()
        self.wfile.write(content)

    def answer_parts(self, told, parts):
        """Answers with JSON of each part, and the parts: in front stands how long the JSON is."""
        head = json.dumps(told).encode()
        self.answer(b"".join([len(head).to_bytes(4, "big"), head, *parts]), "application/octet-stream")

    def is_ours(self):
        """Whether the request is of a page that came from here: another page in the same browser is no friend."""
        here = {f"127.0.0.1:{self.port}", f"localhost:{self.port}"}
        origin = self.headers.get("Origin")
        return self.headers.get("Host") in here and (not origin or origin.removeprefix("http://") in here)

    def handle_call(self, what):
        if not self.is_ours():
            return self.answer({"error": "this isn't for another page"}, status=403)
        try:
            what()
        except Refused as refused:
            self.answer({"error": str(refused), "number": refused.number}, status=409)
        except (BrokenPipeError, ConnectionResetError):
            self.close_connection = True
        except (KeyError, TypeError, ValueError, OSError, RuntimeError) as error:
            self.answer({"error": f"{type(error).__name__}: {error}"}, status=400)

    def do_GET(self):
        self.handle_call(self.get)

    def do_POST(self):
        self.handle_call(self.post)

    def get(self):
        path = self.path.partition("?")[0]
        name = path[1:] or "index.html"
        if name in {file.name for file in HERE.iterdir()} and pathlib.Path(name).suffix in KINDS:
            self.answer((HERE / name).read_bytes(), f"{KINDS[pathlib.Path(name).suffix]}; charset=utf-8")
        elif path == "/document":
            self.answer(Handler.document and Handler.document.told())
        elif path == "/stream":
            self.answer(Handler.document.text(), "video/h264",
                        Content_Disposition=f"attachment; filename*=UTF-8''{urllib.parse.quote(Handler.document.path.name)}")
        elif path == "/events":
            self.events(Handler.document.shown.server)
        else:
            self.answer({"error": "there is no such page"}, status=404)

    def events(self, server):
        """Passes the server's notifications on, for as long as the page listens."""
        self.send_response(200)
        self.send_header("Content-Type", "text/event-stream")
        self.send_header("Connection", "close")
        self.end_headers()
        told = queue.Queue()
        server.listeners.add(told)
        try:
            while server.process.poll() is None:
                try:
                    line = f"data: {json.dumps(told.get(timeout=5))}\n\n"
                except queue.Empty:
                    line = ":\n\n"
                self.wfile.write(line.encode())
                self.wfile.flush()
        finally:
            self.close_connection = True
            server.listeners.discard(told)

    def post(self):
        size = int(self.headers.get("Content-Length", 0))
        if size > MOST_BYTES:
            self.close_connection = True    # what isn't read would be taken for the next request
            raise Refused("the file is too large: 1 GiB at most")
        body = self.rfile.read(size)
        path, _, words = self.path.partition("?")
        if path == "/open":
            name = pathlib.Path(dict(urllib.parse.parse_qsl(words))["name"]).name
            file = pathlib.Path(tempfile.mkdtemp(dir=Handler.folder), name)
            file.write_bytes(body)
            with Handler.edits:
                return self.answer(self.open(file))
        call = {"/ask": self.ask, "/edit": self.edit, "/foresee": self.foresee, "/undo": self.undo, "/redo": self.redo,
                "/save": self.save, "/mend": self.mend, "/decode": self.decode, "/pictures": self.pictures}.get(path)
        if not call:
            return self.answer({"error": "there is no such call"}, status=404)
        with Handler.edits:
            call(Handler.document, json.loads(body))

    def ask(self, document, given):
        if given["method"] not in QUESTIONS:
            raise Refused("that is no question")
        self.answer({"result": document.shown.call(given["method"], **given["params"])})

    def splices(self, document, given):
        return [(place, gone, document.units(ids)) for place, gone, ids in given]

    def edit(self, document, given):
        document.edit(self.splices(document, given))
        self.answer(document.told())

    def foresee(self, document, given):
        self.answer(document.foreseen(self.splices(document, given)))

    def undo(self, document, _):
        document.undo()
        self.answer(document.told())

    def redo(self, document, _):
        document.redo()
        self.answer(document.told())

    def save(self, document, _):
        document.save()
        self.answer(document.told())

    def decode(self, document, given):
        self.answer_parts(*document.to_decode(given["ids"], given["begin"]))

    def pictures(self, document, given):
        if not thumbnails.can_decode():
            raise Refused("ffmpeg isn't there")
        found = thumbnails.pictures_of(document.shown, set(given["ids"]), int(given["width"])) if document else {}
        self.answer_parts([{"id": unit_id, "bytes": len(file)} for unit_id, file in found.items()], found.values())

    def open(self, path):
        """Opens a copy of a file; of one that is refused the path is kept, so that it can be mended."""
        try:
            opened = Document(path, self.workers, True)
        except Refused:
            Handler.refused = path
            raise
        before, Handler.document = Handler.document, opened
        if before:
            before.close()
        return opened.told()

    def mend(self, *_):
        """Mends the file that was refused last, and opens what is left of it."""
        mended = Handler.refused.with_name(f"{Handler.refused.stem}-mended.264")
        with open(mended, "wb") as file:
            ran = subprocess.run([PREVIEW, "mend", Handler.refused], stdout=file, stderr=subprocess.PIPE)
        if ran.returncode:
            raise Refused(ran.stderr.decode() or "the file can't be mended")
        self.answer({**self.open(mended), "left_out": ran.stderr.decode().splitlines()})


class Bridge(http.server.ThreadingHTTPServer):
    daemon_threads = True

    def handle_error(self, request, client_address):
        """A browser may end a connection when it likes."""
        if not isinstance(sys.exc_info()[1], ConnectionError):
            super().handle_error(request, client_address)


def opened(file, workers):
    """The document of a file that was named, or the end."""
    try:
        return Document(pathlib.Path(file).resolve(), workers, False)
    except Ended:
        sys.exit(1)    # the server has said why
    except Refused as refused:
        sys.exit(f"editor: {file} is refused: {refused}. What `preview mend FILE >OUT` makes of it can be opened.")
    except OSError as error:
        sys.exit(f"editor: {error}")


def serve(port):
    with tempfile.TemporaryDirectory(prefix="editor-") as Handler.folder, Bridge(("127.0.0.1", port), Handler) as server:
        Handler.port = server.server_address[1]
        print(f"http://127.0.0.1:{Handler.port}/", flush=True)
        server.serve_forever()


def main():
    parser = argparse.ArgumentParser(description=__doc__, formatter_class=argparse.RawTextHelpFormatter)
    parser.add_argument("file", metavar="FILE", nargs="?")
    parser.add_argument("--port", type=int, default=8264)
    parser.add_argument("--workers", type=int, default=1)
    options = parser.parse_args()
    Handler.workers = options.workers
    if options.file:
        Handler.document = opened(options.file, options.workers)
    # So that the folder of what was opened goes then too, and the journal if all is saved.
    signal.signal(signal.SIGTERM, lambda *_: sys.exit())
    try:
        serve(options.port)
    except KeyboardInterrupt:
        pass
    finally:
        with Handler.edits:
            if Handler.document:
                Handler.document.close()


if __name__ == "__main__":
    main()
