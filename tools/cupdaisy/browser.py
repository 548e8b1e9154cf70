"""Headless Chromium under a driver, by the WebDriver protocol."""
import json
import shutil
import subprocess
import time
import urllib.request

SECONDS = 20
OPTIONS = ["--headless=new", "--no-sandbox", "--disable-gpu", "--hide-scrollbars"]


class Browser:
    """A browser that a driver holds, by the WebDriver protocol."""

    def __init__(self, is_dark, size):
        self.driver = subprocess.Popen(["chromedriver", "--port=0"], stdout=subprocess.PIPE, text=True)
        line = next(line for line in self.driver.stdout if "started successfully on port" in line)
        self.at = f"http://127.0.0.1:{line.split()[-1].rstrip('.')}/session"
        dark = ["--force-dark-mode", "--blink-settings=preferredColorScheme=0"] if is_dark else []
        options = {"args": [*OPTIONS, *dark, f"--window-size={size[0]},{size[1]}"], "binary": shutil.which("chromium")}
        made = self.call("", {"capabilities": {"alwaysMatch": {"goog:chromeOptions": options}}})
        self.at += "/" + made["sessionId"]

    def call(self, path, given=None):
        request = urllib.request.Request(self.at + path, data=None if given is None else json.dumps(given).encode())
        with urllib.request.urlopen(request, timeout=SECONDS) as answer:
            return json.load(answer)["value"]

    def run(self, script, *args):
        return self.call("/execute/sync", {"script": script, "args": args})

    def run_async(self, script, *args):
        return self.call("/execute/async", {"script": script, "args": args})

    def wait(self, script, *args):
        """Waits until a script says so; whether it did in time."""
        end = time.monotonic() + SECONDS
        while time.monotonic() < end:
            if self.run(script, *args):
                return True
            time.sleep(0.05)
        return False

    def press(self, begin, *points):
        """Presses the mouse at a point, draws it to others, and lets go."""
        move = lambda point: {"type": "pointerMove", "duration": 30, "x": round(point[0]), "y": round(point[1])}
        steps = [move(begin), {"type": "pointerDown", "button": 0}, *map(move, points), {"type": "pointerUp", "button": 0}]
        self.call("/actions", {"actions": [{"type": "pointer", "id": "mouse", "parameters": {"pointerType": "mouse"}, "actions": steps}]})

    def close(self):
        try:
            urllib.request.urlopen(urllib.request.Request(self.at, method="DELETE"), timeout=SECONDS)
        finally:
            self.driver.terminate()
            self.driver.wait()
