"""A browser without a window, driven by the words of WebDriver: Debian's packages chromium and chromium-driver."""

import base64
import http.client
import json
import os
import subprocess
import time

from helpers.running import HOST, SECONDS, found, free_port

ELEMENT = "element-6066-11e4-a52e-4f735466cecf"
KEYS = {"Tab": "\ue004", "Enter": "\ue007", "Escape": "\ue00c", "Shift": "\ue008"}


def missing():
    """What is not on this machine, by the names of Debian's packages."""
    return [package for package, program in (("chromium", "chromium"), ("chromium-driver", "chromedriver"), ("nginx", "nginx")) if not found(program)]


class Browser:
    """A session of Chromium. What it saves comes into a folder."""

    def __init__(self, folder):
        self.port = free_port()
        self.driver = subprocess.Popen([found("chromedriver"), f"--port={self.port}"], stdout=subprocess.DEVNULL, stderr=subprocess.DEVNULL)
        self.session = ""
        arguments = ["--headless=new", "--disable-gpu", "--disable-dev-shm-usage", "--hide-scrollbars", "--lang=en-US"]
        options = {"binary": found("chromium"), "args": arguments + (["--no-sandbox"] if os.geteuid() == 0 else []),
                   "prefs": {"download.default_directory": str(folder), "download.prompt_for_download": False}}
        self.wanted = {"capabilities": {"alwaysMatch": {"goog:chromeOptions": options}}}

    def ask(self, method, path, body=None):
        """The value that the driver answers."""
        it = http.client.HTTPConnection(HOST, self.port, timeout=6 * SECONDS)
        it.request(method, self.session + path, body=None if method == "GET" else json.dumps(body or {}), headers={"Content-Type": "application/json"})
        value = json.loads(it.getresponse().read())["value"]
        it.close()
        if isinstance(value, dict) and "error" in value:
            raise RuntimeError(f"{method} {path}: {value['error']}: {value['message'][:300]}")
        return value

    def go(self, address):
        self.ask("POST", "/url", {"url": address})

    def size(self, width, height):
        """Makes the page so wide and high, as a device of this size has it."""
        metrics = {"width": width, "height": height, "deviceScaleFactor": 1, "mobile": False}
        self.ask("POST", "/goog/cdp/execute", {"cmd": "Emulation.setDeviceMetricsOverride", "params": metrics})

    def run(self, script, *arguments):
        """What a script of the page returns."""
        return self.ask("POST", "/execute/sync", {"script": script, "args": list(arguments)})

    def element(self, selector):
        return self.ask("POST", "/element", {"using": "css selector", "value": selector})[ELEMENT]

    def click(self, selector):
        """Clicks in the middle of an element, which is brought to the middle of the window first."""
        it = self.element(selector)
        self.run("arguments[0].scrollIntoView({block: 'center'})", {ELEMENT: it})
        self.ask("POST", f"/element/{it}/click")

    def type(self, selector, text):
        """Types a text into a field that is emptied first, or names a file to it."""
        it = self.element(selector)
        if self.run("return arguments[0].type !== 'file'", {ELEMENT: it}):
            self.ask("POST", f"/element/{it}/clear")
        self.ask("POST", f"/element/{it}/value", {"text": text})

    def press(self, *keys):
        """Presses keys one after another, wherever the focus is."""
        actions = [{"type": way, "value": KEYS.get(key, key)} for key in keys for way in ("keyDown", "keyUp")]
        self.ask("POST", "/actions", {"actions": [{"type": "key", "id": "keys", "actions": actions}]})

    def text(self, selector):
        """The text that is seen of an element."""
        return self.ask("GET", f"/element/{self.element(selector)}/text")

    def wait(self, script, *arguments):
        """Waits until a script of the page returns something true, and says whether it did."""
        until = time.monotonic() + SECONDS
        while time.monotonic() < until:
            if self.run(script, *arguments):
                return True
            time.sleep(0.05)
        return False

    def picture(self, path):
        path.write_bytes(base64.b64decode(self.ask("GET", "/screenshot")))

    def __enter__(self):
        for _ in range(SECONDS * 10):
            try:
                self.session = f"/session/{self.ask('POST', '/session', self.wanted)['sessionId']}"
                return self
            except ConnectionRefusedError:
                time.sleep(0.1)
        raise RuntimeError("the driver of the browser does not listen")

    def __exit__(self, *_):
        if self.session:
            self.ask("DELETE", "")
        self.driver.terminate()
        self.driver.wait()
