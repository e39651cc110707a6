"""Chromium without a window, which a test drives by the DevTools protocol over a pipe."""

import json
import os
import select
import shutil
import subprocess
import tempfile
import time

NAMES = ("chromium", "chromium-browser", "google-chrome")
LONGEST = 60


def found():
    """The browser's command, or None."""
    return next((path for path in map(shutil.which, NAMES) if path), None)


class Failed(Exception):
    """The browser didn't do what was asked."""


class Browser:
    """A browser with one page."""

    def __init__(self, *words):
        self.room = tempfile.TemporaryDirectory(prefix="browser-")
        asked, self.to = os.pipe()
        self.back, said = os.pipe()
        # The browser reads what is asked from its descriptor 3, and writes answers to its 4.
        command = f'exec "$@" 3<&{asked} 4>&{said}'
        words = [found(), "--headless", "--no-sandbox", "--disable-gpu", "--remote-debugging-pipe", *words]
        words += [f"--user-data-dir={self.room.name}", "about:blank"]
        how = {"stdin": subprocess.DEVNULL, "stdout": subprocess.DEVNULL, "stderr": subprocess.DEVNULL}
        # A descriptor may have more than one digit, which bash takes.
        self.process = subprocess.Popen(["bash", "-c", command, "browser", *words], pass_fds=(asked, said), **how)
        os.close(asked)
        os.close(said)
        self.number, self.held, self.session = 0, b"", None
        target = self.ask("Target.createTarget", url="about:blank")["targetId"]
        self.session = self.ask("Target.attachToTarget", targetId=target, flatten=True)["sessionId"]

    def __enter__(self):
        return self

    def __exit__(self, *_):
        self.close()

    def message(self, until):
        """The next thing that the browser says."""
        while b"\0" not in self.held:
            if not select.select([self.back], [], [], max(0, until - time.monotonic()))[0]:
                raise Failed("the browser says nothing")
            data = os.read(self.back, 1 << 20)
            if not data:
                raise Failed("the browser ended")
            self.held += data
        said, _, self.held = self.held.partition(b"\0")
        return json.loads(said)

    def ask(self, method, **words):
        """Calls a method of the protocol, and returns its result."""
        self.number += 1
        asked = {"id": self.number, "method": method, "params": words}
        if self.session:
            asked["sessionId"] = self.session
        os.write(self.to, json.dumps(asked).encode() + b"\0")
        until = time.monotonic() + LONGEST
        while True:
            said = self.message(until)
            if said.get("id") == self.number:
                break
        if "error" in said:
            raise Failed(f"{method}: {said['error']['message']}")
        return said["result"]

    def value(self, script):
        """What the script is in the page."""
        said = self.ask("Runtime.evaluate", expression=script, returnByValue=True, awaitPromise=True)
        if "exceptionDetails" in said:
            raise Failed(str(said["exceptionDetails"]))
        return said["result"].get("value")

    def wait(self, script):
        """Waits until the script is true in the page."""
        until = time.monotonic() + LONGEST
        while not self.value(script):
            if time.monotonic() > until:
                raise Failed(f"never so: {script}; {self.value('document.body.innerText')[:2000]}")
            time.sleep(0.02)

    def open(self, path):
        self.ask("Page.navigate", url=f"file://{path}")
        self.wait("document.readyState === 'complete' && document.body.dataset.state !== undefined")

    def drop(self, *paths):
        """Sets the files into the page's input, and waits until it has worked on them."""
        self.value("document.body.dataset.state = 'asked'")
        root = self.ask("DOM.getDocument")["root"]["nodeId"]
        node = self.ask("DOM.querySelector", nodeId=root, selector="#files")["nodeId"]
        self.ask("DOM.setFileInputFiles", files=[str(it) for it in paths], nodeId=node)
        self.wait("['done', 'failed', 'stopped'].includes(document.body.dataset.state)")

    def printed(self, of):
        """The texts that stand for what the program prints."""
        return self.value(f"[...document.querySelectorAll('pre[data-of={of}]')].map((it) => it.textContent)")

    def close(self):
        os.close(self.to)
        os.close(self.back)
        try:
            self.process.wait(10)
        except subprocess.TimeoutExpired:
            self.process.kill()
            self.process.wait()
        self.room.cleanup()
