# SPDX-License-Identifier: MIT
"""Opens pages in Chromium, for the checks of pages."""
import json
import os
import select
import shutil
import subprocess

SECONDS = 300


def found():
    """Where Chromium is, or None."""
    return shutil.which("chromium") or shutil.which("chromium-browser") or shutil.which("google-chrome")


class Browser:
    """Chromium without a window, by its debugging pipe."""

    def __init__(self, path, folder):
        commands, self.writing = os.pipe()
        self.reading, answers = os.pipe()
        wanted = [path, "--headless", "--no-sandbox", "--disable-gpu", "--remote-debugging-pipe",
                  f"--user-data-dir={folder}/profile", "--window-size=1280,900", "about:blank"]
        start = ["sh", "-c", f'exec "$@" 3<&{commands} 4>&{answers}', "sh", *wanted]
        nothing = subprocess.DEVNULL
        self.process = subprocess.Popen(start, pass_fds=(commands, answers), stdin=nothing, stdout=nothing,
                                        stderr=nothing)
        os.close(commands)
        os.close(answers)
        self.kept, self.number, self.session, self.errors = b"", 0, None, []

    def answer(self):
        while b"\0" not in self.kept:
            if not select.select([self.reading], [], [], SECONDS)[0]:
                raise OSError(f"no answer after {SECONDS} seconds")
            read = os.read(self.reading, 1 << 20)
            if not read:
                raise OSError("it ended")
            self.kept += read
        one, self.kept = self.kept.split(b"\0", 1)
        return json.loads(one)

    def call(self, method, wait_for=None, **parameters):
        self.number += 1
        message = {"id": self.number, "method": method, "params": parameters}
        if self.session:
            message["sessionId"] = self.session
        os.write(self.writing, json.dumps(message).encode() + b"\0")
        result = None
        while result is None or wait_for:
            it = self.answer()
            if it.get("id") == self.number:
                if "error" in it:
                    raise OSError(f"{method}: {it['error']}")
                result = it["result"]
            elif it.get("method") == wait_for:
                wait_for = None
            elif it.get("method") in ("Runtime.exceptionThrown", "Runtime.consoleAPICalled", "Log.entryAdded"):
                self.errors.append(it["params"])
        return result

    def open(self, url):
        """Opens a page, in the place of the one that is open."""
        if not self.session:
            target = self.call("Target.createTarget", url="about:blank")["targetId"]
            self.session = self.call("Target.attachToTarget", targetId=target, flatten=True)["sessionId"]
            for domain in ("Page", "Runtime", "Log"):
                self.call(f"{domain}.enable")
        self.call("Page.navigate", wait_for="Page.loadEventFired", url=url)

    def value(self, expression):
        return self.call("Runtime.evaluate", expression=expression, returnByValue=True)["result"].get("value")

    def point(self, selector):
        """Moves the pointer over an element."""
        element = f"document.querySelector({json.dumps(selector)})"
        at = self.value("(e => { e.scrollIntoView({block: 'center'}); const r = e.getBoundingClientRect();"
                        f" return [r.left + 3, r.top + r.height / 2]; }})({element})")
        for step in (1, 0):
            self.call("Input.dispatchMouseEvent", type="mouseMoved", x=at[0] + step, y=at[1])

    def press(self, key, code, text=""):
        """Presses and lets go a key."""
        for kind in ("rawKeyDown", "char", "keyUp") if text else ("rawKeyDown", "keyUp"):
            more = {"text": text} if kind == "char" else {}
            self.call("Input.dispatchKeyEvent", type=kind, key=key, code=key, windowsVirtualKeyCode=code, **more)

    def size(self, width, is_dark):
        """Shows pages on a screen of a width, and returns by how much the page is wider."""
        self.call("Emulation.setDeviceMetricsOverride", width=width, height=900, deviceScaleFactor=1,
                  mobile=width < 500)
        scheme = {"name": "prefers-color-scheme", "value": "dark" if is_dark else "light"}
        self.call("Emulation.setEmulatedMedia", features=[scheme])
        return self.value("document.scrollingElement.scrollWidth - innerWidth")

    def end(self):
        self.process.terminate()
        self.process.wait()
        os.close(self.writing)
        os.close(self.reading)
