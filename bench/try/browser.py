"""Drives a headless Chromium over two pipes (its option --remote-debugging-pipe), by std alone:
try_page.py looks at pages with it.
"""
import base64
import json
import os
import select
import shutil
import subprocess
import time


class BrowserFault(Exception):
    """The browser didn't do what it was asked."""


def program():
    """The path of a Chromium, or None where there is none."""
    return next(
        (
            path
            for name in ("chromium", "chromium-browser", "google-chrome")
            if (path := shutil.which(name))
        ),
        None,
    )


class Browser:
    """A browser with one page. Its messages end with a zero byte each."""

    def __init__(self, folder, seconds=300):
        self.seconds, self.number, self.rest, self.events = seconds, 0, b"", []
        self.session = None
        theirs_in, self.to = os.pipe()
        self.come, theirs_out = os.pipe()
        words = [
            program(),
            "--headless",
            "--no-sandbox",
            "--disable-gpu",
            "--hide-scrollbars",
            "--no-first-run",
            "--disable-dev-shm-usage",
            f"--user-data-dir={folder}",
            "--remote-debugging-pipe",
        ]
        # the browser reads from descriptor 3 and writes to descriptor 4
        shell = ["sh", "-c", f'exec "$@" 3<&{theirs_in} 4>&{theirs_out}', "sh", *words]
        self.process = subprocess.Popen(
            shell,
            pass_fds=(theirs_in, theirs_out),
            stdin=subprocess.DEVNULL,
            stdout=subprocess.DEVNULL,
            stderr=subprocess.DEVNULL,
        )
        os.close(theirs_in)
        os.close(theirs_out)

    def __enter__(self):
        try:
            target = self.ask("Target.createTarget", url="about:blank")["targetId"]
            attached = self.ask("Target.attachToTarget", targetId=target, flatten=True)
            self.session = attached["sessionId"]
            for domain in ("Page", "Runtime", "Network", "Log"):
                self.ask(f"{domain}.enable")
        except BrowserFault:
            self.close()
            raise
        return self

    def __exit__(self, *_):
        self.close()

    def ask(self, method, **values):
        """A call of the protocol, and its answer."""
        self.number += 1
        message = {"id": self.number, "method": method, "params": values}
        if self.session:
            message["sessionId"] = self.session
        os.write(self.to, json.dumps(message).encode() + b"\0")
        end = time.monotonic() + self.seconds
        while True:
            answer = self.message(end)
            if answer.get("id") == self.number:
                if "error" in answer:
                    raise BrowserFault(f"{method}: {answer['error'].get('message')}")
                return answer["result"]
            self.events.append(answer)

    def message(self, end):
        """The next message."""
        while b"\0" not in self.rest:
            if not select.select([self.come], [], [], max(0, end - time.monotonic()))[0]:
                raise BrowserFault(f"no answer within {self.seconds} seconds")
            more = os.read(self.come, 1 << 20)
            if not more:
                raise BrowserFault("the browser has ended")
            self.rest += more
        message, self.rest = self.rest.split(b"\0", 1)
        return json.loads(message)

    def all(self, method):
        """What all messages of a kind said that have come so far."""
        return [event["params"] for event in self.events if event.get("method") == method]

    def value(self, expression):
        """What an expression of the page is; of a promise what it comes to."""
        made = self.ask(
            "Runtime.evaluate", expression=expression, returnByValue=True, awaitPromise=True
        )
        if "exceptionDetails" in made:
            raise BrowserFault(
                made["exceptionDetails"].get("exception", {}).get("description", expression)
            )
        return made["result"].get("value")

    def wait(self, expression):
        """Waits until an expression of the page is true, and tells whether it was in time."""
        end = time.monotonic() + self.seconds
        while time.monotonic() < end:
            if self.value(expression):
                return True
            time.sleep(0.05)
        return False

    def open(self, path):
        """Opens a page, and tells whether it was ready in time."""
        self.value("document.documentElement?.removeAttribute('data-ready')")
        self.ask("Page.navigate", url=path.resolve().as_uri())
        return self.wait("document.documentElement?.dataset.ready === 'yes'")

    def window(self, width, height, dark=False):
        self.ask(
            "Emulation.setDeviceMetricsOverride",
            width=width,
            height=height,
            deviceScaleFactor=1,
            mobile=False,
        )
        self.ask(
            "Emulation.setEmulatedMedia",
            features=[{"name": "prefers-color-scheme", "value": "dark" if dark else "light"}],
        )

    def key(self, key, code, number):
        """A key of the keyboard, down and up."""
        for kind in ("rawKeyDown", "keyUp"):
            self.ask(
                "Input.dispatchKeyEvent",
                type=kind,
                key=key,
                code=code,
                windowsVirtualKeyCode=number,
                nativeVirtualKeyCode=number,
            )

    def click(self, x, y):
        self.ask("Input.dispatchMouseEvent", type="mouseMoved", x=x, y=y)
        for kind in ("mousePressed", "mouseReleased"):
            self.ask("Input.dispatchMouseEvent", type=kind, x=x, y=y, button="left", clickCount=1)

    def screenshot(self, path, width, height):
        """The upper part of the page as a PNG file."""
        clip = {"x": 0, "y": 0, "width": width, "height": height, "scale": 1}
        data = self.ask(
            "Page.captureScreenshot", format="png", clip=clip, captureBeyondViewport=True
        )["data"]
        path.write_bytes(base64.b64decode(data))

    def close(self):
        """Ends the browser."""
        try:
            self.ask("Browser.close")
        except (BrowserFault, OSError):
            pass
        try:
            self.process.wait(10)
        except subprocess.TimeoutExpired:
            self.process.kill()
        os.close(self.to)
        os.close(self.come)
