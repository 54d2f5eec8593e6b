"""Browsers without a window, driven by what Debian ships alone: Chromium by its DevTools protocol over a pipe, Firefox by
Marionette over a socket of this machine.

    with Chromium() as browser:
        browser.open("file:///..")
        browser.run("return document.title")
"""

from __future__ import annotations

import base64
import contextlib
import json
import os
import select
import shutil
import signal
import socket
import subprocess
import tempfile
import time
from pathlib import Path
from types import TracebackType
from typing import Any, Optional

MAX_SECONDS = 300
CHROMIUMS = ("chromium", "chromium-browser", "google-chrome")
FIREFOXES = ("firefox-esr", "firefox")
CHROMIUM_WORDS = (
    "--headless=new",
    "--no-sandbox",
    "--disable-gpu",
    "--disable-dev-shm-usage",
    "--disable-extensions",
    "--disable-background-networking",
    "--disable-component-update",
    "--no-first-run",
    "--remote-debugging-pipe",
)
FIREFOX_PREFERENCES = {
    "marionette.port": 0,
    "browser.shell.checkDefaultBrowser": False,
    "browser.startup.homepage_override.mstone": "ignore",
    "datareporting.policy.dataSubmissionEnabled": False,
    "toolkit.telemetry.reportingpolicy.firstRun": False,
    "network.captive-portal-service.enabled": False,
    "network.connectivity-service.enabled": False,
    "app.update.enabled": False,
    "extensions.update.enabled": False,
    "services.settings.server": "data:,",
}


class BrowserError(Exception):
    """A browser did not do what it was told, or a script in its page failed."""


def found_command(names: tuple[str, ...]) -> Optional[str]:
    """The first of these commands that is there."""
    return next((found for found in (shutil.which(name) for name in names) if found), None)


class Browser:
    """A browser that runs, with a folder for its profile and for what it downloads; it ends with its context."""

    name = ""
    names: tuple[str, ...] = ()

    def __init__(self) -> None:
        self.messages: list[str] = []
        self.requests: list[str] = []
        self.kept = contextlib.ExitStack()
        self.folder = Path(tempfile.mkdtemp(prefix="finder-browser-"))
        self.kept.callback(shutil.rmtree, self.folder, ignore_errors=True)
        self.downloads = self.folder / "downloads"
        self.downloads.mkdir()

    @classmethod
    def command(cls) -> Optional[str]:
        """The browser's command, if it is installed."""
        return found_command(cls.names)

    def start(self, words: list[str], **how: Any) -> "subprocess.Popen[bytes]":
        """Starts the browser, which is ended with all that it started."""
        environment = {**os.environ, "HOME": str(self.folder), "TMPDIR": str(self.folder)}
        log = self.kept.enter_context((self.folder / "log").open("wb"))
        process = subprocess.Popen(
            words, stdin=subprocess.DEVNULL, stdout=log, stderr=log, env=environment, start_new_session=True, **how
        )
        self.kept.callback(self.end, process)
        return process

    @staticmethod
    def end(process: "subprocess.Popen[bytes]") -> None:
        """Ends the browser's session of processes."""
        with contextlib.suppress(ProcessLookupError):
            os.killpg(process.pid, signal.SIGKILL)
        process.wait()

    def __enter__(self) -> "Browser":
        raise NotImplementedError

    def __exit__(
        self, kind: Optional[type[BaseException]], error: Optional[BaseException], trace: Optional[TracebackType]
    ) -> None:
        self.kept.close()

    def wait_until(self, condition: str, seconds: float = 120) -> None:
        """Waits until an expression of the page is true."""
        end = time.monotonic() + seconds
        while not self.run(f"return Boolean({condition})"):
            if time.monotonic() > end:
                raise BrowserError(f"{self.name}: not so after {seconds} seconds: {condition}")
            time.sleep(0.05)

    def run(self, script: str, *values: Any) -> Any:
        """Runs the body of an async function in the page, with these `values`, and returns what it returns."""
        raise NotImplementedError

    def open(self, address: str) -> None:
        """Opens a page, and waits until it is loaded."""
        raise NotImplementedError


class Chromium(Browser):
    """Chromium: what its pages ask of any address is kept in `requests`, what their consoles say in `messages`."""

    name = "Chromium"
    names = CHROMIUMS

    def __init__(self) -> None:
        super().__init__()
        self.number = 0
        self.buffer = b""
        self.session = ""

    def __enter__(self) -> "Chromium":
        command = self.command()
        if not command:
            raise BrowserError("there is no Chromium here")
        their_in, self.out = os.pipe()
        self.into, their_out = os.pipe()
        for end in (self.out, self.into):
            self.kept.callback(os.close, end)

        def pass_pipes() -> None:
            low = [os.dup(their_in), os.dup(their_out)]
            for number, end in enumerate(low, 3):
                os.dup2(end, number)

        words = [command, *CHROMIUM_WORDS, f"--user-data-dir={self.folder}/profile", "about:blank"]
        self.start(words, preexec_fn=pass_pipes, close_fds=False)
        os.close(their_in)
        os.close(their_out)
        self.attach()
        return self

    def attach(self) -> None:
        """Takes the first page, and has its events told."""
        found: list[str] = []
        end = time.monotonic() + 60
        while not found and time.monotonic() < end:
            targets = self.call("Target.getTargets")["targetInfos"]
            found = [it["targetId"] for it in targets if it["type"] == "page"]
        self.session = self.call("Target.attachToTarget", targetId=found[0], flatten=True)["sessionId"]
        for domain in ("Page", "Runtime", "Network", "Log"):
            self.call(f"{domain}.enable")
        self.call("Target.setAutoAttach", autoAttach=True, waitForDebuggerOnStart=False, flatten=True)
        self.call("Browser.setDownloadBehavior", behavior="allow", downloadPath=str(self.downloads))

    def read(self) -> dict[str, Any]:
        """The next message of the browser."""
        while b"\0" not in self.buffer:
            if not select.select([self.into], [], [], MAX_SECONDS)[0]:
                raise BrowserError(f"{self.name} says nothing for {MAX_SECONDS} seconds")
            piece = os.read(self.into, 1 << 20)
            if not piece:
                raise BrowserError(f"{self.name} has ended: {(self.folder / 'log').read_text('utf-8', 'replace')[-500:]}")
            self.buffer += piece
        text, self.buffer = self.buffer.split(b"\0", 1)
        message: dict[str, Any] = json.loads(text)
        return message

    def call(self, method: str, **values: Any) -> Any:
        """Calls a method of the protocol, and returns its result."""
        self.number += 1
        message = {"id": self.number, "method": method, "params": values}
        if self.session:
            message["sessionId"] = self.session
        text = json.dumps(message).encode() + b"\0"
        while text:
            text = text[os.write(self.out, text) :]
        while True:
            answer = self.read()
            if answer.get("id") == self.number:
                break
            self.note(answer)
        if "error" in answer:
            raise BrowserError(f"{method}: {answer['error']['message']}")
        return answer["result"]

    def note(self, event: dict[str, Any]) -> None:
        """Keeps what an event tells: a request, or a message of the console."""
        method, values = event.get("method"), event.get("params", {})
        if method == "Network.requestWillBeSent":
            self.requests.append(values["request"]["url"])
        elif method == "Runtime.consoleAPICalled":
            self.messages.append(" ".join(str(it.get("value", it.get("description"))) for it in values["args"]))
        elif method == "Runtime.exceptionThrown":
            details = values["exceptionDetails"]
            self.messages.append(details.get("exception", {}).get("description") or details["text"])
        elif method == "Log.entryAdded":
            self.messages.append(values["entry"]["text"])

    def open(self, address: str) -> None:
        self.call("Page.navigate", url=address)
        self.wait_until("document.readyState === 'complete' && location.href !== 'about:blank'")

    def run(self, script: str, *values: Any) -> Any:
        text = f"(async (...values) => {{ {script} }})(...{json.dumps(values)})"
        answer = self.call("Runtime.evaluate", expression=text, awaitPromise=True, returnByValue=True)
        if "exceptionDetails" in answer:
            details = answer["exceptionDetails"]
            raise BrowserError(details.get("exception", {}).get("description") or details["text"])
        return answer["result"].get("value")

    def choose_files(self, query: str, paths: list[Path]) -> None:
        """Chooses files in the input that a query finds, as a user does."""
        root = self.call("DOM.getDocument")["root"]["nodeId"]
        node = self.call("DOM.querySelector", nodeId=root, selector=query)["nodeId"]
        self.call("DOM.setFileInputFiles", files=[str(path) for path in paths], nodeId=node)

    def show(self, width: int, is_dark: bool = False, height: int = 900) -> None:
        """Shows the page so wide, in light or dark colours."""
        phone = width < 500
        self.call(
            "Emulation.setDeviceMetricsOverride", width=width, height=height, deviceScaleFactor=2 if phone else 1, mobile=phone
        )
        scheme = {"name": "prefers-color-scheme", "value": "dark" if is_dark else "light"}
        self.call("Emulation.setEmulatedMedia", features=[scheme])

    def picture(self) -> bytes:
        """A picture of the whole page, as PNG."""
        answer = self.call("Page.captureScreenshot", format="png", captureBeyondViewport=True)
        return base64.b64decode(answer["data"])

    def press(self, key: str, code: int, text: str = "") -> None:
        """Presses a key and releases it, by its name and code, with the letter that it writes."""
        for kind, letter in (("keyDown", text), ("keyUp", "")):
            how = {"text": letter} if letter else {}
            self.call("Input.dispatchKeyEvent", type=kind, key=key, code=key, windowsVirtualKeyCode=code, **how)

    def wait_for_file(self, path: Path, seconds: float = 30) -> None:
        """Waits until a file is saved whole: Chromium gives it its name at the end."""
        end = time.monotonic() + seconds
        while not path.exists():
            if time.monotonic() > end:
                raise BrowserError(f"{self.name}: {path.name} is not saved after {seconds} seconds")
            self.run("return 0")
            time.sleep(0.05)


class Firefox(Browser):
    """Firefox, by Marionette."""

    name = "Firefox"
    names = FIREFOXES

    def __init__(self) -> None:
        super().__init__()
        self.number = 0

    def __enter__(self) -> "Firefox":
        command = self.command()
        if not command:
            raise BrowserError("there is no Firefox here")
        profile = self.folder / "profile"
        profile.mkdir()
        lines = (f"user_pref({json.dumps(name)}, {json.dumps(value)});\n" for name, value in FIREFOX_PREFERENCES.items())
        (profile / "user.js").write_text("".join(lines), "ascii")
        self.start([command, "--headless", "--marionette", "--no-remote", "--profile", str(profile)])
        self.socket = self.kept.enter_context(self.connect(profile / "MarionetteActivePort"))
        self.stream = self.kept.enter_context(self.socket.makefile("rb"))
        self.read()
        self.call("WebDriver:NewSession", capabilities={"alwaysMatch": {"unhandledPromptBehavior": "ignore"}})
        self.call("WebDriver:SetTimeouts", script=MAX_SECONDS * 1000)
        return self

    def connect(self, place: Path) -> socket.socket:
        """The connection to the port that the browser writes into its profile."""
        end = time.monotonic() + 90
        while time.monotonic() < end:
            with contextlib.suppress(OSError, ValueError):
                return socket.create_connection(("127.0.0.1", int(place.read_text("ascii"))), MAX_SECONDS)
            time.sleep(0.1)
        raise BrowserError(f"{self.name} does not start: {(self.folder / 'log').read_text('utf-8', 'replace')[-500:]}")

    def read(self) -> Any:
        """The next message of the browser."""
        digits = b""
        while not digits.endswith(b":"):
            piece = self.stream.read(1)
            if not piece:
                raise BrowserError(f"{self.name} has ended")
            digits += piece
        return json.loads(self.stream.read(int(digits[:-1])))

    def call(self, method: str, **values: Any) -> Any:
        """Calls a command of the protocol, and returns its result."""
        self.number += 1
        text = json.dumps([0, self.number, method, values]).encode()
        self.socket.sendall(b"%d:%s" % (len(text), text))
        answer = self.read()
        while answer[1] != self.number:
            answer = self.read()
        if answer[2]:
            raise BrowserError(f"{method}: {answer[2].get('message')}")
        return answer[3]

    def open(self, address: str) -> None:
        self.call("WebDriver:Navigate", url=address)

    def run(self, script: str, *values: Any) -> Any:
        body = f"return (async (...values) => {{ {script} }})(...arguments)"
        return self.call("WebDriver:ExecuteScript", script=body, args=list(values), sandbox=None)["value"]


BROWSERS = (Chromium, Firefox)
