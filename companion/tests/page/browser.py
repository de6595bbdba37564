"""A headless chromium that tests drive through its DevTools protocol, over a pipe."""

from __future__ import annotations

import base64
import fcntl
import json
import os
import select
import shutil
import subprocess
import tempfile
import time
from pathlib import Path
from types import TracebackType
from typing import Any

CHROMIUM = shutil.which("chromium")
PATIENCE = 900.0  # seconds after which a browser hangs; a busy machine is slow
COMMAND = 'exec "$0" "$@" 3<&"$PIPE_IN" 4>&"$PIPE_OUT"'


def _above_ten(descriptor: int) -> int:
    """Returns the same descriptor under a number that is not in the way of 3 and 4."""
    moved = fcntl.fcntl(descriptor, fcntl.F_DUPFD, 10)
    os.close(descriptor)
    os.set_inheritable(moved, True)
    return moved


GOES_ELSEWHERE = "Inspected target navigated or closed"


class NavigatedError(Exception):
    """A page was left while an expression was evaluated in it."""


class Browser:
    """A chromium of its own, with an empty profile. Use it in a `with` statement."""

    def __init__(self) -> None:
        assert CHROMIUM is not None
        self._profile = tempfile.TemporaryDirectory(ignore_cleanup_errors=True)
        command_end, self._out = os.pipe()
        self._in, answer_end = os.pipe()
        ends = _above_ten(command_end), _above_ten(answer_end)
        words = [
            CHROMIUM,
            "--headless=new",
            "--no-sandbox",
            "--disable-gpu",
            "--no-first-run",
        ]
        words += ["--disable-background-networking", "--remote-debugging-pipe"]
        words += ["--hide-scrollbars"]
        words += [f"--user-data-dir={self._profile.name}", "about:blank"]
        environment = dict(os.environ, PIPE_IN=str(ends[0]), PIPE_OUT=str(ends[1]))
        self._process = subprocess.Popen(
            ["bash", "-c", COMMAND, *words],
            pass_fds=ends,
            env=environment,
            stdout=subprocess.DEVNULL,
            stderr=subprocess.DEVNULL,
        )
        for end in ends:
            os.close(end)
        self._rest = b""
        self._count = 0
        self.events: list[dict[str, Any]] = []

    def __enter__(self) -> Browser:
        return self

    def __exit__(
        self,
        kind: type[BaseException] | None,
        error: BaseException | None,
        trace: TracebackType | None,
    ) -> None:
        self._process.kill()
        self._process.wait()
        os.close(self._in)
        os.close(self._out)
        self._profile.cleanup()

    def call(self, method: str, session: str | None = None, **parameters: Any) -> dict[str, Any]:
        """Sends a command and returns its result. Events that come before it are kept."""
        self._count += 1
        message: dict[str, Any] = {
            "id": self._count,
            "method": method,
            "params": parameters,
        }
        if session is not None:
            message["sessionId"] = session
        data = json.dumps(message).encode() + b"\0"
        while data:
            data = data[os.write(self._out, data) :]
        while True:
            answer = self._receive()
            if answer.get("id") == self._count:
                if answer.get("error", {}).get("message") == GOES_ELSEWHERE:
                    raise NavigatedError(method)
                assert "error" not in answer, f"{method}: {answer['error']}"
                result: dict[str, Any] = answer["result"]
                return result
            self.events.append(answer)

    def _receive(self) -> dict[str, Any]:
        deadline = time.monotonic() + PATIENCE
        while b"\0" not in self._rest:
            ready, _, _ = select.select([self._in], [], [], max(0.0, deadline - time.monotonic()))
            assert ready, "chromium gave no answer"
            data = os.read(self._in, 1 << 20)
            assert data, "chromium ended"
            self._rest += data
        text, _, self._rest = self._rest.partition(b"\0")
        message: dict[str, Any] = json.loads(text)
        return message

    def open(self, url: str, width: int = 1000, height: int = 800, dark: bool = False) -> Page:
        """Opens a page in a tab of this size, and waits until it is loaded."""
        target = self.call("Target.createTarget", url="about:blank")["targetId"]
        answer = self.call("Target.attachToTarget", targetId=target, flatten=True)
        page = Page(self, answer["sessionId"])
        for domain in ("Page", "Runtime", "Log", "Network", "DOM"):
            page.call(f"{domain}.enable")
        page.call(
            "Emulation.setDeviceMetricsOverride",
            width=width,
            height=height,
            deviceScaleFactor=1,
            mobile=False,
        )
        scheme = {"name": "prefers-color-scheme", "value": "dark" if dark else "light"}
        page.call("Emulation.setEmulatedMedia", features=[scheme])
        page.call("Page.navigate", url=url)
        page.wait(f"document.readyState === 'complete' && location.href === {json.dumps(url)}")
        return page


class Page:
    """A tab of the browser."""

    def __init__(self, browser: Browser, session: str) -> None:
        self._browser = browser
        self._session = session

    def call(self, method: str, **parameters: Any) -> dict[str, Any]:
        return self._browser.call(method, self._session, **parameters)

    def run(self, script: str) -> Any:
        """Returns the value of an expression in the page. A promise is awaited."""
        answer = self.call(
            "Runtime.evaluate", expression=script, returnByValue=True, awaitPromise=True
        )
        assert "exceptionDetails" not in answer, answer["exceptionDetails"]
        return answer["result"].get("value")

    def wait(self, condition: str) -> None:
        """Waits until an expression in the page is true."""
        deadline = time.monotonic() + PATIENCE
        while not self._is_true(condition):
            assert time.monotonic() < deadline, f"this did not come true: {condition}"
            time.sleep(0.02)

    def _is_true(self, condition: str) -> bool:
        """Says whether an expression is true; not yet in a page that is being left."""
        try:
            return bool(self.run(condition))
        except NavigatedError:
            return False

    def choose(self, selector: str, files: list[Path]) -> None:
        """Puts files into a file input, as if a user had chosen them."""
        root = self.call("DOM.getDocument")["root"]["nodeId"]
        node = self.call("DOM.querySelector", nodeId=root, selector=selector)["nodeId"]
        self.call("DOM.setFileInputFiles", nodeId=node, files=[str(file) for file in files])

    def text(self, selector: str) -> str:
        """Returns the text of an element as a reader sees it."""
        text: str = self.run(f"document.querySelector({json.dumps(selector)}).innerText")
        return text

    def picture(self, path: Path) -> None:
        """Writes a picture of the complete page."""
        answer = self.call("Page.captureScreenshot", format="png", captureBeyondViewport=True)
        path.write_bytes(base64.b64decode(answer["data"]))

    def _own(self, method: str) -> list[dict[str, Any]]:
        return [
            event["params"]
            for event in self._browser.events
            if event.get("sessionId") == self._session and event["method"] == method
        ]

    def messages(self) -> list[str]:
        """Returns what was written to the console, by scripts or by the browser itself."""
        written = [str(event["args"]) for event in self._own("Runtime.consoleAPICalled")]
        thrown = [str(event["exceptionDetails"]) for event in self._own("Runtime.exceptionThrown")]
        logged = [event["entry"]["text"] for event in self._own("Log.entryAdded")]
        return written + thrown + logged

    def events(self, method: str) -> list[dict[str, Any]]:
        """Returns what the browser told of this tab, such as `Network.responseReceived`."""
        return self._own(method)

    def requests(self) -> list[str]:
        """Returns the addresses that were asked for, the page's own included."""
        return [event["request"]["url"] for event in self._own("Network.requestWillBeSent")]
