"""Chromium through chromedriver's HTTP protocol, with the standard library alone."""

import base64
import json
import shutil
import socket
import subprocess
import time
import urllib.error
import urllib.request
from pathlib import Path
from types import TracebackType
from typing import Any, Dict, List, Optional, Type

_SECONDS_TO_START = 30
_SECONDS_TO_ANSWER = 120
_MORE = 20
_HIGH = 20_000
"""No page needs a bar at its side in a window so high: that bar would take from the width."""


class Browser:
    """A window of Chromium without a screen."""

    def __init__(self) -> None:
        found = shutil.which("chromedriver")
        if found is None:
            raise SystemExit("there is no chromedriver: apt-get install chromium chromium-driver")
        with socket.socket() as free:
            free.bind(("127.0.0.1", 0))
            port = free.getsockname()[1]
        self._at = f"http://127.0.0.1:{port}"
        self._driver = subprocess.Popen([found, f"--port={port}"], stdout=subprocess.DEVNULL, stderr=subprocess.DEVNULL)
        self._session = ""
        try:
            self._wait()
            self._open()
        except BaseException:
            self._driver.terminate()
            raise

    def _wait(self) -> None:
        deadline = time.monotonic() + _SECONDS_TO_START
        while True:
            try:
                self._ask("GET", "/status")
                return
            except (urllib.error.URLError, ConnectionError):
                if time.monotonic() > deadline:
                    raise
                time.sleep(0.1)

    def _open(self) -> None:
        options = {"args": ["--headless=new", "--no-sandbox", "--disable-gpu", "--disable-dev-shm-usage"]}
        asked = {"browserName": "chrome", "goog:chromeOptions": options, "goog:loggingPrefs": {"browser": "ALL"}}
        self._session = f"/session/{self._ask('POST', '/session', {'capabilities': {'alwaysMatch': asked}})['sessionId']}"

    def _ask(self, method: str, path: str, body: Optional[Dict[str, Any]] = None) -> Any:
        data = None if body is None else json.dumps(body).encode()
        request = urllib.request.Request(self._at + path, data, {"Content-Type": "application/json"}, method=method)
        try:
            with urllib.request.urlopen(request, timeout=_SECONDS_TO_ANSWER) as answer:
                return json.load(answer)["value"]
        except urllib.error.HTTPError as error:
            raise RuntimeError(f"{path}: {json.load(error)['value']['message']}") from None

    def _devtools(self, command: str, **parameters: Any) -> Any:
        return self._ask("POST", f"{self._session}/goog/cdp/execute", {"cmd": command, "params": parameters})

    def show(self, page: Path) -> None:
        """Opens a file."""
        self._ask("POST", f"{self._session}/url", {"url": page.resolve().as_uri()})

    def look(self, width: int, scheme: str, media: str) -> None:
        """A window so wide and as high as the page, light or dark, on a screen or as on paper."""
        self._devtools("Emulation.setEmulatedMedia", media=media, features=[{"name": "prefers-color-scheme", "value": scheme}])
        for height in (_HIGH, 0):
            high = height or self.run("return Math.ceil(document.body.getBoundingClientRect().height)") + _MORE
            self._devtools("Emulation.setDeviceMetricsOverride", width=width, height=high, deviceScaleFactor=1, mobile=width < 600)

    def run(self, script: str) -> Any:
        """What a script returns in the page."""
        return self._ask("POST", f"{self._session}/execute/sync", {"script": script, "args": []})

    def picture(self) -> bytes:
        """The window as PNG."""
        return base64.b64decode(self._devtools("Page.captureScreenshot", format="png")["data"])

    def pixel(self, x: float, y: float) -> bytes:
        """One pixel as PNG."""
        clip = {"x": int(x), "y": int(y), "width": 1, "height": 1, "scale": 1}
        return base64.b64decode(self._devtools("Page.captureScreenshot", format="png", clip=clip)["data"])

    def paper(self, width: float, height: float) -> bytes:
        """The page as PDF, on paper of a size in centimetres."""
        return base64.b64decode(self._ask("POST", f"{self._session}/print", {"page": {"width": width, "height": height}, "background": True}))

    def errors(self) -> List[str]:
        """What the console has said since it was asked last, warnings too."""
        said = self._ask("POST", f"{self._session}/se/log", {"type": "browser"})
        return [f"{line['level']}: {line['message']}" for line in said if line["level"] in ("SEVERE", "WARNING")]

    def __enter__(self) -> "Browser":
        return self

    def __exit__(self, kind: Optional[Type[BaseException]], error: Optional[BaseException], trace: Optional[TracebackType]) -> None:
        try:
            self._ask("DELETE", self._session)
        finally:
            self._driver.terminate()
            self._driver.wait()
