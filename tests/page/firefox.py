"""Firefox, spoken to by Marionette: a message is its length, a colon, and JSON."""
import json
import os
import socket
import subprocess
import time
from pathlib import Path
from typing import Any

SECONDS = 120
# What is saved is saved without a question; Marionette takes any free port, which it writes down in the folder.
PREFERENCES = {
    "marionette.port": 0,
    "browser.download.folderList": 2,
    "browser.download.alwaysOpenPanel": False,
    "browser.helperApps.neverAsk.saveToDisk": "application/octet-stream",
    "accessibility.force_disabled": -1,
}
FLAGS = ["--headless", "--no-remote", "--marionette", "--remote-allow-system-access"]
# Keeps what pages ask of the network from now on. The browser asks for things of its own.
LISTEN = """
  globalThis.asked = [];
  const observe = (channel) => {
    const { URI, loadInfo } = channel.QueryInterface(Ci.nsIChannel);
    if (loadInfo.triggeringPrincipal.asciiSpec?.startsWith("file:")) {
      asked.push(URI.spec);
    }
  };
  Services.obs.addObserver({ observe }, "http-on-modify-request");
"""
# What the page did wrong, by the browser's console.
ERRORS = """
  return Services.console.getMessageArray()
    .filter((it) => it instanceof Ci.nsIScriptError && it.sourceName.startsWith("file:"))
    .map((it) => it.message);
"""


class Firefox:
    """A Firefox without a window."""

    def __init__(self, folder: Path) -> None:
        self.folder = folder
        self.number = 0
        self.rest = b""

    def __enter__(self) -> "Firefox":
        self.folder.mkdir(parents=True)
        lines = [f"user_pref({json.dumps(name)}, {json.dumps(value)});\n" for name, value in PREFERENCES.items()]
        (self.folder / "user.js").write_text("".join(lines))
        line = ["firefox-esr", *FLAGS, "--profile", str(self.folder), "about:blank"]
        # It also keeps files in a home.
        home = {**os.environ, "HOME": str(self.folder)}
        self.process = subprocess.Popen(line, env=home, stdout=subprocess.DEVNULL, stderr=subprocess.DEVNULL)
        self.connection = socket.create_connection(("127.0.0.1", self.port()), SECONDS)
        self.message()
        self.ask("WebDriver:NewSession", capabilities={})
        self.in_browser(LISTEN)
        return self

    def __exit__(self, *_: object) -> None:
        self.ask("Marionette:Quit", flags=["eForceQuit"])
        self.connection.close()
        self.process.wait()

    def port(self) -> int:
        """The port that it listens on, once it does."""
        for _ in range(SECONDS * 10):
            written = self.folder / "MarionetteActivePort"
            if written.exists() and written.read_text().strip():
                return int(written.read_text())
            time.sleep(0.1)
        raise SystemExit("page: Firefox does not listen")

    def ask(self, command: str, **params: object) -> Any:
        """What it answers."""
        self.number += 1
        message = json.dumps([0, self.number, command, params]).encode()
        self.connection.sendall(b"%d:%s" % (len(message), message))
        _, number, error, answer = self.message()
        if error or number != self.number:
            raise SystemExit(f"page: Firefox answers {error} to {command}")
        return answer

    def message(self) -> Any:
        """The next message."""
        while True:
            length, colon, rest = self.rest.partition(b":")
            if colon and len(rest) >= int(length):
                self.rest = rest[int(length) :]
                return json.loads(rest[: int(length)])
            data = self.connection.recv(1 << 16)
            if not data:
                raise SystemExit("page: Firefox ended")
            self.rest += data

    def in_browser(self, script: str) -> Any:
        """What a script answers that is no page's, but the browser's."""
        self.ask("Marionette:SetContext", value="chrome")
        answer = self.ask("WebDriver:ExecuteScript", script=script, args=[], sandbox="system")["value"]
        self.ask("Marionette:SetContext", value="content")
        return answer

    def show(self, page: Path) -> None:
        """Shows a page, and waits until it is there."""
        self.ask("WebDriver:Navigate", url=page.as_uri())

    def saves_in(self, folder: Path) -> None:
        """Has what is saved saved in a folder."""
        self.in_browser(f"Services.prefs.setStringPref('browser.download.dir', {json.dumps(str(folder))});")

    def runs_scripts(self, permitted: bool) -> None:
        """Whether pages that are shown from now on run their scripts."""
        self.in_browser(f"Services.prefs.setBoolPref('javascript.enabled', {json.dumps(permitted)});")

    def value(self, expression: str) -> Any:
        """What an expression is in the page."""
        return self.ask("WebDriver:ExecuteScript", script=f"return ({expression});", args=[])["value"]

    def buttons(self) -> "list[tuple[str, str]]":
        """All that can be ticked, each by its role and its name as a screen reader has them."""
        found = self.ask("WebDriver:FindElements", using="css selector", value="[type=radio], [type=checkbox]")
        ids = [next(iter(it.values())) for it in found]
        return [(self.computed("Role", it), self.computed("Label", it)) for it in ids]

    def computed(self, what: str, element: str) -> str:
        """What a screen reader has of an element."""
        return str(self.ask(f"WebDriver:GetComputed{what}", id=element)["value"])

    def faults(self) -> "list[str]":
        """What its pages did wrong, and what was asked of the network for them."""
        return [str(it) for it in self.in_browser(ERRORS)] + [str(it) for it in self.in_browser("return asked;")]
