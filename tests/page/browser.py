"""Pages in a browser, and by an HTML checker, where they are installed."""
import json
import os
import shutil
import subprocess
from pathlib import Path
from typing import Any, Callable

from reading import read_page
from reporting import Tally

WIDTHS = (320, 900, 1400)
SECONDS = 120
# Where two texts differ in their line ends, a mark holds a line feed alone. HTML permits that, and tidy takes it for empty.
BLANK_MARK = "Warning: trimming empty <mark>"
# A heading may stand in a legend since HTML 5.2, which tidy does not know.
IN_LEGEND = ("missing </legend> before <h3>", "inserting implicit <legend>", "discarding unexpected </legend>", "trimming empty <legend>")
FLAGS = ["--headless", "--no-sandbox", "--disable-gpu", "--no-first-run", "--remote-debugging-pipe"]


def check_browser(tally: Tally, pages: list[Path], work: Path, more: Callable[["Browser"], None]) -> None:
    """Looks at the pages by what is there, and says what is not."""
    if shutil.which("tidy"):
        for page in pages:
            told = subprocess.run(["tidy", "-e", "-q", page], capture_output=True, text=True, timeout=SECONDS)
            said = [line for line in told.stderr.splitlines() if line and not line.endswith((BLANK_MARK, *IN_LEGEND))]
            tally.check(told.returncode < 2 and not said, f"{page}: {said[:3]}")
    else:
        print("page: tidy is not installed, so no checker of HTML looked at the pages")
    if not shutil.which("chromium"):
        print("page: chromium is not installed, so no browser looked at the pages")
        return
    with Browser(work / "browser") as browser:
        for page in pages:
            look(tally, browser, page)
        more(browser)


def look(tally: Tally, browser: "Browser", page: Path) -> None:
    """Looks at a page at each width, in the dark too, and at what a screen reader has of it."""
    browser.show(page)
    for width in WIDTHS:
        for scheme in ("light", "dark"):
            wide = browser.width(width, scheme)
            tally.check(wide <= width, f"{page}: {wide} pixels wide at {width}")
    wanted = [it.name for it in read_page(page.read_bytes()).conflicts]
    found = [it for level, it in browser.headings() if level == 3]
    tally.check(found == wanted, f"{page}: the headings are {found}")
    tally.check(not browser.errors, f"{page}: the browser says {browser.errors[:3]}")
    browser.errors.clear()


class Browser:
    """A browser without a window, spoken to through pipes: a message is JSON, and a zero byte ends it."""

    def __init__(self, folder: Path) -> None:
        self.folder = folder
        self.number = 0
        self.rest = b""
        self.session: dict[str, str] = {}
        self.errors: list[str] = []
        self.requests: list[str] = []

    def __enter__(self) -> "Browser":
        told, self.writing = os.pipe()
        self.reading, said = os.pipe()
        # The browser reads from its descriptor 3 and writes to 4.
        line = ["sh", "-c", f'exec chromium "$@" 3<&{told} 4>&{said}', "sh", *FLAGS]
        line += [f"--user-data-dir={self.folder}", "about:blank"]
        self.process = subprocess.Popen(line, pass_fds=(told, said), stdout=subprocess.DEVNULL, stderr=subprocess.DEVNULL)
        os.close(told)
        os.close(said)
        target = self.ask("Target.createTarget", url="about:blank")["targetId"]
        self.session = {"sessionId": self.ask("Target.attachToTarget", targetId=target, flatten=True)["sessionId"]}
        for domain in ("Page", "Log", "Runtime", "Accessibility", "Network"):
            self.ask(f"{domain}.enable")
        return self

    def __exit__(self, *_: object) -> None:
        self.process.kill()
        self.process.wait()
        os.close(self.reading)
        os.close(self.writing)

    def ask(self, method: str, **params: object) -> dict[str, Any]:
        """What the browser answers."""
        self.number += 1
        message = {"id": self.number, "method": method, "params": params, **self.session}
        os.write(self.writing, json.dumps(message).encode() + b"\0")
        while True:
            answer = self.message()
            if answer.get("id") == self.number:
                return answer["result"]

    def message(self) -> dict[str, Any]:
        """The next message, of which errors are kept."""
        while b"\0" not in self.rest:
            data = os.read(self.reading, 1 << 16)
            if not data:
                raise SystemExit("page: the browser ended")
            self.rest += data
        first, self.rest = self.rest.split(b"\0", 1)
        message = json.loads(first)
        if message.get("method") in ("Log.entryAdded", "Runtime.exceptionThrown", "Runtime.consoleAPICalled"):
            self.errors.append(str(message["params"])[:200])
        if message.get("method") == "Network.requestWillBeSent":
            self.requests.append(message["params"]["request"]["url"])
        return message

    def show(self, page: Path) -> None:
        """Shows a page, and waits until it is there."""
        self.ask("Page.navigate", url=page.as_uri())
        while self.message().get("method") != "Page.loadEventFired":
            pass

    def saves_in(self, folder: Path) -> None:
        """Has what is saved saved in a folder, without a question. That is said to the browser, and not to its page."""
        session, self.session = self.session, {}
        self.ask("Browser.setDownloadBehavior", behavior="allow", downloadPath=str(folder))
        self.session = session

    def value(self, expression: str) -> Any:
        """What an expression is in the page."""
        return self.ask("Runtime.evaluate", expression=expression, userGesture=True)["result"].get("value")

    def width(self, width: int, scheme: str) -> int:
        """How wide the page is in a window of this width."""
        self.ask("Emulation.setDeviceMetricsOverride", width=width, height=900, deviceScaleFactor=1, mobile=False)
        self.ask("Emulation.setEmulatedMedia", features=[{"name": "prefers-color-scheme", "value": scheme}])
        value = self.ask("Runtime.evaluate", expression="document.documentElement.scrollWidth")
        return int(value["result"]["value"])

    def picture(self) -> str:
        """All of the page as a PNG, in base 64."""
        size = self.ask("Page.getLayoutMetrics")["cssContentSize"]
        clip = {"x": 0, "y": 0, "width": size["width"], "height": size["height"], "scale": 1}
        return str(self.ask("Page.captureScreenshot", captureBeyondViewport=True, clip=clip)["data"])

    def runs_scripts(self, permitted: bool) -> None:
        """Whether pages that are shown from now on run their scripts."""
        self.ask("Emulation.setScriptExecutionDisabled", value=not permitted)

    def buttons(self) -> list[tuple[str, str]]:
        """All that can be ticked, each by its role and its name as a screen reader has them."""
        found = [(it.get("role", {}).get("value"), it) for it in self.ask("Accessibility.getFullAXTree")["nodes"]]
        return [(role, it["name"]["value"]) for role, it in found if role in ("radio", "checkbox")]

    def faults(self) -> list[str]:
        """What its pages did wrong, and what was asked of the network for them."""
        return self.errors + [it for it in self.requests if not it.startswith(("file:", "blob:", "about:"))]

    def headings(self) -> list[tuple[int, str]]:
        """The headings, each with its level, as a screen reader has them."""
        found = []
        for node in self.ask("Accessibility.getFullAXTree")["nodes"]:
            if node.get("role", {}).get("value") == "heading":
                levels = [it["value"]["value"] for it in node["properties"] if it["name"] == "level"]
                found.append((int(levels[0]), node["name"]["value"]))
        return found
