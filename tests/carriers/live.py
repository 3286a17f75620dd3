"""Carriers that run on, and the boxes that lie on what they mount: Syncthing, rclone's mounts and Samba."""
import json
import os
import re
import time
import urllib.request
from pathlib import Path
from subprocess import Popen
from threading import Event, Thread
from typing import Callable, Optional

from stage import Answer
from team import NAMES, Carrier
from using import CannotRun, answers, begin, do, end, free_port, kill, unmount, wait_until


class Syncthing(Carrier):
    """An instance for each person, each connected with the two others, with no discovery, no relay and no way through routers."""

    name = "syncthing"
    needs = {"syncthing": "syncthing"}

    def start(self) -> None:
        self.ports = {name: (free_port(), free_port()) for name in NAMES}
        self.running: dict[str, Optional[Popen]] = {}
        self.ids, self.keys = {}, {}
        for name in NAMES:
            place = self.place(name)
            do(["syncthing", "generate", "--home", place, "--no-default-folder", "--skip-port-probing"])
            text = (place / "config.xml").read_text()
            self.ids[name] = re.search(r'<device id="([A-Z0-9-]{20,})"', text)[1]
            self.keys[name] = re.search(r"<apikey>(.*)</apikey>", text)[1]
        for name in NAMES:
            (self.place(name) / "config.xml").write_text(self.configuration(name))
            self.box(name)
            self.come_back(name)

    def place(self, name: str) -> Path:
        place = self.home / name / "syncthing"
        place.mkdir(parents=True, exist_ok=True)
        return place

    def box(self, name: str) -> Path:
        box = self.home / name / "box"
        box.mkdir(parents=True, exist_ok=True)
        return box

    def configuration(self, name: str) -> str:
        listen, shown = self.ports[name]
        devices = "".join(
            f'<device id="{self.ids[it]}" name="{it}"><address>tcp://127.0.0.1:{self.ports[it][0]}</address></device>' for it in NAMES
        )
        members = "".join(f'<device id="{it}"/>' for it in self.ids.values())
        off = "".join(f"<{it}>false</{it}>" for it in ("globalAnnounceEnabled", "localAnnounceEnabled", "relaysEnabled", "natEnabled", "crashReportingEnabled"))
        return (
            f'<configuration version="35"><folder id="box" path="{self.box(name)}" type="sendreceive" rescanIntervalS="3600" '
            f'fsWatcherEnabled="true" fsWatcherDelayS="1">{members}</folder>{devices}'
            f'<gui enabled="true"><address>127.0.0.1:{shown}</address><apikey>{self.keys[name]}</apikey></gui>'
            f"<options><listenAddress>tcp://127.0.0.1:{listen}</listenAddress>{off}<urAccepted>-1</urAccepted>"
            f"<reconnectionIntervalS>1</reconnectionIntervalS><startBrowser>false</startBrowser>"
            f"<autoUpgradeIntervalH>0</autoUpgradeIntervalH><maxSendKbps>200</maxSendKbps><limitBandwidthInLan>true</limitBandwidthInLan></options></configuration>"
        )

    def come_back(self, name: str) -> None:
        words = ["syncthing", "serve", "--home", self.place(name), "--no-browser", "--no-restart", "--no-upgrade"]
        self.running[name] = begin(words, self.home / f"{name}.log", env={"HOME": str(self.home / name)})
        wait_until(lambda: answers(self.ports[name][1]), "Syncthing")

    def leave(self, name: str) -> None:
        end(self.running[name])
        self.running[name] = None

    def ask(self, name: str, path: str, method: str = "GET") -> dict:
        url = f"http://127.0.0.1:{self.ports[name][1]}/rest/{path}"
        request = urllib.request.Request(url, headers={"X-API-Key": self.keys[name]}, method=method)
        with urllib.request.urlopen(request, timeout=20) as answer:
            return json.loads(answer.read() or b"{}")

    def up(self) -> list[str]:
        return [it for it in NAMES if self.running.get(it)]

    def fetch(self, name: str) -> None:
        """Until all who are there have the same files: else it would be chance what a sync finds."""
        for it in self.up():
            self.ask(it, "db/scan?folder=box", "POST")
        wait_until(lambda: len({self.whole(it) for it in self.up()}) == 1, "Syncthing brings all bundles")

    bring = fetch

    def whole(self, name: str) -> tuple:
        return tuple((it.name, it.read_bytes()) for it in sorted(self.box(name).glob("*.bundle")))

    def break_off(self, name: str, sync: Callable[[], Answer]) -> Answer:
        """The instance of somebody who receives is killed as soon as something of the new bundle has come."""
        answer = sync()
        other = next(it for it in self.up() if it != name)
        self.ask(name, "db/scan?folder=box", "POST")
        latest = time.monotonic() + 20
        while not any(self.box(other).glob(".syncthing.*.tmp")) and time.monotonic() < latest:
            time.sleep(0.001)
        kill(self.running[other])
        self.running[other] = None
        self.killed = other
        self.notes.append(f"killed, and left {sorted(it.name for it in self.box(other).iterdir())} in {other}'s box")
        return answer

    def break_fetch(self, name: str) -> None:
        """What lies in the box as long as the instance does not run again."""

    def mend(self, name: str) -> None:
        self.come_back(self.killed)

    def stop(self) -> None:
        for it in self.running.values():
            end(it)
        for name in NAMES:
            log = self.home / f"{name}.log"
            told = re.findall(r".*(?:WARNING|panic).*", log.read_text()) if log.exists() else []
            self.notes += [it for it in told if "privileged" not in it][:3]


class Mounted(Carrier):
    """Each person has the server's folder mounted, and the box is a folder in it: so there is none where nothing is mounted."""

    is_at_hand = False

    def mounted(self, name: str) -> Path:
        return self.home / name / "mounted"

    def start(self) -> None:
        (self.home / "store/box").mkdir(parents=True)
        for name in NAMES:
            self.mounted(name).mkdir(parents=True)
        self.server: Optional[Popen] = None
        self.mounts: dict[str, Optional[Popen]] = {}
        self.begin_server()
        for name in NAMES:
            self.come_back(name)

    def begin_server(self) -> None:
        raise NotImplementedError

    def mount(self, name: str) -> Popen:
        raise NotImplementedError

    def come_back(self, name: str) -> None:
        self.mounts[name] = self.mount(name)
        wait_until(lambda: os.path.ismount(self.mounted(name)) and self.box(name).is_dir(), f"a mount of {self.name}")

    def leave(self, name: str) -> None:
        unmount(self.mounted(name))
        end(self.mounts[name])

    def box(self, name: str) -> Path:
        return self.mounted(name) / "box"

    def break_off(self, name: str, sync: Callable[[], Answer]) -> Answer:
        """The server is killed while the sync runs; and then what is mounted, while the same line runs once more."""
        self.killer = Killer(self.store_changes, lambda: kill(self.server))
        first = self.killer.during(sync)
        self.notes.append(f"the server killed during a sync: status {first.status} {first.error.decode(errors='replace')!r}")
        self.begin_server()
        time.sleep(self.settling)
        second = Killer(self.store_changes, lambda: kill(self.mounts[name])).during(sync)
        self.notes.append(f"the mount killed during a sync: status {second.status} {second.error.decode(errors='replace')!r}")
        left = sorted(it.name for it in (self.home / "store/box").iterdir())
        self.notes.append(f"it left {left}")
        third = sync()
        self.notes.append(f"with a dead mount: status {third.status} {third.error.decode(errors='replace')!r}")
        unmount(self.mounted(name))
        fourth = sync()
        self.notes.append(f"without a mount: status {fourth.status} {fourth.error.decode(errors='replace')!r}")
        return first

    settling = 0.5

    def store_changes(self) -> Callable[[], bool]:
        store = self.home / "store/box"

        def state() -> set:
            found = set()
            for it in os.scandir(store):
                try:
                    found.add((it.name, it.stat().st_size))
                except OSError:
                    pass
            return found

        before = state()
        return lambda: state() != before

    def mend(self, name: str) -> None:
        end(self.mounts[name])
        self.come_back(name)

    def stop(self) -> None:
        for name in NAMES:
            unmount(self.mounted(name))
            end(self.mounts.get(name))
        end(self.server)
        kill(self.server)


class Killer:
    """Kills something while a sync runs, as soon as it has begun to write."""

    def __init__(self, watch: Callable[[], Callable[[], bool]], what: Callable[[], None]) -> None:
        self.watch, self.what = watch, what

    def during(self, sync: Callable[[], Answer]) -> Answer:
        over, has_begun = Event(), self.watch()

        def go() -> None:
            latest = time.monotonic() + 20
            while not over.is_set() and time.monotonic() < latest:
                if has_begun():
                    break
                time.sleep(0.0005)
            self.what()

        thread = Thread(target=go)
        thread.start()
        answer = sync()
        over.set()
        thread.join()
        return answer


class RcloneMount(Mounted):
    """A WebDAV server, mounted by rclone in its default mode, in which a file is written once and from its beginning."""

    name = "rclone mount"
    needs = {"rclone": "rclone", "fusermount3": "fuse3"}

    def begin_server(self) -> None:
        self.port = getattr(self, "port", None) or free_port()
        words = ["rclone", "serve", "webdav", self.home / "store", "--addr", f"127.0.0.1:{self.port}", "--dir-cache-time", "0s"]
        self.server = begin([*words, "--config", "/dev/null", "--cache-dir", self.home / "cache"], self.home / "served.log")
        wait_until(lambda: answers(self.port), "the WebDAV server")

    def mount(self, name: str) -> Popen:
        url = f"http://127.0.0.1:{self.port}"
        words = ["rclone", "mount", ":webdav:", self.mounted(name), "--webdav-url", url, "--webdav-vendor", "other"]
        words += ["--config", "/dev/null", "--cache-dir", self.home / name / "cache", "--dir-cache-time", "100ms", "--attr-timeout", "100ms"]
        return begin([*words, "--low-level-retries", "1", "--retries", "1"], self.home / f"{name}.log")

    def fetch(self, name: str) -> None:
        # As long as what was seen of a folder is taken as it was.
        time.sleep(0.25)


class Samba(Mounted):
    """A server of Samba, mounted by smbnetfs."""

    name = "samba"
    needs = {"smbd": "samba", "smbnetfs": "smbnetfs", "fusermount3": "fuse3"}

    def begin_server(self) -> None:
        if answers(445):
            raise CannotRun("another server has port 445")
        state = self.home / "state"
        state.mkdir(exist_ok=True)
        folders = "".join(f"{it} = {state}\n" for it in ("private dir", "pid directory", "lock directory", "state directory", "cache directory"))
        self.conf = self.home / "smb.conf"
        self.conf.write_text(
            f"[global]\ninterfaces = 127.0.0.1/8\nbind interfaces only = yes\nsmb ports = 445\nload printers = no\n"
            f"{folders}ncalrpc dir = {state}/ncalrpc\nlog file = {self.home}/smbd.log\nmap to guest = Bad User\nguest account = root\n"
            f"[team]\npath = {self.home}/store\nread only = no\nguest ok = yes\n"
        )
        self.server = begin(["smbd", "-F", "--no-process-group", "-s", self.conf], self.home / "smbd.out")
        wait_until(lambda: answers(445), "the Samba server")

    def mount(self, name: str) -> Popen:
        home = self.home / name
        (home / ".smb").mkdir(parents=True, exist_ok=True)
        (home / ".smb/smb.conf").write_text(self.conf.read_text())
        conf = home / ".smb/smbnetfs.conf"
        conf.write_text('auth "nobody" ""\nhost 127.0.0.1\n')
        conf.chmod(0o600)
        return begin(["smbnetfs", "-f", "-o", f"config={conf}", self.mounted(name)], self.home / f"{name}.log", env={"HOME": str(home)})

    def box(self, name: str) -> Path:
        return self.mounted(name) / "127.0.0.1/team/box"


LIVE = [Syncthing, RcloneMount, Samba]
