"""Carriers that copy files between a person's box and a place that all can reach: hands, rsync, Unison, rclone and Git."""
import re
import shutil
import zlib
from pathlib import Path
from typing import Callable

from stage import Answer
from team import Carrier
from using import answers, begin, do, end, free_port, kill_when, wait_until


class Copier(Carrier):
    """Each person has a box of their own, and a command copies."""

    def __init__(self, home: Path) -> None:
        super().__init__(home)
        self.store = home / "store"

    def start(self) -> None:
        self.store.mkdir()

    def break_off(self, name: str, sync: Callable[[], Answer]) -> Answer:
        """The command that brings what a sync left is killed as soon as it has begun to write."""
        answer = sync()
        self.kill_half(self.slow_bring(name), self.store, name)
        return answer

    def break_fetch(self, name: str) -> None:
        self.kill_half(self.slow_fetch(name), self.box(name), name)

    def kill_half(self, words: list, place: Path, name: str) -> None:
        before = contents(place)
        is_killed = kill_when(words, lambda: contents(place) != before, env=self.env(name))
        left = sorted(it for it in contents(place) - before)
        self.notes.append(f"{'killed' if is_killed else 'it was at its end'}, and left {left} in {place.parent.name}/{place.name}")

    def slow_bring(self, name: str) -> list:
        """The command that brings what a person left, so slow that it is killed half way."""
        raise NotImplementedError

    def slow_fetch(self, name: str) -> list:
        """The command that brings a person the others' bundles, so slow that it is killed half way."""
        raise NotImplementedError

    def env(self, name: str) -> dict:
        return {}


def contents(place: Path) -> set:
    """The names of a folder's files with their lengths and times."""
    found = set()
    for it in place.iterdir():
        try:
            state = it.stat()
            found.add((it.name, state.st_size, state.st_mtime_ns))
        except OSError:
            pass
    return found


class ByHand(Copier):
    """A person copies to a stick and from it, and pulls it in the middle of a file: so one cut short has the bundle's own name. After the
    part comes nothing, or zeros, where the length was written first, or the end of what stood there before."""

    name = "by hand"
    cuts = 0

    def fetch(self, name: str) -> None:
        for path in self.store.glob("*.bundle"):
            if path.stem != name:
                shutil.copyfile(path, self.box(name) / path.name)

    def bring(self, name: str) -> None:
        shutil.copyfile(self.box(name) / f"{name}.bundle", self.store / f"{name}.bundle")

    def break_off(self, name: str, sync: Callable[[], Answer]) -> Answer:
        answer = sync()
        self.cut_short(self.box(name) / f"{name}.bundle", self.store / f"{name}.bundle")
        return answer

    def break_fetch(self, name: str) -> None:
        for path in sorted(self.store.glob("*.bundle")):
            mine = self.box(name) / path.name
            if path.stem != name and path.read_bytes() != mine.read_bytes():
                self.cut_short(path, mine)

    def cut_short(self, source: Path, goal: Path) -> None:
        now, was = source.read_bytes(), goal.read_bytes()
        at = zlib.crc32(now) % max(len(now), 1)
        ends = {"nothing": b"", "zeros": bytes(len(now) - at), "the end of what stood there": was[at:]}
        what, rest = list(ends.items())[self.cuts % len(ends)]
        self.cuts += 1
        goal.write_bytes(now[:at] + rest)
        self.notes.append(f"{goal.parent.parent.name}/{goal.parent.name}/{goal.name} has {at} bytes of {len(now)}, and then {what}")


# System calls that are waited for: what copies on the same disk is done too soon to be killed half way.
SLOW_WRITES = ["strace", "-f", "-qq", "-e", "trace=write", "-e", "inject=write:delay_exit=20ms", "-o", "/dev/null"]
SLOW_RSYNC = ["rsync", "-a", "--ignore-times", "--whole-file", "--bwlimit=50"]


class Rsync(Copier):
    """A folder of an rsync server. Each person brings their own bundle, and fetches all others."""

    name = "rsync"
    needs = {"rsync": "rsync"}

    def start(self) -> None:
        super().start()
        self.port = free_port()
        conf = self.home / "rsyncd.conf"
        conf.write_text(f"use chroot = no\nuid = root\ngid = root\n[box]\npath = {self.store}\nread only = no\n")
        words = ["rsync", "--daemon", "--no-detach", "--address=127.0.0.1", f"--port={self.port}", f"--config={conf}"]
        self.server = begin(words, self.home / "rsyncd.log")
        wait_until(lambda: answers(self.port), "the rsync server")
        self.url = f"rsync://127.0.0.1:{self.port}/box/"

    def fetch(self, name: str) -> None:
        do(["rsync", "-a", f"--exclude={name}.bundle", self.url, f"{self.box(name)}/"])

    def bring(self, name: str) -> None:
        do(["rsync", "-a", self.box(name) / f"{name}.bundle", self.url])

    def slow_bring(self, name: str) -> list:
        return [*SLOW_RSYNC, *self.more, self.box(name) / f"{name}.bundle", self.url]

    def slow_fetch(self, name: str) -> list:
        return [*SLOW_RSYNC, *self.more, f"--exclude={name}.bundle", self.url, f"{self.box(name)}/"]

    more: list = []

    def stop(self) -> None:
        end(self.server)


class RsyncInPlace(Rsync):
    """The same, where what was begun is written under the name itself."""

    name = "rsync --inplace"
    more = ["--inplace"]


class Unison(Copier):
    """Two folders that Unison keeps alike, of which one is a place that all can reach."""

    name = "unison"
    needs = {"unison": "unison", "strace": "strace"}

    def env(self, name: str) -> dict:
        return {"UNISON": str(self.home / name / "unison"), "HOME": str(self.home / name)}

    def words(self, name: str) -> list:
        return ["unison", "-batch", "-auto", "-silent", self.box(name), self.store]

    def fetch(self, name: str) -> None:
        do(self.words(name), env=self.env(name))

    bring = fetch

    def slow_bring(self, name: str) -> list:
        return [*SLOW_WRITES, *self.words(name)]

    slow_fetch = slow_bring


class RcloneCopy(Copier):
    """A WebDAV server, to which each person copies their own bundle, and from which all others."""

    name = "rclone copy"
    needs = {"rclone": "rclone"}

    def start(self) -> None:
        super().start()
        self.port = free_port()
        words = ["rclone", "serve", "webdav", self.store, "--addr", f"127.0.0.1:{self.port}", "--config", "/dev/null", "--cache-dir", self.home / "cache"]
        self.server = begin(words, self.home / "served.log")
        wait_until(lambda: answers(self.port), "the WebDAV server")
        url = f"http://127.0.0.1:{self.port}"
        self.remote = [":webdav:", "--webdav-url", url, "--webdav-vendor", "other", "--config", "/dev/null", "--retries", "1"]

    def env(self, name: str) -> dict:
        return {"HOME": str(self.home / name), "XDG_CACHE_HOME": str(self.home / name / "cache")}

    def fetch(self, name: str) -> None:
        do(["rclone", "copy", *self.remote[:1], self.box(name), *self.remote[1:], "--exclude", f"{name}.bundle"], env=self.env(name))

    def bring(self, name: str) -> None:
        do(["rclone", "copy", self.box(name) / f"{name}.bundle", *self.remote], env=self.env(name))

    def slow_bring(self, name: str) -> list:
        return ["rclone", "copy", self.box(name) / f"{name}.bundle", *self.remote, "--bwlimit", "20k", "--ignore-times"]

    def slow_fetch(self, name: str) -> list:
        return ["rclone", "copy", *self.remote[:1], self.box(name), *self.remote[1:], "--bwlimit", "20k", "--ignore-times"]

    def stop(self) -> None:
        end(self.server)


class RcloneBisync(RcloneCopy):
    """An SFTP server, with which `rclone bisync` keeps each box alike. It takes no WebDAV server, for want of times."""

    name = "rclone bisync"

    def start(self) -> None:
        self.store.mkdir()
        self.port = free_port()
        words = ["rclone", "serve", "sftp", self.store, "--addr", f"127.0.0.1:{self.port}", "--user", "team", "--pass", "word"]
        self.server = begin([*words, "--config", "/dev/null", "--cache-dir", self.home / "cache"], self.home / "served.log", env={"HOME": str(self.home)})
        wait_until(lambda: answers(self.port), "the SFTP server")
        word = do(["rclone", "obscure", "word"])
        where = ["--sftp-host", "127.0.0.1", "--sftp-port", str(self.port), "--sftp-user", "team", "--sftp-pass", word]
        self.remote = [":sftp:", *where, "--config", "/dev/null", "--retries", "1"]

    def words(self, name: str) -> list:
        # With --resync the first side wins. The server: a part of another's bundle in the box is no better than what stands there.
        return ["rclone", "bisync", self.remote[0], self.box(name), *self.remote[1:]]

    def fetch(self, name: str) -> None:
        begun = self.home / name / "bisync"
        if not begun.exists():
            do([*self.words(name), "--resync"], env=self.env(name))
            begun.touch()
            return
        said = do(self.words(name), env=self.env(name), may_fail=True)
        if re.search("ERROR|Failed", said):
            self.notes.append(said[-300:])
            # One that was killed leaves its lock, and is refused ever after.
            for it in (self.home / name / "cache").rglob("*.lck"):
                it.unlink()
            do([*self.words(name), "--resync"], env=self.env(name))

    bring = fetch

    def slow_bring(self, name: str) -> list:
        return [*self.words(name), "--bwlimit", "20k"]

    slow_fetch = slow_bring


class Git(Copier):
    """The box is a clone of a repository, and each sync stands between a pull and a push."""

    name = "git"
    needs = {"git": "git", "strace": "strace"}

    def start(self) -> None:
        do(["git", "init", "-q", "--bare", "-b", "main", self.store])

    def env(self, name: str) -> dict:
        who = {f"GIT_{role}_{what}": f"{name}@example.org" for role in ("AUTHOR", "COMMITTER") for what in ("NAME", "EMAIL")}
        return {**who, "GIT_CONFIG_GLOBAL": "/dev/null", "GIT_CONFIG_SYSTEM": "/dev/null"}

    def git(self, name: str, *words: str, may_fail: bool = False) -> str:
        return do(["git", *words], self.box(name), self.env(name), may_fail)

    def fetch(self, name: str) -> None:
        if not (self.box(name) / ".git").exists():
            do(["git", "clone", "-q", self.store, self.box(name)], env=self.env(name))
        if any((self.store / "refs/heads").iterdir()) or (self.store / "packed-refs").exists():
            self.git(name, "pull", "-q", "--rebase", "--autostash", "origin", "main")

    def commit(self, name: str) -> None:
        self.git(name, "add", f"{name}.bundle")
        self.git(name, "commit", "-q", "--allow-empty", "-m", f"Work of {name}")

    def bring(self, name: str) -> None:
        self.commit(name)
        self.fetch(name)
        self.git(name, "push", "-q", "origin", "HEAD:main")

    def break_off(self, name: str, sync: Callable[[], Answer]) -> Answer:
        """The push after a sync is killed while the store receives it."""
        answer = sync()
        self.commit(name)
        self.kill_git(name, ["push", "-q", "origin", "HEAD:main"], self.store / "objects", "tmp_objdir-incoming-*")
        return answer

    def break_fetch(self, name: str) -> None:
        words = ["-c", "transfer.unpackLimit=1", "fetch", "-q", "origin", "main"]
        self.kill_git(name, words, self.box(name) / ".git/objects/pack", "tmp_pack_*")

    def kill_git(self, name: str, words: list, place: Path, half: str) -> None:
        before = set(place.glob(half))
        is_killed = kill_when([*SLOW_WRITES, "git", *words], lambda: set(place.glob(half)) != before, self.box(name), self.env(name))
        left = sorted(it.name for it in set(place.glob(half)) - before)
        self.notes.append(f"{'killed' if is_killed else 'it was at its end'}, and left {left}")


COPIERS = [ByHand, Rsync, RsyncInPlace, Unison, RcloneCopy, RcloneBisync, Git]
