"""A stick that is passed from one to the other, which holds the box: a file that a program mounts as exFAT or as VFAT."""
import os
import subprocess
from pathlib import Path
from subprocess import Popen
from typing import Callable, Optional

from live import Killer
from stage import Answer
from team import Carrier
from using import CannotRun, begin, do, end, kill, unmount, wait_until

SIZE = 32 << 20


class Stick(Carrier):
    """Whoever syncs has the stick mounted, and takes it out after it."""

    is_at_hand = False
    check: list[str] = []

    def start(self) -> None:
        self.image = self.home / "stick.img"
        self.place = self.home / "stick"
        self.place.mkdir()
        self.running: Optional[Popen] = None
        with self.image.open("wb") as file:
            file.truncate(SIZE)
        self.make()
        self.put_in()
        self.box("").mkdir()
        self.take_out()

    def make(self) -> None:
        raise NotImplementedError

    def mount(self) -> Popen:
        raise NotImplementedError

    def box(self, name: str) -> Path:
        return self.place / "box"

    def put_in(self) -> None:
        if not os.path.ismount(self.place):
            self.running = self.mount()
            wait_until(lambda: os.path.ismount(self.place) or self.running.poll() not in (None, 0), f"a stick of {self.name}")
            if not os.path.ismount(self.place):
                raise CannotRun((self.home / "mount.log").read_text()[-300:])

    def take_out(self) -> None:
        subprocess.run(["umount", self.place], capture_output=True)
        wait_until(lambda: not os.path.ismount(self.place), "a stick that is taken out")
        self.ended()

    def ended(self) -> None:
        """Waits until all is on the stick."""
        if self.running is not None:
            self.running.wait(20)

    def fetch(self, name: str) -> None:
        self.put_in()

    def bring(self, name: str) -> None:
        self.take_out()

    def break_off(self, name: str, sync: Callable[[], Answer]) -> Answer:
        """The stick is pulled while the sync writes: it is unmounted at once, and its program is killed."""
        answer = Killer(self.watch, self.pull).during(sync)
        self.notes.append(f"pulled: status {answer.status} {answer.error.decode(errors='replace')!r}")
        again = sync()
        self.notes.append(f"without the stick: status {again.status} {again.error.decode(errors='replace')!r}")
        self.put_in_again()
        return answer

    def watch(self) -> Callable[[], bool]:
        """Whether the stick was written to."""
        before = self.image.stat().st_mtime_ns
        return lambda: self.image.stat().st_mtime_ns != before

    def pull(self) -> None:
        kill(self.running)
        unmount(self.place)

    def put_in_again(self) -> None:
        """The stick as it was pulled is checked, as systems ask, and put in."""
        said = do([*self.check, self.image], may_fail=True)
        self.notes.append(f"{self.check[0]}: {said.splitlines()[-1] if said else 'nothing'}")
        self.put_in()
        self.notes.append(f"it left {sorted(it.name for it in self.box('').iterdir())}")

    def stop(self) -> None:
        unmount(self.place)
        end(self.running)


class ExFat(Stick):
    """exFAT, by exfat-fuse."""

    name = "exfat"
    needs = {"mkfs.exfat": "exfatprogs", "mount.exfat-fuse": "exfat-fuse", "losetup": "mount", "fusermount3": "fuse3"}
    check = ["fsck.exfat", "-y"]

    def make(self) -> None:
        do(["mkfs.exfat", self.image])

    device = ""

    def mount(self) -> Popen:
        # It mounts devices alone.
        self.device = do(["losetup", "--find", "--show", self.image])
        return begin(["mount.exfat-fuse", "-d", self.device, self.place], self.home / "mount.log")

    def ended(self) -> None:
        super().ended()
        self.detach()

    def detach(self) -> None:
        if self.device:
            do(["losetup", "--detach", self.device], may_fail=True)
            self.device = ""

    def pull(self) -> None:
        super().pull()
        self.detach()

    def stop(self) -> None:
        super().stop()
        self.detach()


class VFat(Stick):
    """FAT with long names, by fusefat."""

    name = "vfat"
    needs = {"mkfs.vfat": "dosfstools", "fusefat": "fusefat", "fusermount3": "fuse3"}
    check = ["fsck.vfat", "-a"]

    def make(self) -> None:
        do(["mkfs.vfat", self.image])

    def mount(self) -> Popen:
        return begin(["fusefat", "-f", "-o", "rw+", self.image, self.place], self.home / "mount.log")


STICKS = [ExFat, VFat]
