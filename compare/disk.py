"""Runs of bc7 on a disk that does not take its output; see mistakes."""

import contextlib
import os
import shutil
import subprocess

from program import SMALL, drawn

OTHER = 65534  # the user as which runs are refused by permissions, where the script is root's
WIDE = 256  # the side of the picture whose outputs do not fit on the small disk


def permissions_wrong(held):
    """Input that may not be read, and folders that may not be written; root's runs are another user's."""
    other = {"user": OTHER, "group": OTHER, "extra_groups": []} if os.geteuid() == 0 else {}
    held.put("shut.ppm", drawn(*SMALL))
    os.mkdir(held.path("shut"))
    held.put("shut/old.bc7", b"the old plate")
    held.put("shut/old.ppm", b"the old picture")
    os.chmod(held.path("shut.ppm"), 0)
    os.chmod(held.path("shut"), 0o555)
    denied = {"why": "permission denied", **other}
    held.refused("shut.ppm", "bake", "shut.ppm", "old.bc7", **denied)
    held.refused("shut.ppm", "read", "shut.ppm", **denied)
    held.refused("shut.ppm", "bake", "small.ppm", "old.bc7", "shut.ppm", **denied)
    held.refused("shut/old.bc7", "bake", "small.ppm", "shut/old.bc7", **denied)
    held.refused("shut/old.ppm", "show", "small.bc7", *SMALL, "shut/old.ppm", **denied)
    held.refused("shut/new.ppm", "map", "small.ppm", "small.bc7", "shut/new.ppm", **denied)
    os.chmod(held.path("shut"), 0o755)


def mount(*arguments):
    """Whether a disk could be mounted."""
    if os.geteuid() != 0 or shutil.which("mount") is None:
        return False
    return subprocess.run(["mount", *arguments], capture_output=True).returncode == 0


@contextlib.contextmanager
def small_disk(folder):
    """A disk of 64 KB in a folder: whether there is one."""
    os.mkdir(folder)
    mounted = mount("-t", "tmpfs", "-o", "size=64k", "tmpfs", folder)
    try:
        yield mounted
    finally:
        if mounted:
            subprocess.run(["umount", folder], check=True)


def fill(path, left):
    """Fills the disk of a file with it, but for so many bytes."""
    with open(path, "wb", buffering=0) as file:
        with contextlib.suppress(OSError):
            while True:
                file.write(bytes(4096))
        file.truncate(file.tell() - left)


def outputs_refused(held, why, photo, plate, width, height):
    """Bakes, shows and maps onto the small disk, which must fail."""
    held.refused("disk/old.bc7", "bake", photo, "disk/old.bc7", why=why)
    held.refused("disk/old.ppm", "show", plate, width, height, "disk/old.ppm", why=why)
    held.refused("disk/old.ppm", "map", photo, plate, "disk/old.ppm", why=why)


def disk_full(held):
    """A disk that is full from the start, one that becomes full, and one that is read-only."""
    held.put("wide.ppm", drawn(WIDE, WIDE))
    held.done("bake", "wide.ppm", "wide.bc7", makes="wide.bc7")
    with small_disk(held.path("disk")) as mounted:
        if not mounted:
            print("the runs on a full disk are left out: no disk can be mounted here")
            return
        held.put("disk/old.bc7", b"the old plate")
        held.put("disk/old.ppm", b"the old picture")
        for left in (0, 4096, 8192):
            fill(held.path("disk/filler"), left)
            outputs_refused(held, "no space left", "wide.ppm", "wide.bc7", WIDE, WIDE)
        fill(held.path("disk/filler"), 0)
        outputs_refused(held, "no space left", "photo.ppm", "plate.bc7", 64, 48)
        if mount("-o", "remount,ro", held.path("disk")):
            outputs_refused(held, "read-only", "small.ppm", "small.bc7", *SMALL)
