"""How volumes are served to clients of other makers, and what these are told to do."""
import contextlib
import os
import shutil
import sys

from running import MIB, Failed, Skipped, run, want

# The Python of the system, which has libnbd's module; another one may be the first in the PATH.
PYTHON = "/usr/bin/python3"
VOLUME = int(os.environ.get("MIB", "64")) * MIB
BLOCKS = VOLUME // 65536
# Connections that `serve` takes; fio wants 40.
COUNT = int(os.environ.get("COUNT", "64"))


class Host:
    """How volumes are served: by `serve`, or by `run` at socket files ("unix") or at loopback ("tcp")."""

    def __init__(self, ground, over):
        self.ground, self.over, self.is_extended = ground, over, over != "serve"

    def pool(self, volumes=2):
        """A new pool of twice a volume's size."""
        return self.ground.fresh("clients.img", BLOCKS, 2 * BLOCKS, volumes)

    def start(self, image, *more):
        if self.is_extended:
            return self.ground.stays(image, is_controlled=True, over=self.over, more=more)
        return self.ground.serve(image, COUNT, more=more)

    @contextlib.contextmanager
    def up(self, image, *more):
        """A server, which has to end well behind what is done with it."""
        with self.killed(image, *more) as server:
            yield server
            server.finish()

    @contextlib.contextmanager
    def killed(self, image, *more):
        """A server that is killed behind what is done with it."""
        server = self.start(image, *more)
        try:
            yield server
        finally:
            server.kill()


class Files:
    """Files to copy: one of random bytes, and such with short holes and with long ones."""

    def __init__(self, ground):
        self.random, self.short_holes, self.long_holes = (ground.path(f"{it}.raw") for it in ("random", "short-holes", "long-holes"))
        self.back = ground.path("back.raw")
        write_parts(self.random, range(VOLUME // MIB))
        write_parts(self.short_holes, range(1, VOLUME // MIB, 2))
        write_parts(self.long_holes, (3, 4, VOLUME // MIB - 2))


def write_parts(path, parts):
    """Writes random bytes to these MiB of a file as long as a volume, and leaves holes between them."""
    with open(path, "wb") as file:
        file.truncate(VOLUME)
        for at in parts:
            file.seek(at * MIB)
            file.write(os.urandom(MIB))


def wants(*tools):
    for it in tools:
        if not shutil.which(it):
            raise Skipped(f"{it} is not installed")


def wants_libnbd():
    if run([PYTHON, "-c", "import nbd"]).status:
        raise Skipped("python3-libnbd is not installed")


def done(*words, **how):
    """What a client prints that has to be done."""
    wants(words[0])
    ran = run([*words], **how)
    want((ran.status == 0, f"{words[0]}: {ran.told()}"))
    return ran.out.decode(errors="replace")


def refused(text, *words):
    """Wants that a client fails, and tells this."""
    wants(words[0])
    ran = run([*words])
    want((ran.status != 0 and text in ran.err.decode(errors="replace"), f"{words[0]}: {ran.told()}"))


def qemu_io(uri, *commands, fails=None):
    """Does commands of qemu-io, which may fail and end with 0. They have to be done, or to fail with this text."""
    wants("qemu-io")
    words = [word for it in commands for word in ("-c", it)]
    ran = run(["qemu-io", "-f", "raw", "-d", "unmap", uri, *words])
    told = (ran.out + ran.err).decode(errors="replace")
    if fails:
        want((fails in told, f"qemu-io: {ran.told()}"))
    else:
        want((ran.status == 0 and "failed" not in told.lower(), f"qemu-io: {ran.told()}"))


def want_same(one, other, length=VOLUME):
    """Wants two files to begin with the same bytes, so many."""
    with open(one, "rb") as first, open(other, "rb") as second:
        for at in range(0, length, MIB):
            if first.read(MIB) != second.read(MIB):
                raise Failed(f"{one} and {other} differ within the MiB at {at}")


def mapped(server_or_line):
    """How many data blocks a status line tells to be used."""
    return int(server_or_line.split()[2].split("/")[0])


def fio_is_there():
    wants("fio")
    if "nbd" not in run(["fio", "--enghelp"]).out.decode().split():
        raise Skipped("fio has no nbd engine")
