"""Loop devices, and what is read and written of them beside the program."""
import contextlib
import os
import shutil

from running import MIB, Ground, Skipped, as_root, run, want

# The sizes of a pool whose image has so many bytes.
SIZES = Ground.SIZES
IMAGE = 1100 * 4096 + 64 * 65536
# As many as a device of these cases has, and those that are looked at before it is overwritten.
DEVICE = 16 * MIB
HEAD = 8192
LINE = b"0 9/1100 0/64 - rw no_discard_passdown error_if_no_space - 512\n"


def wants(*tools):
    missing = [it for it in tools if not shutil.which(it)]
    if missing:
        raise Skipped(f"no {', '.join(missing)} here")


@contextlib.contextmanager
def device(ground, size=DEVICE, holds=()):
    """A loop device of so many bytes, zeros but for these parts, which are pairs of an offset and bytes."""
    as_root()
    wants("losetup")
    file = ground.path("device.img")
    with open(file, "wb") as made:
        made.truncate(size)
        for at, data in holds:
            made.seek(at)
            made.write(data)
    ran = run(["losetup", "--find", "--show", file])
    if ran.status:
        raise Skipped(f"no loop device: {ran.told()}")
    node = ran.out.decode().strip()
    try:
        yield node
    finally:
        run(["losetup", "--detach", node])
        os.remove(file)


@contextlib.contextmanager
def pool(ground, **how):
    """The same with a pool on it, in which there is a volume 0."""
    with device(ground, **how) as node:
        formats(ground, node)
        ground.made("message", node, "create_thin 0")
        yield node


def formats(ground, node, *more):
    ran = ground.made("format", node, *SIZES, *more)
    want((ran.out == LINE and not ran.err, f"format: {ran.told()}"))


def held(node, at=0, count=DEVICE):
    """So many bytes of a device."""
    with open(node, "rb") as it:
        it.seek(at)
        return it.read(count)


def put(node, at, data):
    with open(node, "r+b") as it:
        it.seek(at)
        it.write(data)
        it.flush()
        os.fsync(it.fileno())


def size_of(node):
    with open(node, "rb") as it:
        return it.seek(0, os.SEEK_END)
