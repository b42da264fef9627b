"""A device that fails the write of one block, and images on it."""
import contextlib
import fcntl
import os
import struct

from device_cases.loops import wants
from running import MIB, as_root, run, want

PAGE = 4096
# Sectors of a data block, data blocks of a volume, metadata blocks, data blocks.
SIZES = ["128", "8", "1032", "8"]
# The byte of the image at which its data blocks begin.
DATA = 1032 * PAGE
# MiB of the tmpfs beside the device's file. The cases write less.
SPARE = 8
# The request of the system for the device's block of a file's block.
FIBMAP = 1


class Layout:
    """An image on a device of `size` MiB: the device itself, or a file on a file system on it.

    `make` is the command that creates the file system."""

    def __init__(self, name, size, make=None):
        self.name, self.size, self.make = name, size, make


# No file system discards blocks, so each block of the device keeps its page in the tmpfs.
LAYOUTS = [
    Layout(
        "ext4 without a journal",
        24,
        [
            "mkfs.ext4",
            "-q",
            "-F",
            "-b",
            str(PAGE),
            "-O",
            "^has_journal",
            "-E",
            "nodiscard,lazy_itable_init=0",
        ],
    ),
    Layout(
        "ext4",
        32,
        [
            "mkfs.ext4",
            "-q",
            "-F",
            "-b",
            str(PAGE),
            "-E",
            "nodiscard,lazy_itable_init=0,lazy_journal_init=0",
        ],
    ),
    Layout("XFS", 320, ["mkfs.xfs", "-q", "-f", "-K"]),
    Layout("a block device", 24),
]


def done(*words):
    """What a command prints that has to succeed."""
    ran = run(list(words))
    want((ran.status == 0, f"{words[0]}: {ran.told()}"))
    return ran.out.decode().strip()


@contextlib.contextmanager
def mounted(folder, *words):
    """A folder on which something is mounted."""
    os.makedirs(folder, exist_ok=True)
    done("mount", *words, folder)
    try:
        yield folder
    finally:
        run(["umount", folder])


class Device:
    """A loop device over a file in a tmpfs that can be filled up."""

    def __init__(self, folder, size):
        self.file, self.filler = f"{folder}/device", f"{folder}/filler"
        with open(self.file, "wb") as made:
            for _ in range(size):
                made.write(bytes(MIB))
        self.node = done("losetup", "--find", "--show", self.file)

    def fail_write(self, at):
        """Makes the device fail the write of the block at this byte, and read zeros there."""
        done("fallocate", "--punch-hole", "--offset", str(at), "--length", str(PAGE), self.file)
        with contextlib.suppress(OSError), open(self.filler, "wb", buffering=0) as filler:
            while filler.write(bytes(PAGE)):
                pass

    def repair(self):
        os.remove(self.filler)

    def want_unused(self):
        """Fails if the device is mounted in some namespace."""
        os.close(os.open(self.node, os.O_RDONLY | os.O_EXCL))

    def detach(self):
        run(["losetup", "--detach", self.node])


class DeviceImage:
    """The image is the device. This process has it open, so its cached pages outlive the server."""

    def __init__(self, device):
        self.device, self.path = device, device.node
        self.other = os.open(self.path, os.O_RDONLY)

    def place_of(self, at):
        """The byte of the device at which a byte of the image is."""
        return at

    def allocate(self):
        """Each block of the image is a block of the device."""

    def drop_cached(self):
        """The system drops all cached pages of the image."""
        self.close()
        done("blockdev", "--flushbufs", self.path)

    def close(self):
        if self.other is not None:
            os.close(self.other)
        self.other = None


class FileImage:
    """The image is a file on a file system of the device."""

    def __init__(self, device, folder, make):
        self.device, self.folder, self.path = device, folder, f"{folder}/pool.img"
        os.makedirs(folder, exist_ok=True)
        done(*make, device.node)
        done("mount", device.node, folder)

    def place_of(self, at):
        """The byte of the device at which a byte of the image is."""
        with open(self.path, "rb") as image:
            block = struct.unpack("i", fcntl.ioctl(image, FIBMAP, struct.pack("i", at // PAGE)))[0]
        want((block > 0, f"byte {at} of the image has no block of the device"))
        return block * PAGE + at % PAGE

    def allocate(self):
        """Writes the whole file, so that each of its blocks has one of the device."""
        with open(self.path, "r+b") as image:
            data = image.read()
            image.seek(0)
            image.write(data)

    def drop_cached(self):
        """The system drops all cached pages of the image. No other namespace has it mounted."""
        done("umount", self.folder)
        self.device.want_unused()
        done("mount", self.device.node, self.folder)

    def close(self):
        run(["umount", self.folder])


@contextlib.contextmanager
def failing_image(ground, layout):
    """An image with the empty volumes 0 and 1, all of which is on its device."""
    as_root()
    wants("losetup", "fallocate", "blockdev", *(layout.make or [])[:1])
    size = f"size={layout.size + SPARE}m,huge=never"
    with mounted(
        ground.path("memory"), "-t", "tmpfs", "-o", size, "tmpfs"
    ) as memory, contextlib.ExitStack() as opened:
        device = Device(memory, layout.size)
        opened.callback(device.detach)
        image = (
            FileImage(device, ground.path("system"), layout.make)
            if layout.make
            else DeviceImage(device)
        )
        opened.callback(image.close)
        ground.made("format", image.path, *SIZES)
        image.allocate()
        for message in ("create_thin 0", "create_thin 1"):
            ground.made("message", image.path, message)
        os.sync()
        yield image
