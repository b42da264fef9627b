"""Devices that are not formatted, and what is told of each."""
from functools import partial

from device_cases.loops import DEVICE, HEAD, IMAGE, SIZES, device, formats, held, pool, put, wants
from running import on_terminal, run, want

TOO_SMALL = b"thinpool: 1 BadGeometry\n"
TAKEN = b"thinpool: 14 Exists\n"


def refusals(ground):
    """devices that are refused, which stay as they were to the byte"""
    for name, case in CASES:
        yield name, partial(case, ground)
    for name, at in (("the first byte", 0), ("a byte of ext4's superblock", 1080), ("the signature of a partition table", 510), ("the last byte that is looked at", HEAD - 1)):
        yield f"{name} is not zero", partial(is_taken, ground, at)
    yield "the byte behind those that are looked at is not zero", partial(is_free, ground)


def left_alone(ground, node, number, *reasons):
    """Formatting is refused by this, which is explained so, and writes nothing."""
    before = held(node)
    ran = ground.run("--explain", "format", node, *SIZES)
    want((ran.status == 1 and not ran.out and ran.err.startswith(number), f"format: {ran.told()}"),
         *((it in ran.err, f"it is not told of {it!r}: {ran.told()}") for it in (node.encode(), *reasons)),
         (held(node) == before, "the device was written"))


def is_too_small(ground):
    with device(ground, size=IMAGE - 512) as node:
        left_alone(ground, node, TOO_SMALL, b"%d bytes" % (IMAGE - 512), b"%d" % IMAGE)
        ran = ground.run("format", node, *SIZES, "--overwrite")
        want((ran.status == 1 and ran.err == TOO_SMALL and held(node) == bytes(IMAGE - 512), f"format with --overwrite: {ran.told()}"))


def is_taken(ground, at):
    with device(ground, holds=[(at, b"\1")]) as node:
        left_alone(ground, node, TAKEN, b"8192", b"--overwrite")
        formats(ground, node, "--overwrite")
        ground.want_clean(node)
        # Now it holds a pool.
        formats(ground, node)


def is_free(ground):
    with device(ground, holds=[(HEAD, b"\1")]) as node:
        formats(ground, node)
        ground.want_clean(node)


def has_a_file_system(ground):
    wants("mkfs.ext4")
    with device(ground) as node:
        made = run(["mkfs.ext4", "-q", node])
        want((made.status == 0, f"mkfs.ext4: {made.told()}"))
        left_alone(ground, node, TAKEN, b"8192", b"--overwrite")
        formats(ground, node, "--overwrite")
        ground.want_clean(node)


def was_damaged(ground):
    with pool(ground) as node:
        # Flags that no pool has: the slot is bad, and a pool's.
        for slot in (0, 4096):
            if held(node, slot, 8) == b"THINPOOL":
                put(node, slot + 12, b"\xff")
        ran = ground.run("status", node)
        want((ran.err == b"thinpool: 2 Damaged\n", f"status: {ran.told()}"))
        formats(ground, node)
        ground.want_clean(node)


def of_another_version(ground):
    with pool(ground) as node:
        for slot in (0, 4096):
            if held(node, slot, 8) == b"THINPOOL":
                put(node, slot + 8, b"\x63")
        ran = ground.run("status", node)
        want((ran.err == b"thinpool: 4 BadVersion\n", f"status: {ran.told()}"))
        formats(ground, node)


def has_no_pool(ground):
    with device(ground) as node:
        for words in (("status", node), ("message", node, "create_thin 0"), ("feed", node)):
            ran = ground.run(*words)
            want((ran.status == 1 and ran.err == b"thinpool: 3 NotAPool\n", f"{words[0]}: {ran.told()}"))
        ran = ground.run("check", node)
        want((ran.err == b"thinpool: 30 BadSuper\n", f"check: {ran.told()}"))
        want((held(node) == bytes(DEVICE), "the device was written"))


def is_cut_behind(ground):
    """A pool that was copied to a smaller device."""
    with pool(ground) as node:
        image = held(node, 0, IMAGE)
    with device(ground, size=IMAGE - 512, holds=[(0, image[:-512])]) as node:
        ran = ground.run("status", node)
        want((ran.err == b"thinpool: 2 Damaged\n", f"status: {ran.told()}"))
        ran = ground.run("check", node)
        want((ran.err == b"thinpool: 30 BadSuper\n", f"check: {ran.told()}"))


def characters(ground):
    for words in (("format", "/dev/null", *SIZES), ("status", "/dev/zero"), ("message", "/dev/null", "create_thin 0")):
        ran = ground.run("--explain", *words)
        want((ran.status == 1 and ran.err.startswith(b"thinpool: 5 Fault\n"), f"{words[0]} of {words[1]}: {ran.told()}"))


def asks_at_a_terminal(ground):
    with pool(ground) as node:
        for typed, status in ((b"no\n", 1), (b"yes\n", 0)):
            ran = on_terminal([ground.program, "format", node, *SIZES], typed=typed)
            want((ran.status == status and b"holds a pool with 1 volume" in ran.err, f"answered {typed!r}: {ran.told()}"))


def asks_and_refuses(ground):
    with device(ground, holds=[(1080, b"\1")]) as node:
        before = held(node)
        ran = on_terminal([ground.program, "format", node, *SIZES], typed=b"yes\n")
        want((ran.status == 1 and b"%d bytes that are not a pool" % DEVICE in ran.err and b"14 Exists" in ran.err and held(node) == before, f"answered yes: {ran.told()}"))


CASES = [
    ("a device that is 512 bytes too small", is_too_small),
    ("a device with a file system", has_a_file_system),
    ("a pool with a damaged superblock is formatted anew", was_damaged),
    ("so is one of another version", of_another_version),
    ("other commands of a device without a pool", has_no_pool),
    ("a pool on a device that is 512 bytes shorter", is_cut_behind),
    ("devices of characters", characters),
    ("a pool is destroyed at a terminal behind yes alone", asks_at_a_terminal),
    ("somebody else's device is refused also behind yes", asks_and_refuses),
]
