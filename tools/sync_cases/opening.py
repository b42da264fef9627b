"""The calls by which commands open and close an image, by strace."""
import contextlib
import os
import re
from functools import partial

from device_cases.loops import device, wants
from running import Failed, held, run, strace, want

SYNCS = ("fsync", "fdatasync")
TRACED = ",".join(
    [
        "flock",
        *SYNCS,
        "fadvise64",
        "close",
        "read",
        "pread64",
        "preadv",
        "write",
        "pwrite64",
        "pwritev",
    ]
)
# A call on a descriptor: its name, the descriptor, the path, the other arguments, and the result.
CALL = re.compile(r"(?:\d+ +)?(\w+)\((\d+)<([^>]*)>(?:, )?(.*)\) += (-?\d+)")
# The words of a command behind the program, with None for the image. `format` creates the file.
COMMANDS = [
    ["format", None, "128", "64", "1100", "64"],
    ["message", None, "create_thin 7"],
    ["check", None, "--clear-needs-check-flag"],
    ["feed", None],
    ["status", None],
    ["status", None, "0"],
    ["ls", None],
    ["check", None],
]
FAULT = b"thinpool: 5 Fault\n"


def opening(ground):
    """commands lock, sync and drop cached pages before they read, and unlock before they close"""
    for name, image in (("a file", file_image), ("a block device", device_image)):
        for words in COMMANDS:
            said = " ".join(it or "IMAGE" for it in words[:3])
            yield f"{name}: {said} locks, syncs and drops cached pages before it reads", partial(
                opens_in_order, ground, image, words
            )
            yield f"{name}: {said} fails with error 5 if no cached page can be dropped", partial(
                fails_to_drop, ground, image, words
            )
            yield f"{name}: {said} unlocks the image before it closes it", partial(
                unlocks, ground, image, words
            )


@contextlib.contextmanager
def file_image(ground):
    yield ground.copy("opened.img")


@contextlib.contextmanager
def device_image(ground):
    with device(ground, holds=[(0, held(ground.base))]) as node:
        yield node


class Call:
    """A call on the image."""

    def __init__(self, name, descriptor, more, result):
        self.name, self.descriptor, self.more, self.result = (
            name,
            int(descriptor),
            more,
            int(result),
        )


def calls_on(ground, image, words):
    """How a command ended, and its calls on the image in their order."""
    wants("strace")
    trace = ground.path("trace")
    ran = run([*strace(trace, TRACED), ground.program, *(it or image for it in words)])
    with open(trace, encoding="utf-8", errors="replace") as lines:
        found = [it for it in map(CALL.match, lines) if it and it[3] == image]
    return ran, [Call(it[1], it[2], it[4], it[5]) for it in found]


def opens_in_order(ground, image, words):
    with image(ground) as path:
        if words[0] == "format" and os.path.isfile(path):
            os.remove(path)
        ran, calls = calls_on(ground, path, words)
    names = ["sync" if it.name in SYNCS else it.name for it in calls if it.name != "close"]
    want(
        (ran.status == 0, ran.told()),
        (names[:3] == ["flock", "sync", "fadvise64"], f"its first calls are {names[:5]}"),
    )
    want(
        (len(names) > 4, f"it makes no other calls than {names}"),
        (calls[0].result == 0, "the lock is not held"),
    )


def fails_to_drop(ground, image, words):
    """`format` sets the length of a file before."""
    wants("strace")
    with image(ground) as path:
        before = held(path)
        ran = run(
            [
                *strace(os.devnull, "fadvise64", ["-e", "inject=fadvise64:error=EIO"]),
                ground.program,
                *(it or path for it in words),
            ]
        )
        want(
            ((ran.status, ran.out, ran.err.split(b"\n")[0] + b"\n") == (1, b"", FAULT), ran.told()),
            (words[0] == "format" or held(path) == before, "the image changed"),
        )


def unlocks(ground, image, words):
    with image(ground) as path:
        ran, calls = calls_on(ground, path, words)
    want((ran.status == 0, ran.told()))
    locked = {
        it.descriptor
        for it in calls
        if it.name == "flock" and it.more.startswith(("LOCK_EX", "LOCK_SH"))
    }
    want((len(locked) == 1, f"{len(locked)} descriptors of the image are locked"))
    ends = [
        it.name
        for it in calls
        if it.descriptor in locked and (it.name == "close" or it.more == "LOCK_UN")
    ]
    if ends != ["flock", "close"]:
        raise Failed(f"at the end its calls are {ends}")
