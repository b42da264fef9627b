"""Clients that write without FLUSH, and a comparison of what they wrote with what is there."""
import os
import struct
import threading
import time
from contextlib import suppress

from running import BLOCK, FLUSH, READ, WRITE
from running import Client, Failed, Stuck, want

LENGTH = 4096
# Data blocks of a volume, and of the pool.
BLOCKS = 2048
POOL = 8192


def new_pool(ground, name="pool.img"):
    """A fresh image with the volumes 0 and 1."""
    image = ground.path(name)
    ground.made("format", image, "128", str(BLOCKS), "4096", str(POOL))
    for line in ("create_thin 0", "create_thin 1"):
        ground.made("message", image, line)
    return image


def data_of(value):
    """The bytes of a write."""
    return struct.pack("<Q", value) * (LENGTH // 8)


class Write:
    """A write: its value, and when it was acknowledged, or None."""

    def __init__(self, value):
        self.value, self.acknowledged = value, None


class Writer(threading.Thread):
    """A client that writes each of its blocks in turn, until its connection ends."""

    def __init__(self, place, blocks, pause=0.002):
        super().__init__(daemon=True)
        self.client = Client.at(place, 20).go("0")
        self.blocks, self.pause = blocks, pause
        # Writes by block, in their order.
        self.writes, self.error, self.count = {}, None, 0
        self.may_go_on = True
        self.start()

    def run(self):
        with suppress(EOFError, OSError, Stuck):
            while self.may_go_on:
                self.write_next()
                time.sleep(self.pause)

    def write_next(self):
        block = self.blocks[self.count % len(self.blocks)]
        self.count += 1
        write = Write(block << 32 | self.count)
        self.writes.setdefault(block, []).append(write)
        self.error, _ = self.client.ask(WRITE, block * BLOCK, data=data_of(write.value))
        write.acknowledged = time.monotonic() if self.error == 0 else None

    def flush(self):
        """Stops writing, and flushes what was written."""
        self.may_go_on = False
        self.join(20)
        self.client.do(FLUSH)

    def end(self):
        self.may_go_on = False
        self.join(25)
        self.client.close()


class Load:
    """Writers at a place, each with blocks of its own."""

    def __init__(self, place, writers=4, pause=0.002):
        share = BLOCKS // writers
        self.writers = [Writer(place, range(it * share, (it + 1) * share), pause)
                        for it in range(writers)]

    def runs_for(self, seconds):
        """Lets them write for some seconds, and wants that they do."""
        before = self.count()
        time.sleep(seconds)
        want((self.count() > before + 10 * seconds, f"only {self.count() - before} writes"))
        return self

    def count(self):
        """How many writes were acknowledged."""
        return sum(it.acknowledged is not None for writer in self.writers
                   for all_of in list(writer.writes.values()) for it in list(all_of))

    def end(self):
        for it in self.writers:
            it.end()
        refused = [it.error for it in self.writers if it.error]
        want((not refused, f"writes were answered {refused}"))
        return self


def lost(ground, image, load):
    """The acknowledged writes that the image does not have, the oldest first.

    A block holds what was acknowledged last, or a write that was under way. Otherwise the last
    write is lost, and with it all between it and the one that is there."""
    ground.want_clean(image)
    server = ground.serve(image, 1)
    missing = []
    try:
        client = server.client("0")
        for writer in load.writers:
            for block, writes in writer.writes.items():
                found = client.do(READ, block * BLOCK, LENGTH)
                missing += missing_of(block, writes, found)
        client.leave()
        server.ended()
    finally:
        server.kill()
    return sorted(missing, key=lambda it: it.acknowledged)


def missing_of(block, writes, found):
    """The acknowledged writes of a block behind the one that was found there."""
    for at, write in reversed(list(enumerate(writes))):
        if found == data_of(write.value):
            return [it for it in writes[at + 1:] if it.acknowledged]
    if found != bytes(LENGTH):
        raise Failed(f"block {block} holds what nobody wrote: {found[:16].hex()}")
    return [it for it in writes if it.acknowledged]


def want_all(ground, image, load):
    """Wants every acknowledged write in the image, and gives their number as a text."""
    load.end()
    count = load.count()
    missing = lost(ground, image, load)
    want((count > 0, "nothing was written"),
         (not missing, f"{len(missing)} of {count} acknowledged writes are lost"))
    return f"{count} writes acknowledged, none lost"


def age_of_loss(ground, image, load, killed):
    """How many seconds before a kill the oldest write was acknowledged that is lost."""
    load.end()
    missing = lost(ground, image, load)
    return max((killed - it.acknowledged for it in missing), default=0.0), len(missing)


def processes(*words):
    """The numbers of processes whose arguments contain these words, in no order."""
    found = []
    for it in filter(str.isdigit, os.listdir("/proc")):
        with suppress(OSError):
            with open(f"/proc/{it}/cmdline", "rb") as text:
                arguments = text.read().decode(errors="replace").split("\0")
            if all(word in arguments for word in words):
                found.append(int(it))
    return found


def parent_of(number):
    with open(f"/proc/{number}/stat", encoding="ascii", errors="replace") as text:
        return int(text.read().rpartition(")")[2].split()[1])
