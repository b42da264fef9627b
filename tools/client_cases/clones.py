"""Clones that go with their client: `run --clones`."""
import os
import random
import re
from functools import partial

from client_cases.hosts import BLOCKS, VOLUME, Host, done, qemu_io, refused
from running import BLOCK, FLUSH, MIB, READ, TRIM, WRITE, want

# How many clients have a clone at once, how many blocks each writes, and the first id of a clone.
CLONES = 60
WRITES = 12
FIRST = 8388608


def clones_unix(ground):
    """`run --clones` at a socket file: clones that go with their client"""
    yield from clones(ground, "unix")


def clones_tcp(ground):
    """the same at loopback"""
    yield from clones(ground, "tcp")


def clones(ground, over):
    host = Host(ground, over)
    for name, case in CASES:
        yield f"{over}: {name}", partial(case, host)


# ---- a golden volume


class Golden:
    """A pool with a volume of random data in every second MiB, and room for what all clones write; and what is in it."""

    def __init__(self, host):
        self.host = host
        self.image = host.ground.fresh("golden.img", BLOCKS, BLOCKS + 2 * CLONES * WRITES, 1)
        self.bytes = bytearray(VOLUME)
        with host.up(self.image) as server:
            client = server.client()
            for at in range(0, VOLUME, 2 * MIB):
                self.bytes[at:at + MIB] = os.urandom(MIB)
                client.do(WRITE, at, data=bytes(self.bytes[at:at + MIB]))
            client.do(FLUSH)
            client.leave()

    def up(self, *more):
        return self.host.up(self.image, "--clones", *more)

    def is_in(self, server):
        """Wants the volume to be as it was."""
        client = server.client()
        for at in range(0, VOLUME, MIB):
            want((client.do(READ, at, MIB) == self.bytes[at:at + MIB], f"the golden volume was changed in the MiB at {at}"))
        client.leave()


class Clone:
    """A client that has a clone, and a copy of what is to be in it."""

    def __init__(self, server, golden, seed):
        self.client, self.golden, self.random, self.mine = server.client("clone:0"), golden, random.Random(seed), {}

    def block(self, at):
        return self.mine.get(at, bytes(self.golden.bytes[at * BLOCK:(at + 1) * BLOCK]))

    def write(self):
        """Writes a part of a block at random, or trims one."""
        at = self.random.randrange(BLOCKS)
        if self.random.random() < 0.2:
            self.client.do(TRIM, at * BLOCK, BLOCK)
            self.mine[at] = bytes(BLOCK)
            return
        first = 512 * self.random.randrange(BLOCK // 512)
        data = self.random.randbytes(min(4096, BLOCK - first))
        self.client.do(WRITE, at * BLOCK + first, data=data)
        old = self.block(at)
        self.mine[at] = old[:first] + data + old[first + len(data):]

    def compare(self):
        for at in {*self.mine, *(self.random.randrange(BLOCKS) for _ in range(WRITES))}:
            want((self.client.do(READ, at * BLOCK, BLOCK) == self.block(at), f"block {at} of a clone is not its own"))


def used(server):
    """The metadata and data blocks that are in use."""
    return server.control("status").split()[1:3]


def have_clones(server, golden):
    """So many clients with a clone each, by turns."""
    there = [Clone(server, golden, seed) for seed in range(CLONES)]
    for _ in range(WRITES):
        for it in there:
            it.write()
    for it in there:
        it.client.do(FLUSH)
        it.compare()
    return there


# ---- the cases


def sixty_clones(host):
    golden = Golden(host)
    with golden.up() as server:
        before = used(server)
        there = have_clones(server, golden)
        told = server.control("clients")
        want((sorted(told.split()[3:]) == [str(FIRST + it) for it in range(CLONES)], f"clients is answered {told}"))
        golden.is_in(server)
        beside = used(server)
        for at, it in enumerate(there):
            # Some say that they go, and some are gone.
            it.client.leave() if at % 2 else it.client.close()
        server.waits_for("0 of 64:")
        want((used(server) == before, f"{before} were in use before, {used(server)} are behind"))
        golden.is_in(server)
    return f"{beside} beside them, {before} before and behind"


def killed_with_clones(host):
    golden = Golden(host)
    with golden.up() as server:
        before = used(server)
    with host.killed(golden.image, "--clones") as server:
        # They are kept until it is killed: a client that is let go before hangs up, and its clone goes.
        left = have_clones(server, golden)
    del left
    host.ground.want_clean(golden.image)
    with golden.up() as again:
        again.tells(rf"deleted {CLONES} clones left by a previous server\n")
        want((used(again) == before, f"{before} were in use before, {used(again)} are behind a kill"))
        golden.is_in(again)
        there = have_clones(again, golden)
        for it in there:
            it.client.leave()
        again.waits_for("0 of 64:")
        want((used(again) == before, f"{used(again)} are in use behind the second life"))


def killed_in_the_middle(host):
    """Killed while clients come, write and go, some times."""
    golden = Golden(host)
    with golden.up() as server:
        before = used(server)
    for life in range(4):
        with host.killed(golden.image, "--clones") as server:
            there = [Clone(server, golden, seed) for seed in range(20)]
            for at in range(15 * (life + 1)):
                there[at % 20].write()
                if at % 4 == 3:
                    there[at % 20].client.leave()
                    there[at % 20] = Clone(server, golden, 100 * life + at)
        host.ground.want_clean(golden.image)
    with golden.up() as again:
        want((int(again.tells(r"deleted (\d+) clones left by a previous server\n")[1]) >= 20, "too few clones were left"))
        want((used(again) == before, f"{before} were in use before, {used(again)} are behind four kills"))
        golden.is_in(again)


def names(host):
    """What clones are called, and what others may know of them."""
    golden = Golden(host)
    with golden.up("--default", "0") as server:
        there = server.client("clone:0")
        size = done("nbdinfo", "--size", server.uri("clone:0"))
        want((int(size) == VOLUME, f"a size of {size!r}"))
        listed = done("nbdinfo", "--list", server.uri())
        want((re.findall(r'export="(\d+)"', listed) == ["0"], f"LIST names {listed}"))
        refused("No such file", "nbdinfo", "--size", server.uri(str(FIRST)))
        refused("No such file", "nbdinfo", "--size", server.uri("clone:7"))
        want((server.control(f"delete {FIRST}").startswith("refused 16"), "a clone that is held is deleted"))
        want((server.control(f"create_snap 7 {FIRST}") == "ok", "no snapshot of a clone is made"))
        there.leave()
        server.waits_for("0 of 64:")
        want((int(done("nbdinfo", "--size", server.uri("7"))) == VOLUME, "the snapshot is gone"))
        want((server.control("delete 7") == "ok", "it is not deleted"))
        golden.is_in(server)


def one_connection(host):
    golden = Golden(host)
    with golden.up() as server:
        told = done("nbdinfo", server.uri("clone:0"))
        want(("can_multi_conn: false" in told, told), ("can_multi_conn: true" in done("nbdinfo", server.uri("0")), "a volume has one connection"))


def qemu(host):
    golden = Golden(host)
    with golden.up() as server:
        before = used(server)
        qemu_io(server.uri("clone:0"), f"write -P 0x61 0 {MIB}", f"read -P 0x61 0 {MIB}", "flush")
        server.waits_for("0 of 64:")
        want((used(server) == before, "what qemu-io wrote is still there"))
        golden.is_in(server)


def without_the_flag(host):
    golden = Golden(host)
    with host.up(golden.image) as server:
        refused("No such file", "nbdinfo", "--size", server.uri("clone:0"))
        want((server.control(f"create_snap {FIRST} 0") == "ok", "a volume of that id is not made"))
        want((int(done("nbdinfo", "--size", server.uri(str(FIRST)))) == VOLUME, "another size"))
    with host.up(golden.image) as again:
        want((again.control(f"delete {FIRST}") == "ok", "a volume of that id was deleted"))


CASES = [
    ("60 clones at once are each their own, and gone with their clients", sixty_clones),
    ("those that a killed server left are deleted at the start", killed_with_clones),
    ("killed while clients come and go, four times", killed_in_the_middle),
    ("names, and what others may know of them", names),
    ("no second connection is told of", one_connection),
    ("qemu-io", qemu),
    ("without --clones their ids are volumes like all others", without_the_flag),
]
