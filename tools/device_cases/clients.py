"""Servers over a loop device: kills, and clients of other makers."""
import os
from functools import partial

from device_cases.loops import device, formats, pool, wants
from running import BLOCK, FLUSH, MIB, READ, TRIM, WRITE, run, want

KILLS = int(os.environ.get("KILLS", "12"))


def kills(ground):
    """servers that are killed, and what the device has then"""
    yield "what was flushed is there behind a kill of run", partial(is_kept, ground)
    yield f"{KILLS} kills in writes, each with what was flushed before", partial(is_kept_often, ground)


def is_kept(ground):
    with pool(ground) as node:
        server = ground.stays(node)
        client = server.client()
        client.do(WRITE, 5 * BLOCK, data=b"\x11" * BLOCK)
        client.do(FLUSH)
        server.kill()
        client.close()
        ground.want_clean(node)
        again = ground.stays(node, is_controlled=True)
        try:
            reader = again.client()
            want((reader.do(READ, 5 * BLOCK, BLOCK) == b"\x11" * BLOCK, "what was flushed is lost"))
            reader.leave()
        finally:
            again.finish()


def is_kept_often(ground):
    with pool(ground) as node:
        for turn in range(KILLS):
            server = ground.stays(node)
            client = server.client()
            if turn:
                want((client.do(READ, 0, BLOCK) == bytes([turn]) * BLOCK, f"what turn {turn} flushed is lost"))
            client.do(WRITE, 0, data=bytes([turn + 1]) * BLOCK)
            client.do(FLUSH)
            for at in range(1, turn + 2):
                client.do(TRIM if at % 3 == 0 else WRITE, at * BLOCK, **({"length": BLOCK} if at % 3 == 0 else {"data": os.urandom(BLOCK)}))
            server.kill()
            client.close()
            ground.want_clean(node)


def clients(ground):
    """clients of other makers of run over a loop device"""
    for name, case in (("nbdinfo", tells_size), ("nbdcopy there and back", copies), ("qemu-io writes, discards and reads", patterns)):
        yield name, partial(case, ground)


def tells_size(ground):
    wants("nbdinfo")
    with pool(ground) as node:
        server = ground.stays(node, is_controlled=True, over="unix")
        try:
            ran = run(["nbdinfo", "--size", server.uri("0")])
            want((ran.out == b"%d\n" % (64 * BLOCK), f"nbdinfo: {ran.told()}"))
        finally:
            server.finish()


def copies(ground):
    wants("nbdcopy")
    there, back = ground.path("there"), ground.path("back")
    with open(there, "wb") as it:
        it.write(os.urandom(2 * MIB) + bytes(2 * MIB))
    with pool(ground) as node:
        server = ground.stays(node, is_controlled=True, over="unix")
        try:
            for words in (["--flush", there, server.uri("0")], [server.uri("0"), back]):
                ran = run(["nbdcopy", *words])
                want((ran.status == 0, f"nbdcopy: {ran.told()}"))
        finally:
            server.finish()
        with open(there, "rb") as one, open(back, "rb") as other:
            want((one.read() == other.read(), "nbdcopy reads something else than it wrote"))
        want((ground.made("status", node, "0").out.split()[0] == b"4096", "another number of mapped sectors"))


def patterns(ground):
    wants("qemu-io")
    with pool(ground) as node:
        server = ground.stays(node, is_controlled=True, over="unix")
        try:
            for commands in (["write -P 0x5a 64k 192k", "flush", "discard 128k 64k"], ["read -P 0x5a 64k 64k", "read -P 0 128k 64k", "read -P 0x5a 192k 64k"]):
                ran = run(["qemu-io", "-f", "raw", *(part for it in commands for part in ("-c", it)), server.uri("0")])
                want((ran.status == 0 and b"failed" not in ran.out + ran.err, f"qemu-io: {ran.told()}"))
        finally:
            server.finish()
        want((ground.made("status", node, "0").out == b"256 511\n", "another status"))
