"""Each command over a loop device."""
import os
import re
from functools import partial

from device_cases.loops import DEVICE, IMAGE, LINE, SIZES, device, formats, held, pool, put, size_of, wants
from edge_cases.commands import VISIT
from running import BLOCK, MIB, WRITE, run, want

SCRIPT = "open 0\nmessage create_thin 7\nstatus\nhangup 0\n"


def commands(ground):
    """each command over a loop device"""
    for name, case in CASES:
        yield name, partial(case, ground)


def formats_zeros(ground):
    with device(ground) as node:
        formats(ground, node)
        want((size_of(node) == DEVICE, "the device has another size"))
        ground.want_clean(node)


def leaves_what_is_behind(ground):
    behind = os.urandom(DEVICE - IMAGE)
    with device(ground, holds=[(IMAGE, behind)]) as node:
        formats(ground, node)
        ground.made("message", node, "create_thin 0")
        ground.made("feed", node, given=VISIT)
        want((held(node, IMAGE) == behind, "what is behind the pool was written"))
        ground.want_clean(node)


def of_exact_size(ground):
    with device(ground, size=IMAGE) as node:
        formats(ground, node)
        ground.want_clean(node)


def syncs_and_sets_no_length(ground):
    wants("strace")
    log = ground.path("calls")
    with device(ground) as node:
        ran = ground.run("format", node, *SIZES, before=["strace", "-f", "-y", "-e", "trace=ftruncate,fdatasync,fsync,lseek,fallocate,openat", "-o", log])
        want((ran.status == 0 and ran.out == LINE, f"format: {ran.told()}"))
        with open(log, encoding="utf-8") as lines:
            calls = [it for it in lines if node in it]
    want((not [it for it in calls if re.search(r"ftruncate|fallocate|O_CREAT|O_TRUNC", it)], f"the device is cut: {calls}"),
         (len([it for it in calls if "fdatasync" in it or "fsync" in it]) >= 5, f"too few syncs: {calls}"))


def gives_messages(ground):
    with pool(ground) as node:
        ran = ground.made("message", node, "create_snap 1 0")
        want((ran.out == b"ok\n", f"message: {ran.told()}"))
        told = ground.made("status", node).out
        want((told.startswith(b"0 10/1100 0/64 - rw "), f"status: {told!r}"))
        want((ground.made("status", node, "1").out == b"0 -\n", "another status of the snapshot"))
        ground.want_clean(node)


def feeds(ground):
    with pool(ground) as node:
        out = ground.made("feed", node, given=VISIT).out
        want((b"\x5a" * BLOCK in out, "the client does not read what it wrote"))
        want((ground.made("status", node, "0").out == b"128 2687\n", "another status behind the client"))
        ground.want_clean(node)


def plays(ground):
    script = ground.path("script")
    with open(script, "w", encoding="ascii") as it:
        it.write(SCRIPT)
    with pool(ground) as node:
        out = ground.made("play", node, script).out
        want((b"\nok\n" in out and out.endswith(b"end 0\n"), f"play prints {out!r}"))
        want((ground.made("status", node, "7").out == b"0 -\n", "the volume of the script is not there"))


def serves(ground):
    with pool(ground) as node:
        server = ground.serve(node, 1)
        try:
            client = server.client()
            client.do(WRITE, 3 * BLOCK, data=b"\x33" * MIB)
            client.leave()
            ran = server.ended()
        finally:
            server.kill()
        want((ran.status == 0, f"serve: {ran.told()}"))
        ground.want_clean(node)


def formats_a_pool_anew(ground):
    with pool(ground) as node:
        ground.made("feed", node, given=VISIT)
        formats(ground, node)
        want((ground.run("status", node, "0").err == b"thinpool: 15 NoSuchDevice\n", "the volume is there still"))


def is_a_file_flag_too(ground):
    image = ground.path("file.img")
    ground.made("format", image, *SIZES)
    ran = ground.made("format", image, *SIZES, "--overwrite")
    want((ran.out == LINE and os.path.getsize(image) == IMAGE, f"format of a file with --overwrite: {ran.told()}"))


def has_one_program_at_a_time(ground):
    with pool(ground) as node:
        server = ground.stays(node, is_controlled=True)
        try:
            for words in (("message", node, "create_thin 1"), ("status", node), ("check", node), ("format", node, *SIZES)):
                ran = ground.run("--explain", *words)
                want((ran.status == 1 and b"in use by another process" in ran.err, f"{words[0]} beside a server: {ran.told()}"))
        finally:
            server.finish()


def is_checked_where_it_is_read_only(ground):
    wants("blockdev")
    with pool(ground) as node:
        run(["blockdev", "--setro", node])
        try:
            ground.want_clean(node)
            ran = ground.run("--explain", "message", node, "create_thin 1")
            want((ran.status == 1 and ran.err.startswith(b"thinpool: 5 Fault\n"), f"message to a read-only device: {ran.told()}"))
        finally:
            run(["blockdev", "--setrw", node])


def finds_a_changed_byte(ground):
    with pool(ground) as node:
        root = 2 + 2 * 3
        put(node, 4096 * root + 2000, b"\1")
        put(node, 4096 * (root + 1) + 2000, b"\1")
        put(node, 4096 * (root + 2) + 2000, b"\1")
        ran = ground.run("check", node)
        want((ran.status == 1 and ran.err.startswith(b"thinpool: 31 BadNode"), f"check: {ran.told()}"))


CASES = [
    ("a device of zeros is formatted, keeps its size and is clean", formats_zeros),
    ("what is behind the pool is not written", leaves_what_is_behind),
    ("a device that is as large as the pool", of_exact_size),
    ("its length is not set, and it is synced", syncs_and_sets_no_length),
    ("messages and status", gives_messages),
    ("one client by feed", feeds),
    ("a script by play", plays),
    ("a client of serve", serves),
    ("a pool is formatted anew without --overwrite", formats_a_pool_anew),
    ("--overwrite says nothing to a file", is_a_file_flag_too),
    ("one program at a time has it", has_one_program_at_a_time),
    ("a read-only device is checked, and takes no message", is_checked_where_it_is_read_only),
    ("check finds a changed byte", finds_a_changed_byte),
]
