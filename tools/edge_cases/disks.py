"""A host disk that is full."""
import contextlib
import os
import subprocess
import time
from functools import partial

from edge_cases.commands import FAILED_POOL, FAULT
from edge_cases.refusals import want_explained
from running import BLOCK, DISC, FLUSH, READ, WRITE
from running import Client, Failed, Ground, Skipped, as_root, copy, end_of, go, kill, request, run, start, want

MOST_BLOCKS = 200


@contextlib.contextmanager
def small_disk(ground, size):
    """A folder on a disk of this size, in memory."""
    as_root()
    folder = ground.path("small")
    os.makedirs(folder, exist_ok=True)
    ran = run(["mount", "-t", "tmpfs", "-o", f"size={size}", "thinpool-edges", folder])
    if ran.status:
        raise Skipped(f"mount is not permitted: {ran.err.decode(errors='replace').strip()}")
    try:
        yield folder
    finally:
        if run(["umount", folder]).status:
            run(["umount", "-l", folder])


def enlarge(folder, size):
    run(["mount", "-o", f"remount,size={size}", "thinpool-edges", folder])


def fill_up(folder):
    """Leaves no byte free."""
    with open(os.path.join(folder, "ballast"), "ab", buffering=0) as file:
        with contextlib.suppress(OSError):
            while True:
                file.write(b"\1" * 4096)


def full_disks(ground):
    """A full host disk is a fault, by which the pool fails until it is opened again."""
    facts = {}
    yield "serve: a write that fails is answered 5, and the pool's status says Fail", partial(fails_when_full, ground, facts)
    yield "serve tells at once and once that its pool failed, and at its end that closing is refused", partial(failed_once, facts)
    yield "behind more room the image is clean, opens, and has what was acknowledged", partial(opens_with_room, facts)
    yield "feed: a write that fails is answered 5, and the image is clean behind it", partial(feed_when_full, ground)
    for line in ("create_snap 7 0", "delete 0"):
        yield f"message '{line}' is done or refused by 5, and the image is clean behind it", partial(message_when_full, ground, line)
    yield "--explain says that the disk is full", partial(explains_when_full, ground)
    yield "format on a disk that is too small is refused by 5", partial(format_when_full, ground)


def thin_pool(ground, folder):
    """A pool that is larger than its disk."""
    image = os.path.join(folder, "pool.img")
    ground.made("format", image, "128", "256", "1100", "256")
    ground.made("message", image, "create_thin 0")
    return image


def fails_when_full(ground, facts):
    with small_disk(ground, "3m") as folder:
        image = thin_pool(ground, folder)
        server = ground.serve(image, 2, is_controlled=True)
        try:
            # In a failed pool nobody goes to a volume.
            second = server.client()
            facts["kept"], facts["answers"] = write_until_refused(server.client())
            facts["status"] = server.control("status")
            facts["told"] = told_soon(server, " the pool failed\n")
            facts["answers"] += [second.ask(FLUSH)[0], second.ask(WRITE, 0, data=b"z" * 512)[0]]
            time.sleep(0.2)
            facts["told later"] = server.told()
            second.leave()
            facts["end"] = server.ended()
        finally:
            server.kill()
        enlarge(folder, "64m")
        facts["check"] = ground.check(image)
        facts["opened"] = ground.run("status", image)
        facts["read"] = ground.run("feed", image, given=go() + b"".join(request(READ, it * BLOCK, BLOCK) for it in range(facts["kept"])) + request(DISC))
    want((facts["kept"] > 3, f"only {facts['kept']} blocks were kept"), (set(facts["answers"]) == {5}, f"answered {facts['answers']}"))
    want((facts["status"] == "Fail", f"its status is {facts['status']}"))


def write_until_refused(client):
    """How many blocks were written and kept until a request was refused, and the answers to that one, to a FLUSH and to a READ behind it."""
    for block in range(MOST_BLOCKS):
        error = client.ask(WRITE, block * BLOCK, data=bytes([block + 1]) * BLOCK)[0] or client.ask(FLUSH)[0]
        if error:
            answers = [error, client.ask(FLUSH)[0], client.ask(READ, 0, 512)[0]]
            client.leave()
            return block, answers
    raise Failed(f"{MOST_BLOCKS} blocks found room")


def told_soon(server, line):
    """What it has told, once this line is there or 5 seconds are over."""
    for _ in range(100):
        if line in server.told():
            break
        time.sleep(0.05)
    return server.told()


def failed_once(facts):
    want(("end" in facts, "it was not served to its end"))
    end, told = facts["end"], facts["told"]
    want(
        (told.count(" the pool failed\n") == 1 and FAULT.decode() not in told, f"told when it failed: {told!r}"),
        (facts["told later"] == told, f"told behind more requests: {facts['told later']!r}"),
        ((end.status, end.err) == (1, told.encode() + FAILED_POOL), f"at its end: {end.told()}"),
    )


def opens_with_room(facts):
    want(("read" in facts, "it was not served to its end"))
    count, out = facts["kept"], facts["read"].out
    found = out[-count * (16 + BLOCK) :]
    parts = [found[it * (16 + BLOCK) : (it + 1) * (16 + BLOCK)] for it in range(count)]
    wrong = [it for it, part in enumerate(parts) if part[16:] != bytes([it + 1]) * BLOCK]
    want(
        (not facts["check"], facts["check"]),
        (facts["opened"].status == 0 and b" rw " in facts["opened"].out, facts["opened"].told()),
        (not wrong, f"blocks {wrong} of {count} are not as they were acknowledged"),
    )


def feed_when_full(ground):
    with small_disk(ground, "3m") as folder:
        image = thin_pool(ground, folder)
        process = start([ground.program, "feed", image], stdin=subprocess.PIPE, stdout=subprocess.PIPE, stderr=subprocess.PIPE)
        try:
            _, answers = write_until_refused(Client.of(process).go())
            status = end_of(process)
            err = process.stderr.read()
        finally:
            kill(process)
        want((set(answers) == {5}, f"answered {answers}"), ((status, err) == (1, FAILED_POOL), f"ends with {status}, {err}"))
        ground.want_clean(image)


@contextlib.contextmanager
def pool_on_full_disk(ground):
    """An image on a disk with no byte free."""
    with small_disk(ground, "16m") as folder:
        image = copy(ground.base, os.path.join(folder, "pool.img"))
        fill_up(folder)
        yield image, folder


def message_when_full(ground, line):
    with pool_on_full_disk(ground) as (image, folder):
        ran = ground.run("message", image, line)
        done, refused = (ran.status, ran.out, ran.err) == (0, b"ok\n", b""), (ran.status, ran.out, ran.err) == (1, b"", FAULT)
        want((done or refused, ran.told()))
        ground.want_clean(image)
        os.remove(os.path.join(folder, "ballast"))
        ground.made("message", image, "create_thin 40")
        ground.want_clean(image)


def explains_when_full(ground):
    with small_disk(ground, "8k") as folder:
        ran = ground.run("--explain", "format", os.path.join(folder, "pool.img"), *Ground.SIZES)
        want_explained(ran, FAULT, ["full|space"])
    with pool_on_full_disk(ground) as (image, _):
        ran = ground.run("--explain", "format", os.path.join(os.path.dirname(image), "other.img"), *Ground.SIZES)
        want_explained(ran, FAULT, ["full|space"])


def format_when_full(ground):
    with small_disk(ground, "8k") as folder:
        image = os.path.join(folder, "pool.img")
        ran = ground.run("format", image, *Ground.SIZES)
        want(((ran.status, ran.out, ran.err) == (1, b"", FAULT), ran.told()))
        ran = ground.run("check", image)
        want((ran.status == 1, f"what it left is checked: {ran.told()}"))
