"""Who has the lock of an image on shared storage."""
from concurrent.futures import ThreadPoolExecutor
from functools import partial

from running import Failed, want
from storage_cases.servers import STRICT, HostServer, scene

TIMES, RACES = 30, 10


def locks(ground):
    """one process at a time has an image, and the next one has it at once"""
    for name, case in CASES:
        yield name, partial(case, ground)


def commands(ground):
    """Each on the other host than the one before, and then all on one."""
    with scene(ground, STRICT) as it:
        for hosts in ([it.first], [it.first, it.second]):
            ran = [message(it, hosts[at % len(hosts)], at) for at in range(TIMES)]
            refused = [told.err for told in ran if told.status]
            want((not refused, f"{len(refused)} of {TIMES} fail: {refused[:1]}"))


def message(it, host, at):
    line = f"set_transaction_id {at % TIMES} {(at + 1) % TIMES}"
    return it.ground.run("message", it.image, line, before=host.enter)


def second_server(ground):
    with scene(ground, STRICT) as it:
        with it.killed(it.first):
            server = started(it, it.second)
            if server:
                server.kill()
            want((server is None, "a second server started"))


def race(ground):
    """Both hosts start a server at the same moment."""
    with scene(ground, STRICT) as it:
        for _ in range(RACES):
            with ThreadPoolExecutor(2) as at_once:
                servers = [*at_once.map(partial(started, it), it.hosts)]
            there = [server for server in servers if server]
            for server in there:
                server.kill()
            want((len(there) == 1, f"{len(there)} servers started"))


def started(it, host):
    """A server, or None if it is refused."""
    try:
        return HostServer(it.ground, host, it.image)
    except Failed as why:
        want(("in use" in str(why), str(why)))


def failed_opening(ground):
    """A file that is no pool is opened, locked and refused. Another host has its lock at once."""
    with scene(ground, STRICT) as it:
        image = f"{it.folder}/other.img"
        it.first.done("dd", "if=/dev/urandom", f"of={image}", "bs=1M", "count=8")
        late = 0
        for _ in range(TIMES):
            ran = it.ground.run("message", image, "create_thin 1", before=it.first.enter)
            want((ran.status == 1 and b"5 Fault" not in ran.err, ran.told()))
            late += it.second.run("flock", "--nonblock", image, "true").status != 0
    want((not late, f"{late} of {TIMES} times the image was still locked"))
    return ran.err.decode().splitlines()[0]


CASES = [
    (f"{TIMES} commands in a row are not refused", commands),
    ("a second server on another host is refused", second_server),
    (f"{RACES} times both hosts start a server: one is refused", race),
    ("an opening that fails has unlocked the image", failed_opening),
]
