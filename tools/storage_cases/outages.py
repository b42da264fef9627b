"""Hosts of a GlusterFS volume fail while a server serves a pool on it."""
import time
from functools import partial

from running import FLUSH, LIMIT, WRITE, Stuck, want
from storage_cases.journal import UNIT
from storage_cases.servers import STRICT, scene, starts

NBD_EIO = 5
# Seconds after which a client of GlusterFS gives up a host that does not answer: 42 without this.
PING = "network.ping-timeout 5"
WRITES = 60


def outages(ground):
    """replicas and hosts fail and return, and no flushed block is lost"""
    for name, case in CASES:
        yield name, partial(case, ground)


def error_of(it, client):
    """The error of the first request that fails."""
    end = time.monotonic() + LIMIT
    while time.monotonic() < end:
        error = it.journal.write(client) or it.journal.flush(client)
        if error:
            return error
    raise Stuck(f"no request failed in {LIMIT} s")


def want_failed(it, server, client):
    """Wants a pool whose storage failed to have failed."""
    began = time.monotonic()
    error = error_of(it, client)
    took = time.monotonic() - began
    line = server.control("status")
    want((error == NBD_EIO, f"a request is answered {error}"), (line == "Fail", f"status: {line}"))
    return f"a request fails after {took:.1f} s, and `status` prints {line}"


def replica_killed(ground):
    with scene(ground, STRICT) as it:
        with it.killed(it.first) as server:
            client = server.client()
            it.journal.work(client, WRITES)
            it.cluster.kill_replica(it.cluster.storage[1])
            it.journal.work(client, WRITES)
            it.cluster.restart_replicas()
            it.journal.work(client, WRITES)
        it.compare(it.second)


def replicas_in_turn(ground):
    """With strict locks GlusterFS fails an open file after that."""
    with scene(ground, STRICT) as it:
        with it.killed(it.first) as server:
            client = server.client()
            for host in it.cluster.storage[:2]:
                it.journal.work(client, WRITES)
                it.cluster.kill_replica(host)
                it.journal.write(client)
                it.cluster.restart_replicas()
            errors = {it.journal.write(client) or it.journal.flush(client) for _ in range(WRITES)}
        it.compare(it.second)
    want((errors <= {0, NBD_EIO}, f"requests are answered {errors}"))
    return "then the pool fails" if NBD_EIO in errors else "the pool goes on"


def full(ground):
    """The replicas have no room, and get more after the pool has failed."""
    with scene(ground, STRICT, size="12m") as it:
        with it.killed(it.first) as server:
            told = want_failed(it, server, server.client())
            it.cluster.give_size("64m")
        it.compare(it.second)
    return told


def link_cut(ground):
    with scene(ground, STRICT, PING) as it:
        with it.killed(it.first) as server:
            client = server.client()
            it.journal.work(client, WRITES)
            it.cluster.storage[1].cut()
            began = time.monotonic()
            it.journal.work(client, WRITES)
            took = time.monotonic() - began
            it.cluster.storage[1].join()
            it.cluster.heal()
            it.journal.work(client, WRITES)
        it.compare(it.second)
    return f"{WRITES} WRITEs took {took:.1f} s"


def mount_killed(ground):
    """The process that mounts the volume on the server's host is killed."""
    with scene(ground, STRICT) as it:
        with it.killed(it.first) as server:
            client = server.client()
            it.journal.work(client, WRITES)
            it.cluster.kill_mount(it.first)
            told = want_failed(it, server, client)
        it.compare(it.second)
    return told


def quorum_killed(ground):
    with scene(ground, STRICT) as it:
        with it.killed(it.first) as server:
            client = server.client()
            it.journal.work(client, WRITES)
            for host in it.cluster.storage[1:]:
                it.cluster.kill_replica(host)
            told = want_failed(it, server, client)
            it.cluster.restart_replicas()
        it.compare(it.second)
    return told


def quorum_cut(ground):
    with scene(ground, STRICT, PING) as it:
        with it.killed(it.first) as server:
            client = server.client()
            it.journal.work(client, WRITES)
            for host in it.cluster.storage[1:]:
                host.cut()
            told = want_failed(it, server, client)
            it.cluster.hosts.join_all()
            it.cluster.heal()
        it.compare(it.second)
    return told


def server_cut(ground):
    """The first server is idle and cut off until the second one has the lock."""
    with scene(ground, STRICT, PING) as it:
        with it.killed(it.first) as server:
            client = server.client()
            it.journal.work(client, WRITES)
            it.first.cut()
            other, seconds = starts(it.ground, it.second, it.image)
            second = other.client()
            it.journal.compare(second)
            it.journal.work(second, WRITES)
            it.first.join()
            # What it answers is in no journal: it must not say that it is durable.
            time.sleep(2)
            error = client.ask(WRITE, data=b"w" * UNIT)[0] or client.ask(FLUSH)[0]
            it.journal.work(second, WRITES)
            other.kill()
        it.compare(it.second)
    want((error == NBD_EIO, f"a server without its lock answers FLUSH with {error}"))
    return f"the second server started after {seconds:.1f} s; then the first one's requests fail"


CASES = [
    ("a replica is killed and returns", replica_killed),
    ("two replicas are killed and return one after the other", replicas_in_turn),
    ("the link of a replica is cut and returns", link_cut),
    ("the replicas are full: the pool fails", full),
    ("the mount of the server's host is killed: the pool fails", mount_killed),
    ("two replicas are killed: the pool fails", quorum_killed),
    ("the links of two replicas are cut: the pool fails", quorum_cut),
    ("an idle server is cut off, and another host serves: the first one fails", server_cut),
]
