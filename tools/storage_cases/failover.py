"""A server is killed, and another host serves the pool."""
from functools import partial

from running import want
from storage_cases.servers import STRICT, scene, starts

TURNS = 20
# The image has several shards.
SHARDS = ["group virt", "features.shard-block-size 4MB"]
OPTIONS = [("default options", [STRICT]), ("`group virt`", [*SHARDS, STRICT])]


def failover(ground):
    """servers of two hosts are killed in turn over GlusterFS, and no flushed block is lost"""
    for name, options in OPTIONS:
        yield f"{name}: {TURNS} times", partial(fails_over, ground, options)


def life(it, host, turn):
    """A server that is killed during WRITEs. Returns the seconds until it listened."""
    server, seconds = starts(it.ground, host, it.image)
    try:
        client, journal = server.client(), it.journal
        journal.compare(client)
        snapshots(server, turn)
        journal.work(client, journal.random.randint(20, 60))
        client.send(b"".join(journal.next_write() for _ in range(journal.random.randint(0, 5))))
    finally:
        server.kill()
    return seconds


def snapshots(server, turn):
    """Makes a snapshot, so that WRITEs copy blocks, and deletes that of the life before."""
    lines = [f"create_snap {turn + 1} 0", *([f"delete {turn}"] if turn else [])]
    answers = [server.control(it) for it in lines]
    want((answers == ["ok"] * len(lines), f"{lines} are answered {answers}"))


def told(it, seconds):
    times = f"served after {min(seconds):.1f} to {max(seconds):.1f} s"
    return f"{it.journal.covered} blocks were flushed, {times}"


def fails_over(ground, options):
    with scene(ground, *options) as it:
        seconds = [life(it, it.hosts[turn % 2], turn) for turn in range(TURNS)]
        for host in it.hosts:
            it.compare(host)
    return told(it, seconds)
