"""The memory that clients take of `run`, and what is left of it after they have gone."""
import random
import re
import statistics
import threading
import time
from functools import partial

from client_cases.hosts import VOLUME, Host
from running import LIMIT, MIB, READ, WRITE, Client, request, want

CLIENTS = 64
# MiB that a server may have more than at first: with silent clients, with clients that only READ
# 4 KiB, and some seconds after both have gone.
SILENT, SMALL, LEFT = 16, 64, 32
SECONDS = 30
# READs of 4 KiB that a client has under way, and how often.
DEPTH, TURNS = 16, 50


def memory(ground):
    """The memory of a server: with clients that send nothing, little or much, and after they have gone"""
    host = Host(ground, "unix")
    for name, case in CASES:
        yield name, partial(case, host)


def resident(server):
    """The bytes of a server's memory that are resident, in MiB."""
    with open(f"/proc/{server.process.pid}/status", encoding="ascii") as lines:
        return int(re.search(r"VmRSS:\s+(\d+) kB", lines.read())[1]) / 1024


class Worker(threading.Thread):
    """A client in transmission that does one thing, and keeps why it could not."""

    def __init__(self, server, number, work):
        super().__init__(daemon=True)
        self.client, self.number, self.work, self.failed = server.client("0"), number, work, None

    def run(self):
        try:
            self.work(self.client, self.number)
        except Exception as why:  # pylint: disable=broad-except
            self.failed = why


def read_little(client, _number):
    """READs of 4 KiB, some of them under way at a time."""
    for _ in range(TURNS):
        places = [random.randrange(VOLUME // 4096) * 4096 for _ in range(DEPTH)]
        client.send(b"".join(request(READ, it, 4096) for it in places))
        client.receive(DEPTH * (16 + 4096))


def move_much(client, number):
    """WRITEs and READs of 1 MiB in its own part of the volume."""
    data = bytes([number + 1]) * MIB
    offset = number * MIB % VOLUME
    for _ in range(8):
        client.do(WRITE, offset, data=data)
        want((client.do(READ, offset, MIB) == data, "other bytes are read"))


def load(server, work):
    """The MiB that a server has while clients that did this are there. They go then."""
    workers = [Worker(server, it, work) for it in range(CLIENTS)]
    for it in workers:
        it.start()
    for it in workers:
        it.join(LIMIT)
    want(*((it.failed is None, f"client {it.number}: {it.failed}") for it in workers))
    found = resident(server)
    for it in workers:
        it.client.leave()
    server.waits_for("0 of 64:")
    return found


def silence(server):
    """The MiB that a server has while clients are there that were greeted and say nothing. They go then."""
    clients = [Client.at(server.place).greet() for _ in range(CLIENTS)]
    found = resident(server)
    for it in clients:
        it.close()
    server.waits_for("0 of 64:")
    return found


def little(host):
    with host.up(host.pool()) as server:
        server.client().leave()
        server.waits_for("0 of 64:")
        before = resident(server)
        silent, small = silence(server), load(server, read_little)
        time.sleep(SECONDS)
        left = resident(server)
    told = f"{before:.1f} MiB before, {silent:.1f} with {CLIENTS} silent clients, {small:.1f} with {CLIENTS} that READ 4 KiB, {left:.1f} {SECONDS} s after"
    want((silent <= before + SILENT and small <= before + SMALL and left <= before + LEFT, told))
    return told


def much(host):
    with host.up(host.pool()) as server:
        server.client().leave()
        server.waits_for("0 of 64:")
        before, with_them = resident(server), load(server, move_much)
        time.sleep(SECONDS)
        left = resident(server)
    return f"{before:.1f} MiB before, {with_them:.1f} with them, {left:.1f} {SECONDS} s after"


def connecting(host):
    """From the connection to the answer to GO."""
    took = []
    with host.up(host.pool()) as server:
        for _ in range(100):
            began = time.monotonic()
            client = server.client()
            took.append(time.monotonic() - began)
            client.leave()
        server.waits_for("0 of 64:")
    return f"median {statistics.median(took) * 1e3:.2f} ms, longest {max(took) * 1e3:.1f} ms"


CASES = [
    (f"{CLIENTS} silent clients add at most {SILENT} MiB, {CLIENTS} that READ 4 KiB {SMALL}, and {LEFT} are left", little),
    (f"{CLIENTS} clients of 1 MiB requests", much),
    ("100 connections up to the answer to GO", connecting),
]
