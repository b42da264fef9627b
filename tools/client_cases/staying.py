"""A server that stays up: how clients come to `run` and go, and how it stops."""
import contextlib
import os
import random
import re
import signal
import statistics
import subprocess
import threading
import time
from functools import partial

from client_cases import ending
from client_cases.hosts import BLOCKS, VOLUME, Files, Host, done, refused, want_same, wants
from running import BLOCK, DISC, FLUSH, LIMIT, MIB, READ, WRITE
from running import Client, Failed, Stuck, end_of, go, kill, request, start, want

# MiB of the discard that is made beside READs, and the seconds in which they are measured alone.
DISCARD = int(os.environ.get("DISCARD", "1024"))
ALONE = 3
TIME = r"thinpool: \d{4}-\d\d-\d\dT\d\d:\d\d:\d\dZ "
# What a server that is told to stop may take, in seconds, whatever its clients do.
SOON = int(os.environ.get("SOON", "30"))


def staying_unix(ground):
    """`run` at a socket file: clients that come, go, stay and are dead, control lines, and how it stops"""
    yield from staying(ground, "unix")


def staying_tcp(ground):
    """the same at loopback"""
    yield from staying(ground, "tcp")


def staying(ground, over):
    host = Host(ground, over)
    for name, case in (*CASES, *ending.CASES):
        yield f"{over}: {name}", partial(case, host)


# ---- clients that come and go


def come_and_go(host):
    with host.up(host.pool()) as server:
        server.client().leave()
        server.waits_for("0 of 64:")
        before, began = handles(server), time.monotonic()
        for at in range(300):
            size = done("nbdinfo", "--size", server.uri("0"))
            want((int(size) == VOLUME, f"connection {at}: a size of {size!r}"))
        took = time.monotonic() - began
        server.waits_for("0 of 64:")
        # The control client's own may be closed a moment later.
        time.sleep(0.5)
        want((handles(server) <= before, f"{before} handles before, {handles(server)} behind"))
    counts = [server.told().count(it) for it in (" connected to ", " disconnected: volume 0, ")]
    want((counts == [301, 301], f"{counts} are told to have come and gone"))
    return f"{300 / took:.0f} a second"


def handles(server):
    return len(os.listdir(f"/proc/{server.process.pid}/fd"))


def wait_for_a_place(host):
    with host.up(host.pool()) as server:
        there = [server.client(str(it % 2)) for it in range(64)]
        answer = server.control("clients")
        want((answer == "64 of 64:" + " 0" * 32 + " 1" * 32, f"clients is answered {answer}"))
        one_more = Client.at(server.place, 1)
        with contextlib.suppress(Stuck):
            one_more.greet()
            want((False, "one more is greeted"))
        there.pop().leave()
        one_more.limit = LIMIT
        one_more.go("0").do(READ, 0, 4096)
        for it in (*there, one_more):
            it.leave()


def four_connections(host):
    """One connection's FLUSH keeps what the others have written, also where the server is killed then."""
    files, image = Files(host.ground), host.pool()
    with host.killed(image) as server:
        done("nbdcopy", "--connections=4", "--flush", files.random, server.uri("0"))
        came = server.told().count(" connected to ")
    host.ground.want_clean(image)
    with host.up(image) as again:
        done("nbdcopy", "--connections=4", again.uri("0"), files.back)
        want_same(files.random, files.back)
    want((came == 4, f"{came} connections have come"))


def another_ones_flush(host):
    image = host.pool()
    with host.killed(image) as server:
        one, other = server.client(), server.client("1")
        one.do(WRITE, 0, data=b"a" * BLOCK)
        other.do(FLUSH)
        one.do(WRITE, BLOCK, data=b"b" * BLOCK)
        want((server.control("flush") == "ok", "flush is refused"))
    host.ground.want_clean(image)
    with host.up(image) as again:
        client = again.client()
        want((client.do(READ, 0, 2 * BLOCK) == b"a" * BLOCK + b"b" * BLOCK, "what another client's FLUSH and the line flush have kept is lost"))
        client.leave()


def default(host):
    image = host.pool()
    with host.up(image, "--default", "1") as server:
        want((int(done("nbdinfo", "--size", server.uri())) == VOLUME, "another size"))
        done("qemu-img", "info", server.uri())
        client = server.client("")
        client.do(WRITE, 0, data=b"d" * 512)
        want((server.control("clients") == "1 of 64: 1", server.control("clients")))
        client.leave()
        refused("No such file", "nbdinfo", server.uri("x"))
    with host.up(image, "--default", "9") as server:
        refused("No such file", "nbdinfo", server.uri())


# ---- a long discard


def discard_beside_reads(host):
    """Of a volume that is mapped wholly. The longest READ also waits for what closing a client of qemu-io flushes."""
    wants("qemu-io")
    blocks = DISCARD * MIB // BLOCK
    image = host.ground.fresh("discard.img", blocks, blocks + 64)
    with host.up(image) as server:
        writer = server.client("1")
        for at in range(DISCARD):
            writer.do(WRITE, at * MIB, data=b"w" * MIB)
        writer.do(WRITE, 0, data=b"w" * BLOCK)
        writer.do(FLUSH)
        writer.leave()
        reader = Reader(server)
        reader.start()
        try:
            time.sleep(ALONE)
            began = time.monotonic()
            done("qemu-io", "-f", "raw", "-d", "unmap", server.uri("1"), "-c", f"discard 0 {DISCARD}M")
            took = time.monotonic() - began
        finally:
            reader.end()
        used = server.control("status").split()[2]
        want((used.startswith("16/"), f"{used} blocks are mapped"))
    alone, beside = reader.before(began), reader.since(began)
    want((len(beside) > 10, f"only {len(beside)} READs were answered beside it"))
    return f"in {took * 1e3:.0f} ms; READs of 4 KiB alone: {told(alone)}; beside it: {told(beside)}"


class Reader(threading.Thread):
    """A client that reads 4 KiB somewhere in the first MiB again and again, with when each was asked and what it took."""

    def __init__(self, server):
        super().__init__(daemon=True)
        self.client, self.waits, self.is_over = server.client("0"), [], threading.Event()
        self.client.do(WRITE, 0, data=b"r" * MIB)

    def run(self):
        while not self.is_over.is_set():
            began = time.monotonic()
            self.client.do(READ, random.randrange(256) * 4096, 4096)
            self.waits.append((began, time.monotonic() - began))

    def end(self):
        self.is_over.set()
        self.join(LIMIT)
        self.client.leave()

    def before(self, moment):
        return [took for began, took in self.waits if began + took < moment]

    def since(self, moment):
        return [took for began, took in self.waits if began + took >= moment]


def told(waits):
    return f"{len(waits)}, median {statistics.median(waits) * 1e6:.0f} us, p99 {statistics.quantiles(waits, n=100)[98] * 1e6:.0f} us, longest {max(waits) * 1e3:.1f} ms"


# ---- stops


class Writer(threading.Thread):
    """A client that writes a number to a place of its own, each greater than the last, and with FLUSH or without, until it is let go."""

    def __init__(self, server, number, flushes):
        super().__init__(daemon=True)
        self.client, self.offset, self.flushes = server.client("1"), number * 4 * BLOCK, flushes
        self.answered, self.failed = 0, None

    def run(self):
        try:
            for value in range(1, 1 << 30):
                self.client.do(WRITE, self.offset, data=value.to_bytes(8, "little") * 512)
                if self.flushes:
                    self.client.do(FLUSH)
                self.answered = value
        except (EOFError, OSError):
            self.client.close()
        except Failed as why:
            self.failed = why


def stop_under_load(host):
    """A pool that is closed has all that was answered, flushed or not."""
    image = host.pool()
    with host.up(image) as server:
        writers = [Writer(server, it, flushes=it % 2 == 0) for it in range(12)]
        for it in writers:
            it.start()
        time.sleep(1)
        began = time.monotonic()
        server.finish("stop now")
        took = time.monotonic() - began
        for it in writers:
            it.join(LIMIT)
    want_written(host, image, writers)
    return f"stopped in {took * 1e3:.0f} ms behind {sum(it.answered for it in writers)} writes"


def want_written(host, image, writers):
    with host.up(image) as again:
        client = again.client("1")
        found = [int.from_bytes(client.do(READ, it.offset, 512)[:8], "little") for it in writers]
        client.leave()
    wanted, failed = [it.answered for it in writers], [it.failed for it in writers if it.failed]
    want((not failed, f"{failed}"), (min(wanted) > 0, f"answered {wanted}"), (all(one >= other for one, other in zip(found, wanted)), f"found {found}, answered {wanted}"))


def stop_waits(host):
    image = host.pool()
    with host.killed(image) as server:
        client = server.client()
        asks = start([host.ground.program, "ask", str(server.ruler), "stop"], stdout=subprocess.PIPE, stderr=subprocess.PIPE)
        want((asks.stdout.readline() == b"ok\n", "stop is not answered ok"))
        client.do(WRITE, 0, data=b"s" * BLOCK)
        client.do(FLUSH)
        want((lets_nobody_in(server), "one more is let in"), (asks.poll() is None, "`ask stop` has ended before the pool is closed"))
        client.leave()
        want((end_of(asks) == 0, "`ask stop` is refused"))
        ran = server.ended(SOON)
        want((ran.status == 0, ran.told()))
    host.ground.want_clean(image)


def lets_nobody_in(server):
    try:
        Client.at(server.place, 2).greet()
    except (OSError, EOFError, Stuck):
        return True
    return False


# ---- clients that are there and do nothing


def stopped_client(host):
    """Its process is stopped (SIGSTOP): nobody waits for it, and `stop now` ends it."""
    wants("qemu-io")
    with host.up(host.pool()) as server:
        sleeper = start(["qemu-io", "-f", "raw", server.uri("0"), "-c", "read 0 4k", "-c", "sleep 600000"], stdin=subprocess.DEVNULL, stdout=subprocess.DEVNULL, stderr=subprocess.DEVNULL)
        try:
            server.waits_for("1 of 64: 0")
            os.kill(sleeper.pid, signal.SIGSTOP)
            want_others_served(server, "2 of 64: 0 0")
            server.finish("stop now", SOON)
        finally:
            kill(sleeper)


def deaf_client(host):
    """It has asked for 64 MiB and takes none of it, as one that was stopped in mid-copy."""
    with host.up(host.pool()) as server:
        deaf = server.client()
        deaf.do(WRITE, 0, data=b"d" * MIB)
        deaf.send(b"".join(request(READ, 0, MIB) for _ in range(64)))
        time.sleep(0.3)
        want_others_served(server, "2 of 64: 0 0")
        began = time.monotonic()
        try:
            server.finish("stop now", SOON)
        finally:
            deaf.close()
    return f"stopped in {time.monotonic() - began:.1f} s"


def half_a_request(host):
    """One has sent half a WRITE, one half an option, and one has never said a word."""
    with host.up(host.pool()) as server:
        there = [server.client(), Client.at(server.place).greet(), Client.at(server.place).greet()]
        there[0].send(request(WRITE, 0, data=b"h" * MIB)[: MIB // 2])
        there[1].send(go()[:23])
        want_others_served(server, "4 of 64: 0 0")
        server.finish("stop now", SOON)
        for it in there:
            it.close()


def want_others_served(server, census):
    """Wants another client to be served, beside those who are told of then."""
    other = server.client()
    for it in range(20):
        data = bytes([it + 65]) * BLOCK
        other.do(WRITE, it * BLOCK, data=data)
        other.do(FLUSH)
        want((other.do(READ, it * BLOCK, BLOCK) == data, "another client reads something else"))
    answer = server.control("clients")
    want((answer == census, f"clients is answered {answer!r}"))
    other.leave()


# ---- control lines, and what is told of them


def control_lines(host):
    with host.up(host.pool()) as server:
        client = server.client("1")
        client.do(WRITE, 0, data=b"b" * 512)
        lines = server.asked("clients\nflush", "status", "thin 1", "create_thin 8").split("\n")
        want((lines[:2] == ["1 of 64: 1", "ok"] and " rw " in lines[2] and lines[3:] == ["128 127", "ok", ""], f"answered {lines}"))
        again = server.ask("create_thin 8", "thin 8")
        want((again.status == 1 and again.out == b"refused 14\n0 -\n" and again.err == b"thinpool: 14 Exists\nthinpool: the server refused a line: the volume exists\n", again.told()))
        busy = server.ask("delete 1")
        want((busy.status == 1 and busy.out == b"refused 16\n", busy.told()))
        wrong = server.ask("size", "delta 0 1", "clients 1", "flush now")
        want((wrong.status == 1 and wrong.out == b"refused 11\n" * 4, wrong.told()))
        client.leave()
        # The words leave the port to the system, which is told as it is.
        where = re.escape(str(server.place)) + ("" if host.over == "unix" else r" from 127\.0\.0\.1:\d+")
        number = server.tells(rf"{TIME}client (\d+) connected to {where}\n")[1]
        want_bytes(server.tells(rf"{TIME}client {number} disconnected: volume 1, (\d+) requests, (\d+) bytes in, (\d+) bytes out\n"))
        said = server.told()
        want((re.search(rf"{TIME}control: create_thin 8\n", said) and said.count("control: ") == 1, f"told {said!r}"))
    said = server.told()
    want((re.search(rf"{TIME}control: stop\n$", said), f"told {said!r}"))


def want_bytes(found):
    """A WRITE and DISC behind GO; a greeting, GO's three answers, and one to the WRITE."""
    received = len(go("1")) + len(request(WRITE, 0, data=b"b" * 512)) + len(request(DISC))
    sent = 18 + 3 * 20 + 12 + 14 + 16
    want((tuple(map(int, found.groups())) == (2, received, sent), f"told {found[0]!r}, and not 2 requests, {received} bytes in, {sent} bytes out"))


def ask_nobody(host):
    image = host.pool()
    with host.up(image) as server:
        pass
    ran = host.ground.run("--explain", "ask", str(server.ruler), "status")
    want((ran.status == 1 and ran.err.startswith(b"thinpool: 5 Fault\nthinpool: ") and str(server.ruler).encode() in ran.err, ran.told()))


CASES = [
    ("300 connections of nbdinfo one after the other", come_and_go),
    ("64 clients at a time, and one more waits until one goes", wait_for_a_place),
    ("nbdcopy with four connections, and what its FLUSH kept behind a kill", four_connections),
    ("another client's FLUSH, and the line flush, keep what was written behind a kill", another_ones_flush),
    ("nbdinfo and qemu-img info without a name have the --default, and nobody else", default),
    (f"a discard of {DISCARD} MiB by qemu-io while another client's READs go on", discard_beside_reads),
    ("`stop now` under load: all that was answered is there", stop_under_load),
    ("`stop` lets nobody in, waits for the last client, and `ask` for the end", stop_waits),
    ("a client whose process is stopped, and `stop now`", stopped_client),
    ("a client that takes none of its answers, and `stop now`", deaf_client),
    ("clients that have said half of it, and `stop now`", half_a_request),
    ("control lines status, thin, clients, flush, stop, messages, refusals, and what is told of all", control_lines),
    ("ask where nobody is says so", ask_nobody),
]
