"""What clients share of a sync, and who waits for one, by strace, which delays syncs or makes them fail."""
import contextlib
import os
import re
import select
import shutil
import signal
import struct
import subprocess
import sys
import time
from functools import partial

from edge_cases.syncs import SYNCS, WRITES
from running import BLOCK, DISC, FLUSH, FUA, LIMIT, READ, WRITE
from running import Failed, Skipped, Stuck, end_of, go, held, request, start, strace, want

# The system's calls by which answers are sent.
SENDS = ("write", "writev", "sendto", "sendmsg")
TRACED = ",".join([*SYNCS, "pwrite64", "pwritev", *SENDS])
ALL_SYNCS = ",".join(SYNCS)
LINE = re.compile(r"^(\d+) +(?:<\.\.\. (\w+) resumed>|(\w+)\(\d+<(.*?)>[,) ])")
RESULT = re.compile(r"\) += (-?\d+)")
# Blocks of volume 0 that are mapped, kept, and shared with nobody.
FIRST, COUNT = 16, 16
MANY = 16
TRIES = 3
# The first of some ids that no volume has.
FRESH = 40
# Seconds that a sync takes, and the most of an answer that waits for none.
DELAY, SOON = 0.3, 0.1
# Clients that READ, each so many at a time, and how often another one asks beside them, in how many seconds at most, and how long one in a hundred may take.
READERS, DEPTH, ASKED, LONGEST, BOUND = 16, 16, 400, 10, 0.05


def shared_syncs(ground):
    """What clients share of a sync, and who waits for one."""
    if not shutil.which("strace"):
        raise Skipped("strace is not installed")
    settled = ground.copy("settled.img")
    writes = b"".join(request(WRITE, (FIRST + it) * BLOCK, data=b"s" * BLOCK) for it in range(COUNT))
    ground.made("feed", settled, given=go() + writes + request(FLUSH) + request(DISC))
    yield "serve: FLUSHes of an image that nobody has written to make no sync", partial(nothing_to_bring, ground, settled)
    yield "serve: one WRITE in place and three FLUSHes make one sync", partial(one_for_three, ground, settled)
    yield "serve: the first WRITE of a block and a FLUSH make two syncs", partial(two_for_a_commit, ground, settled)
    yield f"serve: {MANY} clients that FLUSH at once behind one WRITE make at most two syncs", partial(one_for_many, ground, settled, 1)
    yield f"serve: {MANY} clients that FLUSH at once, each behind a WRITE of its own, make at most two syncs", partial(one_for_many, ground, settled, MANY)
    for moment in ("enter", "exit"):
        yield f"serve: a WRITE that comes during a sync (delayed at its {moment}) is synced by the next FLUSH", partial(during_a_sync, ground, settled, moment)
    for many in (1, 3):
        how = "a sync fails" if many == 1 else f"the syncs of {many} clients fail at once"
        yield f"serve: where {how}, the FLUSH is answered 5, and none is answered 0 behind it, though syncs succeed", partial(fails_for_all, ground, settled, many)
    yield "serve: a READ of another client waits for no sync of a FLUSH behind a WRITE in place", partial(reads_meanwhile, ground, settled, False)
    yield "run: a READ of another client waits for no sync of a WRITE with FUA in place", partial(reads_meanwhile, ground, settled, True)
    yield "run: a READ of another client waits for no sync of a message", partial(reads_beside_a_message, ground, settled)
    yield f"run: {MANY} clients that WRITE with FUA at once make at most {MANY // 2} syncs", partial(few_for_many, ground, settled)
    for name, kinds in (("WRITE", [WRITE]), ("WRITE and FLUSH", [WRITE, FLUSH])):
        yield f"serve: a {name} has its turn while {READERS} clients READ without end", partial(has_its_turn, ground, settled, kinds)


class Call:
    """A call of the system: its place in the trace where it began and where it ended, on what, and its result."""

    def __init__(self, name, on, at):
        self.name, self.on, self.at, self.end, self.result = name, on, at, None, None


def spans(trace):
    """The calls of all threads, by their beginning. What comes before a call in the trace is over before it begins."""
    calls, open_ones = [], {}
    with open(trace, encoding="utf-8", errors="replace") as lines:
        for at, line in enumerate(lines):
            found = LINE.match(line)
            if not found:
                continue
            thread, is_resumed, name, on = found.groups()
            if not is_resumed:
                open_ones[thread] = Call(name, on, at)
                calls.append(open_ones[thread])
            result = RESULT.search(line)
            if result and thread in open_ones:
                call = open_ones.pop(thread)
                call.end, call.result = at, int(result[1])
    return [it for it in calls if it.end is not None]


class Traced:
    """A server of a copy of an image to a count of clients, or without one `thinpool run`, under strace, and behind its end the calls that it made."""

    def __init__(self, ground, image, count, injected=()):
        self.image, self.trace = ground.copy("shared.img", image), ground.path("shared.trace")
        more = ["-yy", "--seccomp-bpf", *(part for it in injected for part in ("-e", f"inject={ALL_SYNCS}:{it}"))]
        self.server = ground.serve(self.image, count, is_controlled=count is None, before=strace(self.trace, TRACED, more))
        self.ground = ground

    def end(self, clients):
        """Lets these clients go, who are all, and wants a clean end."""
        for it in clients:
            it.leave()
        if self.server.count is None:
            self.server.finish()
        else:
            ran = self.server.ended()
            want((ran.status == 0, ran.told()))
            self.ground.want_clean(self.image)
        self.calls = spans(self.trace)

    def syncs(self):
        return [it for it in self.calls if it.name in SYNCS and it.on == self.image and it.result == 0]

    def sends(self, port=None):
        """What was sent to clients, or to that of one port."""
        to = re.compile(rf"TCP.*->\S*:{port or '[0-9]+'}\]$")
        return [it for it in self.calls if it.name in SENDS and to.search(it.on)]

    def syncs_while_served(self):
        """The syncs between the first greeting and the last answer, of which all closing makes are behind."""
        answers = self.sends()
        want((answers, "no answer is in the trace"))
        return [it for it in self.syncs() if answers[0].at < it.at < answers[-1].at]


@contextlib.contextmanager
def served(ground, image, count, injected=(), runs=False):
    """A traced server, or `thinpool run`, and its clients."""
    traced = Traced(ground, image, None if runs else count, injected)
    try:
        yield traced, [traced.server.client() for _ in range(count)]
    finally:
        traced.server.kill()


def port_of(client):
    return client.holds[0].getsockname()[1]


def answer(client):
    """The error of an answer without data."""
    return struct.unpack(">IIQ", client.receive(16))[1]


def is_answered(client):
    return bool(select.select([client.reads], [], [], 0)[0])


def writes_in_place(client, which, length=4096):
    """The error that a write to a block is answered that is mapped, kept and not shared."""
    return client.ask(WRITE, (FIRST + which % COUNT) * BLOCK, data=bytes([which + 1]) * length)[0]


def kept_write(which):
    """A write with FUA to such a block."""
    return request(WRITE, (FIRST + which % COUNT) * BLOCK, data=bytes([which + 1]) * 4096, flags=FUA)


def flush_at_once(clients):
    """The answers to FLUSHes that are all asked before one is waited for."""
    for it in clients:
        it.send(request(FLUSH))
    return [answer(it) for it in clients]


def nothing_to_bring(ground, image):
    with served(ground, image, 2) as (traced, clients):
        answers = [it.ask(FLUSH)[0] for it in [*clients, *clients]]
        traced.end(clients)
    count = len(traced.syncs_while_served())
    want((answers == [0] * 4, f"they are answered {answers}"), (count == 0, f"{count} syncs"))


def one_for_three(ground, image):
    with served(ground, image, 1) as (traced, clients):
        errors = [writes_in_place(clients[0], 0), *(clients[0].ask(FLUSH)[0] for _ in range(3))]
        traced.end(clients)
    count = len(traced.syncs_while_served())
    want((errors == [0] * 4, f"they are answered {errors}"), (count == 1, f"{count} syncs"))


def two_for_a_commit(ground, image):
    with served(ground, image, 1) as (traced, clients):
        clients[0].do(WRITE, (FIRST + COUNT) * BLOCK, data=b"n" * 4096)
        clients[0].do(FLUSH)
        traced.end(clients)
    count = len(traced.syncs_while_served())
    want((count == 2, f"{count} syncs"))


def one_for_many(ground, image, writers):
    """A sync takes so long that all have asked before it ends."""
    with served(ground, image, MANY, [f"delay_enter={int(1e6 * DELAY)}"]) as (traced, clients):
        written = [writes_in_place(it, at) for at, it in enumerate(clients[:writers])]
        answers = flush_at_once(clients)
        traced.end(clients)
    count = len(traced.syncs_while_served())
    want((not any(written + answers), f"they are answered {written} and {answers}"), (1 <= count <= 2, f"{count} syncs"))


def few_for_many(ground, image):
    """While the first one's write is synced the others wait to write. Who has written then lets those go first who have not."""
    with served(ground, image, MANY, [f"delay_enter={int(1e6 * DELAY)}"], runs=True) as (traced, clients):
        for at, it in enumerate(clients):
            it.send(kept_write(at))
        answers = [answer(it) for it in clients]
        traced.end(clients)
    count = len(traced.syncs_while_served())
    want((not any(answers), f"they are answered {answers}"), (1 <= count <= MANY // 2, f"{count} syncs"))


def during_a_sync(ground, image, moment):
    """Two clients: one waits for a sync, and the other writes meanwhile, or as soon as it may."""
    length = 3 * 4096
    with served(ground, image, 2, [f"delay_{moment}={int(1e6 * DELAY)}"]) as (traced, clients):
        first, second = clients
        writes_in_place(first, 0)
        first.send(request(FLUSH))
        time.sleep(DELAY / 3)
        errors = [writes_in_place(second, 1, length), second.ask(FLUSH)[0], answer(first)]
        port = port_of(second)
        traced.end(clients)
    write = next((it for it in traced.calls if it.name in WRITES and it.on == traced.image and it.result == length), None)
    want((not any(errors), f"they are answered {errors}"), (write, "its write is not in the trace"))
    answered = traced.sends(port)[-1]
    between = [it for it in traced.syncs() if write.end < it.at and it.end < answered.at]
    want((between, "no sync began behind its write and ended before the answer to its FLUSH"))


@contextlib.contextmanager
def attached(ground, process, injected, calls=ALL_SYNCS, trace=os.devnull):
    """strace on all threads of a running process until the block ends. These calls of it are injected, and traced to a file."""
    told = ground.path("strace.err")
    with open(told, "wb") as err:
        words = [*strace(trace, calls, ["-e", f"inject={calls}:{injected}"]), "-p", str(process.pid)]
        tracer = start(words, stdin=subprocess.DEVNULL, stdout=subprocess.DEVNULL, stderr=err)
    for _ in range(50 * LIMIT):
        if b"attached" in held(told):
            break
        if tracer.poll() is not None:
            raise Skipped(f"strace may not attach: {held(told).decode(errors='replace').strip()}")
        time.sleep(0.02)
    try:
        yield
    finally:
        tracer.send_signal(signal.SIGINT)
        end_of(tracer)


def fails_for_all(ground, image, many):
    """All have written; the first sync of each thread fails, the next would succeed. Then syncs are let be."""
    copied = ground.copy("shared.img", image)
    server = ground.serve(copied, 4, is_controlled=True)
    try:
        clients = [server.client() for _ in range(4)]
        written = [writes_in_place(it, at) for at, it in enumerate(clients)]
        with attached(ground, server.process, "error=EIO:when=1:delay_enter=100000"):
            failed = flush_at_once(clients[:many])
        status = server.control("status")
        behind = [it.ask(FLUSH)[0] for it in [*clients, *clients]]
        others = [writes_in_place(clients[0], 0), clients[-1].ask(READ, 0, 512)[0]]
        for it in clients:
            it.leave()
        ran = server.ended()
    finally:
        server.kill()
    want(
        (not any(written), f"the writes are answered {written}"),
        (set(failed) == {5}, f"the FLUSH is answered {failed}"),
        (status == "Fail", f"its status is {status}"),
        (set(behind) == {5}, f"FLUSHes behind it are answered {behind}"),
        (others == [5, 5], f"WRITE and READ behind it are answered {others}"),
        (ran.status == 1, f"at its end: {ran.told()}"),
    )
    ground.want_clean(copied)


def reads_meanwhile(ground, image, has_fua):
    """The best of some tries, since this machine may have other work."""
    with served(ground, image, 2, [f"delay_enter={int(1e6 * DELAY)}"], runs=has_fua) as (traced, clients):
        tried = [reads_during_a_sync(*clients, has_fua) for _ in range(TRIES)]
        traced.end(clients)
    slowest, count = min(tried)
    want((slowest < SOON, f"of {count} READs one took {1000 * slowest:.0f} ms while a client waited for {1000 * DELAY:.0f}"))


def reads_during_a_sync(writer, reader, has_fua):
    """The longest time in which a READ was answered that began before a FLUSH, or a WRITE with FUA, was answered, and how many there were."""
    if has_fua:
        writer.send(kept_write(0))
    else:
        writes_in_place(writer, 0)
        writer.send(request(FLUSH))
    time.sleep(DELAY / 10)
    taken = []
    while not is_answered(writer):
        began = time.monotonic()
        reader.do(READ, (FIRST + 1) * BLOCK, 4096)
        taken.append(time.monotonic() - began)
    want((answer(writer) == 0, "what is kept is refused"), (taken, "its client did not wait"))
    return max(taken), len(taken)


def reads_beside_a_message(ground, image):
    """The best of some tries, since this machine may have other work. The block is read before, so that its metadata is in memory."""
    with served(ground, image, 1, [f"delay_enter={int(1e6 * DELAY)}"], runs=True) as (traced, clients):
        clients[0].do(READ, (FIRST + 1) * BLOCK, 4096)
        tried = [reads_during_a_message(traced.server, clients[0], FRESH + number) for number in range(TRIES)]
        traced.end(clients)
    slowest, count = min(tried)
    want((slowest < SOON, f"of {count} READs one took {1000 * slowest:.0f} ms while a message waited for {1000 * DELAY:.0f}"))


def reads_during_a_message(server, reader, volume):
    """The longest time in which a READ was answered that began before a message was, and how many there were."""
    taken = []
    with server.ruler.connect(LIMIT) as stream:
        stream.sendall(f"create_thin {volume}\n".encode())
        time.sleep(DELAY / 10)
        while not select.select([stream], [], [], 0)[0]:
            began = time.monotonic()
            reader.do(READ, (FIRST + 1) * BLOCK, 4096)
            taken.append(time.monotonic() - began)
        with stream.makefile() as lines:
            told = lines.readline().rstrip("\n")
    want((told == "ok", f"the message is answered {told}"), (taken, "the message did not wait"))
    return max(taken), len(taken)


@contextlib.contextmanager
def readers(server):
    """Clients of another process, which READ without end."""
    words = [sys.executable, os.path.join(os.path.dirname(__file__), "readers.py"), *map(str, (server.port, READERS, DEPTH, FIRST))]
    process = start(words, stdin=subprocess.DEVNULL, stdout=subprocess.PIPE, stderr=subprocess.DEVNULL)
    try:
        if not select.select([process.stdout], [], [], LIMIT)[0] or process.stdout.readline() != b"reading\n":
            raise Stuck("the readers do not begin")
        yield
        want((process.poll() is None, "the readers ended"))
    finally:
        process.kill()
        process.wait(LIMIT)
        process.stdout.close()


def has_its_turn(ground, image, kinds):
    """The 99th percentile of what a request took, the best of some tries."""
    server = ground.serve(ground.copy("shared.img", image), 1 + READERS)
    try:
        client = server.client()
        with readers(server):
            found = min(slow_ones(client, kinds) for _ in range(TRIES))
    finally:
        server.kill()
    want((found < BOUND, f"one in a hundred took {1000 * found:.1f} ms or more"))


def slow_ones(client, kinds):
    """The time that one in a hundred takes at least."""
    taken, last = [], time.monotonic() + LONGEST
    for number in range(ASKED):
        began = time.monotonic()
        if began > last:
            break
        for kind in kinds:
            error = writes_in_place(client, 1 + number % 8) if kind == WRITE else client.ask(kind)[0]
            want((error == 0, f"a request of type {kind} is answered {error}"))
        taken.append(time.monotonic() - began)
    return sorted(taken)[len(taken) * 99 // 100]
