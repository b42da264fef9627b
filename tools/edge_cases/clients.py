"""Locks of images, and clients of a server."""
import contextlib
import fcntl
import os
import re
import select
import shutil
import socket
import struct
import subprocess
import time
from functools import partial

from edge_cases.commands import FAULT
from edge_cases.refusals import AS_NOBODY, reaches
from running import BLOCK, FLUSH, LIMIT, MIB, READ, WRITE
from running import Client, Ground, Skipped, Stuck, go, held, kill, option, request, start, strace, want

def locks(ground):
    """Who may look at an image beside whom."""
    yield "status beside a check that has its lock", partial(status_beside_check, ground)
    yield "check beside a status' lock", partial(shared_with, ground, "check")
    yield "status of a file that may only be read, as another user", partial(status_of_readable, ground)
    yield "status of an image that is served is refused", partial(status_beside_serve, ground)
    yield "serve of an image that is checked is refused", partial(refused_beside_shared, ground)


def status_beside_check(ground):
    if not shutil.which("strace"):
        raise Skipped("strace is not installed")
    image, trace = ground.copy(), ground.path("trace")
    slow = strace(trace, "flock,fcntl,pread64", ["-e", "inject=pread64:delay_enter=400000"])
    check = start([*slow, ground.program, "check", image], stdin=subprocess.DEVNULL, stdout=subprocess.PIPE, stderr=subprocess.PIPE)
    try:
        has_lock = re.compile(rb"(flock|fcntl)\(\d+<" + re.escape(image.encode()) + rb">.* = 0")
        for _ in range(50 * LIMIT):
            if os.path.exists(trace) and has_lock.search(held(trace)):
                break
            time.sleep(0.02)
        ran = ground.run("status", image)
        is_beside = check.poll() is None
        out, _ = check.communicate(timeout=LIMIT)
    except subprocess.TimeoutExpired:
        raise Stuck("the check does not end") from None
    finally:
        kill(check)
    want((is_beside, "the check had ended before"), (ran.status == 0 and b" rw " in ran.out, ran.told()), (out == b"clean\n", f"the check printed {out!r}"))


@contextlib.contextmanager
def shared_lock(image):
    with open(image, "rb") as file:
        fcntl.flock(file, fcntl.LOCK_SH)
        yield


def shared_with(ground, command):
    image = ground.copy()
    with shared_lock(image):
        ran = ground.run(command, image)
    want((ran.status == 0 and not ran.err, ran.told()))


def refused_beside_shared(ground):
    image = ground.copy()
    with shared_lock(image):
        for words in (["serve", image, "127.0.0.1:0", "1"], ["feed", image], ["message", image, "delete 0"], ["format", image, *Ground.SIZES]):
            ran = ground.run(*words)
            want(((ran.status, ran.out, ran.err) == (1, b"", FAULT), f"{words[0]}: {ran.told()}"))
    want((held(image) == held(ground.base), "the image changed"))


def status_of_readable(ground):
    reaches(ground, AS_NOBODY)
    image = ground.copy("readable.img")
    os.chmod(image, 0o444)
    for words in (["status", image], ["status", image, "0"], ["check", image]):
        wanted, ran = ground.run(*words), ground.run(*words, **AS_NOBODY)
        want(((ran.status, ran.out, ran.err) == (0, wanted.out, b""), f"{words[0]}: {ran.told()}"))


def status_beside_serve(ground):
    image = ground.copy()
    server = ground.serve(image, 1)
    try:
        ran = ground.run("status", image)
    finally:
        server.kill()
    want(((ran.status, ran.out, ran.err) == (1, b"", FAULT), ran.told()))


def clients(ground):
    """Clients that are too many, and those that do not read, do not go on, or go."""
    for count in (1, 3):
        yield f"serve to {count}: one client more is refused at once", partial(one_too_many, ground, count)
    yield "serve to 1: a client that waits to be let in is let go when another one was", partial(one_in_line, ground)
    yield "clients that never read, stop within a frame or go at once hold up nobody", partial(bad_clients, ground)
    yield "clients that stop within the handshake hold up nobody", partial(shy_clients, ground)
    yield "a control client that stays holds up no client, and ends with the last", partial(control_stays, ground)


def is_refused(port, seconds):
    """Whether the system refuses a client at this port within so many seconds."""
    end = time.monotonic() + seconds
    while time.monotonic() < end:
        try:
            socket.create_connection(("127.0.0.1", port), timeout=seconds).close()
        except ConnectionRefusedError:
            return True
        except OSError:
            pass
        time.sleep(0.05)
    return False


def one_too_many(ground, count):
    image = ground.copy()
    server = ground.serve(image, count)
    try:
        there = [server.client(str(it)) for it in range(count)]
        refused = is_refused(server.port, 3)
        served_still = [it.ask(READ, 0, 512)[0] for it in there]
        for it in there:
            it.leave()
        want((refused, "it is let wait"), (not any(served_still), f"those who are there are answered {served_still}"))
        ran = server.ended()
    finally:
        server.kill()
    want((ran.status == 0, ran.told()))
    ground.want_clean(image)


def one_in_line(ground):
    """Two connect before one is greeted: the one that is not has to be told within seconds, or is refused where it comes late."""
    image = ground.copy()
    server = ground.serve(image, 1)
    streams = [socket.create_connection(("127.0.0.1", server.port), timeout=LIMIT)]
    with contextlib.suppress(ConnectionRefusedError):
        streams.append(socket.create_connection(("127.0.0.1", server.port), timeout=LIMIT))
    try:
        greeted, _, _ = select.select(streams, [], [], LIMIT)
        want((greeted, "nobody is greeted"))
        # A client that is reset can be read from, too.
        time.sleep(3)
        ends = [ended_now(it) for it in streams]
        for it in streams:
            it.close()
        ran = server.ended()
    finally:
        for it in streams:
            it.close()
        server.kill()
    want((sorted(ends) in (["greeted"], ["ended", "greeted"]), f"the two are {' and '.join(ends)}"), (ran.status == 0, ran.told()))


def ended_now(stream):
    """What a client has come to: greeted, ended, or waiting still."""
    stream.setblocking(False)
    try:
        return "greeted" if stream.recv(18) else "ended"
    except BlockingIOError:
        return "waiting"
    except OSError:
        return "ended"


def want_served(server, export):
    """Wants a client to be served in bounded time, and a control line."""
    began = time.monotonic()
    client = server.client(export)
    for it in range(20):
        data = bytes([it + 1]) * BLOCK
        client.do(WRITE, it * BLOCK, data=data)
        client.do(FLUSH)
        want((client.do(READ, it * BLOCK, BLOCK) == data, "a client does not read what it wrote"))
    status = server.control("status")
    client.leave()
    want((" rw " in status, f"status is answered {status!r}"), (time.monotonic() - began < LIMIT, f"it took more than {LIMIT} s"))


def with_bad(ground, bad):
    """Serves these clients, and a good one beside them; all but the good one stay until it is done. The server has to end behind them."""
    image = ground.copy()
    server = ground.serve(image, len(bad) + 1, is_controlled=True)
    there = []
    try:
        for it in bad:
            there.append(it(server))
        want_served(server, "1")
        for it in there:
            it.close()
        ran = server.ended()
    finally:
        for it in there:
            it.close()
        server.kill()
    want((ran.status == 0, ran.told()))
    ground.want_clean(image)


def never_reads(server):
    """Asks for 64 MiB, and takes none of it."""
    client = server.client("0")
    client.send(b"".join(request(READ, it % 4 * MIB, MIB) for it in range(64)))
    return client


def half_a_write(server):
    client = server.client("0")
    client.send(request(WRITE, 0, data=b"h" * MIB)[: MIB // 2])
    return client


def half_a_request(server):
    client = server.client("0")
    client.send(request(FLUSH)[:13])
    return client


def goes_at_once(server):
    client = Client.at(server.port)
    client.close()
    return client


def silent(server):
    return Client.at(server.port).greet()


def half_the_flags(server):
    client = Client.at(server.port).greet()
    client.send(b"\0\0")
    return client


def half_an_option(server):
    client = Client.at(server.port).greet()
    client.send(go("0")[:23])
    return client


def long_list(server):
    """Asks for names without end, and takes none of the answers."""
    client = Client.at(server.port).greet()
    client.send(struct.pack(">I", 3) + option(3) * 1000)
    return client


def bad_clients(ground):
    with_bad(ground, [never_reads, half_a_write, half_a_request, goes_at_once, never_reads, goes_at_once])


def shy_clients(ground):
    with_bad(ground, [silent, half_the_flags, half_an_option, long_list, goes_at_once])


def control_stays(ground):
    """One that has sent half a line, and behind it a client that is served. Others wait for it, as README says."""
    image = ground.copy()
    server = ground.serve(image, 1, is_controlled=True)
    try:
        with socket.create_connection(("127.0.0.1", server.control_port), timeout=LIMIT) as stays:
            stays.sendall(b"create_th")
            client = server.client("0")
            client.do(WRITE, 0, data=b"k" * BLOCK)
            client.do(FLUSH)
            client.leave()
            ran = server.ended()
    finally:
        server.kill()
    want((ran.status == 0, ran.told()))
    ground.want_clean(image)


