"""What a server replies to `health` while a sync hangs and after one failed, by strace."""
import contextlib
import os
import time
from functools import partial

from device_cases.loops import wants
from running import BLOCK, FLUSH, READ, WRITE, kill, request, start, want

NBD_EIO = 5
# The seconds that a sync hangs.
HANGS = 12
# The control clients that have a place, and the clients of volumes.
PLACES, CLIENTS = 4, 64
# The most seconds until a reply to `health`, beside one client that sends nothing.
SOON = 2


def hanging(ground):
    """`health` while a sync hangs, and after one failed"""
    yield f"a sync hangs, and {PLACES} control clients with it: `health` is answered", partial(
        hangs, ground
    )
    yield "a sync fails: `health` is `failed`, and the server stays", partial(fails, ground)
    yield "a sync fails with --exit-on-failure: the server ends with status 1", partial(
        ends, ground
    )
    yield "the same without a client: what was flushed is there after a restart", partial(
        restarts, ground
    )


@contextlib.contextmanager
def served(ground, *more):
    """A server, and a client that has flushed `a` and written `b`."""
    wants("strace")
    image = ground.copy("hanging.img")
    server = ground.stays(image, is_controlled=True, over="unix", more=more)
    try:
        client = server.client()
        client.do(WRITE, 0, data=b"a" * BLOCK)
        client.do(FLUSH)
        client.do(WRITE, 0, data=b"b" * BLOCK)
        yield server, client
    finally:
        server.kill()


@contextlib.contextmanager
def next_sync(server, what):
    """The next sync of a server has this done to it."""
    words = ["-e", "trace=fsync,fdatasync", "-e", f"inject=fsync,fdatasync:{what}:when=1"]
    pid = server.process.pid
    tracer = start(["strace", "-f", "-q", "-o", os.devnull, *words, "-p", str(pid)])
    try:
        time.sleep(1)
        want((tracer.poll() is None, "strace has ended"))
        yield
    finally:
        kill(tracer)


def hangs(ground):
    with served(ground) as (server, client):
        others = [server.client() for _ in range(CLIENTS - 1)]
        with next_sync(server, f"delay_enter={HANGS}000000"):
            told = hang(server, client)
        for it in others:
            it.leave()
        want((server.control("health") == "ok", "it is not well afterwards"))
    return f"told {told!r}"


def hang(server, client):
    """A FLUSH hangs, and with it control clients, of which some wait for a place."""
    want((server.control("health") == "ok", "it is not well before"))
    began = time.monotonic()
    client.send(request(FLUSH))
    hung = [sends(server, b"status\n") for _ in range(PLACES)]
    waits = sends(server, b"health\nclients\n")
    silent = sends(server, b"")
    told = [line_of(waits)]
    while time.monotonic() < began + HANGS / 2:
        told.append(server.control("health", SOON))
        time.sleep(0.5)
    ran = server.ask("health", limit=SOON)
    want(
        (told[0] == "ok" and told[-1].startswith("stalled "), f"health is {told}"),
        (ran.status == 1 and ran.out.startswith(b"stalled "), ran.told()),
    )
    for it in hung:
        want(("/" in line_of(it), "`status` is not answered"))
        it.close()
    want((line_of(waits).startswith(f"{CLIENTS} of "), "`clients` is not answered"))
    for it in (waits, silent):
        it.close()
    return told[-1]


def sends(server, lines):
    """A control client that has sent this."""
    it = server.ruler.connect()
    it.sendall(lines)
    return it


def line_of(stream):
    line = b""
    while not line.endswith(b"\n") and (byte := stream.recv(1)):
        line += byte
    return line.decode().rstrip("\n")


def fail(server, client):
    with next_sync(server, "error=EIO"):
        error, _ = client.ask(FLUSH)
    want((error == NBD_EIO, f"the FLUSH is answered {error}"))


def fails(ground):
    with served(ground) as (server, client):
        fail(server, client)
        ran = server.ask("health", limit=SOON)
        want((ran.status == 1 and ran.out == b"failed\n", ran.told()))
        want((server.control("stop now") == "ok", "`stop now` is not answered"))
        want((server.ended().status == 1, "it ends well"))


def ends(ground):
    with served(ground, "--exit-on-failure") as (server, client):
        fail(server, client)
        want_failed(server)


def want_failed(server):
    ran = server.ended()
    want((ran.status == 1 and b"thinpool: 21 Failed\n" in ran.err, ran.told()))


def restarts(ground):
    with served(ground, "--exit-on-failure") as (server, client):
        client.leave()
        server.waits_for("0 of 64:")
        with next_sync(server, "error=EIO"):
            answer = server.control("flush")
            want((answer == "refused 5", f"flush is answered {answer!r}"))
            want_failed(server)
        image = server.image
    server = ground.stays(image, is_controlled=True, over="unix")
    found = server.client().do(READ, 0, BLOCK)
    want((found in (b"a" * BLOCK, b"b" * BLOCK), f"it reads {found[:8]!r}.."))
    server.finish("stop now")
