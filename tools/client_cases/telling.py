"""What `run` tells of its pool and of those who wait, and what its commands say of a failure."""
import contextlib
import re
import resource
import time
from functools import partial

from client_cases.hosts import Host, refused
from client_cases.staying import SOON, TIME
from running import BLOCK, FLUSH, MIB, TRIM, WRITE
from running import Client, Stuck, want

NO_SPACE = 28
FULL = rf"{TIME}out of data space: writes to new blocks are refused; delete volumes, or discard data in them\n"
AGAIN = rf"{TIME}the pool accepts writes again\n"
REFUSED = rf"{TIME}client \d+: a write was refused for lack of space; delete volumes, or discard data in them\n"


def telling(ground):
    """what `run` tells of its pool and of those who wait, and what commands say of a failure"""
    host = Host(ground, "unix")
    yield "that data runs out, that a write is refused, and that there is space again is told once each time", partial(data_runs_out, host)
    yield "a pool that is read-only for lack of metadata is told once, with what to do", partial(metadata_runs_out, host)
    yield "--low-water counts the metadata that writes may use", partial(low_metadata, host)
    yield "a client that waits for a place is told", partial(client_waits, host)
    yield "a control client that waits is told", partial(control_waits, host)
    yield "a volume that does not exist is told by its name, escaped and cut", partial(unknown_volume, host)
    yield "that no client is accepted for lack of descriptors is told", partial(no_descriptors, host)
    yield "`ask WHERE stop now` sends nothing, and says how it is quoted", partial(unquoted, host)
    yield "errors of run, ask, create, ls, map, delta and free have their reason on a second line", partial(reasons, host)


def counted(server, *patterns):
    told = server.told()
    return [len(re.findall(it, told)) for it in patterns]


def data_runs_out(host):
    image = host.ground.fresh("full.img", 40, 20)
    with host.up(image, "--low-water", "0") as server:
        client = server.client()
        for round_number in range(2):
            client.do(WRITE, 0, data=b"f" * MIB)
            for at in range(16, 19):
                client.do(WRITE, at * BLOCK, data=b"f" * 4096)
            # More blocks than are free, but not all are used.
            error, _ = client.ask(WRITE, 30 * BLOCK, data=b"f" * (2 * BLOCK))
            want((error == NO_SPACE, f"a write is answered {error}"))
            error, _ = client.ask(WRITE, 30 * BLOCK, data=b"f" * (2 * BLOCK))
            client.do(WRITE, 19 * BLOCK, data=b"f" * 4096)
            time.sleep(2.5)
            want((counted(server, FULL, AGAIN, REFUSED) == [round_number + 1, round_number, round_number + 1], f"told {server.told()!r}"))
            client.do(TRIM, 0, 20 * BLOCK)
            client.do(FLUSH)
            time.sleep(2.5)
        want((counted(server, FULL, AGAIN, REFUSED) == [2, 2, 2], f"told {server.told()!r}"))
        client.leave()


def low_metadata(host):
    """1100 metadata blocks, of which 8 are the fixed part and 512 are not for writes: 580 are left. Each of 300 volumes has one of them."""
    ground = host.ground
    image = ground.path("metadata.img")
    ground.made("format", image, "128", "64", "1100", "64")
    with host.up(image, "--low-water", "60") as server:
        with server.ruler.connect() as stream, stream.makefile() as lines:
            for number in range(300):
                stream.sendall(b"create_thin %d\n" % number)
                want((lines.readline() == "ok\n", f"volume {number} is refused"))
        found = server.tells(rf"{TIME}metadata is low: (\d+) of 580 blocks are free\n")
        want((240 < int(found[1]) < 348, f"told {server.told()!r}"))


def metadata_runs_out(host):
    """The pool is read-only since it was opened: its flag is set in both superblocks."""
    image = host.pool()
    with open(image, "r+b") as file:
        for at in (12, 4096 + 12):
            file.seek(at)
            file.write(b"\1")
    server = host.start(image, "--quiet")
    try:
        pattern = (rf"{TIME}out of metadata space: the pool is read-only; stop the server, run `thinpool check {re.escape(image)} --clear-needs-check-flag`, "
                   r"then release the metadata snapshot or delete volumes\n")
        server.tells(pattern)
        time.sleep(2.5)
        want((counted(server, pattern) == [1], f"told {server.told()!r}"))
        want((server.control("stop") == "ok", "`stop` is not answered"))
        server.ended(SOON)
    finally:
        server.kill()


def client_waits(host):
    with host.up(host.pool()) as server:
        there = [server.client() for _ in range(64)]
        want((" waits " not in server.told(), f"told {server.told()!r}"))
        one_more = Client.at(server.place, 1)
        server.tells(rf"{TIME}a client waits at {re.escape(str(server.place))}: 64 others are connected\n")
        with contextlib.suppress(Stuck):
            one_more.greet()
        for it in (*there, one_more):
            it.leave()


def control_waits(host):
    with host.up(host.pool()) as server:
        there = [server.ruler.connect() for _ in range(5)]
        server.tells(rf"{TIME}a control client waits: 4 others are connected\n")
        for it in there:
            it.close()


def unknown_volume(host):
    with host.up(host.pool()) as server:
        refused("No such file", "nbdinfo", server.uri("none%0A'%7F"))
        server.tells(rf"{TIME}client \d+: no volume 'none\\x0a\\x27\\x7f'\n")
        time.sleep(1.1)
        refused("No such file", "nbdinfo", server.uri("x" * 100))
        server.tells(rf"{TIME}client \d+: no volume '{'x' * 64}'\.\.\n")


def no_descriptors(host):
    server = host.start(host.pool())
    try:
        resource.prlimit(server.process.pid, resource.RLIMIT_NOFILE, (12, 12))
        there = [server.place.connect() for _ in range(12)]
        server.tells(rf"{TIME}cannot accept a client: .*os error 24\)\n")
        for it in there:
            it.close()
    finally:
        server.kill()


def unquoted(host):
    with host.up(host.pool()) as server:
        ran = server.ask("status", "stop", "now")
        want((ran.status == 1 and not ran.out, ran.told()),
             (ran.err == f"thinpool: 11 BadSyntax\nthinpool: nothing was sent: `stop now` is one line, so quote it: `thinpool ask {server.ruler} 'stop now'`\n".encode(), ran.told()))
        want((server.control("clients") == "0 of 64:", "it is told to stop"))


def reasons(host):
    ground = host.ground
    text, none = ground.path("text.txt"), ground.path("none.img")
    with open(text, "w", encoding="ascii") as file:
        file.write("text\n")
    image = host.pool()
    cases = [
        (["ls", none], 5, f"{none} cannot be opened"),
        (["ls", text], 3, f"{text} is not a thinpool image; check the name"),
        (["map", image, "9"], 15, f"no such volume; `thinpool ls {image}` lists the volumes"),
        (["delta", image, "0", "9"], 15, f"no such volume; `thinpool ls {image}` lists the volumes"),
        (["free", text], 3, f"{text} is not a thinpool image; check the name"),
        (["ask", f"unix:{none}", "status"], 5, f"unix:{none} cannot be reached"),
        (["run", none, "--listen", "127.0.0.1:0"], 5, f"{none} cannot be opened"),
        (["create", none, "--size", "1T", "--volume-size", "16T", "--volumes", "0"], 1, "--volumes is 0: it must be at least 1"),
    ]
    for words, number, reason in cases:
        ran = ground.run(*words)
        lines = ran.err.decode(errors="replace").splitlines()
        want((ran.status == 1 and len(lines) == 2 and lines[0].startswith(f"thinpool: {number} ") and reason in lines[1], f"{words[0]}: {ran.told()}"))
    for words in (["status", text], ["message", text, "create_thin 0"], ["check", text]):
        ran = ground.run(*words)
        want((ran.status == 1 and ran.err.count(b"\n") == 1, f"{words[0]}: {ran.told()}"))
