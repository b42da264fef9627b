"""`run` as a service: signals, standard streams, what it tells, socket files, and peers that are gone without a word."""
import contextlib
import fcntl
import grp
import os
import re
import signal
import socket
import stat
import subprocess
import time
from functools import partial

from client_cases.hosts import BLOCKS, Host, done
from client_cases.staying import SOON, TIME
from edge_cases.disks import fill_up, small_disk
from edge_cases.refusals import AS_NOBODY, reaches
from running import BLOCK, FLUSH, LIMIT, MIB, READ, TRIM, WRITE
from running import Client, Place, Skipped, as_root, copy, held, kill, request, run, start, want

FAULT = b"thinpool: 5 Fault\n"


def service(ground):
    """`run` as a service: signals, standard streams, and what it tells"""
    host = Host(ground, "unix")
    for name in ("SIGTERM", "SIGINT", "SIGHUP"):
        yield f"{name} ends it at once and closes nothing: what was flushed is there", partial(signalled, host, getattr(signal, name))
    yield "the end of standard input ends nothing", partial(end_of_input, host, ())
    yield "a standard input that is closed ends nothing", partial(end_of_input, host, (0,))
    yield "a standard error that nobody reads holds up nobody, and no stop", partial(unread_error, host)
    yield "a standard error whose reader has gone ends nothing", partial(gone_reader, host)
    yield "a standard error that is closed ends nothing", partial(closed_error, host)
    yield "--quiet tells nothing of clients, lines and places", partial(quiet, host)
    yield "--quiet tells that the pool has failed", partial(failed_pool, host, ["--quiet"])
    yield "that the pool has failed is told once, with why; `stop` ends it with 1", partial(failed_pool, host, [])
    yield "--low-water 50 tells each time once that less than half of the data is free", partial(low_water, host, ["--low-water", "50"], 50)
    yield "without it that is less than a tenth", partial(low_water, host, [], 10)
    yield "--low-water 0 tells nothing, --low-water 101 is no command", partial(no_low_water, host)
    yield "at four places, and no fifth", partial(four_places, host)
    yield "`ask` asks `serve --control`, too", partial(asks_serve, host)


def written_and_flushed(server, length=BLOCK):
    client = server.client()
    client.do(WRITE, 0, data=b"f" * length)
    client.do(FLUSH)
    return client


def want_kept(host, image, length=BLOCK):
    """Wants what was flushed to be there behind a stop, and a socket file that was left to be no hindrance."""
    host.ground.want_clean(image)
    with host.up(image) as again:
        client = again.client()
        want((client.do(READ, 0, length) == b"f" * length, "what was flushed is lost"))
        client.leave()


def signalled(host, number):
    image = host.pool()
    # What started this tool may have it ignore signals, and those whom it starts.
    server = host.ground.stays(image, is_controlled=True, over="unix", before=["env", "--default-signal"])
    try:
        written_and_flushed(server).do(WRITE, BLOCK, data=b"u" * BLOCK)
        began = time.monotonic()
        server.process.send_signal(number)
        ran = server.ended(SOON)
        took = time.monotonic() - began
        want((ran.status == -number, ran.told()), (took < 2, f"it took {took:.1f} s"), (os.path.exists(server.place.path), "the socket file is gone"))
    finally:
        server.kill()
    want_kept(host, image)


def end_of_input(host, closed):
    image = host.pool()
    server = host.ground.stays(image, is_controlled=True, over="unix", closed=closed, stdin=subprocess.PIPE)
    try:
        server.process.stdin.close()
        time.sleep(1)
        written_and_flushed(server).leave()
        server.finish()
    finally:
        server.kill()


def with_error(host, error, then=lambda: None):
    """A server whose standard error is this, of which more is told than a pipe holds, while clients come and go: it has to serve them, and to end well."""
    server = host.ground.stays(host.pool(), is_controlled=True, over="unix", **error)
    try:
        then()
        lines = "\n".join(f"set_transaction_id {it} {it + 1}" for it in range(200))
        want((server.asked(lines) == "ok\n" * 200, "a message is refused"))
        for _ in range(3):
            written_and_flushed(server).leave()
        server.finish("stop now", SOON)
    finally:
        server.kill()


def unread_error(host):
    reads, writes = os.pipe()
    try:
        fcntl.fcntl(writes, fcntl.F_SETPIPE_SZ, 4096)
        with_error(host, {"stderr": writes})
    finally:
        os.close(reads)
        os.close(writes)


def gone_reader(host):
    reads, writes = os.pipe()
    try:
        with_error(host, {"stderr": writes}, then=lambda: os.close(reads))
    finally:
        os.close(writes)


def closed_error(host):
    with_error(host, {"closed": (2,)})


def quiet(host):
    image = host.pool()
    server = host.ground.stays(image, is_controlled=True, over="unix", more=["--quiet"])
    try:
        written_and_flushed(server).leave()
        want((server.control("create_thin 9") == "ok", "a message is refused"))
        server.finish()
        want((server.told() == "", f"told {server.told()!r}"))
    finally:
        server.kill()


def failed_pool(host, more):
    ground = host.ground
    with small_disk(ground, "6m") as folder:
        image = os.path.join(folder, "pool.img")
        ground.made("format", image, "128", "256", "1100", "256")
        ground.made("message", image, "create_thin 0")
        server = ground.stays(image, is_controlled=True, over="unix", more=more)
        try:
            client = written_and_flushed(server)
            fill_up(folder)
            answers = [client.ask(WRITE, it * BLOCK, data=b"x" * BLOCK)[0] for it in range(1, 100)]
            want((5 in answers, f"answered {answers}"), (server.control("status") == "Fail", server.control("status")))
            client.leave()
            asked = server.ask("stop")
            ran = server.ended(SOON)
            want((asked.out == b"ok\n", asked.told()), (ran.status == 1, ran.told()))
            cause = rf"{TIME}5 Fault: the pool failed: {re.escape(image)}: a write at sector \d+ failed: No space left on device \(os error 28\)\n"
            said = server.told()
            want((len(re.findall(cause, said)) == 1, f"told {said!r}"), (said.count("\nthinpool: 21 Failed\n") == 1, f"told {said!r}"))
        finally:
            server.kill()
        os.unlink(os.path.join(folder, "ballast"))
        ground.want_clean(image)


def low_water(host, more, percent):
    ground = host.ground
    image = ground.fresh("low.img", 40, 40)
    server = ground.stays(image, is_controlled=True, over="unix", more=more)
    try:
        client = server.client()
        for _ in range(2):
            for at in range(40):
                client.do(WRITE, at * BLOCK, data=b"l" * 4096)
            time.sleep(2.5)
            client.do(TRIM, 0, 40 * BLOCK)
            client.do(FLUSH)
            time.sleep(2.5)
        client.leave()
        server.finish()
        low = re.findall(rf"{TIME}data is low: (\d+) of 40 blocks are free\n", server.told())
        want((len(low) == 2 and all(int(it) * 100 < percent * 40 for it in low), f"told {server.told()!r}"))
    finally:
        server.kill()


def no_low_water(host):
    ground = host.ground
    image = ground.fresh("low.img", 40, 40)
    with host.up(image, "--low-water", "0") as server:
        client = server.client()
        client.do(WRITE, 0, data=b"l" * MIB)
        client.do(WRITE, MIB, data=b"l" * MIB)
        client.do(WRITE, 2 * MIB, data=b"l" * (MIB // 2))
        time.sleep(2.5)
        client.leave()
        want((" low" not in server.told(), f"told {server.told()!r}"))
    ran = ground.run("run", image, "--listen", f"unix:{ground.path('nbd.sock')}", "--low-water", "101")
    want((ran.status == 2 and b"<PERCENT>: must be in 0..=100" in ran.err, ran.told()))


def four_places(host):
    ground, image = host.ground, host.pool()
    places = [f"unix:{ground.path('other.sock')}", "127.0.0.1:0", "[::1]:0" if socket.has_ipv6 and has_six() else "localhost:0"]
    more = [word for it in places for word in ("--listen", it)]
    server = ground.stays(image, is_controlled=True, over="unix", more=more)
    try:
        told = re.findall(r"listening on (\S+)\n", server.told())
        want((len(told) == 4 and told[:2] == [str(server.place), places[0]], f"told {told}"))
        for it in told:
            uri = Place(path=it[5:]).uri("1") if it.startswith("unix:") else f"nbd://{it}/1"
            want((int(done("nbdinfo", "--size", uri)) == BLOCKS * BLOCK, f"another size at {it}"))
        server.finish()
    finally:
        server.kill()
    five = ground.run("run", image, "--listen", "127.0.0.1:0", *more, "--listen", "127.0.0.1:0")
    want((five.status == 2 and five.err, five.told()))


def has_six():
    try:
        with socket.socket(socket.AF_INET6) as it:
            it.bind(("::1", 0))
            return True
    except OSError:
        return False


def asks_serve(host):
    ground, image = host.ground, host.pool()
    server = ground.serve(image, 1, is_controlled=True)
    try:
        ran = ground.run("ask", str(server.ruler), "create_thin 7", "thin 7", "create_thin 7", "stop now")
        want((ran.status == 1 and ran.out == b"ok\n0 -\nrefused 14\nrefused 12\n" and ran.err == b"thinpool: 14 Exists\nthinpool: the server refused a line: the volume exists\n", ran.told()))
        wrong = ground.run("ask", str(server.ruler), "thin x", "map 0 1 2", "status now", "stop later")
        want((wrong.status == 1 and wrong.out == b"refused 11\n" * 4, wrong.told()))
        server.client().leave()
        ended = server.ended()
        want((ended.status == 0, ended.told()))
    finally:
        server.kill()
    ground.want_clean(image)


# ---- socket files


def socket_files(ground):
    """socket files of `run`, in whose place something may stand"""
    host = Host(ground, "unix")
    yield "they are for their owner alone, and others are told so", partial(rights, host)
    yield "with --socket-mode and --socket-group, by number and by name, others of the group may connect", partial(shared_rights, host)
    yield "a group that does not exist is refused with 5 by its name, and leaves no file", partial(no_group, host)
    yield "a group that the system does not give is refused with 5 by its reason, and leaves no file", partial(refused_group, host)
    yield "a mode that is not octal, or above 0777, is no command", partial(bad_modes, host)
    yield "what a server that was killed has left is replaced", partial(stale, host)
    yield "a living server's is refused with 5, for clients and for control lines, and it goes on", partial(living, host)
    yield "other things that stand there are refused with 5, and left alone", partial(other_things, host)
    yield "one place twice is refused with 5", partial(twice, host)
    yield "a path that is too long, or that has no folder, is refused with 5", partial(bad_paths, host)
    yield "a folder that was left behind a kill is no hindrance", partial(left_folder, host)


def rights(host):
    with host.up(host.pool()) as server:
        for it in (server.place, server.ruler):
            mode = os.lstat(it.path).st_mode
            want((stat.S_ISSOCK(mode) and stat.S_IMODE(mode) == 0o600, f"its mode is {mode:o}"))
        want((not os.path.exists(server.place.path + ".new"), "a folder is left"))
        reaches(host.ground, AS_NOBODY)
        ran = host.ground.run("--explain", "ask", str(server.ruler), "status", **AS_NOBODY)
        want((ran.status == 1 and b"ermission denied" in ran.err, f"another user: {ran.told()}"))


def shared_rights(host):
    as_root()
    group = grp.getgrnam("daemon")
    member = {**AS_NOBODY, "group": group.gr_gid}
    for name in (str(group.gr_gid), group.gr_name):
        with host.up(host.pool(), "--socket-mode", "0660", "--socket-group", name) as server:
            for it in (server.place, server.ruler):
                found = os.lstat(it.path)
                want((stat.S_ISSOCK(found.st_mode) and stat.S_IMODE(found.st_mode) == 0o660, f"its mode is {found.st_mode:o}"),
                     ((found.st_uid, found.st_gid) == (0, group.gr_gid), f"it is of {found.st_uid}:{found.st_gid}"))
            want((not os.path.exists(server.place.path + ".new"), "a folder is left"))
            reaches(host.ground, AS_NOBODY)
            ran = host.ground.run("ask", str(server.ruler), "status", **member)
            want((ran.status == 0 and ran.out, f"a member: {ran.told()}"))
            ran = host.ground.run("--explain", "ask", str(server.ruler), "status", **AS_NOBODY)
            want((ran.status == 1 and b"ermission denied" in ran.err, f"another user: {ran.told()}"))


def no_group(host):
    ground = host.ground
    for name in ("no-such-group", "4294967295"):
        ran = ground.run("run", host.pool(), "--listen", f"unix:{ground.path('none.sock')}", "--socket-group", name)
        want((ran.status == 1 and ran.err == FAULT + f"thinpool: group {name} does not exist\n".encode(), ran.told()))
        want((not [it for it in os.listdir(ground.folder) if it.startswith("none.sock")], "a file is left"))


def refused_group(host):
    as_root()
    ground = host.ground
    reaches(ground, AS_NOBODY)
    folder = ground.path("nobody")
    os.mkdir(folder)
    image = copy(host.pool(), f"{folder}/pool.img")
    for it in (folder, image):
        os.chown(it, AS_NOBODY["user"], AS_NOBODY["group"])
    ran = ground.run("--explain", "run", image, "--listen", f"unix:{folder}/nbd.sock", "--socket-group", "0", **AS_NOBODY)
    want((ran.status == 1 and ran.err.startswith(FAULT) and b"not permitted" in ran.err, ran.told()), (os.listdir(folder) == ["pool.img"], "a file is left"))


def bad_modes(host):
    for mode in ("9999", "0888", "1000", "rw", "0x1ff", "40000000000"):
        ran = host.ground.run("run", host.pool(), "--listen", "127.0.0.1:0", "--socket-mode", mode)
        want((ran.status == 2 and b"invalid value for --socket-mode <MODE>: must be octal, in 0..=0777" in ran.err, f"{mode}: {ran.told()}"))


def stale(host):
    image = host.pool()
    with host.killed(image) as server:
        written_and_flushed(server)
    want((stat.S_ISSOCK(os.lstat(server.place.path).st_mode), "no file is left"))
    want_kept(host, image)


def refused_place(ground, image, words, text):
    """Wants a server to be refused with 5, which says this."""
    ran = ground.run("--explain", "run", image, *words)
    told = ran.err.decode(errors="replace")
    want((ran.status == 1 and ran.err.startswith(FAULT) and re.search(text, told, re.I), f"run {' '.join(words)}: {ran.told()}"))


def living(host):
    other = host.ground.fresh("other.img", BLOCKS, BLOCKS)
    with host.up(host.pool()) as server:
        refused_place(host.ground, other, ["--listen", str(server.place)], f"cannot listen on {re.escape(str(server.place))}: .*in use")
        refused_place(host.ground, other, ["--listen", "127.0.0.1:0", "--control", str(server.ruler)], f"{re.escape(str(server.ruler))}: .*in use")
        written_and_flushed(server).leave()
        server.waits_for("0 of 64:")


def other_things(host):
    image, place = host.pool(), host.ground.path("thing")
    makers = {"a file": lambda: open(place, "wb").close(), "a folder": lambda: os.mkdir(place), "a pipe": lambda: os.mkfifo(place), "a link": lambda: os.symlink("nowhere", place)}
    for name, make in makers.items():
        make()
        before = os.lstat(place)
        refused_place(host.ground, image, ["--listen", f"unix:{place}"], "exists")
        after = os.lstat(place)
        want(((before.st_ino, before.st_mode) == (after.st_ino, after.st_mode), f"{name} is another one now"))
        (os.rmdir if stat.S_ISDIR(after.st_mode) else os.unlink)(place)


def twice(host):
    place = f"unix:{host.ground.path('twice.sock')}"
    refused_place(host.ground, host.pool(), ["--listen", place, "--listen", place], "in use")


def bad_paths(host):
    long = host.ground.path("x" * 120)
    for place, text in ((f"unix:{long}", "too long|invalid|SUN_LEN|name"), (f"unix:{host.ground.path('nowhere/nbd.sock')}", "no such file"), ("unix:", "no such file|empty|invalid"), ("nbd.sock", "nbd.sock: ")):
        refused_place(host.ground, host.pool(), ["--listen", place], text)


def left_folder(host):
    image, folder = host.pool(), host.ground.path("nbd.sock.new")
    os.mkdir(folder, 0o700)
    with socket.socket(socket.AF_UNIX) as it:
        it.bind(os.path.join(folder, "s"))
    with host.up(image) as server:
        written_and_flushed(server).leave()
    want((not os.path.exists(folder), "the folder is left"))


# ---- peers that are gone without a word, and one that lives

NAMESPACE = f"thinpool-{os.getpid()}"
NEAR, FAR = "10.213.77.1/30", "10.213.77.2/30"
# The system asks a silent peer after a minute, and gives up a minute later.
GONE = 150
# How often the system sends in vain what a peer does not acknowledge. Five times take 12.6 s at
# least; 15 times, where nobody has set it, 924.6 s.
RETRIES = 5
# Seconds for which a peer that lives receives nothing.
PATIENT = int(os.environ.get("PATIENT", "150"))
DEAD = "a silent peer loses its place two minutes after its packets are dropped, and one with " \
    f"answers unacknowledged after {RETRIES} retransmissions"


def dead_peers(ground):
    """peers of `run` at a TCP address: two whose packets are dropped from some moment on, and one
    that lives and receives nothing; some five minutes"""
    yield DEAD, partial(lose_their_places, Host(ground, "unix"))
    yield f"a peer that receives nothing for {PATIENT} s loses nothing", partial(
        receives_nothing, Host(ground, "tcp")
    )


def setup_of(name, ours, theirs):
    """The commands of ip that link a network namespace, and have it give up early."""
    retries = "/proc/sys/net/ipv4/tcp_retries2"
    return [
        ["link", "add", ours, "type", "veth", "peer", "name", theirs, "netns", name],
        ["addr", "add", NEAR, "dev", ours],
        ["link", "set", ours, "up"],
        ["-n", name, "addr", "add", FAR, "dev", theirs],
        ["-n", name, "link", "set", theirs, "up"],
        ["netns", "exec", name, "sh", "-c", f"echo {RETRIES} > {retries}"],
    ]


@contextlib.contextmanager
def network():
    """A link to another network namespace: its name, and the device on this side."""
    as_root()
    name, ours, theirs = NAMESPACE, f"tp{os.getpid() % 10000}a", f"tp{os.getpid() % 10000}b"
    if run(["ip", "netns", "add", name]).status:
        raise Skipped("no network namespace can be made")
    try:
        for words in setup_of(name, ours, theirs):
            ran = run(["ip", *words])
            if ran.status:
                raise Skipped(f"ip {' '.join(words)}: {ran.err.decode(errors='replace').strip()}")
        yield name, ours
    finally:
        run(["ip", "link", "del", ours])
        run(["ip", "netns", "del", name])


def lose_their_places(host):
    address = FAR.split("/")[0]
    with network() as (name, ours):
        how = {"before": ["ip", "netns", "exec", name], "more": ["--listen", f"{address}:0"]}
        server = host.ground.stays(host.pool(), is_controlled=True, over="unix", **how)
        try:
            took = without_packets(server, address, ours)
            written_and_flushed(server).leave()
            server.finish()
        finally:
            server.kill()
    want((took[0] < 60, f"what the system does not get rid of is left for {took[0]:.0f} s"))
    return f"one was gone after {took[0]:.0f} s, and the other one {took[1]:.0f} s later"


def without_packets(server, address, ours):
    """The seconds until two peers are gone, one after the other, whose packets are dropped."""
    port = int(re.search(rf"listening on {re.escape(address)}:(\d+)\n", server.told())[1])
    how = {"stdin": subprocess.DEVNULL, "stdout": subprocess.PIPE}
    peers = [start(peer(address, port, kind), **how) for kind in ("silent", "deaf")]
    try:
        for it in peers:
            want((it.stdout.readline() == b"there\n", "a client does not come through"))
        server.waits_for("2 of 64: 0 0")
        run(["ip", "link", "set", ours, "down"])
        return until_gone(server, "1 of 64: 0"), until_gone(server, "0 of 64:")
    finally:
        for it in peers:
            kill(it)


PEER = """
import socket, sys, time
from running import *
it = socket.create_connection((sys.argv[1], int(sys.argv[2])))
it = Client(it.fileno(), it.fileno(), [it]).go("0")
if sys.argv[3] == "deaf":
    it.send(b"".join(request(READ, 0, MIB) for _ in range(64)))
print("there", flush=True)
time.sleep(3600)
"""


def peer(address, port, kind):
    """A client that stays and prints "there": silent, or deaf, which has asked for 64 MiB and
    receives none of it."""
    tools = os.path.dirname(os.path.dirname(os.path.realpath(__file__)))
    words = ["python3", "-B", "-c", PEER, address, str(port), kind]
    return ["env", f"PYTHONPATH={tools}", *words]


def until_gone(server, answer):
    """The seconds until this is told of clients."""
    began = time.monotonic()
    while (told := server.control("clients")) not in (answer, "0 of 64:"):
        want((time.monotonic() - began < GONE, f"clients is still answered {told!r}"))
        time.sleep(0.5)
    return time.monotonic() - began


def receives_nothing(host):
    """It has asked for 64 MiB, receives nothing for some minutes, and then everything."""
    with host.up(host.pool()) as server:
        client, data = server.client(), os.urandom(MIB)
        client.do(WRITE, 0, data=data)
        client.send(b"".join(request(READ, 0, MIB) for _ in range(64)))
        time.sleep(PATIENT)
        for at in range(64):
            client.receive(16)
            want((client.receive(MIB) == data, f"answer {at} has other bytes"))
        client.leave()
