"""How `run` ends connections.

No answer of a request that was done is lost, and no client holds a thread or a control place
for ever."""
import contextlib
import os
import select
import socket
import struct
import threading
import time

from running import BLOCK, DISC, LIMIT, MIB, READ, WRITE
from running import Client, Stuck, go, option, request, want

# The most seconds of a stop, whatever the clients do.
SOON = int(os.environ.get("SOON", "30"))
# Seconds for which input is discarded after DISC, and those after which a silent control client
# gives way to another one.
DISCARDING, SILENT = 2, 30
REPLY = 16
CLIENT_FLAGS = struct.pack(">I", 3)
# Where a request or an option is cut.
CUTS = (1, 4, 8, 15, 16, 17, 20, 27)


class Pipeline(threading.Thread):
    """A client that always has `depth` requests under way: a READ of this length, then a WRITE of
    a number that is greater than the last one, and so on.

    It receives while it may, until the stream ends. `answered` is the number of the last WRITE
    that was answered."""

    def __init__(self, server, number, depth, length, goes_on=True):
        super().__init__(daemon=True)
        self.client, self.offset = server.client("1"), number * MIB
        self.depth, self.length, self.goes_on = depth, length, goes_on
        # So most of what it does not receive is held by the server's system.
        self.client.holds[0].setsockopt(socket.SOL_SOCKET, socket.SO_RCVBUF, 65536)
        self.made, self.answered, self.end = 0, 0, None
        self.may_receive = threading.Event()

    def next_request(self):
        value, is_write = divmod(self.made, 2)
        self.made += 1
        if is_write:
            return request(WRITE, self.offset, data=struct.pack("<Q", value + 1) * 64)
        return request(READ, 32 * MIB, self.length)

    def add(self, count):
        """Sends so many requests more, as far as the server takes them."""
        with contextlib.suppress(OSError, Stuck):
            self.client.send(b"".join(self.next_request() for _ in range(count)))

    def hear(self, at):
        """Receives the answer to the request of this index."""
        _, error, _ = struct.unpack(">IIQ", self.client.receive(REPLY))
        want((error == 0, f"request {at} is answered {error}"))
        if at % 2:
            self.answered = at // 2 + 1
        else:
            self.client.receive(self.length)

    def run(self):
        threading.Thread(target=self.add, args=(self.depth,), daemon=True).start()
        try:
            for at in range(1 << 30):
                self.may_receive.wait()
                self.hear(at)
                if self.goes_on:
                    self.add(1)
        except (OSError, EOFError, Stuck) as why:
            self.end = why
        self.client.close()


def stop_and_hear(server, clients):
    """Has clients receive half a second after `stop now`, and waits for the server's end."""
    want((server.control("stop now") == "ok", "`stop now` is not answered"))
    time.sleep(0.5)
    for it in clients:
        it.may_receive.set()
    want_ended(server)
    for it in clients:
        it.join(LIMIT)


def want_ended(server):
    """Wants a server that was told to stop to end well."""
    ended = server.ended(SOON)
    want((ended.status == 0, ended.told()))
    server.is_finished = True


def want_all_answered(host, image, clients):
    """Wants the last WRITE that is there to be the last one that was answered, of each client."""
    with host.up(image) as again:
        reader = again.client("1")
        found = [struct.unpack("<Q", reader.do(READ, it.offset, 512)[:8])[0] for it in clients]
        reader.leave()
    lost = [done - it.answered for done, it in zip(found, clients)]
    ends = sorted({str(it.end) for it in clients})
    want(
        (min(found) > 0, f"WRITEs that were done: {found}"),
        (not any(lost), f"of {found} WRITEs that were done {lost} were not answered: {ends}"),
    )
    return f"{sum(found)} WRITEs were done, and answered"


def stop_at_depth(host):
    """Four clients at depth 16 that receive nothing around the stop."""
    image = host.pool()
    with host.up(image) as server:
        clients = [Pipeline(server, it, 16, 2 * BLOCK) for it in range(4)]
        for it in clients:
            it.may_receive.set()
            it.start()
        time.sleep(1)
        for it in clients:
            it.may_receive.clear()
        time.sleep(0.5)
        stop_and_hear(server, clients)
    return want_all_answered(host, image, clients)


def stop_in_a_pipeline(host):
    """One client that has sent 4000 requests, and receives nothing before the stop."""
    image = host.pool()
    with host.up(image) as server:
        client = Pipeline(server, 0, 4000, BLOCK // 4, goes_on=False)
        client.start()
        time.sleep(1)
        stop_and_hear(server, [client])
    return want_all_answered(host, image, [client])


def after_disc(host):
    """A client that sends more after DISC, and receives only then."""
    with host.up(host.pool()) as server:
        client = server.client()
        reads = b"".join(request(READ, 0, BLOCK) for _ in range(16))
        client.send(reads + request(DISC))
        time.sleep(0.3)
        client.send(bytes(65536))
        time.sleep(0.3)
        for _ in range(16):
            client.receive(REPLY + BLOCK)
        want((is_at_end(client), "the stream does not end after the answers"))
        client.close()
        server.waits_for("0 of 64:")


def is_at_end(client, limit=5):
    """Whether the end of the stream comes within so many seconds, and nothing before it."""
    client.limit = limit
    try:
        client.receive(1)
    except EOFError:
        return True
    except (OSError, Stuck):
        pass
    return False


def sends_without_end(host):
    """A client that has sent DISC, and sends for as long as it is taken."""
    with host.up(host.pool()) as server:
        client = server.client()
        client.send(request(DISC))
        client.limit = 0.1
        began = time.monotonic()
        with contextlib.suppress(OSError, Stuck):
            while time.monotonic() - began < 10:
                client.send(bytes(MIB))
        server.waits_for("0 of 64:")
        took = time.monotonic() - began
        client.close()
    want((took < DISCARDING + 2, f"its thread was free after {took:.1f} s"))
    return f"its thread was free after {took:.1f} s"


# ---- wrong magic numbers in pieces

# Requests and options whose magic number is wrong: what comes before, and their fixed part.
WRONG = [
    ("a first request of zeros", go(), bytes(28)),
    ("a first request that begins as one", go(), b"\x25" + bytes(27)),
    ("an option in place of a request", go(), option(7, bytes(100))[:28]),
    ("an option that begins as a request", CLIENT_FLAGS, b"\x25" + bytes(15)),
    ("a READ in place of an option", CLIENT_FLAGS, request(READ, 0, 512)[:16]),
    ("a WRITE in place of an option", CLIENT_FLAGS, request(WRITE, 0, 512)),
    ("an option of zeros", CLIENT_FLAGS, bytes(16)),
]


def wrong_magic(host):
    """In two pieces, cut at some bytes, and a byte at a time."""
    count, waited = 0, []
    with host.up(host.pool()) as server:
        for name, before, text in WRONG:
            ways = [[text[:cut], text[cut:]] for cut in CUTS if cut < len(text)]
            for pieces in [*ways, [text[at : at + 1] for at in range(len(text))]]:
                if not ends_at_once(server, before, pieces):
                    waited.append(f"{name}, cut at {len(pieces[0])}")
                count += 1
    want((not waited, f"{len(waited)} of {count} are waited for: {waited[:4]}"))
    return f"{count} of {count}"


def ends_at_once(server, before, pieces):
    """Whether the server ends a connection with the last byte of these pieces."""
    client = Client.at(server.place).greet()
    try:
        client.send(before)
        if before != CLIENT_FLAGS:
            pass_replies(client)
        for piece in pieces:
            time.sleep(0.003)
            with contextlib.suppress(OSError):
                client.send(piece)
        return is_at_end(client)
    finally:
        client.close()


def pass_replies(client):
    """Receives the replies to GO, up to the last one."""
    kind = None
    while kind != 1:
        _, _, kind, length = struct.unpack(">QIII", client.receive(20))
        client.receive(length)


# ---- control clients that stay and send nothing


def idle_control_clients(host):
    """Four of them, of which three were answered before. One more is heard."""
    with host.up(host.pool()) as server:
        idle = [server.ruler.connect() for _ in range(4)]
        for it in idle[1:]:
            it.sendall(b"clients\n")
            want((line_of(it) == b"0 of 64:\n", "a line is not answered"))
        want((server.control("health", 5) == "ok", "`health` waits for a place"))
        began = time.monotonic()
        answer = server.control("clients", 2 * SILENT)
        took = time.monotonic() - began
        want(
            (answer == "0 of 64:", f"one more is answered {answer!r}"),
            (SILENT - 5 < took < SILENT + 10, f"it is heard after {took:.1f} s"),
            (any(not has_ended(it) for it in idle), "all of them were closed for one"),
        )
        want((server.control("stop now") == "ok", "`stop now` is not answered"))
        want_ended(server)
        for it in idle:
            it.close()
    return f"heard after {took:.1f} s"


def line_of(stream):
    """The next line, or what comes before the end."""
    line = b""
    while not line.endswith(b"\n") and (byte := stream.recv(1)):
        line += byte
    return line


def has_ended(stream):
    return bool(select.select([stream], [], [], 0)[0]) and not stream.recv(1, socket.MSG_PEEK)


def kept_control_client(host):
    """One has sent `stop` and waits for the end, beside three that send nothing."""
    with host.up(host.pool()) as server:
        client = server.client()
        waits, *idle = [server.ruler.connect() for _ in range(4)]
        waits.sendall(b"stop\n")
        want((line_of(waits) == b"ok\n", "stop is not answered"))
        for _ in range(4):
            answer = server.control("clients", 2 * SILENT)
            want(
                (answer == "1 of 64: 0", f"clients is answered {answer!r}"),
                (not has_ended(waits), "the one that waits for the end is closed"),
            )
            time.sleep(1)
        client.leave()
        want((waits.recv(100) == b"", "more is told than the end"))
        want_ended(server)
        for it in (waits, *idle):
            it.close()


def control_place_first(host):
    """A control place that is refused leaves nothing where clients would come."""
    path, nowhere = host.ground.path("first.sock"), host.ground.path("nowhere/control.sock")
    places = ["--listen", f"unix:{path}", "--control", f"unix:{nowhere}"]
    ran = host.ground.run("run", host.pool(), *places)
    want((ran.status == 1, ran.told()), (not os.path.exists(path), f"{path} is left"))


CASES = [
    ("`stop now` at depth 16: each WRITE that was done is answered", stop_at_depth),
    ("`stop now` in a deep pipeline: each WRITE that was done is answered", stop_in_a_pipeline),
    ("DISC and more after it: all is answered", after_disc),
    ("DISC and more without end: the thread is free soon", sends_without_end),
    ("a wrong magic number in pieces ends the connection at once", wrong_magic),
    ("four control clients that send nothing: one more is heard after 30 s", idle_control_clients),
    ("a control client that waits for the end of `stop` is kept", kept_control_client),
    ("the control place is listened at before that of clients", control_place_first),
]
