"""Servers whose syncs strace counts, and requests that reach them in pieces."""
import contextlib
import fcntl
import struct
import time

from edge_cases.shared_syncs import spans
from edge_cases.syncs import SYNCS
from running import BLOCK, DISC, FLUSH, LIMIT, WRITE
from running import Stuck, go, request, strace, want

# Blocks of volume 0: the first that are mapped, committed and not shared, and two unmapped ones.
FIRST, COUNT = 16, 16
UNMAPPED, CLOSED = 40, 50
VOLUME = 64 * BLOCK
# A payload that has the bit of FUA wherever it is cut, and a cookie of such bytes.
ODD = b"\x61"
COOKIE = 0x0101010101010101
HEADER = 28
# Where a frame is cut: in each field of its header, and in the 4096 bytes of its payload.
CUTS = [1, 4, 5, 6, 7, 8, 12, 16, 23, 24, 27, 28, 29, 31, 33, 34, 35, 36, 1000, HEADER + 4095]
# A request whose bytes have no bit of FUA.
AHEAD = request(WRITE, (FIRST + 1) * BLOCK, data=b"b" * 512)
# How many clients `serve` accepts.
CLIENTS = 64
# Seconds in which a server reads what was sent over TCP.
PAUSE = 0.02
# The request of the system for the number of bytes that a socket file has not delivered.
UNREAD = 0x5411
EINVAL, ENOSPC, NBD_EIO = 22, 28, 5


def mapped_image(ground):
    """An image whose first blocks of volume 0 are mapped and committed."""
    image = ground.copy("mapped.img")
    data = b"s" * BLOCK
    writes = [request(WRITE, (FIRST + it) * BLOCK, data=data) for it in range(COUNT)]
    ground.made("feed", image, given=go() + b"".join(writes) + request(FLUSH) + request(DISC))
    return image


class Stage:
    """A server under strace, and the syncs that it has made so far."""

    def __init__(self, server, trace):
        self.server, self.trace = server, trace
        self.client = server.client()

    def wait_until_alone(self):
        """Waits until all clients but its own are gone."""
        if self.server.count is None:
            self.server.waits_for("1 of 64: 0")
        else:
            time.sleep(5 * PAUSE)

    def syncs(self):
        return syncs_in(self.trace, self.server.image)

    def write_in_place(self):
        """Leaves data that the next commit has to sync, once."""
        self.client.do(WRITE, FIRST * BLOCK, data=b"w" * 4096)


def syncs_in(trace, image):
    """How many syncs of an image have ended so far."""
    calls = [it for it in spans(trace) if it.on == image]
    return sum(it.name in SYNCS and it.result == 0 for it in calls)


@contextlib.contextmanager
def served(ground, image, is_run, before=()):
    """A server of a copy of an image, which must be clean after the server is killed."""
    copied = ground.copy("commits.img", image)
    if is_run:
        server = ground.stays(copied, is_controlled=True, over="unix", before=before)
    else:
        server = ground.serve(copied, CLIENTS, is_controlled=True, before=before)
    try:
        yield server
    finally:
        server.kill()
        wait_until_unlocked(copied)
    ground.want_clean(copied)


def wait_until_unlocked(image):
    """Waits until a killed server has ended: it may end later than its strace."""
    with open(image, "rb") as file:
        for _ in range(100 * LIMIT):
            with contextlib.suppress(BlockingIOError):
                fcntl.flock(file, fcntl.LOCK_SH | fcntl.LOCK_NB)
                return
            time.sleep(0.01)
    raise Stuck("a killed server holds its lock")


@contextlib.contextmanager
def staged(ground, image, is_run):
    trace = ground.path("commits.trace")
    with served(ground, image, is_run, strace(trace, ",".join(SYNCS), ["--seccomp-bpf"])) as server:
        yield Stage(server, trace)


def send_cut(client, data, *places):
    """Sends data in pieces that end at these places. The server reads each piece by itself.

    A server collects the first frame of a piece before it acts on it. Therefore the first piece
    must begin with a whole frame, as `AHEAD` is."""
    for first, last in zip((0, *places), (*places, len(data))):
        client.send(data[first:last])
        wait_until_read(client)


def send_behind(client, data, *places):
    """Sends `AHEAD` and data that is cut at these places."""
    send_cut(client, AHEAD + data, *(len(AHEAD) + it for it in places))


def wait_until_read(client):
    if client.holds[0].family.name != "AF_UNIX":
        time.sleep(PAUSE)
        return
    end = time.monotonic() + LIMIT
    while any(fcntl.ioctl(client.writes, UNREAD, bytes(4))):
        if time.monotonic() > end:
            raise Stuck("a piece is not read")
        time.sleep(0.001)


def errors_of(client, count):
    """The errors of so many answers without data."""
    return [struct.unpack(">IIQ", client.receive(16))[1] for _ in range(count)]


def odd_write(block, length, flags=0):
    return request(WRITE, block * BLOCK, data=ODD * length, flags=flags, cookie=COOKIE)


def want_done(client, count):
    errors = errors_of(client, count)
    want((not any(errors), f"they are answered {errors}"))
