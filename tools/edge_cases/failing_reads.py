"""READs whose disk read fails, by strace, which makes it fail and counts how often it is made."""
import contextlib
import re
import shutil
import threading
from functools import partial

from edge_cases.shared_syncs import attached
from edge_cases.staging import CLIENTS, COUNT, FIRST, NBD_EIO, UNMAPPED, mapped_image
from running import BLOCK, FLUSH, READ, WRITE, Failed, Skipped, held, want

READS = "pread64"
# The end of a line of the trace: the length, the place, and the result.
READ_LINE = re.compile(r", (\d+), (\d+)\) += (-?\d+)")
# Clients that READ at a time, how many READs each makes, and which read of each thread fails.
READERS, ASKED, FAILS = 4, 40, 9


def failing_reads(ground):
    """READs whose disk read fails are answered NBD_EIO without a second one; others go on"""
    if not shutil.which("strace"):
        raise Skipped("strace is not installed")
    image = mapped_image(ground)
    for is_run in (True, False):
        how = "run" if is_run else "serve"
        for name, case in CASES:
            yield f"{how}: {name}", partial(case, ground, image, is_run)


@contextlib.contextmanager
def served(ground, image, is_run):
    """A server, a client of it, and the place of each mapped block in the image.

    All metadata that a READ of these blocks needs is in the server's cache."""
    copied = ground.copy("failing.img", image)
    if is_run:
        server = ground.stays(copied, is_controlled=True, over="unix")
    else:
        server = ground.serve(copied, CLIENTS, is_controlled=True)
    try:
        client = server.client()
        for it in range(COUNT):
            client.do(WRITE, (FIRST + it) * BLOCK, data=data_of(it))
        client.do(FLUSH)
        want_good(server, client)
        yield server, client, [place_of(server, data_of(it)) for it in range(COUNT)]
    finally:
        server.kill()
    ground.want_clean(copied)


def reads_in(trace):
    """The place and the result of each read of the system."""
    with open(trace, encoding="utf-8", errors="replace") as lines:
        found = [READ_LINE.search(it) for it in lines if READS in it]
    return [(int(it[2]), int(it[3])) for it in found if it]


def data_of(number):
    """What the first 4096 bytes of a mapped block hold, which no other one does."""
    return b"%04d" % number * 1024


def read(client, number):
    """The error of a READ of a mapped block, and the bytes."""
    return client.ask(READ, (FIRST + number) * BLOCK, 4096)


def want_good(server, client):
    """Wants the pool to serve all blocks."""
    wrong = [it for it in range(COUNT) if read(client, it) != (0, data_of(it))]
    status = server.control("status")
    want((not wrong, f"blocks {wrong} are not read"), (" rw " in status, f"its status is {status}"))


def is_read_once(injected, ground, image, is_run):
    trace = ground.path("reads.trace")
    with served(ground, image, is_run) as (server, client, places):
        with attached(ground, server.process, injected, READS, trace):
            error = read(client, 0)[0]
        want_good(server, client)
    want_once(trace, places[0], error)


def want_once(trace, place, error):
    """Wants the system to be asked once for what is at a place, in vain, and the READ to fail."""
    made = [result for at, result in reads_in(trace) if at == place]
    text = f"the results of the disk reads at its place are {made}"
    want((error == NBD_EIO, f"it is answered {error}"), (made == [-1], text))


def second_is_read_once(ground, image, is_run):
    """The second block of the volume is mapped first, so the two are no run in the file."""
    trace, parts = ground.path("reads.trace"), [letter * BLOCK for letter in (b"y", b"z")]
    with served(ground, image, is_run) as (server, client, _):
        for it in (1, 0):
            client.do(WRITE, (UNMAPPED + it) * BLOCK, data=parts[it])
        client.do(FLUSH)
        found, place = client.do(READ, UNMAPPED * BLOCK, 2 * BLOCK), place_of(server, parts[1])
        want((found == b"".join(parts), "the two blocks hold something else"))
        with attached(ground, server.process, "error=EIO:when=2", READS, trace):
            error = client.ask(READ, UNMAPPED * BLOCK, 2 * BLOCK)[0]
        want_good(server, client)
    want_once(trace, place, error)


def place_of(server, data):
    """The byte of the image at which data is."""
    return held(server.image).index(data)


def others_go_on(ground, image, is_run):
    with served(ground, image, is_run) as (server, client, _):
        second = server.client()
        with attached(ground, server.process, "error=EIO", READS):
            errors = [read(client, 0)[0] for _ in range(3)]
            wrote = second.ask(WRITE, (FIRST + 1) * BLOCK, data=data_of(1))[0]
            flushed = second.ask(FLUSH)[0]
        want_good(server, second)
    text = f"WRITE and FLUSH of another client are answered {wrote} and {flushed}"
    want(
        (errors == [NBD_EIO] * 3, f"the READs are answered {errors}"), (wrote == flushed == 0, text)
    )


class Reader(threading.Thread):
    """A client that READs blocks of its own, and the errors that it is answered."""

    def __init__(self, server, number):
        super().__init__()
        self.client, self.number, self.errors = server.client(), number, []

    def run(self):
        for at in range(ASKED):
            block = self.number + READERS * (at % (COUNT // READERS))
            error, data = read(self.client, block)
            if not error and data != data_of(block):
                error = f"other bytes of block {block}"
            self.errors.append(error)


def each_has_its_own(ground, image, is_run):
    """One disk read of each thread of the server fails."""
    trace = ground.path("reads.trace")
    with served(ground, image, is_run) as (server, client, places):
        readers = [Reader(server, it) for it in range(READERS)]
        with attached(ground, server.process, f"error=EIO:when={FAILS}", READS, trace):
            for it in readers:
                it.start()
            for it in readers:
                it.join()
        want_good(server, client)
    failed = sorted(place for place, result in reads_in(trace) if result < 0)
    answered = [[error for error in it.errors if error] for it in readers]
    lacks = [it.number for it in readers if len(it.errors) < ASKED]
    if lacks:
        raise Failed(f"readers {lacks} were not answered to the end")
    owners = [places.index(place) % READERS for place in failed]
    wanted = [[NBD_EIO] * owners.count(it) for it in range(READERS)]
    text = f"the readers are answered {answered}; disk reads failed for {owners}"
    want((failed, "no disk read failed"), (answered == wanted, text))


CASES = [
    ("a READ whose disk read fails once", partial(is_read_once, "error=EIO:when=1")),
    ("a READ whose disk reads all fail", partial(is_read_once, "error=EIO")),
    ("a READ whose second disk read fails", second_is_read_once),
    ("another client's WRITE and FLUSH while disk reads fail", others_go_on),
    ("several clients, each with a disk read that fails", each_has_its_own),
]
