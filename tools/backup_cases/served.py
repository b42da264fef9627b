"""Copies of a volume while it is served and written."""
import contextlib
import random
import threading
from functools import partial

from backup_cases.history import BLOCKS, SIZE, SNAPSHOTS, change, extents
from client_cases.hosts import wants
from running import BLOCK, MIB, READ, WRITE, run, want

# Requests between two snapshots, beside those of the client that never stops.
CHANGES = 60
# A pool of which each page is full: every second block is mapped.
STRIPED = range(0, BLOCKS, 2)


def served(ground):
    """the same while `run` serves the volume and a client writes it"""
    yield "size, map and delta, page by page, are the listings of the image", partial(pages, ground)
    for seed in (1, 2):
        yield f"a full copy and three of what changed, history {seed}", partial(chain, ground, seed)
    yield "delta --at: what it refuses", partial(refusals, ground)


@contextlib.contextmanager
def up(ground, name):
    """A server of a new pool, and its image."""
    image = ground.fresh(name, BLOCKS, 8 * BLOCKS, volumes=1)
    server = ground.stays(image, is_controlled=True, over="unix")
    try:
        yield server, image
        server.finish()
    finally:
        server.kill()


def paged(server, line):
    """The runs of all pages that control lines answer, joined where they meet, and how many pages they were."""
    runs, at, count = [], 0, 0
    while True:
        *told, last = server.control(f"{line} {at}").split(" ")
        if last != "end":
            want((told and told.pop() == "next", f"{line} {at}: {last}"), (int(last) > at, f"{line} {at} goes on at {last}"))
        count += 1
        want((len(told) <= 7, f"{line} {at}: {len(told)} runs"))
        for first, length in (map(int, it.split("+")) for it in told):
            if runs and sum(runs[-1]) == first:
                runs[-1] = (runs[-1][0], runs[-1][1] + length)
            else:
                runs.append((first, length))
        if last == "end":
            return runs, count
        at = int(last)


def pages(ground):
    told = []
    with up(ground, "paged.img") as (server, image):
        client = server.client()
        for block in STRIPED:
            client.do(WRITE, block * BLOCK, data=b"s" * 512)
        server.asked("create_snap 1 0")
        for block in range(3, 9):
            client.do(WRITE, block * BLOCK, data=b"t" * 512)
        server.asked("create_snap 2 0")
        want((server.control("size 2") == f"{SIZE} {BLOCK}", f"size 2: {server.control('size 2')}"))
        for line in ("map 1", "map 2", "delta 1 2", "delta 2 1", "delta 1 1"):
            told.append((line, *paged(server, line)))
        at = ground.made("delta", "--at", str(server.ruler), "1", "2").out
        in_json = ground.made("delta", "--at", str(server.ruler), "1", "2", "--json").out
        client.leave()
    for line, runs, _ in told:
        words = line.split()
        found = extents(ground, words[0], image, *words[1:])
        want((runs == [it[:2] for it in found if not it[2]], f"{line} is answered {runs}"))
    want((at == ground.made("delta", image, "1", "2").out, f"delta --at prints {at!r}"))
    want((in_json == ground.made("delta", image, "1", "2", "--json").out, f"delta --at prints {in_json!r}"))
    return ", ".join(f"{line}: {count} pages" for line, _, count in told)


class Writer(threading.Thread):
    """A client that writes volume 0 at random until it is told to leave."""

    def __init__(self, server, seed):
        super().__init__()
        self.client, self.rng, self.is_over, self.count, self.wrong = server.client(), random.Random(seed), threading.Event(), 0, None
        self.start()

    def run(self):
        try:
            while not self.is_over.is_set():
                at = self.rng.randrange(0, SIZE - 4096 + 1, 512)
                self.client.do(WRITE, at, data=self.rng.randbytes(4096))
                self.count += 1
            self.client.leave()
        except Exception as error:  # it is told by who waits for this thread
            self.wrong = error

    def end(self):
        self.is_over.set()
        self.join()
        want((self.wrong is None, f"the writer failed: {self.wrong!r}"), (self.count > 0, "nothing was written meanwhile"))


def whole(server, number):
    """All bytes of a volume."""
    client = server.client(str(number))
    data = b"".join(client.do(READ, at, MIB) for at in range(0, SIZE, MIB))
    client.leave()
    return data


def copied(ground, server, number, listed, to, base=None):
    """Copies what is listed of a volume, by nbdkit and qemu-img, over what it is based on."""
    based = f"-B {base} -F qcow2 " if base else ""
    words = ["nbdkit", "-U", "-", "-r", "--filter=extentlist", "nbd", f"uri={server.uri(str(number))}", f"extentlist={listed}"]
    ran = run([*words, "--run", f"qemu-img convert -f raw -O qcow2 {based}\"$uri\" {to}"])
    want((ran.status == 0, ran.told()))


def restored(ground, file):
    raw = ground.path("restored.raw")
    ran = run(["qemu-img", "convert", "-O", "raw", file, raw])
    want((ran.status == 0, ran.told()))
    with open(raw, "rb") as bytes_of:
        return bytes_of.read()


def chain(ground, seed):
    wants("nbdkit")
    wants("qemu-img")
    rng, before, number_before = random.Random(seed), None, None
    listed = ground.path("listed.txt")
    with up(ground, f"served-{seed}.img") as (server, _):
        writer, client = Writer(server, seed), server.client()
        for number in SNAPSHOTS:
            for _ in range(CHANGES):
                client.send(change(rng))
                want((client.receive(16)[4:8] == bytes(4), "a change is refused"))
            server.asked(f"create_snap {number} 0")
            with open(listed, "wb") as file:
                if before:
                    file.write(ground.made("delta", "--at", str(server.ruler), str(number_before), str(number)).out)
                else:
                    runs, _ = paged(server, f"map {number}")
                    file.write(b"".join(b"%d %d\n" % it for it in runs))
            to = ground.path(f"served-{seed}-{number}.qcow2")
            copied(ground, server, number, listed, to, before)
            want((restored(ground, to) == whole(server, number), f"{number} is restored with other bytes"))
            before, number_before = to, number
        writer.end()
        client.leave()
    return f"{writer.count} writes meanwhile"


def refusals(ground):
    with up(ground, "refused.img") as (server, image):
        at = str(server.ruler)
        for words, status, told in (
            ((at, "0", "7"), 1, b"thinpool: 15 NoSuchDevice\n"),
            ((at, "7", "0"), 1, b"thinpool: 15 NoSuchDevice\n"),
            ((at, "0", "16777216"), 1, b"thinpool: 13 BadDeviceId\n"),
            ((f"unix:{ground.path('nobody.sock')}", "0", "0"), 1, b"thinpool: 5 Fault\n"),
        ):
            ran = ground.run("delta", "--at", *words)
            want(((ran.status, ran.out, ran.err) == (status, b"", told), f"delta --at {' '.join(words)}: {ran.told()}"))
        for line in ("map 0", "map 0 16777216", "map 7 0", "delta 0 0", "delta 0 7 0", "size", "size 7", "size 0 0", "map 00 0"):
            want((server.control(line).startswith("refused "), f"{line} is answered {server.control(line)!r}"))
        want((server.control("map 0 0") == "end", server.control("map 0 0")))
