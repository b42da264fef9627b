"""What a client wrote to a volume, and what a volume may have after its server was killed."""
import random
import struct

from running import BLOCK, FLUSH, READ, WRITE, request, want

UNIT, SECTOR = 4096, 512
# How many blocks are written. Each begins a data block of the volume.
UNITS = 256
HEAD = struct.Struct("<QQ")


def block_of(at, stamp):
    """The bytes of a block: each sector has the number of the block and this stamp."""
    return HEAD.pack(at, stamp) * (UNIT // HEAD.size)


class Journal:
    """For each block the stamp that the last answered FLUSH covers, and those written since."""

    def __init__(self, seed):
        self.flushed, self.later = [0] * UNITS, [[] for _ in range(UNITS)]
        self.random, self.stamp, self.covered = random.Random(seed), 0, 0

    def next_write(self):
        """The bytes of a request that writes a block at random."""
        at = self.random.randrange(UNITS)
        self.stamp += 1
        self.later[at].append(self.stamp)
        return request(WRITE, at * BLOCK, data=block_of(at, self.stamp))

    def write(self, client):
        """The error that a WRITE is answered."""
        client.send(self.next_write())
        return answer(client)

    def flush(self, client):
        """The error that a FLUSH is answered. All WRITEs were answered before it."""
        error, _ = client.ask(FLUSH)
        if not error:
            for at, stamps in enumerate(self.later):
                if stamps:
                    self.covered += 1
                    self.flushed[at], self.later[at] = stamps[-1], []
        return error

    def work(self, client, writes):
        """So many WRITEs, with a FLUSH after each 4 to 8. All must succeed."""
        left = self.random.randint(4, 8)
        for _ in range(writes):
            error = self.write(client)
            left -= 1
            if not error and not left:
                error, left = self.flush(client), self.random.randint(4, 8)
            want((error == 0, f"a request is answered {error}"))

    def compare(self, client):
        """Fails with the sectors that have neither their flushed stamp nor a later one, and takes
        the others as they are."""
        lost = []
        for at in range(UNITS):
            data = client.do(READ, at * BLOCK, UNIT)
            stamps = {sector_of(data[it : it + SECTOR], at) for it in range(0, UNIT, SECTOR)}
            if not stamps <= {self.flushed[at], *self.later[at]}:
                lost.append((at, self.flushed[at], sorted(map(str, stamps))))
            elif len(stamps) == 1:
                self.flushed[at], self.later[at] = stamps.pop(), []
        want((not lost, f"{len(lost)} blocks are lost; block, stamp flushed and found: {lost[:4]}"))


def answer(client):
    """The error of the next reply, which has no data."""
    return struct.unpack(">IIQ", client.receive(16))[1]


def sector_of(data, at):
    """The stamp of a sector of this block, 0 for zeros, or None."""
    if not any(data):
        return 0
    found, stamp = HEAD.unpack(data[:HEAD.size])
    return stamp if found == at and data == HEAD.pack(at, stamp) * (SECTOR // HEAD.size) else None
