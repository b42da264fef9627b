"""readers.py PORT COUNT DEPTH BLOCK: so many clients of a server on loopback that READ a block of volume 0 without end, each with so many READs of 4 KiB asked. It says `reading` once all do."""
import os
import select
import sys

sys.dont_write_bytecode = True
sys.path.append(os.path.dirname(os.path.dirname(os.path.realpath(__file__))))
from running import BLOCK, MIB, READ, Client, request

SIZE = 4096
# An answer has 16 bytes ahead of what is read.
ANSWER = 16 + SIZE


class Reader:
    """One client. The bytes of answers that are not complete are counted."""

    def __init__(self, port, depth, block):
        self.client, self.part = Client.at(port).go(), 0
        self.asks = request(READ, block * BLOCK, SIZE)
        self.client.send(self.asks * depth)

    def goes_on(self):
        """Takes what has come, and asks once more for each answer."""
        data = os.read(self.client.reads, MIB)
        if not data:
            sys.exit("the server is gone")
        count, self.part = divmod(self.part + len(data), ANSWER)
        if count:
            self.client.send(self.asks * count)


def main(port, count, depth, block):
    readers = {it.client.reads: it for it in (Reader(port, depth, block) for _ in range(count))}
    print("reading", flush=True)
    while True:
        for it in select.select(readers, [], [])[0]:
            readers[it].goes_on()


main(*map(int, sys.argv[1:]))
