"""A user of python3-libnbd who keeps a plain map of a volume: status_user.py URI BLOCKS. Runs under the Python that has the module."""
import os
import random
import sys

import nbd

BLOCK = 65536


class Plain:
    """A volume as bytes, and which of its blocks have data."""

    def __init__(self, blocks):
        self.bytes, self.mapped = bytearray(blocks * BLOCK), set()

    def touched(self, at, length):
        return range(at // BLOCK, (at + length - 1) // BLOCK + 1)

    def write(self, at, data):
        self.bytes[at:at + len(data)] = data
        self.mapped.update(self.touched(at, len(data)))

    def trim(self, at, length):
        for block in range(-(-at // BLOCK), (at + length) // BLOCK):
            self.mapped.discard(block)
            self.bytes[block * BLOCK:(block + 1) * BLOCK] = bytes(BLOCK)

    def zero(self, at, length, no_hole):
        self.bytes[at:at + length] = bytes(length)
        if no_hole:
            self.mapped.update(self.touched(at, length))
        else:
            self.trim(at, length)

    def extents(self, at, length):
        """Where there is data from one byte up to another."""
        found, end = [], at + length
        while at < end:
            has_data, upto = at // BLOCK in self.mapped, at
            while upto < end and (upto // BLOCK in self.mapped) == has_data:
                upto = min(end, (upto // BLOCK + 1) * BLOCK)
            found.append((upto - at, 0 if has_data else 3))
            at = upto
        return found


    def chunks(self, at, length, is_one):
        """How a READ of at most 1 MiB is answered: where each chunk begins, the bytes that it stands for, and 1 for data or 2 for a hole."""
        found = self.extents(at, length)
        data = [i for i, (_, flags) in enumerate(found) if flags == 0]
        if len(data) > 7:
            found[data[7]:] = [(sum(it for it, _ in found[data[7]:]), 0)]
        sent = sum(32 if flags else 28 + it for it, flags in found)
        if length < BLOCK or sent > length or is_one and len(found) > 1:
            found = [(length, 0)]
        chunks = []
        for size, flags in found:
            chunks.append((at, bytes(self.bytes[at:at + size]), 2 if flags else 1))
            at += size
        return chunks


def joined(extents):
    found = []
    for length, flags in extents:
        if found and found[-1][1] == flags:
            found[-1] = (found[-1][0] + length, flags)
        else:
            found.append((length, flags))
    return found


class Asker:
    def __init__(self, uri):
        self.h = nbd.NBD()
        self.h.add_meta_context("base:allocation")
        self.h.connect_uri(uri)
        assert self.h.get_structured_replies_negotiated() and self.h.can_df() and self.h.can_meta_context("base:allocation")
        self.calls = 0

    def once(self, at, length, flags=0):
        found = []

        def note(context, offset, entries, _error):
            assert (context, offset) == ("base:allocation", at)
            found.extend(zip(entries[::2], entries[1::2]))
            return 0

        self.h.block_status(length, at, note, flags)
        self.calls += 1
        assert 0 < sum(it for it, _ in found) <= length and all(it % 512 == 0 and it for it, _ in found), found
        return found

    def whole(self, at, length):
        found, end = [], at + length
        while at < end:
            more = self.once(at, end - at)
            found += more
            at += sum(it for it, _ in more)
        return joined(found)


def chunks_of(h, at, length, flags):
    found = []
    h.pread_structured(length, at, lambda data, offset, status, _error: found.append((offset, bytes(data), status)) or 0, flags)
    return found


def main(uri, blocks):
    asker, plain = Asker(uri), Plain(blocks)
    h, size = asker.h, blocks * BLOCK
    random.seed(7)
    for _ in range(600):
        at, length = random.randrange(size // 512) * 512, random.choice((512, 4096, 65536, 200_704))
        length = min(length, size - at)
        way = random.randrange(6)
        if way < 2:
            data = os.urandom(length)
            h.pwrite(data, at)
            plain.write(at, data)
        elif way < 4:
            h.trim(length, at)
            plain.trim(at, length)
        else:
            h.zero(length, at, nbd.CMD_FLAG_NO_HOLE if way == 4 else 0)
            plain.zero(at, length, way == 4)
        at = random.randrange(size // 512) * 512
        length = random.randrange(1, (size - at) // 512 + 1) * 512
        assert asker.whole(at, length) == joined(plain.extents(at, length))
        one = asker.once(at, length, nbd.CMD_FLAG_REQ_ONE)
        assert len(one) == 1 and one[0][1] == plain.extents(at, length)[0][1] and one[0][0] <= plain.extents(at, length)[0][0]
    assert asker.whole(0, size) == joined(plain.extents(0, size))
    reads = [(at, 1 << 20) for at in range(0, size, 1 << 20)]
    for length in (512, 65024, 65536, 66048, 131_072, 200_704, 1_048_064):
        reads += [(random.randrange((size - length) // 512 + 1) * 512, length) for _ in range(40)]
    for at, length in reads:
        for flags in (0, nbd.CMD_FLAG_DF):
            assert chunks_of(h, at, length, flags) == plain.chunks(at, length, flags != 0), (at, length, flags)
    h.set_strict_mode(0)
    for asks in (lambda: asker.once(size, 512), lambda: asker.once(0, 0), lambda: asker.once(1, 512), lambda: asker.once(0, 512, nbd.CMD_FLAG_FUA | 2), lambda: h.pread(512, size)):
        try:
            asks()
        except nbd.Error as error:
            assert error.errno == "EINVAL", error
        else:
            raise AssertionError("it was answered")
    h.shutdown()
    print(f"{asker.calls} answers")


if __name__ == "__main__":
    main(sys.argv[1], int(sys.argv[2]))
