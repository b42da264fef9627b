"""A user of python3-libnbd with 16 requests in flight: libnbd_user.py URI. Runs under the Python that has the module."""
import sys

import nbd


def main(uri):
    h = nbd.NBD()
    h.connect_uri(uri)
    assert h.can_flush() and h.can_fua() and h.can_trim() and h.can_zero() and not h.is_read_only()
    parts = [bytes([n + 1]) * 65536 for n in range(16)]
    waits = [h.aio_pwrite(nbd.Buffer.from_bytearray(bytearray(part)), 65536 * n) for n, part in enumerate(parts)]
    while h.aio_in_flight() > 0:
        h.poll(-1)
    for it in waits:
        assert h.aio_command_completed(it)
    h.trim(65536, 65536)
    h.zero(512, 2 * 65536)
    h.pwrite(b"!" * 512, 3 * 65536, nbd.CMD_FLAG_FUA)
    h.flush()
    found = h.pread(4 * 65536, 0)
    assert found == parts[0] + bytes(65536) + bytes(512) + parts[2][512:] + b"!" * 512 + parts[3][512:]
    try:
        h.pread(512, h.get_size())
    except nbd.Error:
        h.shutdown()
        return
    raise AssertionError("a read behind the end")


if __name__ == "__main__":
    main(sys.argv[1])
