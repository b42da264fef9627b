"""Clients that ask where a volume has data, and copy that alone."""
import json
import os
import re
import time
from functools import partial

from client_cases.hosts import BLOCKS, PYTHON, VOLUME, Host, done, mapped, qemu_io, want_same, wants, wants_libnbd
from running import MIB, run, want

USER = os.path.join(os.path.dirname(os.path.abspath(__file__)), "status_user.py")


def sparse_unix(ground):
    """`run` at a socket file: structured replies and block status"""
    yield from sparse(ground, "unix")


def sparse_tcp(ground):
    """the same at loopback"""
    yield from sparse(ground, "tcp")


def sparse(ground, over):
    host = Host(ground, over)
    for name, case in CASES:
        yield f"{over}: {name}", partial(case, host)


def written(host, name, parts):
    """A file with random bytes at these MiB, and holes between them."""
    path = host.ground.path(name)
    with open(path, "wb") as file:
        file.truncate(VOLUME)
        for at in parts:
            file.seek(at * MIB)
            file.write(os.urandom(MIB))
    return path


def against_a_plain_map(host):
    """libnbd writes, trims and zeroes at random, and asks where there is data, beside a plain map of the volume."""
    wants_libnbd()
    with host.up(host.pool()) as server:
        ran = run([PYTHON, USER, server.uri("0"), str(BLOCKS)])
        want((ran.status == 0, f"status_user: {ran.told()}"))
        return ran.out.decode().strip()


def strict_has_none(host):
    """`serve` has no structured replies and no contexts."""
    wants("nbdinfo")
    plain = Host(host.ground, "serve")
    with plain.up(plain.pool()) as server:
        told = done("nbdinfo", server.uri("0"))
        want(("structured" not in told, told))
        ran = run(["nbdinfo", "--map", server.uri("0")])
        want((ran.status != 0 and b"base:allocation" in ran.err, ran.told()))


def extents_of(uri):
    """The extents that nbdinfo prints: offset, length, and whether there is data."""
    lines = done("nbdinfo", "--map", uri).splitlines()
    return [(int(it[0]), int(it[1]), it[2] == "0") for it in (line.split() for line in lines)]


def tells_a_map(host):
    """Of a file that was copied into a volume, and of the snapshot that was taken before it was written again."""
    parts = (3, 4, VOLUME // MIB - 2)
    file = written(host, "some.raw", parts)
    image = host.pool()
    with host.up(image) as server:
        done("nbdcopy", "--flush", file, server.uri("0"))
        want((server.control("create_snap 2 0") == "ok", "no snapshot"))
        qemu_io(server.uri("0"), "write -P 1 0 64k")
        kept = [(3 * MIB, 2 * MIB), (VOLUME - 2 * MIB, MIB)]
        want((data_of(server.uri("2")) == kept, f"the snapshot has data at {data_of(server.uri('2'))}"))
        want((data_of(server.uri("0")) == [(0, 65536), *kept], f"the volume has data at {data_of(server.uri('0'))}"))
        shown = json.loads(done("qemu-img", "map", "--output=json", "-f", "raw", server.uri("2")))
        told = [(it["start"], it["length"]) for it in shown if it["data"]]
        want((told == kept, f"qemu-img map: {told}"))


def data_of(uri):
    return [(at, length) for at, length, is_data in extents_of(uri) if is_data]


def with_bitmap(place, name, context):
    """The words by which qemu-img takes a context for a dirty bitmap."""
    host = f"server.type=unix,server.path={place.path}" if place.path else f"server.type=inet,server.host=127.0.0.1,server.port={place.port}"
    return f"driver=nbd,{host},export={name},x-dirty-bitmap={context}"


def tells_changes(host):
    """Of a volume that was written and trimmed behind its snapshot; and of no snapshot that there is not."""
    file = written(host, "since.raw", (1, 6))
    with host.up(host.pool()) as server:
        done("nbdcopy", "--flush", "--destination-is-zero", file, server.uri("0"))
        want((server.control("create_snap 2 0") == "ok", "no snapshot"))
        qemu_io(server.uri("0"), "write -P 1 64k 64k", "write -z -u 6M 128k")
        wanted = [(65536, 65536), (6 * MIB, 131072)]
        lines = [it.split() for it in done("nbdinfo", "--map=thinpool:since:2", server.uri("0")).splitlines()]
        told = [(int(it[0]), int(it[1])) for it in lines if it[2] == "1"]
        want((told == wanted, f"nbdinfo: {told}"))
        shown = json.loads(done("qemu-img", "map", "--output=json", "--image-opts", with_bitmap(server.place, "0", "thinpool:since:2")))
        other = [(it["start"], it["length"]) for it in shown if not it["data"]]
        want((other == wanted, f"qemu-img map: {other}"))
        ran = run(["nbdinfo", "--map=thinpool:since:9", server.uri("0")])
        want((ran.status != 0, ran.told()))


def bytes_out(server):
    """How many bytes clients were sent, as the server tells once all of them have gone."""
    for _ in range(100):
        told = server.told()
        if told.count(" connected to ") == told.count(" disconnected: "):
            return sum(int(it) for it in re.findall(r"(\d+) bytes out", told))
        time.sleep(0.1)
    raise AssertionError("a client has not gone")


def reads_what_is_mapped(host):
    """nbdcopy and qemu-img copy a volume with 3 MiB of data, and read that and 1 % more at most."""
    wants("nbdcopy", "qemu-img")
    file, back = written(host, "three.raw", (1, 9, 10)), host.ground.path("back.raw")
    told = []
    for words in (["nbdcopy", None, back], ["qemu-img", "convert", "-f", "raw", "-O", "raw", None, back]):
        with host.up(host.pool()) as server:
            done("nbdcopy", "--flush", "--destination-is-zero", file, server.uri("0"))
            before = bytes_out(server)
            done(*[it or server.uri("0") for it in words])
            read = bytes_out(server) - before
        want((3 * MIB <= read <= 3 * MIB * 101 // 100, f"{words[0]} was sent {read} bytes"))
        want_same(file, back)
        os.unlink(back)
        told.append(f"{words[0]} {read / 3 / MIB:.4f}")
    return "sent, of the mapped bytes: " + ", ".join(told)


def copies_between_volumes(host):
    """qemu-img and nbdcopy copy one volume to another, holes as holes."""
    file = written(host, "holes.raw", (0, 2, 5))
    with host.up(host.pool()) as server:
        done("nbdcopy", "--flush", file, server.uri("0"))
        for at, words in enumerate((["qemu-img", "convert", "-n", "--target-is-zero", "-f", "raw", "-O", "raw"], ["nbdcopy", "--flush"])):
            target = str(at + 1)
            if at:
                want((server.control(f"create_thin {target}") == "ok", "no volume"))
            done(*words, server.uri("0"), server.uri(target))
            done("qemu-img", "compare", "-f", "raw", "-F", "raw", server.uri("0"), server.uri(target))
            want((extents_of(server.uri("0")) == extents_of(server.uri(target)), f"{words[0]}: {extents_of(server.uri(target))}"))
            used = mapped(server.control("status"))
            want((used == (at + 2) * 3 * 16, f"{words[0]}: {used} blocks are mapped"))


def keeps_holes_of_the_image(host):
    """4 KiB are written to 256 new blocks of 64 KiB, and the file has 16 KiB for each at most."""
    image = host.pool()
    with host.up(image) as server:
        qemu_io(server.uri("0"), "write -P 1 0 64k", "flush")
        before = os.stat(image).st_blocks
        qemu_io(server.uri("0"), *(f"write -P 2 {at * 65536 + 20480} 4k" for at in range(1, 257)), "flush")
        kib = (os.stat(image).st_blocks - before) // 2
        want((kib <= 256 * 16, f"the file has grown by {kib} KiB"))
        qemu_io(server.uri("0"), *(f"read -P {byte} {at} {size}" for at, byte, size in around(256)))
        return f"{kib} KiB for 256 blocks"


def around(block):
    """What a block holds of which 4 KiB were written: offsets, bytes and lengths."""
    at = block * 65536
    return (at, 0, 20480), (at + 20480, 2, 4096), (at + 24576, 0, 40960)


def reads_no_deleted_bytes(host):
    """All data blocks were written, half of them are deleted with their volume, and a new volume gets these."""
    with host.up(host.pool()) as server:
        for volume in "01":
            qemu_io(server.uri(volume), "write -P 97 0 64M", "flush")
        for line in ("delete 1", "create_thin 1"):
            want((server.control(line) == "ok", line))
        qemu_io(server.uri("1"), *(f"write -P 2 {at * 65536 + 20480} 4k" for at in range(0, BLOCKS, 8)))
        qemu_io(server.uri("1"), *(f"read -P {byte} {at} {size}" for block in range(0, BLOCKS, 8) for at, byte, size in around(block)))


CASES = [
    ("libnbd asks where there is data, beside a plain map", against_a_plain_map),
    ("a strict server has no structured replies", strict_has_none),
    ("nbdinfo and qemu-img print the map of a volume and of a snapshot", tells_a_map),
    ("nbdinfo and qemu-img print what may differ from a snapshot", tells_changes),
    ("nbdcopy and qemu-img read what is mapped alone", reads_what_is_mapped),
    ("one volume is copied to another with its holes", copies_between_volumes),
    ("a first write leaves holes in the image", keeps_holes_of_the_image),
    ("a new volume has no bytes of a deleted one", reads_no_deleted_bytes),
]
