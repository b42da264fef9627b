"""Clients of other makers, each of whom has to find in a volume what it wrote there."""
import os
import re
import subprocess
from functools import partial

from client_cases.hosts import (BLOCKS, PYTHON, VOLUME, Files, Host, done, fio_is_there, mapped, qemu_io, refused, want_same, wants, wants_libnbd, write_parts)
from running import MIB, end_of, run, start, want


def serve(ground):
    """clients of other makers of `serve`, which refuses requests of more than 1 MiB"""
    yield from stock(ground, "serve")


def run_unix(ground):
    """the same of `run` at a socket file, which takes long requests"""
    yield from stock(ground, "unix")


def run_tcp(ground):
    """the same of `run` at loopback"""
    yield from stock(ground, "tcp")


def stock(ground, over):
    host, files = Host(ground, over), Files(ground)
    for name, case in CASES:
        yield f"{over}: {name}", partial(case, host, files)
    yield f"{over}: a volume of 128 MiB with ext4 on it grows to 256 MiB, and the file system with it", partial(grows, host)


def tells_sizes(host, _):
    with host.up(host.pool()) as server:
        want((done("nbdinfo", "--size", server.uri("0")).strip() == str(VOLUME), "another size"))


def lists(host, _):
    with host.up(host.pool()) as server:
        told = done("nbdinfo", "--list", server.uri())
        want((re.findall(r'export="(.*)":', told) == ["0", "1"], f"nbdinfo --list prints {told!r}"))


def is_refused_without_a_name(host, _):
    with host.up(host.pool()) as server:
        refused("No such file", "nbdinfo", server.uri())


def tells_of_connections(host, _):
    with host.up(host.pool()) as server:
        wants("nbdinfo")
        # 2 is 'no'.
        status = run(["nbdinfo", "--can", "multi-conn", server.uri("0")]).status
        want((status == (0 if host.is_extended else 2), f"nbdinfo --can multi-conn ends with {status}"))


def nbdcopy_both_ways(host, files):
    with host.up(host.pool()) as server:
        there_and_back(server.uri("0"), files.random, files.back)


def there_and_back(uri, file, back, *more, length=VOLUME):
    done("nbdcopy", "--flush", *more, file, uri)
    done("nbdcopy", uri, back)
    want_same(file, back, length)


def copies_a_snapshot(host, files):
    image = host.pool()
    with host.up(image) as server:
        done("nbdcopy", "--flush", files.random, server.uri("0"))
    host.ground.made("message", image, "create_snap 2 0")
    zeros = host.ground.path("zeros.raw")
    with open(zeros, "wb") as file:
        file.write(bytes(VOLUME))
    with host.up(image) as server:
        writer = start(["nbdcopy", "--flush", zeros, server.uri("0")])
        done("nbdcopy", server.uri("2"), files.back)
        want_same(files.random, files.back)
        status = end_of(writer)
        want((status == 0, f"the writer ended with {status}"))
        done("nbdcopy", server.uri("0"), files.back)
        want_same(zeros, files.back)


def copies_short_holes(host, files):
    with host.up(host.pool()) as server:
        there_and_back(server.uri("0"), files.short_holes, files.back)


def copies_long_holes(host, files):
    with host.up(host.pool()) as server:
        if not host.is_extended:
            refused("Invalid argument", "nbdcopy", "--flush", files.long_holes, server.uri("0"))
            return
        # What was there has to be gone where the file has holes.
        done("nbdcopy", "--flush", files.random, server.uri("0"))
        there_and_back(server.uri("0"), files.long_holes, files.back)
        used = mapped(server.control("status"))
        want((used == 3 * 16, f"{used} blocks are mapped"))


def copies_onto_a_new_volume(host, files):
    with host.up(host.pool()) as server:
        there_and_back(server.uri("0"), files.long_holes, files.back, "--destination-is-zero")


def converts(host, files):
    with host.up(host.pool()) as server:
        for file in (files.random, files.long_holes):
            convert_there_and_back(server.uri("0"), file, files.back)
        convert_there_and_back(server.uri("1"), files.long_holes, files.back, "--target-is-zero")


def convert_there_and_back(uri, file, back, *more):
    done("qemu-img", "convert", "-n", *more, "-f", "raw", "-O", "raw", file, uri)
    done("qemu-img", "compare", "-f", "raw", "-F", "raw", file, uri)
    done("qemu-img", "convert", "-f", "raw", "-O", "raw", uri, back)
    want_same(file, back)


def discards_and_zeroes(host, _):
    with host.up(host.pool()) as server:
        qemu_io(server.uri("0"), "write -P 7 0 1M", "write -P 8 1000k 100k", "discard 64k 128k", "write -z 512k 70k", "write -z -u 700k 128k", "flush", "read -P 7 0 64k",
                "read -P 0 64k 128k", "read -P 7 192k 320k", "read -P 0 512k 70k", "read -P 0 700k 128k", "read -P 7 828k 172k", "read -P 8 1000k 100k")


def discards_at_length(host, files):
    """2 MiB across blocks, and the whole volume, as a guest's fstrim does."""
    image = host.pool()
    with host.up(image) as server:
        done("nbdcopy", "--flush", files.random, server.uri("0"))
        if not host.is_extended:
            for it in ("discard 0 2M", f"discard 0 {VOLUME}"):
                qemu_io(server.uri("0"), it, fails="Invalid argument")
            return
        qemu_io(server.uri("0"), "discard 0 2M", "write -P 9 1000k 3000k", "discard 1500k 2100k", "read -P 9 1000k 536k", "read -P 0 1536k 2048k", "read -P 9 3600k 400k")
        qemu_io(server.uri("0"), f"write -z 1M {VOLUME - MIB}", f"discard 0 {VOLUME}", f"read -P 0 0 {VOLUME // 2}")
        want((mapped(server.control("status")) == 0, server.control("status")))


def discards_each_mib(host, files):
    image = host.pool()
    with host.up(image) as server:
        done("nbdcopy", "--flush", files.random, server.uri("0"))
        qemu_io(server.uri("0"), *(f"discard {it}M 1M" for it in range(VOLUME // MIB)), f"read -P 0 0 {VOLUME // 2}")
    want((mapped(host.ground.made("status", image).out.decode()) == 0, "blocks are left"))


def uses_libnbd(host, _):
    wants_libnbd()
    with host.up(host.pool()) as server:
        done(PYTHON, os.path.join(os.path.dirname(__file__), "libnbd_user.py"), server.uri("0"))


def grows(host):
    wants("mkfs.ext4", "resize2fs", "e2fsck", "dumpe2fs", "debugfs")
    ground = host.ground
    image, system, back, tree = ground.fresh("grown.img", 2048, 4096, 1), ground.path("system.raw"), ground.path("grown.raw"), ground.path("tree")
    os.makedirs(tree, exist_ok=True)
    write_parts(os.path.join(tree, "random"), range(3))
    os.truncate(os.path.join(tree, "random"), 3 * MIB)
    with open(system, "wb") as file:
        file.truncate(128 * MIB)
    done("mkfs.ext4", "-q", "-F", "-d", tree, system)
    with host.up(image) as server:
        done("nbdcopy", "--flush", "--destination-is-zero", system, server.uri("0"))
    ground.made("message", image, "grow 0 4096")
    with host.up(image) as server:
        want((done("nbdinfo", "--size", server.uri("0")).strip() == str(256 * MIB), "it has another size"))
        done("nbdcopy", server.uri("0"), back)
        want_same(system, back, 128 * MIB)
        with open(back, "rb") as file:
            file.seek(128 * MIB)
            want((not any(any(part) for part in iter(partial(file.read, MIB), b"")), "it is not zero behind its old end"))
        done("resize2fs", "-f", back)
        done("qemu-img", "convert", "-n", "-f", "raw", "-O", "raw", back, server.uri("0"))
        done("nbdcopy", server.uri("0"), back)
    want_grown(back, tree, ground.path("random.back"))


def want_grown(back, tree, dumped):
    """Wants the file system to be whole, with its file, and larger than it was."""
    done("e2fsck", "-f", "-n", back)
    done("debugfs", "-R", f"dump /random {dumped}", back)
    want_same(dumped, os.path.join(tree, "random"), 3 * MIB)
    count = int(re.search(r"Block count: *(\d+)", done("dumpe2fs", "-h", back))[1])
    size = int(re.search(r"Block size: *(\d+)", done("dumpe2fs", "-h", back))[1])
    want((count * size > 200 * MIB, f"the file system has {count} blocks of {size}"))


def is_written_while_held(host, files):
    """Each block is copied, and given up with the mapping."""
    ground, image = host.ground, host.pool()
    held, new = ground.path("held.raw"), ground.path("new.raw")
    for it in (held, new):
        write_parts(it, range(8))
        os.truncate(it, 8 * MIB)
    with host.up(image) as server:
        done("nbdcopy", "--flush", held, server.uri("0"))
    used = [mapped(ground.made("status", image).out.decode())]
    ground.made("message", image, "reserve_metadata_snap")
    with host.up(image) as server:
        there_and_back(server.uri("0"), new, files.back, length=8 * MIB)
    used.append(mapped(ground.made("status", image).out.decode()))
    for line in ("delete 0", "release_metadata_snap"):
        ground.made("message", image, line)
    used.append(mapped(ground.made("status", image).out.decode()))
    want((used == [128, 256, 0], f"{used} blocks are mapped"))


def is_a_proxys(host, files):
    wants("nbdkit", "nbdcopy")
    with host.up(host.pool()) as server:
        done("nbdkit", "-U", "-", "nbd", f"uri={server.uri('1')}", "--run", f'nbdcopy --flush {files.random} "$uri" && nbdcopy "$uri" {files.back}')
    want_same(files.random, files.back)


def is_verified_by_fio(host, _):
    fio_is_there()
    seconds = os.environ.get("FIO_SECONDS")
    long = ["--time_based=1", f"--runtime={seconds}"] if seconds else ["--time_based=0", f"--loops={os.environ.get('LOOPS', '2')}"]
    share = VOLUME // 16
    with host.up(host.pool()) as server:
        done("fio", "--name=verify", "--ioengine=nbd", f"--uri={server.uri('1')}", "--rw=randwrite", "--bs=4k", "--numjobs=16", f"--size={share}", f"--offset_increment={share}",
             "--iodepth=4", "--verify=crc32c", "--verify_fatal=1", "--do_verify=1", "--verify_state_save=0", "--group_reporting", *long, stdout=subprocess.DEVNULL, cwd=host.ground.folder)


CASES = [
    ("nbdinfo tells a volume's size", tells_sizes),
    ("nbdinfo --list tells the volumes", lists),
    ("nbdinfo without a name is refused, since there is no default", is_refused_without_a_name),
    ("nbdinfo tells whether several connections are fine", tells_of_connections),
    ("nbdcopy --flush there, and back", nbdcopy_both_ways),
    ("nbdcopy of a snapshot while its origin is written", copies_a_snapshot),
    ("nbdcopy --flush of a file with holes of 1 MiB, and back", copies_short_holes),
    ("nbdcopy --flush of a file with longer holes onto a written volume, and back; refused by `serve`", copies_long_holes),
    ("nbdcopy --destination-is-zero of it onto a new volume, and back", copies_onto_a_new_volume),
    ("qemu-img convert there, compare, and convert back, also of a file with longer holes and onto a new volume", converts),
    ("qemu-io with discards and zeroes", discards_and_zeroes),
    ("qemu-io with discards of 2 MiB and of a whole volume, which give their blocks back; refused by `serve`", discards_at_length),
    ("qemu-io with discards of 1 MiB each, as of a guest with max-discard-sectors=2048", discards_each_mib),
    ("python3-libnbd with 16 requests in flight", uses_libnbd),
    ("nbdcopy of a volume that is written while its mapping is held", is_written_while_held),
    ("nbdkit as a proxy", is_a_proxys),
    ("fio --verify=crc32c by 16 jobs", is_verified_by_fio),
]
