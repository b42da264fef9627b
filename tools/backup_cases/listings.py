"""What is listed, beside what the volumes hold and what the pool tells when they are deleted."""
import os
import shutil
from functools import partial

from backup_cases.history import BLOCKS, SIZE, SNAPSHOTS, extents, rounds, whole
from client_cases.hosts import mapped
from running import BLOCK, Skipped, run, want


def listings(ground):
    """listings beside the volumes' bytes, status lines, and holes punched into the file"""
    image, held = rounds(ground, 7)
    yield "map: what is not listed is zero", partial(maps, ground, image, held)
    yield "delta: what is not listed is equal", partial(deltas, ground, image, held)
    yield "ls: exclusive is what delete gives back", partial(usages, ground, image)
    yield "free: holes may be punched there", partial(holes, ground, image, held)
    yield "a mapping that is held", partial(held_mapping, ground, image)


def want_runs(found, what):
    """Wants runs of whole blocks that ascend and do not touch."""
    end = -1
    for at, length, _ in found:
        want((at > end, f"{what}: {at} is not behind {end}"), (at % BLOCK == 0 and length % BLOCK == 0 and length > 0, f"{what}: {at} {length}"))
        end = at + length


def maps(ground, image, held):
    for number in SNAPSHOTS:
        found = extents(ground, "map", image, str(number))
        want_runs(found, f"map {number}")
        restored = bytearray(SIZE)
        for at, length, _ in found:
            restored[at:at + length] = held[number][at:at + length]
        want((restored == held[number], f"map {number} leaves out bytes that are not zero"))
        sectors = int(ground.made("status", image, str(number)).out.split()[0])
        want((sum(it[1] for it in found) == 512 * sectors, f"map {number} tells other than {sectors} sectors"))


def deltas(ground, image, held):
    for old in SNAPSHOTS:
        for new in SNAPSHOTS:
            found = extents(ground, "delta", image, str(old), str(new))
            restored = bytearray(held[old])
            end = 0
            for at, length, is_hole in found:
                want((at == end, f"delta {old} {new}: {at} behind {end}"))
                end = at + length
                if not is_hole:
                    restored[at:end] = held[new][at:end]
            want((end == SIZE, f"delta {old} {new} ends at {end}"), (restored == held[new], f"delta {old} {new} leaves out what differs"))
            listed = sum(it[1] for it in found if not it[2])
            want((old != new or listed == 0, f"delta {old} {new} lists {listed} bytes"))
    return f"{len(SNAPSHOTS) ** 2} pairs"


def usages(ground, image):
    lines = ground.made("ls", image).out.decode().splitlines()
    want((lines[0] == "ID SIZE MAPPED EXCLUSIVE", lines[0]))
    rows = [tuple(map(int, it.split())) for it in lines[1:]]
    want(([it[0] for it in rows] == [0, *SNAPSHOTS], f"ls lists {rows}"))
    for number, size, there, own in rows:
        less = ground.copy("less.img", image)
        before = mapped(ground.made("status", less).out.decode())
        sectors = int(ground.made("status", less, str(number)).out.split()[0])
        ground.made("message", less, f"delete {number}")
        gone = before - mapped(ground.made("status", less).out.decode())
        want((size == SIZE, f"{number} has {size} bytes"), (there == 512 * sectors, f"{number}: {there} of {sectors} sectors"),
             (own == gone * BLOCK, f"{number}: {own} of {gone} blocks"))


def holes(ground, image, held):
    if not shutil.which("fallocate"):
        raise Skipped("fallocate is not installed")
    punched = ground.copy("punched.img", image)
    found = extents(ground, "free", punched)
    want_runs([(at - 4096 * 4096, length, hole) for at, length, hole in found], "free")
    used = mapped(ground.made("status", punched).out.decode())
    want((sum(it[1] for it in found) == (4 * BLOCKS - used) * BLOCK, "free tells another number of blocks"))
    with open(punched, "r+b") as file:
        for at, length, _ in found:
            file.seek(at)
            file.write(b"\xa5" * length)
    for at, length, _ in found:
        ran = run(["fallocate", "-p", "-o", str(at), "-l", str(length), punched])
        want((ran.status == 0, ran.told()))
    ground.want_clean(punched)
    for number in SNAPSHOTS:
        want((whole(ground, punched, number) == held[number], f"{number} has other bytes"))
    return f"{os.stat(punched).st_blocks * 512} of {os.stat(punched).st_size} bytes are left"


def held_mapping(ground, image):
    other = ground.copy("held.img", image)
    ground.made("message", other, "reserve_metadata_snap")
    ran = ground.run("free", other)
    want(((ran.status, ran.err) == (1, b"thinpool: 26 HeldRootExists\n"), ran.told()))
    lines = ground.made("ls", other).out.decode().splitlines()
    want((all(it.split()[3] == "-" for it in lines[1:]), "ls tells what is exclusive"))
