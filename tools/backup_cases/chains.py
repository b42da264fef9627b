"""Chains of copies: a full one, and such of what changed."""
import contextlib
import os
from functools import partial

from backup_cases.history import SIZE, SNAPSHOTS, rounds
from client_cases.hosts import wants
from running import run, want


def chains(ground):
    """a full copy and three of what changed, as qcow2 files, by nbdkit's extentlist filter and qemu-img"""
    for seed in (1, 2, 3):
        yield f"history {seed}", partial(chain, ground, seed)


@contextlib.contextmanager
def served(ground, image, number, lines):
    """An address at which nbdkit serves a volume with the extents of a listing."""
    listed = ground.path("extents.txt")
    with open(listed, "wb") as file:
        file.write(lines)
    server = ground.serve(image, 8)
    try:
        yield ["nbdkit", "-U", "-", "-r", "--filter=extentlist", "nbd", f"uri={server.uri(number)}", f"extentlist={listed}"]
    finally:
        server.kill()


def copied(ground, image, number, lines, to, base=None):
    """Copies what a listing tells of a volume to a qcow2 file, over one that it is based on."""
    based = f"-B {base} -F qcow2 " if base else ""
    with served(ground, image, number, lines) as words:
        ran = run([*words, "--run", f"qemu-img convert -f raw -O qcow2 {based}\"$uri\" {to}"])
    want((ran.status == 0, ran.told()))
    return os.stat(to).st_blocks * 512


def chain(ground, seed):
    wants("nbdkit")
    wants("qemu-img")
    image, held = rounds(ground, seed, f"chain-{seed}.img")
    listed = [ground.made("map", image, str(SNAPSHOTS[0])).out]
    listed += [ground.made("delta", image, str(old), str(new)).out for old, new in zip(SNAPSHOTS, SNAPSHOTS[1:])]
    sizes, before = [], None
    for number, lines in zip(SNAPSHOTS, listed):
        file = ground.path(f"chain-{seed}-{number}.qcow2")
        sizes.append(copied(ground, image, number, lines, file, before))
        before = file
        raw = ground.path("restored.raw")
        ran = run(["qemu-img", "convert", "-O", "raw", file, raw])
        want((ran.status == 0, ran.told()))
        with open(raw, "rb") as restored:
            want((restored.read() == held[number], f"{number} is restored with other bytes"))
    return f"copies of {', '.join(str(it >> 10) for it in sizes)} KiB of {SIZE >> 10}"
