"""A volume that is written at random between snapshots."""
import random

from running import BLOCK, MIB, READ, TRIM, WRITE, ZEROES, go, request

BLOCKS = 256
SIZE = BLOCKS * BLOCK
# Snapshots of volume 0, each behind a round of changes.
SNAPSHOTS = (100, 101, 102, 103)


def change(rng):
    """A request that writes, trims or zeroes a part of the volume."""
    first, count = rng.randrange(BLOCKS), rng.choice((1, 1, 1, 2, 5))
    count = min(count, BLOCKS - first)
    kind = rng.choice((WRITE, WRITE, WRITE, TRIM, ZEROES))
    if kind == WRITE:
        length = rng.choice((512, 4096, BLOCK))
        return request(WRITE, first * BLOCK + rng.randrange(0, BLOCK - length + 1, 512), data=rng.randbytes(length))
    return request(kind, first * BLOCK, count * BLOCK)


def rounds(ground, seed, name="volumes.img"):
    """An image with that history, and the bytes of each snapshot."""
    rng = random.Random(seed)
    image = ground.fresh(name, BLOCKS, 4 * BLOCKS, volumes=1)
    for number in SNAPSHOTS:
        ground.made("feed", image, given=go() + b"".join(change(rng) for _ in range(60)))
        ground.made("message", image, f"create_snap {number} 0")
    return image, {number: whole(ground, image, number) for number in SNAPSHOTS}


def whole(ground, image, number):
    """All bytes of a volume."""
    server = ground.serve(image, 1)
    client = server.client(str(number))
    data = b"".join(client.do(READ, at, MIB) for at in range(0, client.size, MIB))
    client.leave()
    server.finish()
    return data


def extents(ground, *words):
    """What a listing tells: offset, length, and whether it is a hole."""
    lines = ground.made(*words).out.decode().splitlines()
    return [(int(it[0]), int(it[1]), it[2:] == ["hole"]) for it in map(str.split, lines)]
