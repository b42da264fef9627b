"""Images that store a count of 0 for a metadata block of the fixed part, or for a root."""
import struct
from functools import partial

from running import DISC, go, held, request, want

PAGE, COUNTS = 4096, 1024
DAMAGED = b"thinpool: 2 Damaged\n"


def lost_counts(ground):
    """images with a count of 0 for a block that every pool has are not opened"""
    image = holding_image(ground)
    yield "an image with all its counts opens", partial(opens, ground, image)
    for name, block in Layout(held(image)).blocks():
        case = partial(fails, ground, image, block)
        yield f"{name}, block {block}: commands fail with error 2", case
        case = partial(is_not_served, ground, image, block)
        yield f"{name}, block {block}: run and serve fail with error 2", case


def holding_image(ground):
    """An image with a held mapping, whose root is not that of the device tree."""
    image = ground.copy("holding.img")
    for line in ("reserve_metadata_snap", "create_thin 5"):
        ground.made("message", image, line)
    return image


class Layout:
    """Where an image stores its counts."""

    def __init__(self, data):
        slots = [struct.unpack_from("<8sIIQQIIIIQQ", data, PAGE * it) for it in range(2)]
        sequences = [it[3] for it in slots]
        self.slot = 0 if sequences[0] == (sequences[1] + 1) % (1 << 64) else 1
        *_, metadata, blocks, self.root, self.held_root = slots[self.slot]
        self.area = -(-metadata // COUNTS) - (-blocks // COUNTS)

    def blocks(self):
        """Blocks that every pool has: some of the fixed part, and the roots."""
        yield "the first superblock", 0
        yield "the second superblock", 1
        yield "the first count block", 2
        yield "the last block of the fixed part", 1 + 2 * self.area
        yield "the root of the device tree", self.root
        yield "the held root", self.held_root

    def place_of(self, block):
        """The byte of the image with the count of a block, in the area of the newest commit."""
        return PAGE * (2 + self.slot * self.area) + 4 * block


def without_count(ground, image, block):
    damaged = ground.copy("damaged.img", image)
    at = Layout(held(image)).place_of(block)
    with open(damaged, "r+b") as file:
        file.seek(at)
        count = struct.unpack("<I", file.read(4))[0]
        want((0 < count < 3, f"the image stores a count of {count} for block {block}"))
        file.seek(at)
        file.write(bytes(4))
    return damaged


# A client that comes and goes.
VISIT = go() + request(DISC)
WORDS = [
    ["status", None],
    ["status", None, "0"],
    ["ls", None],
    ["message", None, "create_thin 9"],
    ["message", None, "delete 0"],
    ["message", None, "release_metadata_snap"],
    ["feed", None],
]


def opens(ground, image):
    layout = Layout(held(image))
    text = f"the roots are {layout.root} and {layout.held_root}"
    want((0 < layout.held_root != layout.root > 0, text))
    for words in WORDS:
        ground.made(*[it or ground.copy("whole.img", image) for it in words], given=VISIT)
    ground.want_clean(image)


def is_refused(ran, damaged, words):
    """Error 2; the thinpool's own commands also print the reason."""
    reason = f"thinpool: {damaged} is damaged".encode() if words[0] in ("ls", "run") else b""
    lines = 2 if reason else 1
    return (
        (ran.status, ran.out) == (1, b"")
        and ran.err.startswith(DAMAGED + reason)
        and ran.err.count(b"\n") == lines
    )


def fails(ground, image, block):
    for words in WORDS:
        damaged = without_count(ground, image, block)
        before = held(damaged)
        ran = ground.run(*[it or damaged for it in words], given=VISIT)
        said = " ".join(it or "IMAGE" for it in words)
        want(
            (is_refused(ran, damaged, words), f"{said}: {ran.told()}"),
            (held(damaged) == before, f"{said}: the image changed"),
        )


def is_not_served(ground, image, block):
    damaged = without_count(ground, image, block)
    place = "127.0.0.1:0"
    for words in (["run", damaged, "--listen", place], ["serve", damaged, place, "1"]):
        ran = ground.run(*words, limit=20)
        want((is_refused(ran, damaged, words), f"{words[0]}: {ran.told()}"))
