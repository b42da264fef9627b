"""`create`: sizes, the block size, wrong numbers, and what an image holds before."""
import os
from functools import partial

from running import held, want

WANTED = ["--size", "1M", "--volume-size", "1M", "--volumes", "2"]
TAKEN = b"thinpool: 14 Exists\n"

# The words behind the image, and the sizes that are printed.
SIZES = [
    (["--size", "100G", "--volume-size", "40G", "--volumes", "20"], b"512 163840 53441 409600\n"),
    (["--size", "1.5M", "--volume-size", "2MiB", "--volumes", "2", "--block-size", "256K"], b"512 8 1032 6\n"),
    (["--size", "1M", "--volume-size", "0.5T", "--volumes", "2", "--block-size", "1048576"], b"2048 524288 1032 1\n"),
]

# Words that are no command, and what is told of them.
MISUSED = [
    ("1GB", b"invalid value '1GB' for --size"),
    ("10iB", b"invalid value '10iB' for --size"),
    ("0.1K", b"invalid value '0.1K' for --size"),
    ("1.+5K", b"invalid value '1.+5K' for --size"),
    ("1.K", b"invalid value '1.K' for --size"),
    ("16777216T", b"invalid value '16777216T' for --size"),
]

# Numbers that no pool has, by the option that is wrong.
REFUSED = [
    (["--size", "0", "--volume-size", "1M", "--volumes", "2"], b"--size is 0 bytes: "),
    (["--size", "2T", "--volume-size", "1M", "--volumes", "2"], b"--size is 2199023255552 bytes: it must be in 1..=1099511627776 "),
    (["--size", "1M", "--volume-size", "0", "--volumes", "2"], b"--volume-size is 0 bytes: "),
    (["--size", "1M", "--volume-size", "1P", "--volumes", "2"], b"--volume-size is 1125899906842624 bytes: it must be in 1..=17592186044416 "),
    (["--size", "1M", "--volume-size", "1M", "--volumes", "0"], b"--volumes is 0: it must be at least 1"),
    ([*WANTED, "--block-size", "96K"], b"--block-size is 98304 bytes: "),
    ([*WANTED, "--block-size", "2M"], b"--block-size is 2097152 bytes: "),
    (["--size", "65G", "--volume-size", "1M", "--volumes", "2", "--block-size", "64K"], b"--size is 69793218560 bytes: it must be in 1..=68719476736 with data blocks of 65536 bytes"),
    (["--size", "1G", "--volume-size", "1G", "--volumes", "4000", "--block-size", "64K"], b"--volumes is 4000: "),
]

# What a file holds, and whether `create` overwrites it unasked.
HELD = [
    ("no byte", b"", True),
    ("zeros", bytes(1 << 20), True),
    ("a line of text", b"notes\n", False),
    ("a short text", b"notes\n" * 200, False),
    ("a text", b"notes\n" * 4000, False),
]


def creating(ground):
    """`create`: which sizes it takes, which number a refusal names, and which files it overwrites."""
    for words, sizes in SIZES:
        yield f"create {' '.join(words)}", partial(is_made, ground, words, sizes)
    for size, told in MISUSED:
        yield f"create --size {size} is told what is wrong", partial(is_misused, ground, size, told)
    for words, told in REFUSED:
        yield f"create {' '.join(words)} is told which number is wrong", partial(is_refused, ground, words, told)
    for what, data, is_free in HELD:
        yield f"create over {what}", partial(is_overwritten if is_free else is_kept, ground, data)
    yield "create over a pool", partial(is_overwritten, ground, None)


def is_made(ground, words, sizes):
    image = ground.path("made.img")
    ran = ground.made("create", image, *words, "--overwrite")
    want((ran.out.startswith(sizes), ran.told()))


def is_misused(ground, size, told):
    ran = ground.run("create", ground.path("misused.img"), "--size", size, "--volume-size", "1M", "--volumes", "2")
    want((ran.status == 2 and told in ran.err, ran.told()), (not os.path.exists(ground.path("misused.img")), "the image was made"))


def is_refused(ground, words, told):
    image = ground.path("refused.img")
    ran = ground.run("create", image, *words)
    want((ran.status == 1 and ran.err.startswith(b"thinpool: 1 BadGeometry\nthinpool: " + told), ran.told()), (not os.path.exists(image), "the image was made"))


def file_of(ground, data):
    """A file that holds this, or a pool."""
    if data is None:
        return ground.copy("before.img")
    image = ground.path("before.img")
    with open(image, "wb") as file:
        file.write(data)
    return image


def is_overwritten(ground, data):
    image = file_of(ground, data)
    ran = ground.made("create", image, *WANTED)
    want((ran.out.startswith(b"128 16 1032 16\n"), ran.told()))
    ground.made("check", image)


def is_kept(ground, data):
    image = file_of(ground, data)
    ran = ground.run("--explain", "create", image, *WANTED)
    want(((ran.status, ran.out) == (1, b"") and ran.err.startswith(TAKEN) and b"--overwrite" in ran.err, ran.told()), (held(image) == data, "the file was changed"))
    ground.made("create", image, *WANTED, "--overwrite")
    ground.made("check", image)
