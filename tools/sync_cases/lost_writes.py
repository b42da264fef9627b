"""A pool that is opened again after a sync failed reads what its device has."""
import contextlib
import os
from functools import partial

from running import BLOCK, FLUSH, READ, TRIM, WRITE, held, want
from sync_cases.failing_device import DATA, LAYOUTS, PAGE, failing_image

# The byte of volume 0 that is written in place while the device fails.
AT = 2 * PAGE
NBD_EIO = 5


def lost_writes(ground):
    """a pool that is opened again after a sync failed reads what its device has"""
    for layout in LAYOUTS:
        yield f"{layout.name}: the write of a data block fails", partial(loses_data, ground, layout)
        yield f"{layout.name}: the write of a superblock fails", partial(
            loses_superblock, ground, layout
        )


@contextlib.contextmanager
def killed(ground, image, export):
    """A client of volume `export`, whose server is killed afterwards."""
    server = ground.stays(image.path, over="unix")
    try:
        yield server.client(export)
    finally:
        server.kill()


def read(client, at, length):
    """A part of a volume that has one byte throughout, as that byte."""
    error, data = client.ask(READ, at, length)
    if error:
        return f"error {error}"
    if data != data[:1] * length:
        return "several bytes"
    return chr(data[0]) if data[0] else "zeros"


def checked(ground, image):
    ran = ground.run("check", image.path)
    return (ran.out + ran.err).decode().strip()


def from_device(ground, image, export, at, length):
    """What a volume reads after the system has dropped the cached pages of the image."""
    image.drop_cached()
    with killed(ground, image, export) as client:
        return read(client, at, length)


def loses_data(ground, layout):
    """Writes N over flushed zeros, in place. The FLUSH fails. The zeros are those of the hole."""
    with failing_image(ground, layout) as image:
        with killed(ground, image, "0") as client:
            client.do(WRITE, 0, data=b"a" * BLOCK)
            client.do(WRITE, AT, data=bytes(PAGE))
            client.do(FLUSH)
            os.sync()
            place = held(image.path).index(b"a" * AT, DATA) + AT
            image.device.fail_write(image.place_of(place))
            client.do(WRITE, AT, data=b"N" * PAGE)
            failed = client.ask(FLUSH)[0]
        image.device.repair()
        with killed(ground, image, "0") as client:
            reopened, flushed = read(client, AT, PAGE), client.ask(FLUSH)[0]
            client.do(WRITE, 3 * BLOCK, data=b"b" * PAGE)
            client.do(FLUSH)
        found = from_device(ground, image, "0", AT, PAGE)
        said = checked(ground, image)
    want(
        (failed == NBD_EIO, f"the FLUSH of the failed write is answered {failed}"),
        (flushed == 0, f"FLUSH is answered {flushed} after reopening"),
    )
    want(
        (reopened == found, f"reopened, a READ gives {reopened}; the device has {found}"),
        (said == "clean", f"check prints {said!r}"),
    )
    return f"a READ gives {reopened}, as the device has it"


def superblocks(image):
    """The blocks of the two superblocks."""
    with open(image.path, "rb") as it:
        return [it.read(PAGE), it.read(PAGE)]


def loses_superblock(ground, layout):
    """Trims volume 0, which holds V. The FLUSH fails at the superblock's sync. In the reopened pool
    volume 1 is filled with W, without a FLUSH."""
    with failing_image(ground, layout) as image:
        before = superblocks(image)
        with killed(ground, image, "0") as client:
            client.do(WRITE, 0, data=b"V" * BLOCK)
            client.do(FLUSH)
            os.sync()
            newest = [old != new for old, new in zip(before, superblocks(image))].index(True)
            image.device.fail_write(image.place_of((1 - newest) * PAGE))
            client.do(TRIM, 0, BLOCK)
            failed = client.ask(FLUSH)[0]
        image.device.repair()
        reopened = checked(ground, image)
        with killed(ground, image, "1") as client:
            wrote = [client.ask(WRITE, at * BLOCK, data=b"W" * BLOCK)[0] for at in range(8)]
            os.sync()
        found = from_device(ground, image, "0", 0, BLOCK)
        said = checked(ground, image)
    want(
        (failed == NBD_EIO, f"the FLUSH of the failed write is answered {failed}"),
        (0 in wrote, f"the WRITEs to volume 1 are answered {wrote}"),
    )
    want(
        (
            found in ("V", "zeros"),
            f"reopened, check prints {reopened!r}; then volume 0 reads {found}",
        ),
        (said == "clean", f"check prints {said!r}"),
    )
    return f"volume 0 reads {found}"
