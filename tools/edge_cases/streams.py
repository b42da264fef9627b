"""Standard streams that are closed, or full."""
from functools import partial

from edge_cases.commands import Wanted, commands, want_as

STREAMS = [(0,), (1,), (2,), (1, 2), (0, 1, 2)]


def closed_streams(ground):
    """Closed standard streams: what is opened then gets one of their descriptors."""
    for command in commands(ground):
        known = {}
        for closed in STREAMS:
            yield f"{command.name}, {' and '.join(map(str, closed))} closed", partial(with_closed, ground, command, known, closed)


def with_closed(ground, command, known, closed):
    is_given = 0 not in closed
    if is_given not in known:
        known[is_given] = Wanted(ground, command, is_given)
    image = command.image(ground, "closed.img")
    ran = command.ends(ground, image, closed=closed)
    want_as(ground, command, known[is_given], image, ran, closed)


def full_outputs(ground):
    """Standard output on /dev/full: what was done stands, and the status says that it was not printed."""
    for command in commands(ground):
        if command.prints:
            yield f"{command.name} >/dev/full", partial(with_full_output, ground, command)


def with_full_output(ground, command):
    wanted, image = Wanted(ground, command), command.image(ground, "full.img")
    with open("/dev/full", "wb") as full:
        ran = command.ends(ground, image, stdout=full)
    want_as(ground, command, wanted, image, ran, (1,))
