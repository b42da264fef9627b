"""What commits nothing: WRITEs of any bytes, options, and whatever is refused."""
import contextlib
import struct
from functools import partial

from edge_cases.staging import COUNT, CUTS, EINVAL, ENOSPC, FIRST, HEADER, ODD, VOLUME
from edge_cases.staging import odd_write, send_behind, send_cut, want_done
from running import BLOCK, BLOCK_STATUS, CLIENT_FLAGS, DISC, FLUSH, FUA, GO, INFO, LIST
from running import LIST_CONTEXTS, MIB, READ, SET_CONTEXTS, STRUCTURED_REPLY, TRIM, WRITE, ZEROES
from running import Client, contexts, option, request, want, with_length


def makes_no_sync(stage, action):
    """Data waits for a commit meanwhile, which a FLUSH makes at the end."""
    stage.write_in_place()
    before = stage.syncs()
    action(stage)
    made = stage.syncs() - before
    stage.client.do(FLUSH)
    left = stage.syncs() - before - made
    want((made == 0, f"{made} syncs"), (made or left > 0, "no data waited for a commit"))


def pipelined_writes(stage):
    stage.client.send(b"".join(odd_write(FIRST + it, BLOCK) for it in range(COUNT)))
    want_done(stage.client, COUNT)


def long_writes(stage):
    """Each is longer than what a server reads at a time."""
    for _ in range(4):
        stage.client.do(WRITE, FIRST * BLOCK, data=ODD * COUNT * BLOCK)


def cut_writes(stage):
    for it in CUTS:
        send_behind(stage.client, odd_write(FIRST, 4096), it)
        want_done(stage.client, 2)


def cut_twice(stage):
    """The second piece is a part of the payload, of no whole number of sectors."""
    for it in CUTS[:-1]:
        send_behind(stage.client, odd_write(FIRST, 4096), it, it + 333)
        want_done(stage.client, 2)


FUA_HEADER = request(WRITE, 0, 4096, flags=FUA)


def embedded(header, stage):
    """The payload is this header again and again, and each piece begins with one."""
    data = request(WRITE, FIRST * BLOCK, data=(header * 147)[:4096])
    send_behind(stage.client, data, *range(HEADER, 20 * HEADER, HEADER))
    want_done(stage.client, 2)


def other(stage):
    """Another client, which has been greeted and has sent its flags."""
    client = Client.at(stage.server.place).greet()
    client.send(CLIENT_FLAGS)
    return client


def options(stage):
    client = other(stage)
    client.choose(LIST)
    client.choose(INFO, with_length("0") + struct.pack(">H", 0))
    client.choose(GO, with_length("1") + struct.pack(">H", 0))
    client.leave()


def cut_options(stage):
    info, volume = struct.pack(">HH", 1, 3), struct.pack(">H", 0)
    for kind, data in (
        (LIST, b""),
        (INFO, with_length("0") + info),
        (GO, with_length("1") + volume),
    ):
        whole = option(kind, data)
        for places in ([3, 5], [9, 15], [len(whole) - 1]):
            client = Client.at(stage.server.place).greet()
            send_cut(client, CLIENT_FLAGS + whole, *(4 + it for it in places))
            want((client.replies()[-1][0] == 1, f"option {kind} is refused"))
            client.close()


def flush_for_an_option(stage):
    """A server that finds no option ends the connection."""
    client = other(stage)
    client.send(request(FLUSH))
    want((not ends_with(client), "it is answered"))


def ends_with(client):
    """What is sent until the connection ends."""
    with contextlib.suppress(EOFError, ConnectionResetError):
        return client.receive(1)
    client.close()
    return b""


def ended_at_the_header(stage):
    """A WRITE that is too long, and a request with another magic."""
    bad_magic = b"\x25\x60\x95\x14" + request(WRITE, 0, 512, flags=FUA)[4:]
    for data in (request(WRITE, 0, MIB + 512, flags=FUA), bad_magic):
        client = stage.server.client()
        client.send(data)
        want((not ends_with(client), "it is answered"))


# A type, an offset, a length, and the error.
REFUSED_REQUESTS = [
    (WRITE, VOLUME, 512, ENOSPC),
    (WRITE, 100, 512, EINVAL),
    (TRIM, VOLUME, 512, EINVAL),
    (TRIM, 0, 100, EINVAL),
    (ZEROES, VOLUME, 512, ENOSPC),
    (ZEROES, 100, 512, EINVAL),
    (5, 0, 512, EINVAL),
    (99, 0, 512, EINVAL),
]


def refused_with_fua(stage):
    """Each request also with a flag that does not exist."""
    for kind, at, length, wanted in REFUSED_REQUESTS:
        data = ODD * length if kind == WRITE else b""
        for flags, number in ((FUA, wanted), (FUA | 0x8000, EINVAL)):
            error = stage.client.ask(kind, at, length, data, flags)[0]
            text = f"a request of type {kind} with flags {flags} is answered {error}"
            want((error == number, text))


def without_length(stage):
    for kind in (WRITE, TRIM, ZEROES):
        stage.client.do(kind, FIRST * BLOCK, flags=FUA)


def reads_with_fua(stage):
    for it in range(4):
        stage.client.do(READ, (FIRST + it) * BLOCK, 4096, flags=FUA)


def refused_flushes(stage):
    for at, length, flags in ((512, 0, 0), (0, 512, 0), (BLOCK, BLOCK, FUA), (0, 0, 0x100)):
        error = stage.client.ask(FLUSH, at, length, flags=flags)[0]
        said = f"a FLUSH of {length} bytes at {at} with flags {flags}"
        want((error == EINVAL, f"{said} is answered {error}"))


def changes_without_fua(stage):
    """Other cases write in place to none of these blocks, which are unmapped at the end."""
    for it in range(8, 12):
        stage.client.do(WRITE, (FIRST + it) * BLOCK, data=ODD * 4096)
        stage.client.do(ZEROES, (FIRST + it) * BLOCK, 4096)
        stage.client.do(TRIM, (FIRST + it) * BLOCK, BLOCK)


def half_a_flush(stage):
    """Each of these clients sends a part of the header, and disconnects."""
    for it in (7, 8, 13, 27):
        client = stage.server.client()
        send_behind(client, request(FLUSH)[:it], it)
        want_done(client, 1)
        client.close()
    stage.wait_until_alone()


def half_a_write_with_fua(stage):
    client = stage.server.client()
    send_behind(client, odd_write(FIRST, 4096, FUA)[:-1], 6, HEADER, 100)
    want_done(client, 1)
    client.close()
    stage.wait_until_alone()


def clients_that_leave(stage):
    for flags in (0, FUA):
        client = stage.server.client("1")
        client.send(request(DISC, flags=flags))
        want((not ends_with(client), "DISC is answered"))
    stage.server.client("1").close()
    stage.wait_until_alone()


REFUSED = [
    ("delete 0", 16),
    ("grow 0 4096", 16),
    ("delete 9", 15),
    ("create_thin 0", 14),
    ("create_snap 2 0", 14),
    ("create_snap 9 8", 15),
    ("grow 9 4096", 15),
    ("create_thin 16777216", 13),
    ("set_transaction_id 5 6", 17),
    ("create_thin", 11),
    ("create_thin x", 11),
    ("x" * 300, 11),
    ("resize 0 1", 12),
    ("a" * 9, 12),
    ("FLUSH", 12),
]


def refused_messages(stage):
    for line, number in REFUSED:
        answer = stage.server.control(line)
        want((answer == f"refused {number}", f"{line[:30]} is answered {answer}"))


def lines_that_change_nothing(stage):
    for line in ("status", "thin 0", "thin 9", "size 0", "map 0 0", "delta 0 2 0"):
        want((stage.server.control(line), f"{line} is not answered"))


def lines_of_run(stage):
    stage.server.waits_for("1 of 64: 0")


def extended_options(stage):
    client = other(stage)
    client.choose(STRUCTURED_REPLY)
    client.choose(LIST_CONTEXTS, contexts("0"))
    client.choose(SET_CONTEXTS, contexts("0", "base:allocation", "thinpool:since:2"))
    client.choose(GO, with_length("0") + struct.pack(">H", 0))
    client.send(request(BLOCK_STATUS, 0, 512, flags=FUA))
    for _ in range(2):
        _, _, kind, _, length = struct.unpack(">IHHQI", client.receive(20))
        want((kind == 5, f"it is answered by a chunk of type {kind:x}"))
        client.receive(length)
    client.leave()


def odd_cut_options(stage):
    """Data of an option that looks like a FLUSH from the cut on."""
    client = Client.at(stage.server.place).greet()
    send_cut(client, CLIENT_FLAGS + option(99, request(FLUSH) * 3), 20, 20 + HEADER)
    want((client.replies()[-1][0] >> 31 == 1, "an unknown option is accepted"))
    client.close()


QUIET = [
    (f"{COUNT} WRITEs of 64 KiB of 0x61 at a time", pipelined_writes),
    (f"WRITEs of {COUNT * BLOCK // MIB} MiB of 0x61", long_writes),
    (f"WRITEs of 0x61, cut at {len(CUTS)} places", cut_writes),
    ("WRITEs of 0x61, cut twice", cut_twice),
    ("a WRITE of headers of FLUSHes, cut before each", partial(embedded, request(FLUSH))),
    ("a WRITE of headers of WRITEs with FUA, cut before each", partial(embedded, FUA_HEADER)),
    ("another client's LIST, INFO and GO", options),
    ("another client's LIST, INFO and GO, cut", cut_options),
    ("the data of an option that looks like FLUSHes", odd_cut_options),
    ("a FLUSH in the place of an option", flush_for_an_option),
    ("requests with FUA that end the connection at their header", ended_at_the_header),
    ("refused requests with FUA", refused_with_fua),
    ("requests of length 0 with FUA", without_length),
    ("READs with FUA", reads_with_fua),
    ("FLUSHes that are refused", refused_flushes),
    ("WRITEs, WRITE_ZEROES and TRIMs without FUA", changes_without_fua),
    ("parts of a FLUSH, whose client disconnects", half_a_flush),
    ("a part of a WRITE with FUA, whose client disconnects", half_a_write_with_fua),
    ("clients that disconnect", clients_that_leave),
    ("refused messages", refused_messages),
    ("control lines that change nothing", lines_that_change_nothing),
]
QUIET_OF_RUN = [
    ("the control line clients", lines_of_run),
    ("another client's metadata contexts, and BLOCK_STATUS with FUA", extended_options),
]
