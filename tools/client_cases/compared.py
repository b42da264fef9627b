"""Clients that compare a volume with another one, by the context `thinpool:since:ID`.

No other client deletes or grows that volume meanwhile."""
import struct
import subprocess
from functools import partial

from client_cases.hosts import BLOCKS, PYTHON, Host, wants_libnbd
from running import BLOCK, BLOCK_STATUS, CLIENT_FLAGS, GO, LIST_CONTEXTS, SET_CONTEXTS
from running import STRUCTURED_REPLY, WRITE
from running import Client, contexts, end_of, kill, option, request, start, want, with_length

ALLOCATION, SINCE = "base:allocation", "thinpool:since:100"
BUSY, ERR_INVALID = "refused 16", 0x80000003
# What libnbd does: it prints whether it has the context, and stays until its standard input ends.
LIBNBD = f"""
import nbd, sys
it = nbd.NBD()
it.add_meta_context('{SINCE}')
it.connect_uri(sys.argv[1])
print(it.can_meta_context('{SINCE}'), flush=True)
sys.stdin.read()
it.shutdown()
"""
# Clients at a time, each with a volume of its own and another one to compare it with.
MANY = 64


def compared_unix(ground):
    """`run` at a socket file: a volume that a client compares with is held"""
    yield from compared(ground, "unix")


def compared_tcp(ground):
    """the same at loopback"""
    yield from compared(ground, "tcp")


def compared(ground, over):
    host = Host(ground, over)
    for name, case in CASES:
        yield f"{over}: {name}", partial(case, host)


def chooser(server, export, *queries):
    """A client that has chosen these contexts of a volume, and is still in the handshake."""
    client = Client.at(server.place).greet()
    client.send(CLIENT_FLAGS)
    client.choose(STRUCTURED_REPLY)
    choose(client, export, *queries)
    return client


def choose(client, export, *queries):
    """Wants each context to be selected."""
    told = client.choose(SET_CONTEXTS, contexts(export, *queries))
    found = [data[4:].decode() for _, data in told[:-1]]
    want((found == list(queries), f"{queries} of {export} are answered {found}"))


def go(client, export):
    client.choose(GO, with_length(export) + struct.pack(">H", 0))
    return client


def comparer(server, export="0", *queries):
    """A client in transmission that compares a volume with its snapshot 100."""
    return go(chooser(server, export, *(queries or (ALLOCATION, SINCE))), export)


def changes(client, blocks=BLOCKS):
    """The extents of so many blocks in `thinpool:since:100`, which is the second context."""
    client.send(request(BLOCK_STATUS, 0, blocks * BLOCK))
    found, flags = {}, 0
    while not flags & 1:
        _, flags, kind, _, length = struct.unpack(">IHHQI", client.receive(20))
        data = client.receive(length)
        want((kind == 5, f"a chunk of type {kind:x}"))
        number, *words = struct.unpack(f">{length // 4}I", data)
        found[number] = list(zip(words[::2], words[1::2]))
    want((sorted(found) == [1, 2], f"the contexts {sorted(found)} are told"))
    return found[2]


def pool(host):
    """A pool with a volume 0 that is written, and its snapshots 100 and 101."""
    image = host.pool()
    with host.up(image) as server:
        client = server.client()
        client.do(WRITE, 0, data=b"o" * 4 * BLOCK)
        server.asked("create_snap 100 0", "create_snap 101 0")
        client.do(WRITE, BLOCK, data=b"n" * BLOCK)
        client.leave()
    return image


def want_held(server, number=100):
    for line in (f"delete {number}", f"grow {number} {2 * BLOCKS}"):
        answer = server.control(line)
        want((answer == BUSY, f"{line} is answered {answer} while a client compares with it"))


def want_free(server, number=100):
    """Wants the volume to grow, once the server has seen a client disconnect, and to be deleted."""
    server.waits_for("ok", f"grow {number} {2 * BLOCKS}")
    answer = server.control(f"delete {number}")
    want((answer == "ok", f"delete {number} is answered {answer}"))


# ---- the cases


def in_transmission(host):
    with host.up(pool(host)) as server:
        client = comparer(server)
        told = changes(client)
        want((told[:2] == [(BLOCK, 0), (BLOCK, 1)], f"the changes are {told}"))
        want_held(server)
        want((server.control("create_snap 100 0") == "refused 14", "volume 100 was made again"))
        want((changes(client) == told, f"the changes are {changes(client)}, and were {told}"))
        client.leave()
        want_free(server)


def in_the_handshake(host):
    with host.up(pool(host)) as server:
        client = chooser(server, "0", ALLOCATION, SINCE)
        want_held(server)
        client.close()
        want_free(server)


def behind_a_disconnect(host):
    """Without a word, in the middle of a request, and by a request that no server takes."""
    for last in (b"", request(WRITE, 0, data=b"h" * BLOCK)[:99], b"\0" * 28):
        with host.up(pool(host)) as server:
            client = comparer(server)
            want_held(server)
            client.send(last)
            client.close()
            want_free(server)


def replaced(host):
    """By another volume, by a context that is no volume, and by none."""
    with host.up(pool(host)) as server:
        client = chooser(server, "0", ALLOCATION, SINCE)
        want_held(server, 100)
        choose(client, "0", ALLOCATION, "thinpool:since:101")
        want_held(server, 101)
        want_free(server, 100)
        choose(client, "0", ALLOCATION)
        want_free(server, 101)
        want((go(client, "0").ask(WRITE, 0, data=b"x" * 512)[0] == 0, "a WRITE is refused"))
        client.leave()
    with host.up(pool(host)) as server:
        client = chooser(server, "0", SINCE)
        want_held(server)
        choose(client, "0")
        want_free(server)
        client.leave()


def behind_an_error(host):
    """SET_META_CONTEXT whose data ends early selects no context."""
    with host.up(pool(host)) as server:
        client = chooser(server, "0", SINCE)
        want_held(server)
        client.send(option(SET_CONTEXTS, contexts("0", SINCE)[:-1]))
        want((client.replies()[-1][0] == ERR_INVALID, "such data is accepted"))
        want_free(server)
        client.leave()


def of_another_volume(host):
    """The context is that of volume 0, and the client goes to volume 1."""
    with host.up(pool(host)) as server:
        client = chooser(server, "0", SINCE)
        want_held(server)
        go(client, "1")
        want_free(server)
        client.leave()


def the_same_again(host):
    with host.up(pool(host)) as server:
        client = chooser(server, "0", SINCE)
        for _ in range(3):
            choose(client, "0", ALLOCATION, SINCE)
            want_held(server)
        go(client, "0")
        want_held(server)
        client.leave()
        want_free(server)


def listed(host):
    """LIST_META_CONTEXT names a context, holds nothing, and releases nothing."""
    with host.up(pool(host)) as server:
        client = chooser(server, "0", SINCE)
        told = client.choose(LIST_CONTEXTS, contexts("0", "thinpool:since:101"))
        want((told[0][1][4:] == b"thinpool:since:101", f"it is answered {told}"))
        want_free(server, 101)
        want_held(server, 100)
        client.close()


def by_two_clients(host):
    """The first one has the volume for an export, the others compare with it."""
    with host.up(pool(host)) as server:
        there = [server.client("100"), comparer(server), comparer(server)]
        for it in there:
            want_held(server)
            it.leave()
        want_free(server)


def with_itself(host):
    with host.up(pool(host)) as server:
        client = comparer(server, "100", ALLOCATION, SINCE)
        told = changes(client)
        want((not any(flags for _, flags in told), f"the changes since itself are {told}"))
        want_held(server)
        client.leave()
        want_free(server)


def many_clients(host):
    """Each has a volume, and compares with another one that no other client has."""
    image = host.pool(volumes=1)
    with host.up(image) as server:
        server.asked("\n".join(f"create_snap {it} 0" for it in range(1, 2 * MANY)))
        there = [
            comparer(server, str(it), ALLOCATION, f"thinpool:since:{MANY + it}")
            for it in range(MANY)
        ]
        answers = (
            server.ask("\n".join(f"delete {it}" for it in range(2 * MANY)))
            .out.decode()
            .splitlines()
        )
        want(
            (answers == [BUSY] * 2 * MANY, f"{answers.count(BUSY)} of {2 * MANY} volumes are held")
        )
        for it in there:
            it.leave()
        server.waits_for("0 of 64:")
        answers = server.asked("\n".join(f"delete {it}" for it in range(2 * MANY))).splitlines()
        want(
            (
                answers == ["ok"] * 2 * MANY,
                f"{answers.count('ok')} of {2 * MANY} volumes are deleted",
            )
        )


def of_a_clone(host):
    with host.up(pool(host), "--clones") as server:
        client = comparer(server, "clone:0")
        want_held(server)
        client.leave()
        want_free(server)


def libnbd(host):
    wants_libnbd()
    with host.up(pool(host)) as server:
        words = [PYTHON, "-c", LIBNBD, server.uri("0")]
        client = start(words, stdin=subprocess.PIPE, stdout=subprocess.PIPE)
        try:
            want((client.stdout.readline() == b"True\n", "libnbd has no such context"))
            want_held(server)
            client.stdin.close()
            want((end_of(client) == 0, "libnbd ends with an error"))
        finally:
            kill(client)
        want_free(server)


CASES = [
    ("`delete` and `grow` of the volume are refused by 16 until the client goes", in_transmission),
    ("so they are from SET_META_CONTEXT on, in the handshake", in_the_handshake),
    ("until a client disconnects without a word", behind_a_disconnect),
    ("until SET_META_CONTEXT names another volume, or none", replaced),
    ("until a SET_META_CONTEXT that is answered an error", behind_an_error),
    ("until GO of a volume for which the context was not selected", of_another_volume),
    ("also if SET_META_CONTEXT names the volume again", the_same_again),
    ("also if LIST_META_CONTEXT names another volume, which it does not hold", listed),
    ("until the last of several clients goes", by_two_clients),
    ("a volume that is compared with itself", with_itself),
    (f"{MANY} clients hold {2 * MANY} volumes", many_clients),
    ("the volume that a clone is compared with", of_a_clone),
    ("python3-libnbd", libnbd),
]
