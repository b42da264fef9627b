"""What is synced and when, by strace."""
import contextlib
import os
import shutil
import subprocess
from functools import partial

from edge_cases.commands import FAULT, commands
from running import BLOCK, FLUSH, FUA, READ, TRIM, WRITE, ZEROES
from running import Client, Failed, Ground, Skipped, calls_in, end_of, go, held, kill, request, start, strace, want

SYNCS = ("fsync", "fdatasync")
# What drops the cached pages.
ADVICE = ("fadvise64",)
READS = ("read", "pread64", "readv", "preadv", "preadv2")
WRITES = ("write", "pwrite64", "writev", "pwritev", "pwritev2")
TRACED = ",".join([*SYNCS, *ADVICE, *READS, *WRITES])
FAILING = f"inject={','.join(SYNCS)}:error=EIO"
NOT_DROPPING = f"inject={','.join(ADVICE)}:error=EIO"

# What a client asks, each answered before the next: a name, the requests, and between how many syncs the answer to the last one stands.
STEPS = [
    ("a FLUSH behind nothing", [(FLUSH,)], 0, 0),
    ("a FLUSH behind the first write of a block", [(WRITE, 30 * BLOCK, 0, b"a" * BLOCK), (FLUSH,)], 2, 2),
    ("a FLUSH behind a write in place", [(WRITE, 30 * BLOCK, 0, b"b" * 4096), (FLUSH,)], 1, 1),
    ("a FLUSH behind another FLUSH", [(FLUSH,)], 0, 0),
    ("a FLUSH behind two others", [(FLUSH,)], 0, 0),
    ("a WRITE with FUA in place", [(WRITE, 30 * BLOCK, 0, b"c" * 4096, FUA)], 1, 1),
    ("a WRITE with FUA of a block that is not mapped", [(WRITE, 31 * BLOCK, 0, b"d" * 4096, FUA)], 2, 2),
    ("a FLUSH behind a write to a block that a snapshot shares", [(WRITE, 0, 0, b"e" * 4096), (FLUSH,)], 2, 2),
    ("a FLUSH behind a TRIM", [(TRIM, 30 * BLOCK, BLOCK), (FLUSH,)], 2, 2),
    ("a FLUSH behind a WRITE_ZEROES in place", [(ZEROES, 31 * BLOCK, 4096), (FLUSH,)], 1, 1),
    ("a FLUSH behind a WRITE with FUA", [(WRITE, 31 * BLOCK, 0, b"f" * 4096, FUA), (FLUSH,)], 0, 0),
    ("a READ", [(READ, 0, BLOCK)], 0, 0),
    ("a FLUSH behind a READ", [(FLUSH,)], 0, 0),
    *[(f"FLUSH {it} of 8 in a row, each behind a write", [(WRITE, (40 + it) * BLOCK, 0, b"f" * BLOCK), (FLUSH,)], 1, 2) for it in range(1, 9)],
]


def syncs(ground):
    """What is synced and when, by strace."""
    if not shutil.which("strace"):
        raise Skipped("strace is not installed")
    for command in commands(ground):
        if command.has_image and command.name not in ("check", "status", "status of a volume"):
            yield f"{command.name} syncs the image and drops its cached pages before it reads or writes it", partial(opens_settled, ground, command)
            if command.words:
                yield f"{command.name} is refused where that sync fails, and has written nothing", partial(opens_unsettled, ground, command, FAILING)
                yield f"{command.name} is refused where no page can be dropped, and has written nothing", partial(opens_unsettled, ground, command, NOT_DROPPING)
    for name in ("new.img", "./new.img", "below/new.img", ground.path("new.img")):
        yield f"format of the absent {name} syncs its folder", partial(syncs_folder, ground, name)
    yield "format of an absent file is refused where the sync of its folder fails", partial(fails_to_sync_folder, ground)
    kept = []
    for at, (name, _, least, most) in enumerate(STEPS):
        many = f"{least} or {most} syncs" if least < most else f"{least} sync{'s' * (least != 1)}"
        yield f"feed: {name} is answered behind {many}", partial(answered_behind, ground, kept, at, least, most)
    yield "feed: a FLUSH is answered 5 where a sync fails", partial(fails_to_flush, ground)
    yield "message 'set_transaction_id 0 0' writes nothing and syncs nothing", partial(sets_the_same, ground)
    yield "check --clear-needs-check-flag of an image without the flag writes nothing", partial(clears_nothing, ground)
    yield "play syncs nothing behind a write where the next line is bad", partial(plays_a_bad_line, ground)


def first(calls, names, path):
    """Where the first of these calls on a path stands, or behind all."""
    return next((at for at, (name, _, on, _) in enumerate(calls) if name in names and on == path), len(calls))


def opens_settled(ground, command):
    image, trace = command.image(ground, "synced.img"), ground.path("trace")
    if command.words:
        ran, calls = ground.traced(TRACED, *command.words_for(image), given=command.given)
    else:
        ran, calls = visited(ground, image, strace(trace, TRACED)), calls_in(trace)
    sync, advice, touch = (first(calls, it, image) for it in (SYNCS, ADVICE, READS + WRITES))
    want((ran.status == 0, ran.told()), (touch < len(calls), "the image is neither read nor written"))
    want((sync < advice < touch, "the image is read or written before it is synced and its cached pages are dropped"))


def visited(ground, image, before):
    """How `serve` ends behind a client that comes and goes."""
    server = ground.serve(image, 1, before=before)
    try:
        server.client().leave()
        return server.ended()
    finally:
        server.kill()


def opens_unsettled(ground, command, fault):
    """Each of these calls fails, the first one too."""
    image = command.image(ground, "unsynced.img")
    before = held(image)
    ran, calls = ground.traced(TRACED, *command.words_for(image), more=["-e", fault], given=command.given)
    writes = sum(name in WRITES and path == image for name, _, path, _ in calls)
    # `format` sets the length before.
    same = command.name == "format" or held(image) == before
    want((ran.status == 1, f"status {ran.status}"), (ran.err == FAULT, f"told {ran.err[:200]!r}"), (not writes and same, f"{writes} writes"))


def syncs_folder(ground, name):
    os.makedirs(ground.path("below"), exist_ok=True)
    image = os.path.normpath(os.path.join(ground.folder, name))
    with contextlib.suppress(FileNotFoundError):
        os.remove(image)
    ran, calls = ground.traced(TRACED, "format", name, *Ground.SIZES, cwd=ground.folder)
    folder = os.path.dirname(image)
    want((ran.status == 0, ran.told()), (first(calls, SYNCS, folder) < len(calls), f"no sync of {folder}"))
    ground.want_clean(image)


def fails_to_sync_folder(ground):
    folder = ground.path("below")
    os.makedirs(folder, exist_ok=True)
    image = os.path.join(folder, "new.img")
    with contextlib.suppress(FileNotFoundError):
        os.remove(image)
    ran, _ = ground.traced(TRACED, "format", image, *Ground.SIZES, more=["-P", folder, "-e", FAILING])
    want(((ran.status, ran.out, ran.err) == (1, b"", FAULT), ran.told()))


def answered_behind(ground, kept, at, least, most):
    """Of the one session of all steps, which the first case makes."""
    if not kept:
        kept.append(answers_traced(ground))
    found = kept[0][at]
    want((found is not None, "its answer is not in the trace"))
    want((least <= found <= most, f"{found} syncs"))


def answers_traced(ground):
    """For each step how many syncs stand before the answer to its last request."""
    image, trace = ground.copy("flushed.img"), ground.path("trace")
    process = start([*strace(trace, TRACED), ground.program, "feed", image], stdin=subprocess.PIPE, stdout=subprocess.PIPE, stderr=subprocess.DEVNULL)
    try:
        client = Client.of(process).go()
        for _, requests, _, _ in STEPS:
            for it in requests:
                client.do(*it)
        client.leave()
        status = end_of(process)
    finally:
        kill(process)
    want((status == 0, f"feed ends with {status}"))
    ground.want_clean(image)
    return by_step(calls_in(trace), image)


def by_step(calls, image):
    """Each answer is one write on standard output, as are the greeting and the answer to GO before them. A sync that failed does not count."""
    answers, synced = [], 0
    for name, descriptor, path, result in calls:
        if name in WRITES and descriptor == 1:
            answers.append(synced)
            synced = 0
        elif name in SYNCS and path == image and result == 0:
            synced += 1
    at, steps = 2, []
    for _, requests, _, _ in STEPS:
        at += len(requests)
        steps.append(answers[at - 1] if at <= len(answers) else None)
    return steps


def fails_to_flush(ground):
    """Each sync from one on fails: the first of which a FLUSH was answered 0 before."""
    for behind in range(1, 12):
        image = ground.copy("failing.img")
        words = [*strace(os.devnull, TRACED, ["-e", f"{FAILING}:when={behind}+"]), ground.program, "feed", image]
        process = start(words, stdin=subprocess.PIPE, stdout=subprocess.PIPE, stderr=subprocess.DEVNULL)
        try:
            if answers_a_failed_flush(Client.of(process)):
                return
        finally:
            kill(process)
    raise Failed("no FLUSH was answered 0 before the syncs failed")


def answers_a_failed_flush(client):
    """Whether a FLUSH was answered 0; one behind it comes to a sync that fails, and has to be answered 5, and the pool to have failed."""
    try:
        client.go()
    except EOFError:
        return False
    if client.ask(FLUSH)[0]:
        return False
    for it in range(8):
        client.do(WRITE, it * BLOCK, data=b"g" * 4096)
        error = client.ask(FLUSH)[0]
        if error:
            behind = client.ask(FLUSH)[0], client.ask(READ, 0, 512)[0]
            want((error == 5, f"it is answered {error}"), (behind == (5, 5), f"FLUSH and READ behind it are answered {behind}"))
            return True
    raise Failed("each FLUSH was answered 0")


def sets_the_same(ground):
    """A transaction id that stays is no change, so its commit is one flush, which has nothing to bring to the device."""
    image = ground.copy("same.img")
    before = held(image)
    ran, calls = ground.traced(TRACED, "message", image, "set_transaction_id 0 0")
    writes = sum(name in WRITES and path == image for name, _, path, _ in calls)
    # That of opening stands ahead of all reads.
    read = first(calls, READS, image)
    behind = sum(name in SYNCS and path == image for name, _, path, _ in calls[read:])
    want((ran.status == 0, ran.told()), (writes == 0, f"{writes} writes"), (held(image) == before, "the image changed"))
    want((behind == 0, f"{behind} syncs behind the first read"))


def clears_nothing(ground):
    """Where the image has no flag, there is nothing to write."""
    image = ground.copy("same.img")
    before = held(image)
    ran, calls = ground.traced(TRACED, "check", image, "--clear-needs-check-flag")
    writes = sum(name in WRITES and path == image for name, _, path, _ in calls)
    want((ran.status == 0, ran.told()), (writes == 0, f"{writes} writes"), (held(image) == before, "the image changed"))


def plays_a_bad_line(ground):
    """A bad line ends the script without closing the pool: what is not durable stays so."""
    image, script = ground.copy("bad.img"), ground.path("bad.script")
    lines = ["open 0", f"bytes 0 {go().hex()}", f"bytes 0 {request(WRITE, data=b'a' * 512).hex()}", "no line"]
    with open(script, "w", encoding="ascii") as it:
        it.write("\n".join(lines) + "\n")
    ran, calls = ground.traced(TRACED, "play", image, script)
    names = [name for name, _, on, _ in calls if on == image]
    writes = [at for at, name in enumerate(names) if name in WRITES]
    want((ran.status == 2, ran.told()), (len(writes) == 1, f"{len(writes)} writes"))
    behind = sum(name in SYNCS for name in names[writes[0]:])
    want((behind == 0, f"{behind} syncs behind the write"))
