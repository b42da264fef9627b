"""What commits and what does not. strace counts the syncs of the image, and makes them fail."""
import contextlib
import shutil
from functools import partial

from edge_cases.commands import flag
from edge_cases.quiet import QUIET, QUIET_OF_RUN, makes_no_sync
from edge_cases.shared_syncs import attached
from edge_cases.staging import CLOSED, COOKIE, FIRST, HEADER, NBD_EIO, ODD, UNMAPPED
from edge_cases.staging import errors_of, mapped_image, odd_write, send_behind, send_cut, served
from edge_cases.staging import staged, syncs_in, want_done
from edge_cases.syncs import SYNCS, WRITES
from running import BLOCK, CLIENT_FLAGS, DISC, FLUSH, FUA, READ, TRIM, WRITE, ZEROES
from running import Client, Skipped, go, request, strace, want


def commits(ground):
    """which requests, options and control lines commit, counted by strace"""
    if not shutil.which("strace"):
        raise Skipped("strace is not installed")
    image = mapped_image(ground)
    for is_run in (True, False):
        how = "run" if is_run else "serve"
        with staged(ground, image, is_run) as stage:
            for name, case in cases_of_one_server(stage, is_run):
                yield f"{how}: {name}", case
            yield f"{how}: closing commits", partial(closing_commits, ground, stage)
        for name, action in FAULTLESS:
            case = partial(meets_no_fault, ground, image, is_run, action)
            yield f"{how}: no sync that fails meets {name}", case
        for name, action, answer in FAULTS:
            case = partial(meets_fault, ground, image, is_run, action, answer)
            yield f"{how}: where syncs fail, {name} is answered {answer}", case
    yield "run: a message that fails with error 18 commits its flag", partial(commits_flag, ground)
    yield "check --clear-needs-check-flag commits", partial(clearing_commits, ground)


def cases_of_one_server(stage, is_run):
    for name, action in [*QUIET, *(QUIET_OF_RUN if is_run else [])]:
        yield f"{name}: no sync", partial(tried, stage, makes_no_sync, action)
    for name, sent in (("FLUSH", CUT_FLUSHES), ("WRITE with FUA", CUT_WRITES)):
        case = partial(tried, stage, commit_each, sent)
        yield f"a {name} that is cut at each byte of its header commits", case
    for name, places in (("WRITEs", []), ("the end of a WRITE", [7 * (HEADER + 4096) + 500])):
        case = partial(tried, stage, pipelined_flush_commits, places)
        yield f"a FLUSH in one piece with {name} commits", case
    for name, action, count in [*(COMMITS_OF_RUN if is_run else []), *COMMITS]:
        case = partial(tried, stage, commits_at_once, action, count)
        yield f"{name}: {count} sync{'s' * (count > 1)} before its answer", case


def tried(stage, case, *more):
    """One case of a server. After a case that fails the server has a new client."""
    try:
        case(stage, *more)
    except Exception:
        stage.client.close()
        stage.client = stage.server.client()
        raise


# ---- what commits


def commits_at_once(stage, action, count):
    """Its syncs have ended when it is answered, and a FLUSH afterwards needs none."""
    stage.write_in_place()
    before = stage.syncs()
    action(stage)
    made = stage.syncs() - before
    stage.client.do(FLUSH)
    left = stage.syncs() - before - made
    want((made == count, f"{made} syncs"), (left == 0, f"{left} syncs at a FLUSH afterwards"))


def asks(kind, block, length=0, data=b"", flags=0):
    return lambda stage: stage.client.do(kind, block * BLOCK, length, data, flags)


def says(line):
    def action(stage):
        answer = stage.server.control(line)
        want((answer == "ok", f"{line} is answered {answer}"))

    return action


# Each message needs those before it.
MESSAGES = [
    "create_thin 7",
    "create_snap 8 0",
    "grow 8 4096",
    "delete 8",
    "set_transaction_id 0 9",
    "reserve_metadata_snap",
    "release_metadata_snap",
]
COMMITS = [
    ("FLUSH", asks(FLUSH, 0), 1),
    ("FLUSH with FUA", asks(FLUSH, 0, flags=FUA), 1),
    ("WRITE with FUA in place", asks(WRITE, FIRST, data=ODD * 4096, flags=FUA), 1),
    ("WRITE with FUA, not mapped", asks(WRITE, UNMAPPED, data=ODD * 4096, flags=FUA), 2),
    ("WRITE with FUA, shared", asks(WRITE, 0, data=ODD * 4096, flags=FUA), 2),
    ("TRIM with FUA", asks(TRIM, FIRST + 2, BLOCK, flags=FUA), 2),
    ("TRIM with FUA, not mapped", asks(TRIM, CLOSED, BLOCK, flags=FUA), 1),
    ("WRITE_ZEROES with FUA in place", asks(ZEROES, FIRST + 3, 4096, flags=FUA), 1),
    ("WRITE_ZEROES with FUA of a block", asks(ZEROES, FIRST + 4, BLOCK, flags=FUA), 2),
    *((f"the message {it}", says(it), 2) for it in MESSAGES),
    ("the message set_transaction_id 9 9", says("set_transaction_id 9 9"), 1),
]
COMMITS_OF_RUN = [("the control line flush", says("flush"), 1)]
# A request, and the places at which it is cut.
CUT_FLUSHES = [(request(FLUSH, cookie=COOKIE), [it]) for it in range(1, HEADER)]
PLACES = [*([it] for it in range(1, HEADER + 1)), [5, 104], [HEADER, 127], [500, 599]]
CUT_WRITES = [(odd_write(FIRST, 4096, FUA), it) for it in PLACES]


def commit_each(stage, sent):
    for data, places in sent:
        stage.write_in_place()
        before = stage.syncs()
        send_behind(stage.client, data, *places)
        errors, made = errors_of(stage.client, 2), stage.syncs() - before
        text = f"cut at {places} it is answered {errors[1]} after {made} syncs"
        want((errors == [0, 0] and made == 1, text))


def pipelined_flush_commits(stage, places):
    before = stage.syncs()
    data = b"".join(odd_write(FIRST + it, 4096) for it in range(8)) + request(FLUSH)
    send_cut(stage.client, data, *places)
    want_done(stage.client, 9)
    made = stage.syncs() - before
    want((made == 1, f"{made} syncs"))


def closing_commits(ground, stage):
    """What was written is there when the pool is opened again."""
    stage.client.do(WRITE, CLOSED * BLOCK, data=ODD * 4096)
    before = stage.syncs()
    stage.client.leave()
    stage.server.finish()
    made = stage.syncs() - before
    asked = go() + request(READ, CLOSED * BLOCK, 4096) + request(DISC)
    found = ground.made("feed", stage.server.image, given=asked).out
    want((made >= 2, f"{made} syncs"), (found.endswith(ODD * 4096), "what was written is lost"))


# ---- syncs that fail

FAILING = "error=EIO"


def meets_no_fault(ground, image, is_run, action):
    """No sync is made, so the pool has not failed."""
    with served(ground, image, is_run) as server:
        client = server.client()
        client.do(WRITE, FIRST * BLOCK, data=b"w" * 4096)
        with attached(ground, server.process, FAILING):
            said = action(server)
            status = server.control("status")
        client.do(FLUSH)
    want((said is None, said), (" rw " in status, f"its status is {status}"))


def meets_fault(ground, image, is_run, action, wanted):
    with served(ground, image, is_run) as server:
        client = server.client()
        client.do(WRITE, FIRST * BLOCK, data=b"w" * 4096)
        with attached(ground, server.process, FAILING):
            answer = action(server, client)
            status = server.control("status")
    want(
        (answer == wanted, f"it is answered {answer}"),
        (status == "Fail", f"its status is {status}"),
    )


def connects(server):
    """The option is a piece of its own."""
    client = Client.at(server.place).greet()
    send_cut(client, go("1"), len(CLIENT_FLAGS))
    want((client.replies()[-1][0] == 1, "GO is refused"))
    client.do(READ, 0, 512)
    client.leave()


def writes_odd(server):
    client = server.client()
    send_behind(client, odd_write(FIRST, 4096), 500)
    want_done(client, 2)
    client.leave()


def is_refused(server):
    answer = server.control("delete 0")
    return None if answer == "refused 16" else f"delete 0 is answered {answer}"


def write_with_fua(_, client):
    return client.ask(WRITE, FIRST * BLOCK, data=b"f" * 4096, flags=FUA)[0]


FAULTLESS = [
    ("another client that connects", connects),
    ("WRITEs of 0x61", writes_odd),
    ("a refused message", is_refused),
]
FAULTS = [
    ("FLUSH", lambda _, client: client.ask(FLUSH)[0], NBD_EIO),
    ("WRITE with FUA", write_with_fua, NBD_EIO),
    *(
        (it, lambda server, _, line=it: server.control(line), "refused 5")
        for it in ("create_thin 7", "set_transaction_id 0 0")
    ),
]


# ---- flags


def commits_flag(ground):
    """Fills the metadata with volumes, twice: first to learn how many there is space for."""
    fresh, trace = ground.path("small.img"), ground.path("commits.trace")
    ground.made("format", fresh, "128", "4", "1032", "4")
    with staying(ground, fresh) as server:
        lines = "\n".join(f"create_thin {it}" for it in range(1032))
        count = server.ask(lines).out.split(b"\n").index(b"refused 18")
    with staying(ground, fresh, strace(trace, ",".join(SYNCS), ["--seccomp-bpf"])) as server:
        server.asked("\n".join(f"create_thin {it}" for it in range(count)))
        before = syncs_in(trace, server.image)
        answer, status = server.control(f"create_thin {count}"), server.control("status")
        made = syncs_in(trace, server.image) - before
    want((answer == "refused 18", f"create_thin is answered {answer}"), (made > 0, "no sync"))
    want((" ro " in status and "needs_check" in status, f"its status is {status}"))


@contextlib.contextmanager
def staying(ground, image, before=()):
    """`run` over a copy of an image."""
    copied = ground.copy("full.img", image)
    server = ground.stays(copied, is_controlled=True, over="unix", before=before)
    try:
        yield server
    finally:
        server.kill()


def clearing_commits(ground):
    image = ground.copy("flagged.img")
    flag(image)
    words = ["check", image, "--clear-needs-check-flag"]
    ran, calls = ground.traced(",".join([*SYNCS, *WRITES]), *words)
    made = [name for name, _, path, _ in calls if path == image]
    is_synced = any(it in WRITES for it in made) and made[-1] in SYNCS
    want((ran.status == 0, ran.told()), (is_synced, f"its calls are {made}"))
    want((b"needs_check" not in ground.made("status", image).out, "the flag is still set"))
