"""Kills: what was acknowledged is there, and the image is clean."""
import os
import random
import shutil
import signal
import struct
import subprocess
import threading
from functools import partial

from edge_cases.commands import flag
from running import BLOCK, DISC, FLUSH, FUA, MIB, READ, TRIM, WRITE, ZEROES
from running import Client, Failed, Ground, Skipped, end_of, kill, request, start, strace, want

SEED = int(os.environ.get("SEED", "1"))
KILLS = int(os.environ.get("KILLS", "36"))
LATEST = 0.5
SECTOR = 512
PER_BLOCK = BLOCK // SECTOR
BLOCKS = 32
SECTORS = BLOCKS * PER_BLOCK
MOST_WRITES = 200

# The session that is killed at each of its writes: a type, a block and how many.
SESSION = [(WRITE, 0, 1), (WRITE, 9, 2), (FLUSH, 0, 0), (TRIM, 0, 1), (WRITE, 3, 1), (FLUSH, 0, 0), (WRITE, 0, 1), (TRIM, 9, 2), (FLUSH, 0, 0)]


def kills(ground):
    """Kills at moments of no order, each of a program over what the kill before has left; and before each write of some commands."""
    fresh, chance, failed = ground.path("fresh.img"), random.Random(SEED), []
    ground.made("format", fresh, "128", str(BLOCKS), "1100", "256")
    for line in ("create_thin 0", "create_thin 1"):
        ground.made("message", fresh, line)
    image, life = ground.copy("killed.img", fresh), Life(chance)
    for number in range(1, KILLS + 1):
        how = "serve" if number % 3 else "feed"
        yield f"{how} is killed, {number} of {KILLS} (seed {SEED})", partial(killed_once, ground, image, life, how, failed)
    yield "feed is killed before each of its writes", partial(killed_at_each, ground, fresh)
    yield "run --write-through is killed: each answered change is there, and without the flag none is", partial(killed_through, ground, fresh)
    for line in ("create_thin 5", "create_snap 5 0", "delete 0", "set_transaction_id 0 7"):
        yield f"message '{line}' is killed before each of its writes", partial(command_killed, ground, ["message", None, line], ())
    words = ["check", None, "--clear-needs-check-flag"]
    yield "check --clear-needs-check-flag is killed before each of its writes", partial(command_killed, ground, words, (), True)
    yield "format over a pool is killed before each of its writes", partial(command_killed, ground, ["format", None, *Ground.SIZES], (b"thinpool: 30 BadSuper\n",))


def filled(value):
    """The bytes of a sector."""
    return struct.pack("<Q", value) * (SECTOR // 8)


class Volume:
    """What each sector of a volume may hold: what was kept last, and what was written since."""

    def __init__(self):
        self.may = [[0]] * SECTORS

    def writes(self, at, count, value):
        for it in range(at, at + count):
            self.may[it] = [*self.may[it], value]

    def keeps(self, at=0, count=SECTORS):
        """What is there now is kept."""
        for it in range(at, at + count):
            self.may[it] = self.may[it][-1:]

    def now(self):
        return [it[-1] for it in self.may]

    def takes(self, data):
        """Takes over what was found, or tells of a sector that may not be so."""
        for at, may in enumerate(self.may):
            sector = data[SECTOR * at : SECTOR * at + SECTOR]
            found = [it for it in may if filled(it) == sector]
            want((found, f"sector {at} holds what was neither kept nor written since: {sector[:16].hex()} of {may}"))
            self.may[at] = found[:1]


class Life:
    """Requests of no order to volume 0, and snapshots of it by control lines, until the program is killed."""

    def __init__(self, chance):
        self.chance, self.volume, self.snapshots, self.unsure = chance, Volume(), {}, set()

    def ask(self, client, control):
        """One request or line. What it writes may be there from when it is sent."""
        drawn, value = self.chance.random(), self.chance.getrandbits(48) | 1
        count = self.chance.randint(1, PER_BLOCK)
        at = self.chance.randrange(SECTORS - count)
        block = at // PER_BLOCK
        if drawn < 0.65:
            flags = FUA if drawn < 0.05 else 0
            self.volume.writes(at, count, value)
            client.do(WRITE, at * SECTOR, data=filled(value) * count, flags=flags)
            if flags:
                self.volume.keeps(at, count)
        elif drawn < 0.7:
            self.volume.writes(block * PER_BLOCK, PER_BLOCK, 0)
            client.do(TRIM, block * BLOCK, BLOCK)
        elif drawn < 0.75:
            self.volume.writes(at, count, 0)
            client.do(ZEROES, at * SECTOR, count * SECTOR)
        elif drawn < 0.95 or control is None:
            client.do(FLUSH)
            self.volume.keeps()
        else:
            self.snapshot(control)

    def snapshot(self, control):
        """Takes a snapshot, or removes the oldest of three. Its answer keeps what was written before."""
        is_new = len(self.snapshots) < 3
        number = max([9, *self.snapshots]) + 1 if is_new else min(self.snapshots)
        if is_new:
            self.snapshots[number] = self.volume.now()
        self.unsure = {number}
        line = f"create_snap {number} 0" if is_new else f"delete {number}"
        answer = control(line)
        want((answer == "ok", f"{line} is answered {answer}"))
        self.unsure = set()
        self.volume.keeps()
        if not is_new:
            del self.snapshots[number]

    def goes_on(self, client, control, kill_it, delay):
        """Asks until the program is killed, so many seconds from now."""
        killed = threading.Event()

        def end():
            killed.set()
            kill_it()

        timer = threading.Timer(delay, end)
        timer.start()
        try:
            while True:
                self.ask(client, control)
        except (EOFError, OSError) as error:
            want((killed.is_set(), f"before the kill: {type(error).__name__}: {error}"))
        finally:
            timer.cancel()
            timer.join()
            client.close()


def killed_once(ground, image, life, how, failed):
    """One more kill of the image that the ones before have left, unless one of those failed."""
    if failed:
        raise Skipped("a kill before failed")
    failed.append(True)
    control = None
    if how == "feed":
        process = start([ground.program, "feed", image], stdin=subprocess.PIPE, stdout=subprocess.PIPE, stderr=subprocess.DEVNULL)
        client = Client.of(process)
    else:
        server = ground.serve(image, 1, is_controlled=True)
        process, client, control = server.process, Client.at(server.port), partial(answer_of, server)
    try:
        client.go()
        life.goes_on(client, control, partial(os.killpg, process.pid, signal.SIGKILL), life.chance.uniform(0, LATEST))
    finally:
        kill(process)
    ground.want_clean(image)
    want_kept(ground, image, life)
    failed.clear()


def answer_of(server, line):
    """The answer to a control line of a server that is killed meanwhile, perhaps."""
    answer = server.control(line)
    if not answer:
        raise EOFError("the control client is let go")
    return answer


def whole(server, export="0"):
    """All bytes of a volume."""
    client = server.client(export)
    data = b"".join(client.do(READ, it, MIB) for it in range(0, BLOCKS * BLOCK, MIB))
    client.leave()
    return data


def want_kept(ground, image, life):
    """Wants what was acknowledged, and each snapshot as its volume was. One that was about to be taken or removed may be there or not."""
    server = ground.serve(image, 1 + len(life.snapshots))
    try:
        life.volume.takes(whole(server))
        for number, values in list(life.snapshots.items()):
            try:
                found = whole(server, str(number))
            except Failed as why:
                want((number in life.unsure and "80000006" in str(why), f"snapshot {number}: {why}"))
                del life.snapshots[number]
                continue
            want((found == b"".join(map(filled, values)), f"snapshot {number} is not as its volume was"))
    finally:
        server.kill()
    life.unsure = set()


def needs_strace():
    if not shutil.which("strace"):
        raise Skipped("strace is not installed")


def killed_before(number):
    """The words before a program that is killed before this write of its image."""
    return strace(os.devnull, "pwrite64", ["-e", f"inject=pwrite64:signal=KILL:when={number}"])


def each_write(once):
    """Calls with 1, 2 and so on until nothing was killed."""
    needs_strace()
    for number in range(1, MOST_WRITES):
        try:
            status = once(number)
        except Failed as why:
            raise Failed(f"write {number}: {why}") from None
        want((status in (0, -signal.SIGKILL), f"write {number}: status {status}"))
        if status == 0:
            want((number > 1, "it writes nothing"))
            return
    raise Failed(f"more than {MOST_WRITES} writes")


def killed_at_each(ground, fresh):
    """Behind each kill the image is opened, and another volume is written."""

    def once(number):
        image, volume = ground.copy("killed.img", fresh), Volume()
        status = killed_at(ground, image, volume, number)
        ground.want_clean(image)
        server = ground.serve(image, 3)
        try:
            found = whole(server)
            volume.takes(found)
            client = server.client("1")
            client.send(b"".join(request(WRITE, it * BLOCK, data=b"\xbb" * BLOCK) for it in range(8)) + request(FLUSH))
            want((all(client.receive(16)[4:8] == bytes(4) for _ in range(9)), "volume 1 is not written"))
            client.leave()
            want((whole(server) == found, "volume 0 is another one behind writes to volume 1"))
            want((server.ended().status == 0, "the server fails"))
        finally:
            server.kill()
        ground.want_clean(image)
        return status

    each_write(once)


def killed_at(ground, image, volume, number):
    """The status of a session of writes, flushes and trims of volume 0 that is killed before this write of the image."""
    words = [*killed_before(number), ground.program, "feed", image]
    process = start(words, stdin=subprocess.PIPE, stdout=subprocess.PIPE, stderr=subprocess.DEVNULL)
    client = Client.of(process)
    try:
        client.go()
        for value, (kind, block, count) in enumerate(SESSION, 1):
            value = value if kind == WRITE else 0
            data = filled(value) * PER_BLOCK * count if kind == WRITE else b""
            volume.writes(block * PER_BLOCK, count * PER_BLOCK, value)
            client.do(kind, block * BLOCK, 0 if data else count * BLOCK, data)
            if kind == FLUSH:
                volume.keeps()
        client.send(request(DISC))
    except (EOFError, OSError):
        pass
    finally:
        client.close()
        status = end_of(process)
    return status


def killed_through(ground, fresh):
    """A server that is killed after it answered changes that no client flushed."""
    for more in (("--write-through",), ()):
        image = ground.copy("through.img", fresh)
        server = ground.stays(image, more=more)
        try:
            client = server.client()
            client.do(WRITE, 0, data=filled(1) * PER_BLOCK * 4)
            client.do(TRIM, BLOCK, BLOCK)
            client.do(ZEROES, 2 * BLOCK, SECTOR)
        finally:
            server.kill()
        ground.want_clean(image)
        again = ground.serve(image, 1)
        try:
            found = again.client().do(READ, 0, 4 * BLOCK)
        finally:
            again.kill()
        changed = filled(1) * PER_BLOCK + bytes(BLOCK + SECTOR) + filled(1) * (2 * PER_BLOCK - 1)
        want((found == (changed if more else bytes(4 * BLOCK)), f"with {more} it is found otherwise"))


def command_killed(ground, words, may_be, is_flagged=False):
    """A command that is killed leaves a clean image, or what is told so."""

    def once(number):
        image = ground.copy("killed.img")
        if is_flagged:
            flag(image)
        ran = ground.run(*[image if it is None else it for it in words], before=killed_before(number))
        found = ground.run("check", image)
        want((found.out == b"clean\n" or found.err in may_be, f"check: {found.told()}"))
        return ran.status

    each_write(once)
