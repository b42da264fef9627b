"""The OCF resource agent contrib/ocf/thinpool, called as a cluster manager calls it."""
import os
import re
import shutil
import signal
import time
from contextlib import ExitStack, suppress
from functools import partial

from running import FLUSH, WRITE
from running import Client, Failed, Place, Skipped, as_root, free_port, request, run, want

from service_cases.loads import Load, data_of, new_pool, processes, want_all
from service_cases.wrapped import CONTRIB
from service_cases.wrapper import stub, want_flushed

AGENT = os.path.join(CONTRIB, "ocf/thinpool")
FUNCTIONS = "/usr/lib/ocf/lib/heartbeat/ocf-shellfuncs"
OK, ERROR, INSTALLED, CONFIGURED, DOWN = 0, 1, 5, 6, 7
# Seconds that an action has, as a cluster manager counts them.
TIMEOUT = 20
# What a server or an older one replies to `health` and `status`, and how the monitor ends.
LINE = "0 9/1032 0/1024 - rw no_discard_passdown error_if_no_space - 512"
REPLIES = [
    ("ok", LINE, OK), ("failed", "Fail", ERROR), ("stalled 2", LINE, OK), ("stalled 120", LINE, OK),
    ("stalled 121", LINE, ERROR), ("stalled", LINE, ERROR), ("refused 12", LINE, OK),
    ("refused 11", LINE, OK), ("refused 12", "Fail", ERROR), ("refused 10", LINE, ERROR),
    ("", LINE, ERROR),
]


def agent(ground):
    """the OCF agent of contrib"""
    if not os.path.exists(FUNCTIONS):
        raise Skipped("resource-agents is not installed")
    yield "ocf-tester", partial(tester, ground)
    yield "start, monitor, and stop under load: no write is lost", partial(stops, ground)
    yield "kill -9: monitor returns 7, and a start serves again", partial(killed, ground)
    yield "each reply to `health`, and the status of monitor", partial(replies, ground)
    yield "`health` is not answered: monitor fails in its time", partial(unanswered, ground)
    yield "a sync fails: monitor fails, and stop and start serve again", partial(fails, ground)
    yield "a sync hangs: monitor fails, and stop until a killed server is gone", partial(
        hangs, ground)
    yield "a server that does not end: stop kills it, and syncs the image", partial(stuck, ground)
    yield "the image cannot be synced after a kill: stop fails", partial(unsynced, ground, stopped)
    yield "the same after a server that died", partial(unsynced, ground, died)
    yield "the fencing command is run before each start, and may fail", partial(fences, ground)
    yield "an image in use: start waits for its lock", partial(waits, ground)
    yield "an image that stays in use: start fails in its time", partial(refused, ground)
    yield "the number of another process in its file: monitor returns 7", partial(other, ground)
    yield "another user, two addresses and an option", partial(as_user, ground)
    yield "wrong parameters", partial(wrong, ground)


class Agent:
    """The agent with parameters, over a new pool. Its files are in a folder of its own."""

    def __init__(self, ground, **parameters):
        self.ground, name = ground, f"agent{len(os.listdir(ground.folder))}"
        self.own = ground.path(name)
        os.mkdir(self.own, 0o755)
        self.image = new_pool(ground, os.path.join(name, "pool.img"))
        self.place, self.folder = Place(path=self.file("nbd.sock")), self.file("run")
        self.path = shutil.copy(AGENT, self.file("thinpool"))
        self.parameters = {"image": self.image, "listen": str(self.place),
                           "binary": ground.program, "log": self.file("log"), **parameters}

    def file(self, name):
        return os.path.join(self.own, name)

    def __enter__(self):
        return self

    def __exit__(self, *_):
        for it in self.servers():
            with suppress(ProcessLookupError):
                os.kill(it, signal.SIGKILL)

    def call(self, action, timeout=TIMEOUT, interval=10):
        """Runs an action, and returns how it ended."""
        values = {f"OCF_RESKEY_{name}": value for name, value in self.parameters.items()}
        meta = {"OCF_RESKEY_CRM_meta_timeout": f"{timeout * 1000}",
                "OCF_RESKEY_CRM_meta_interval": f"{interval * 1000}",
                "OCF_RESOURCE_INSTANCE": "pool", "OCF_ROOT": "/usr/lib/ocf"}
        return run([self.path, action], limit=timeout + 5, stdin=None,
                   env={**os.environ, "HA_RSCTMP": self.folder, **meta, **values})

    def do(self, action, status=OK, **how):
        """Runs an action that must end with this status, and returns what it prints as a reason."""
        ran = self.call(action, **how)
        want((ran.status == status, f"{action}: {ran.told()}, and not {status}"))
        reason = re.search(rb"ocf-exit-reason:(.*)", ran.err)
        return reason[1].decode() if reason else ""

    def servers(self):
        return [it for it in processes("run", self.image) if runs(it, self.ground.program)]

    def server(self):
        found = self.servers()
        want((len(found) == 1, f"{len(found)} servers run"))
        return found[0]

    def flushed(self):
        """A client whose first block is flushed."""
        client = Client.at(self.place).go("0")
        client.do(WRITE, 0, data=data_of(1))
        client.do(FLUSH)
        return client


def runs(number, program):
    """Whether a process runs this program, and does not only trace it."""
    with suppress(FileNotFoundError):
        return os.readlink(f"/proc/{number}/exe") == program
    return False


def tester(ground):
    if not shutil.which("ocf-tester"):
        raise Skipped("ocf-tester is not installed")
    with Agent(ground) as it:
        options = [word for pair in it.parameters.items() for word in ("-o", "=".join(pair))]
        ran = run(["ocf-tester", "-n", "pool", *options, it.path], limit=120, stdin=None,
                  env={**os.environ, "HA_RSCTMP": it.folder})
        told = ran.out.decode() + ran.err.decode()
        bad = [line for line in told.splitlines() if "(optional)" not in line]
        want((ran.status == 0 and len(bad) == 2 and not it.servers(), told))
        return bad[-1].removeprefix(it.path).strip()


def stops(ground):
    with Agent(ground) as it:
        it.do("monitor", DOWN, interval=0)
        it.do("start")
        it.do("monitor")
        load = Load(it.place).runs_for(1)
        began = time.monotonic()
        it.do("stop")
        took = time.monotonic() - began
        it.do("monitor", DOWN, interval=0)
        want((not it.servers(), "the server runs after the stop"))
        return f"{want_all(ground, it.image, load)}; {took:.1f} s"


def killed(ground):
    with Agent(ground) as it:
        it.do("start")
        client, first = it.flushed(), it.server()
        os.kill(first, signal.SIGKILL)
        # Its threads end one by one.
        end = time.monotonic() + 5
        while it.call("monitor").status == ERROR and time.monotonic() < end:
            time.sleep(0.1)
        reason = it.do("monitor", DOWN)
        it.do("stop")
        it.do("start")
        want((it.server() != first, "it is the same server"))
        client.close()
        it.do("stop")
        want_flushed(ground, it.image)
        return reason


def told_by(ground, health, status):
    """A program whose `ask` prints these replies, once the file `told` exists."""
    lines = f'[ "$1" = ask ] && [ -e {ground.path("told")} ] && {{\n' \
            f"case $3 in health) echo '{health}' ;; status) echo '{status}' ;; esac; exit 1\n}}"
    return stub(ground, lines)["THINPOOL"]


def replies(ground):
    with Agent(ground) as it:
        it.do("start")
        open(ground.path("told"), "wb").close()
        for health, status, wanted in REPLIES:
            it.parameters["binary"] = told_by(ground, health, status)
            ran = it.call("monitor")
            want((ran.status == wanted, f"{health}, {status}: {ran.told()}"))
        os.unlink(ground.path("told"))
        it.do("stop")
    return f"{len(REPLIES)} replies"


def unanswered(ground):
    with Agent(ground) as it:
        it.do("start")
        it.parameters["binary"] = stub(ground, '[ "$1" = ask ] && exec sleep 60')["THINPOOL"]
        began = time.monotonic()
        reason = it.do("monitor", ERROR, timeout=6)
        took = time.monotonic() - began
        want((took < 6, f"monitor took {took:.1f} s"))
        it.parameters["binary"] = ground.program
        it.do("stop")
    return f"{took:.1f} s: {reason}"


def with_syncs(ground, what):
    """A program of which fdatasync does this, from the first one after opening on."""
    if not shutil.which("strace"):
        raise Skipped("strace is not installed")
    # The tracer is no parent of the server, which so has the number that was started.
    return stub(ground, f'[ "$1" = run ] && exec strace -D -f -qq -o {ground.path("trace")} '
                        f'-e trace=fdatasync -e inject=fdatasync:{what} {ground.program} "$@"')


def fails(ground):
    with Agent(ground, binary=with_syncs(ground, "error=EIO")["THINPOOL"]) as it:
        it.do("start")
        client = Client.at(it.place).go("0")
        client.do(WRITE, 0, data=data_of(1))
        error, _ = client.ask(FLUSH)
        reason = it.do("monitor", ERROR)
        it.do("stop")
        client.close()
        it.parameters["binary"] = ground.program
        it.do("start")
        it.flushed().close()
        it.do("stop")
        want((error == 5, f"FLUSH is answered {error}"))
        want_flushed(ground, it.image)
        return reason


def hangs(ground):
    """strace lets a thread die only when its call ends, as a kernel does whose disk hangs."""
    binary = with_syncs(ground, "delay_enter=20000000")["THINPOOL"]
    with Agent(ground, binary=binary, stall_limit="3") as it:
        it.do("start")
        client = Client.at(it.place).go("0")
        client.do(WRITE, 0, data=data_of(1))
        client.send(request(FLUSH))
        time.sleep(6)
        reasons = [it.do("monitor", ERROR, timeout=6), it.do("stop", ERROR, timeout=9)]
        began = time.monotonic()
        while it.call("stop", timeout=9).status:
            want((time.monotonic() < began + 40, "a killed server does not end"))
        client.close()
        ground.want_clean(it.image)
        return "; ".join(reasons)


def stopped(ground, stack):
    """An agent whose server does nothing any more, and has data that are not synced."""
    it = stack.enter_context(Agent(ground))
    it.do("start")
    stack.callback(it.flushed().close)
    os.kill(it.server(), signal.SIGSTOP)
    return it


def stuck(ground):
    with ExitStack() as stack:
        it = stopped(ground, stack)
        it.do("monitor", ERROR, timeout=6)
        began = time.monotonic()
        it.do("stop", timeout=12)
        took = time.monotonic() - began
        want((not it.servers(), "the server runs after the stop"),
             (8 <= took < 12, f"stop took {took:.1f} s"))
        want_flushed(ground, it.image)
        return f"{took:.1f} s"


def died(ground, stack):
    """An agent whose server was killed."""
    it = stopped(ground, stack)
    os.kill(it.server(), signal.SIGKILL)
    return it


def unsynced(ground, made):
    """`sync` is a program that fails."""
    with ExitStack() as stack:
        it = made(ground, stack)
        os.mkdir(folder := it.file("bin"))
        shutil.copy("/bin/false", os.path.join(folder, "sync"))
        before = os.environ["PATH"]
        os.environ["PATH"] = f"{folder}:{before}"
        stack.callback(os.environ.__setitem__, "PATH", before)
        reason = it.do("stop", ERROR, timeout=6)
        os.unlink(os.path.join(folder, "sync"))
        it.do("stop", timeout=6)
        return reason


def fences(ground):
    noted, refuses = ground.path("fenced"), ground.path("refuses")
    fence = f'echo "$OCF_RESKEY_image" >>{noted}; [ ! -e {refuses} ]'
    with Agent(ground, fence=fence) as it:
        open(refuses, "wb").close()
        reason = it.do("start", ERROR)
        want((not it.servers(), "a server runs, though fencing failed"))
        os.unlink(refuses)
        for _ in range(2):
            it.do("start")
            it.do("start")
            it.do("stop")
        with open(noted, encoding="utf-8") as text:
            found = text.read()
        want((found == 3 * f"{it.image}\n", f"the command noted {found!r}"))
        return reason


def in_use(ground, stack):
    """An agent over an image that another server has, and that server."""
    it = stack.enter_context(Agent(ground))
    first = ground.stays(it.image)
    stack.callback(first.kill)
    return it, first


def waits(ground):
    with ExitStack() as stack:
        it, first = in_use(ground, stack)
        killer = stub(ground, f'[ "$1" = run ] && {{ sleep 2; kill -9 {first.process.pid}; }}')
        # The second start of the agent finds the image free.
        it.parameters["binary"] = killer["THINPOOL"]
        began = time.monotonic()
        it.do("start")
        took = time.monotonic() - began
        it.do("stop")
        return f"{took:.1f} s"


def refused(ground):
    with ExitStack() as stack:
        it, first = in_use(ground, stack)
        began = time.monotonic()
        reason = it.do("start", ERROR, timeout=13)
        took = time.monotonic() - began
        want((2 <= took < 13, f"start took {took:.1f} s"), ("in use" in reason, reason))
        want((first.process.poll() is None, "the other server ended"))
        it.do("stop")
        want((first.process.poll() is None, "stop ended the other server"))
        return f"{took:.1f} s: {reason}"


def other(ground):
    with Agent(ground) as it:
        os.makedirs(it.folder, exist_ok=True)
        with open(it.folder + "/thinpool-pool.pid", "w", encoding="ascii") as made:
            made.write(f"{os.getpid()} 1\n")
        it.do("monitor", DOWN)
        it.do("stop")
        it.do("start")
        it.do("stop")


def as_user(ground):
    as_root()
    port, other = free_port(), free_port()
    with Agent(ground, user="nobody", listen=f"127.0.0.1:{port} 127.0.0.1:{other}",
               options="--default 0 --quiet") as it:
        os.chmod(it.image, 0o600)
        shutil.chown(it.image, "nobody")
        it.do("start")
        for place in (port, other):
            Client.at(place).go("").leave()
        user = os.stat(f"/proc/{it.server()}").st_uid
        it.do("stop")
        want((user == os.stat(it.image).st_uid, f"the server's user is {user}"))


def wrong(ground):
    reasons = []
    for name, value, wanted in (
            ("image", "pool.img", CONFIGURED), ("image", "", CONFIGURED),
            ("image", "/nowhere/pool.img", INSTALLED), ("image", ground.folder, INSTALLED),
            ("listen", "", CONFIGURED), ("stall_limit", "2m", CONFIGURED),
            ("user", "no-such-user", CONFIGURED), ("binary", "/nowhere/thinpool", INSTALLED)):
        with Agent(ground, **{name: value}) as it:
            reasons.append(it.do("validate-all", wanted))
            it.do("start", wanted)
            it.do("monitor", DOWN, interval=0)
            it.do("stop")
    with Agent(ground, listen="nothing") as it:
        reasons.append(it.do("start", ERROR))
    if not all(reasons):
        raise Failed(f"a start fails without a reason: {reasons}")
    return f"{len(reasons)}, such as {reasons[-1]!r}"
