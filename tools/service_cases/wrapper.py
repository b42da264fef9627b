"""The wrapper by itself: signals, stops while it starts, busy control places, and deaths."""
import os
import shutil
import signal
import time
from contextlib import ExitStack
from functools import partial

from running import FLUSH, WRITE
from running import Client, Place, Skipped, as_root, free_port, held, run, want

from service_cases.loads import Load, age_of_loss, data_of, lost, new_pool, want_all
from service_cases.wrapped import WRAPPER, Wrapped

SOON = 20
KILLED = 128 + signal.SIGKILL


def wrapper(ground):
    """contrib/thinpool-run by itself"""
    for name in ("SIGTERM", "SIGINT", "SIGHUP"):
        number = getattr(signal, name)
        yield f"{name} under load stops it in order, with 0: no write is lost", partial(
            stops, ground, lambda it, number=number: it.signal(number))
    yield "SIGTERM to all processes of its group does the same", partial(
        stops, ground, lambda it: os.killpg(it.process.pid, signal.SIGTERM))
    yield "SIGTERM five times does the same", partial(stops, ground, five_times)
    yield "a control line `stop now` ends it with 0", partial(
        stops, ground, lambda it: want((it.ask("stop now").status == 0, "it is refused")))
    yield "a control place that is a TCP address does as well", partial(
        stops, ground, lambda it: it.signal(signal.SIGTERM), over_tcp=True)
    for delay in (0, 0.01, 0.02, 0.05, 0.1, 0.3):
        yield f"SIGTERM {delay} s after the start", partial(early, ground, delay)
    yield "SIGTERM while the server does not listen yet", partial(slow_start, ground)
    yield "SIGTERM over stale sockets while the server does not listen yet", partial(
        slow_start, ground, is_stale=True)
    yield "all control connections are busy: killed after STOP_TIMEOUT", partial(busy, ground)
    yield "all control connections are busy, and one ends in time", partial(freed, ground)
    yield "`ask` hangs: killed after STOP_TIMEOUT", partial(hanging_ask, ground)
    yield "the server is killed: it ends at once with 137", partial(killed_server, ground)
    yield "the server is refused: it ends with 1", partial(refused, ground)
    yield "the program is missing: it ends with 127", partial(missing, ground)
    yield "it is killed: its server stops in order", partial(killed_wrapper, ground)
    yield "as the first process of a container's namespace: SIGTERM loses no write", partial(
        first_process, ground)
    yield "a second one at the same control place does not stop the first", partial(second, ground)
    yield "FLUSH_EVERY=1: kill -9 of the server loses about 1 s", partial(flushes, ground, "1", 2)
    yield "FLUSH_EVERY=3: kill -9 of the server loses about 3 s", partial(flushes, ground, "3", 4)
    yield "without it kill -9 loses what no client flushed", partial(unflushed, ground)
    yield "a flush that fails is reported once, and its end too", partial(failing_flush, ground)
    yield "a flush that is not answered is reported", partial(unanswered_flush, ground)
    yield "wrong calls end with 2", partial(wrong_calls, ground)


def shells(ground):
    """contrib/thinpool-run by other shells"""
    for name in os.environ.get("SHELLS", "dash bash busybox").split():
        before = [name, "sh"] if name == "busybox" else [name]
        yield f"{name}: SIGTERM under load loses no write", partial(
            stops, ground, lambda it: it.signal(signal.SIGTERM), before=before)
        yield f"{name}: the server is killed", partial(killed_server, ground, before)
        yield f"{name}: FLUSH_EVERY=1", partial(flushes, ground, "1", 2, before)


def needs(before):
    if before and not shutil.which(before[0]):
        raise Skipped(f"{before[0]} is not installed")


def stops(ground, stop, before=(), over_tcp=False):
    needs(before)
    image = new_pool(ground)
    control = Place(free_port()) if over_tcp else None
    with Wrapped(ground, image, before, control=control) as service:
        load = Load(service.up().place).runs_for(1)
        began = time.monotonic()
        stop(service)
        service.want_end(0, SOON)
        took = time.monotonic() - began
        service.want_no_process()
        return f"{want_all(ground, image, load)}; {took:.1f} s"


def five_times(service):
    for _ in range(5):
        service.signal(signal.SIGTERM)
        time.sleep(0.01)


def early(ground, delay):
    """Before the shell has its traps, the signal ends it, and no server was started."""
    image = new_pool(ground)
    with Wrapped(ground, image) as service:
        time.sleep(delay)
        service.signal(signal.SIGTERM)
        ran = service.ended(SOON)
        want((ran.status in (0, -signal.SIGTERM), ran.told()))
        service.want_no_process()
        ground.want_clean(image)
        return f"status {ran.status}"


def stub(ground, body):
    """A program that runs these lines of shell first, and then thinpool."""
    path = ground.path("stub")
    with open(path, "w", encoding="ascii") as made:
        made.write(f"#!/bin/sh\n{body}\nexec {ground.program} \"$@\"\n")
    os.chmod(path, 0o755)
    return {"THINPOOL": path}


def slow_stub(ground, seconds):
    return stub(ground, f'case " $* " in *" run "*) sleep {seconds} ;; esac')


def make_stale(ground, image, **places):
    """Leaves the sockets of a server that was killed."""
    with Wrapped(ground, image, **places) as service:
        service.up()
        os.kill(service.server(), signal.SIGKILL)
        service.want_end(KILLED, SOON)
        want((os.path.exists(service.place.path) and os.path.exists(service.ruler.path),
              "no socket is left"))


def slow_start(ground, is_stale=False):
    image = new_pool(ground)
    if is_stale:
        make_stale(ground, image)
    with Wrapped(ground, image, settings=slow_stub(ground, 2)) as service:
        time.sleep(0.7)
        began = time.monotonic()
        service.signal(signal.SIGTERM)
        service.want_end(0, SOON)
        took = time.monotonic() - began
        want((took > 1, f"it ended after {took:.1f} s, before the server listened"))
        service.want_no_process()
        ground.want_clean(image)


def fill_control(service, stack):
    """Takes the four control connections, with clients that say nothing."""
    streams = [stack.enter_context(service.ruler.connect()) for _ in range(4)]
    time.sleep(0.5)
    return streams


def flushed_client(service):
    """A client whose first block is flushed, and whose second is not."""
    client = Client.at(service.place).go("0")
    client.do(WRITE, 0, data=data_of(1))
    client.do(FLUSH)
    return client


def want_flushed(ground, image):
    ground.want_clean(image)
    server = ground.serve(image, 1)
    try:
        client = server.client("0")
        want((client.do(0, 0, 4096) == data_of(1), "what was flushed is lost"))
        client.leave()
    finally:
        server.kill()


def busy(ground):
    image = new_pool(ground)
    with Wrapped(ground, image, settings={"STOP_TIMEOUT": "3"}) as service, ExitStack() as stack:
        client = flushed_client(service.up())
        fill_control(service, stack)
        began = time.monotonic()
        service.signal(signal.SIGTERM)
        ran = service.want_end(KILLED, SOON)
        took = time.monotonic() - began
        want((2.5 < took < 6, f"it took {took:.1f} s"), (b"3 s after the signal" in ran.err, ran.told()))
        client.close()
    service.want_no_process()
    want_flushed(ground, image)


def freed(ground):
    image = new_pool(ground)
    with Wrapped(ground, image) as service, ExitStack() as stack:
        load = Load(service.up().place)
        streams = fill_control(service, stack)
        load.runs_for(1)
        service.signal(signal.SIGTERM)
        time.sleep(1.5)
        want((service.process.poll() is None, "it ended while nobody could ask"))
        streams[0].close()
        service.want_end(0, SOON)
        service.want_no_process()
        return want_all(ground, image, load)


def hanging_ask(ground):
    image = new_pool(ground)
    settings = {**stub(ground, '[ "$1" = ask ] && exec sleep 6'), "STOP_TIMEOUT": "2"}
    with Wrapped(ground, image, settings=settings) as service:
        client = flushed_client(service.up())
        service.signal(signal.SIGTERM)
        service.want_end(KILLED, SOON)
        client.close()
        service.want_no_process(10)
    want_flushed(ground, image)


def killed_server(ground, before=()):
    needs(before)
    image = new_pool(ground)
    with Wrapped(ground, image, before) as service:
        client = flushed_client(service.up())
        began = time.monotonic()
        os.kill(service.server(), signal.SIGKILL)
        service.want_end(KILLED, SOON)
        took = time.monotonic() - began
        want((took < 1, f"it took {took:.1f} s"))
        client.close()
        service.want_no_process()
    want_flushed(ground, image)


def refused(ground):
    image = new_pool(ground)
    with Wrapped(ground, image) as first:
        first.up()
        other = [f"unix:{ground.path(name)}" for name in ("nbd2.sock", "control2.sock")]
        ran = run([WRAPPER, image, "--listen", other[0], "--control", other[1]], limit=SOON,
                  env={**os.environ, "THINPOOL": ground.program})
        told = ran.err.decode()
        want((ran.status == 1 and "5 Fault" in told and "in use" in told, ran.told()))
        first.signal(signal.SIGTERM)
        first.want_end(0, SOON)
    return told.strip().splitlines()[-1]


def missing(ground):
    with Wrapped(ground, new_pool(ground), settings={"THINPOOL": "/nowhere/thinpool"}) as service:
        return service.want_end(127, SOON).err.decode().strip()


def killed_wrapper(ground):
    image = new_pool(ground)
    with Wrapped(ground, image) as service:
        load = Load(service.up().place).runs_for(1)
        began = time.monotonic()
        os.kill(service.process.pid, signal.SIGKILL)
        service.process.wait(SOON)
        while service.servers():
            want((time.monotonic() < began + SOON, "the server runs still"))
            time.sleep(0.05)
        took = time.monotonic() - began
        service.want_no_process()
        return f"{want_all(ground, image, load)}; {took:.1f} s"


def first_process(ground):
    """Signals without a handler do not reach the first process of a namespace."""
    as_root()
    image = new_pool(ground)
    before = ["unshare", "--pid", "--mount-proc", "--fork", "--kill-child"]
    with Wrapped(ground, image, before) as service:
        load = Load(service.up().place).runs_for(1)
        number = service.process.pid
        first = held(f"/proc/{number}/task/{number}/children").split()[0]
        os.kill(int(first), signal.SIGTERM)
        service.want_end(0, SOON)
        return want_all(ground, image, load)


def second(ground):
    image, other = new_pool(ground), new_pool(ground, "other.img")
    with Wrapped(ground, image) as first:
        first.up()
        slow = slow_stub(ground, 2)
        with Wrapped(ground, other, settings=slow, control=first.ruler, name="2") as service:
            time.sleep(0.7)
            service.signal(signal.SIGTERM)
            service.want_end(1, SOON)
        asked = first.ask("clients")
        want((asked.out == b"0 of 64:\n", f"the first one: {asked.told()}"))
        first.signal(signal.SIGTERM)
        first.want_end(0, SOON)


def flushes(ground, seconds, most, before=()):
    """One client that writes and never flushes, and a kill."""
    needs(before)
    image = new_pool(ground)
    with Wrapped(ground, image, before, settings={"FLUSH_EVERY": seconds}) as service:
        load = Load(service.up().place, writers=1, pause=0.004).runs_for(2 * int(seconds) + 1.5)
        killed = time.monotonic()
        os.kill(service.server(), signal.SIGKILL)
        service.want_end(KILLED, SOON)
        age, number = age_of_loss(ground, image, load, killed)
        want((age < most, f"{number} writes are lost, the oldest {age:.1f} s old"))
        return f"{number} of {load.count()} writes lost, the oldest {age:.2f} s old"


def unflushed(ground):
    """Shows that the cases above tell: without flushes all is lost."""
    image = new_pool(ground)
    with Wrapped(ground, image) as service:
        load = Load(service.up().place, writers=1, pause=0.004).runs_for(3)
        os.kill(service.server(), signal.SIGKILL)
        service.want_end(KILLED, SOON)
        load.end()
        number = len(lost(ground, image, load))
        want((number > 0.9 * load.count(), f"only {number} of {load.count()} are lost"))
        return f"{number} of {load.count()} writes lost"


def failing_flush(ground):
    image, flag = new_pool(ground), ground.path("refuses")
    settings = stub(ground, f'[ "$3" = flush ] && [ -e {flag} ] && exit 1')
    with Wrapped(ground, image, settings={**settings, "FLUSH_EVERY": "1"}) as service:
        service.up()
        open(flag, "wb").close()
        time.sleep(4)
        os.unlink(flag)
        time.sleep(2.5)
        service.signal(signal.SIGTERM)
        told = service.want_end(0, SOON).err.decode()
        counts = told.count("flush fails: refused"), told.count("flush succeeds again")
        want((counts == (1, 1), f"told {told!r}"))


def unanswered_flush(ground):
    image = new_pool(ground)
    settings = {"FLUSH_EVERY": "1", "FLUSH_TIMEOUT": "1"}
    with Wrapped(ground, image, settings=settings) as service, ExitStack() as stack:
        streams = fill_control(service.up(), stack)
        time.sleep(4)
        told = service.told()
        want((told.count("flush fails: no answer in 1 s") == 1, f"told {told!r}"))
        for it in streams:
            it.close()
        time.sleep(3)
        service.signal(signal.SIGTERM)
        told = service.want_end(0, SOON).err.decode()
        want((told.count("flush succeeds again") == 1 and "signal" not in told, f"told {told!r}"))


def wrong_calls(ground):
    image, listen = new_pool(ground), f"unix:{ground.path('nbd.sock')}"
    control = f"--control=unix:{ground.path('control.sock')}"
    for settings, more, text in (
            ({}, [], "no --control"), ({}, ["--control", "127.0.0.1:0"], "port"),
            ({"FLUSH_EVERY": "0"}, [control], "FLUSH_EVERY"),
            ({"FLUSH_EVERY": "1.5"}, [control], "FLUSH_EVERY"),
            ({"STOP_TIMEOUT": "-1"}, [control], "STOP_TIMEOUT"),
            ({"STOP_TIMEOUT": "ten"}, [control], "STOP_TIMEOUT"),
            ({}, [control, "--nonsense"], "--nonsense")):
        ran = run([WRAPPER, image, "--listen", listen, *more], limit=SOON,
                  env={**os.environ, "THINPOOL": ground.program, **settings})
        want((ran.status == 2 and text in ran.err.decode(), f"{settings} {more}: {ran.told()}"))
