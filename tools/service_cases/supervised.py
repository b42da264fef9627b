"""The wrapper under supervisors: stops under load, kills, restarts, stale sockets, flushes."""
import os
import signal
import time
from functools import partial

from running import FLUSH, WRITE
from running import Client, want

from service_cases.loads import Load, age_of_loss, data_of, new_pool, want_all
from service_cases.supervisors import Runit, S6, Supervisord, Systemd
from service_cases.wrapper import make_stale, want_flushed


def runit(ground):
    """the wrapper under runit"""
    yield from cases(ground, Runit)


def s6(ground):
    """the wrapper under s6"""
    yield from cases(ground, S6)


def supervisord(ground):
    """the wrapper under supervisord, by the example of contrib"""
    yield from cases(ground, Supervisord)


def systemd(ground):
    """the unit of contrib under a user manager of systemd"""
    yield from cases(ground, Systemd)


def cases(ground, kind):
    yield "a stop under load loses no write, and a start serves again", partial(
        stops, ground, kind)
    yield "a start over the sockets of a server that was killed", partial(stale, ground, kind)
    yield "kill -9 of the server: it is restarted, and what was flushed is there", partial(
        killed_server, ground, kind)
    yield "kill -9 of the wrapper under load: no write is lost, and it is restarted", partial(
        killed_wrapper, ground, kind)
    yield "FLUSH_EVERY=1: kill -9 under load loses about 1 s, and it is restarted", partial(
        flushes, ground, kind)


def stops(ground, kind):
    image = new_pool(ground)
    with kind(ground, image) as service:
        load = Load(service.up().place).runs_for(1)
        began = time.monotonic()
        service.stop()
        took = time.monotonic() - began
        want((not service.servers(), "a server runs behind the stop"))
        told = want_all(ground, image, load)
        service.start()
        more = Load(service.up().place, writers=1).runs_for(0.5)
        service.stop()
        return f"{told}; {took:.1f} s; again: {want_all(ground, image, more)}"


def stale(ground, kind):
    image = new_pool(ground)
    service = kind(ground, image)
    make_stale(ground, image, place=service.place, control=service.ruler)
    with service:
        load = Load(service.up().place, writers=1).runs_for(0.5)
        service.stop()
        return want_all(ground, image, load)


def killed_server(ground, kind):
    image = new_pool(ground)
    with kind(ground, image) as service:
        client = Client.at(service.up().place).go("0")
        client.do(WRITE, 0, data=data_of(1))
        client.do(FLUSH)
        server, wrapper = service.server()
        began = time.monotonic()
        os.kill(server, signal.SIGKILL)
        service.up(but=(server,))
        took = time.monotonic() - began
        client.close()
        want((service.server()[1] != wrapper, "the wrapper goes on without its server"))
        service.stop()
        want_flushed(ground, image)
        return f"serves again after {took:.1f} s"


def killed_wrapper(ground, kind):
    image = new_pool(ground)
    with kind(ground, image) as service:
        load = Load(service.up().place).runs_for(1)
        server, wrapper = service.server()
        began = time.monotonic()
        os.kill(wrapper, signal.SIGKILL)
        service.up(but=(server,))
        took = time.monotonic() - began
        service.stop()
        return f"{want_all(ground, image, load)}; serves again after {took:.1f} s"


def flushes(ground, kind):
    image = new_pool(ground)
    with kind(ground, image, {"FLUSH_EVERY": "1"}) as service:
        load = Load(service.up().place, writers=1, pause=0.004).runs_for(3.5)
        server = service.server()[0]
        killed = time.monotonic()
        os.kill(server, signal.SIGKILL)
        service.up(but=(server,))
        service.stop()
        age, number = age_of_loss(ground, image, load, killed)
        want((age < 2, f"{number} writes are lost, the oldest {age:.1f} s old"))
        return f"{number} of {load.count()} writes lost, the oldest {age:.2f} s old"
