"""`thinpool run` on a host, over an image on shared storage."""
import contextlib
import copy
import os
import socket
import time

from running import LIMIT, Failed, Place, Server, want
from storage_cases.cluster import cluster_in
from storage_cases.journal import UNITS, Journal

# Sectors of a block, blocks of a volume, of metadata and of the pool.
SIZES = ["128", str(UNITS), "1100", str(2 * UNITS)]
# Of a lock that was lost, GlusterFS keeps no copy.
STRICT = "client.strict-locks on"


class HostPlace(Place):
    """A TCP port of a host."""

    def __init__(self, address, port=0):
        super().__init__(port)
        self.address = address

    def __str__(self):
        return f"{self.address}:{self.port}"

    def connect(self, limit=LIMIT):
        return socket.create_connection((self.address, self.port), timeout=limit)


class HostServer(Server):
    """A server on a host. It listens at an address of the host."""

    def __init__(self, ground, host, image, address=None, port=0):
        self.host, self.listens_at = host, HostPlace(address or host.address, port)
        own = copy.copy(ground)
        own.folder = ground.path(host.name)
        os.makedirs(own.folder, exist_ok=True)
        super().__init__(own, image, before=host.enter, is_controlled=True)

    def new_place(self, name, over):
        return self.listens_at if name == "nbd.sock" else HostPlace(self.host.address)


def starts(ground, host, image, **how):
    """A server, once the storage has released the lock, and the seconds that this took."""
    began = time.monotonic()
    while True:
        try:
            return HostServer(ground, host, image, **how), time.monotonic() - began
        except Failed as why:
            if "in use" not in str(why) or time.monotonic() - began > LIMIT:
                raise
        time.sleep(0.1)


@contextlib.contextmanager
def killed(ground, host, image, **how):
    """A server that is killed at the end."""
    server, _ = starts(ground, host, image, **how)
    try:
        yield server
    finally:
        server.kill()


class Scene:
    """A pool with the empty volume 0 in an image that two hosts can serve, and a journal."""

    def __init__(self, ground, hosts, image):
        self.ground, self.hosts, self.image, self.journal = ground, hosts, image, Journal(1)
        self.first, self.second = hosts

    def make(self):
        for words in (["format", self.image, *SIZES], ["message", self.image, "create_thin 0"]):
            self.ground.made(*words, before=self.first.enter)

    def killed(self, host, **how):
        return killed(self.ground, host, self.image, **how)

    def compare(self, host):
        """Fails if the volume, served by this host, lacks what was flushed, or the check fails."""
        with self.killed(host) as server:
            self.journal.compare(server.client())
        ran = self.ground.run("check", self.image, before=host.enter)
        want(((ran.status, ran.out) == (0, b"clean\n"), f"check: {ran.told()}"))


@contextlib.contextmanager
def scene(ground, *options, **how):
    """A pool on a volume of GlusterFS with these options."""
    cluster = cluster_in(os.path.dirname(ground.folder))
    with cluster.volume(*options, **how) as folder:
        it = Scene(ground, cluster.servers, f"{folder}/pool.img")
        it.cluster, it.folder = cluster, folder
        it.make()
        yield it
