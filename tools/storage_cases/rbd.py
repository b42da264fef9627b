"""A pool in an RBD image of Ceph, which QEMU exports by FUSE on each host."""
import contextlib
import functools
import json
import os
import signal
import subprocess
import time
import uuid
from concurrent.futures import ThreadPoolExecutor
from functools import partial

from device_cases.loops import wants
from running import FLUSH, LIMIT, WRITE, kill, start, want
from storage_cases.cluster import processes, soon
from storage_cases.failover import TURNS, life, told
from storage_cases.hosts import hosts_in
from storage_cases.journal import UNIT
from storage_cases.servers import Scene, starts

NBD_EIO = 5
WRITES, HANG = 60, 5
# An image as large as the pool at least.
SIZE = 64 << 20
# No passwords, and objects in memory. A client that has no map of the monitors may send a command
# before it has learned the cluster's id, and fails.
CONF = """[global]
fsid = {id}
monmap = {folder}/monmap
ms_bind_msgr2 = false
public_network = {address}/24
auth_cluster_required = none
auth_service_required = none
auth_client_required = none
osd_pool_default_size = 1
osd_crush_chooseleaf_type = 0
osd_objectstore = memstore
memstore_device_bytes = 268435456
run_dir = {folder}
log_file = {folder}/$name.$pid.log
admin_socket = {folder}/$name.$pid.asok
mon_data = {folder}/mon
osd_data = {folder}/osd
"""


def rbd(ground):
    """an RBD image that QEMU exports by FUSE: its locks are those of one host, so fence"""
    name = f"a host's server and export are killed {TURNS} times, and another host serves"
    yield name, partial(fails_over, ground)
    yield "a host that is fenced fails, and another one serves", partial(fences, ground)
    yield f"the storage hangs for {HANG} s: requests wait, and go on", partial(hangs, ground)


@functools.lru_cache(None)
def ceph_in(folder):
    wants("ceph-mon", "ceph-osd", "ceph", "rbd", "monmaptool", "qemu-storage-daemon")
    return Ceph(hosts_in(folder))


class Ceph:
    """A monitor and a daemon that stores, on the first host."""

    def __init__(self, hosts):
        self.host, self.servers, self.count = hosts.storage[0], hosts.servers, 0
        self.folder, name = f"{hosts.folder}/ceph", str(uuid.uuid4())
        for it in ("mon", "osd", "images"):
            os.makedirs(f"{self.folder}/{it}")
        self.conf = f"{self.folder}/ceph.conf"
        with open(self.conf, "w", encoding="ascii") as conf:
            conf.write(CONF.format(id=name, address=self.host.address, folder=self.folder))
        self.start_monitor(name)
        number = self.done("ceph", "osd", "create")
        self.done("ceph-osd", "-i", number, "--mkfs")
        self.done("ceph-osd", "-i", number)
        self.done("ceph", "osd", "pool", "create", "rbd", "8")
        soon(lambda: "1 up" in self.done("ceph", "osd", "stat"))

    def start_monitor(self, name):
        place, monitors = f"[v1:{self.host.address}:6789]", f"{self.folder}/monmap"
        self.host.done("monmaptool", "--create", "--fsid", name, "--addv", "a", place, monitors)
        self.done("ceph-mon", "--mkfs", "-i", "a", "--monmap", monitors)
        self.done("ceph-mon", "-i", "a")

    def done(self, program, *words):
        """What a command prints. It is repeated if it was sent before its client knew the cluster's
        id."""
        end = time.monotonic() + LIMIT
        ran = self.host.run(program, "--conf", self.conf, *words)
        while b"problem getting command descriptions" in ran.err and time.monotonic() < end:
            time.sleep(0.2)
            ran = self.host.run(program, "--conf", self.conf, *words)
        want((ran.status == 0, f"{program} {' '.join(words)}: {ran.told()}"))
        return ran.out.decode().strip()

    def new_image(self):
        """The name of a new image, whose path is that of a file on which it can be mounted."""
        self.count += 1
        name = f"pool{self.count}"
        self.done("rbd", "create", "--size", f"{SIZE}B", "--image-feature", "layering", name)
        with open(f"{self.folder}/images/{name}", "wb"):
            return name

    @contextlib.contextmanager
    def exported(self, host, name):
        """Exports an image on a host, until the export is killed."""
        path = f"{self.folder}/images/{name}"
        node = f"driver=rbd,node-name=image,pool=rbd,image={name},conf={self.conf}"
        export = f"type=fuse,id=export,node-name=image,mountpoint={path},writable=on"
        words = ["qemu-storage-daemon", "--blockdev", node, "--export", export]
        daemon = start([*host.enter, *words], stderr=subprocess.PIPE)
        try:
            soon(lambda: host.done("stat", "--format=%s", path) != "0" or daemon.poll() is not None)
            want((daemon.poll() is None, "QEMU does not export the image"))
            yield path
        finally:
            kill(daemon)
            host.run("umount", "--lazy", path)

    @contextlib.contextmanager
    def stopped(self):
        """The daemon that stores does nothing meanwhile."""
        found = [*processes("ceph-osd", self.conf)]
        want((len(found) == 1, f"{len(found)} daemons store"))
        os.kill(found[0], signal.SIGSTOP)
        try:
            yield
        finally:
            os.kill(found[0], signal.SIGCONT)

    def fence(self, host, name):
        """Refuses what the clients on this host write from now on."""
        watchers = json.loads(self.done("rbd", "status", "--format", "json", name))["watchers"]
        mine = [it["address"] for it in watchers if it["address"].startswith(f"{host.address}:")]
        want((mine, f"no client of {host.address} in {watchers}"))
        for it in mine:
            self.done("ceph", "osd", "blocklist", "add", it)


@contextlib.contextmanager
def rbd_scene(ground):
    ceph = ceph_in(os.path.dirname(ground.folder))
    name = ceph.new_image()
    it = Scene(ground, ceph.servers, f"{ceph.folder}/images/{name}")
    it.exported = lambda host: ceph.exported(host, name)
    it.fence = lambda host: ceph.fence(host, name)
    it.stopped = ceph.stopped
    with it.exported(it.first):
        it.make()
    yield it


def compare(it, host):
    with it.exported(host):
        it.compare(host)


def fails_over(ground):
    seconds = []
    with rbd_scene(ground) as it:
        for turn in range(TURNS):
            host = it.hosts[turn % 2]
            with it.exported(host):
                seconds.append(life(it, host, turn))
        for host in it.hosts:
            compare(it, host)
    return told(it, seconds)


def fences(ground):
    with rbd_scene(ground) as it:
        with it.exported(it.first), it.killed(it.first) as server:
            client = server.client()
            it.journal.work(client, WRITES)
            it.fence(it.first)
            with it.exported(it.second):
                other, seconds = starts(it.ground, it.second, it.image)
                second = other.client()
                it.journal.compare(second)
                it.journal.work(second, WRITES)
                error = client.ask(WRITE, data=b"w" * UNIT)[0] or client.ask(FLUSH)[0]
                it.journal.work(second, WRITES)
                other.kill()
        compare(it, it.second)
    want((error == NBD_EIO, f"the fenced server answers {error}"))
    return f"the second server started after {seconds:.1f} s; the first one's requests fail"


def hangs(ground):
    with rbd_scene(ground) as it:
        with it.exported(it.first), it.killed(it.first) as server, ThreadPoolExecutor(1) as at_once:
            client = server.client()
            it.journal.work(client, WRITES)
            with it.stopped():
                work = at_once.submit(it.journal.work, client, WRITES)
                time.sleep(HANG)
                is_waiting, clients = not work.done(), server.control("clients")
            work.result()
        compare(it, it.second)
    want((is_waiting, "the storage did not hang"), (clients == "1 of 64: 0", f"clients: {clients}"))
