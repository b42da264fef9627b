"""A GlusterFS volume with three replicas on three hosts, mounted by two others."""
import contextlib
import functools
import os
import shutil
import signal
import time

from device_cases.loops import wants
from running import LIMIT, Stuck, held, want
from storage_cases.hosts import hosts_in

# Files that belong to options such as `group virt`.
GROUPS = "/var/lib/glusterd/groups"


def soon(test, limit=LIMIT):
    """Waits until this holds, and returns the seconds that it took."""
    began = time.monotonic()
    while not test():
        if time.monotonic() - began > limit:
            raise Stuck(f"waited {limit} s in vain")
        time.sleep(0.1)
    return time.monotonic() - began


def processes(*words):
    """The processes in whose command lines all these words are."""
    for name in filter(str.isdigit, os.listdir("/proc")):
        with contextlib.suppress(OSError):
            line = held(f"/proc/{name}/cmdline").decode(errors="replace")
            if all(it in line for it in words):
                yield int(name)


@functools.lru_cache(None)
def cluster_in(folder):
    """The cluster over the hosts of a folder."""
    wants("glusterd", "gluster", "mount.glusterfs")
    return Cluster(hosts_in(folder))


class Cluster:
    """A cluster of GlusterFS over the hosts that store."""

    def __init__(self, hosts):
        self.hosts, self.storage, self.servers, self.count = hosts, hosts.storage, hosts.servers, 0
        for it in self.storage:
            shutil.copytree(GROUPS, f"{it.folder}/lib/glusterd/groups")
            it.done("glusterd")
        for it in self.storage[1:]:
            self.gluster("peer", "probe", it.address)
        others = len(self.storage) - 1
        soon(lambda: self.gluster("peer", "status").count("(Connected)") == others)

    def gluster(self, *words):
        return self.storage[0].done("gluster", "--mode=script", *words)

    @contextlib.contextmanager
    def volume(self, *options, size=None):
        """A new volume with these options, as a folder where both servers have mounted it. Its
        replicas are in memory if they have a size."""
        self.count += 1
        self.name = f"pools{self.count}"
        self.shared = folder = f"{self.hosts.folder}/{self.name}"
        os.mkdir(folder)
        if size:
            self.give_size(size)
        bricks = [f"{it.address}:{self.replica(it)}" for it in self.storage]
        self.gluster("volume", "create", self.name, "replica", "3", *bricks, "force")
        for it in options:
            self.gluster("volume", "set", self.name, *it.split())
        self.gluster("volume", "start", self.name)
        try:
            for it in self.servers:
                source = f"{self.storage[0].address}:/{self.name}"
                it.done("mount", "-t", "glusterfs", source, folder)
            yield folder
        finally:
            self.hosts.join_all()
            for it in self.servers:
                it.run("umount", "--lazy", folder)
            self.gluster("volume", "stop", self.name, "force")
            self.gluster("volume", "delete", self.name)

    def give_size(self, size):
        """Sets the size of each replica, which is in memory."""
        for it in self.storage:
            place, how = self.replica(it), f"size={size}"
            if os.path.exists(place):
                how = f"remount,{how}"
            os.makedirs(place, exist_ok=True)
            it.done("mount", "-t", "tmpfs", "-o", how, "tmpfs", place)

    def replica(self, host):
        """The folder of a host's replica."""
        return f"{host.folder}/{self.name}"

    def kill_replica(self, host):
        """Kills the process of a host that serves its replica."""
        self.kill_one(processes("glusterfsd", f"{self.replica(host)}\0"), host)

    def kill_mount(self, host):
        """Kills the process that mounts the volume on a host."""
        found = processes("glusterfs", "fuse", f"{self.shared}\0")
        own = host.done("readlink", "/proc/self/ns/mnt")
        self.kill_one((it for it in found if os.readlink(f"/proc/{it}/ns/mnt") == own), host)

    def kill_one(self, found, host):
        found = [*found]
        want((len(found) == 1, f"{host.name} has {len(found)} such processes"))
        os.kill(found[0], signal.SIGKILL)

    def restart_replicas(self):
        """Starts what was killed, and waits until all replicas are the same."""
        self.gluster("volume", "start", self.name, "force")
        self.heal()

    def heal(self):
        """Waits until both servers are connected to all replicas, and these are the same."""
        soon(lambda: all(map(self.is_connected, self.servers)))
        soon(self.is_healed)

    def is_connected(self, host):
        shown = f"{self.shared}/.meta/graphs/active/{self.name}-client"
        places = [f"{shown}-{it}/private" for it in range(len(self.storage))]
        return host.run("cat", *places).out.count(b"connected = 1\n") == len(self.storage)

    def is_healed(self):
        # Without this the daemons look for differences every 10 minutes.
        self.storage[0].run("gluster", "volume", "heal", self.name)
        told = self.gluster("volume", "heal", self.name, "info") + "\n"
        return told.count("\nNumber of entries: 0\n") == len(self.storage)
