"""Hosts of one machine: each a network, mount and host-name namespace, joined by a bridge.

All are in namespaces of the tool, whose end ends each process in them."""
import functools
import os
import subprocess

from device_cases.loops import wants
from running import as_root, run, start, want

BRIDGE, NETWORK = "hosts", "10.77.0."
STORAGE, SERVERS = (1, 2, 3), (4, 5)
# An address that moves from one host to another.
MOVING = f"{NETWORK}100"
# What a host does when it starts: it gets a name, and folders in place of those of the machine.
BOOT = """
set -e
hostname "$1"
ip link set lo up
for it in lib/glusterd log/glusterfs; do
  mkdir -p "$2/$it"
  [ ! -d "/var/$it" ] || mount --bind "$2/$it" "/var/$it"
done
mount -t tmpfs tmpfs /run
mkdir /run/gluster
echo up
exec sleep infinity
"""


def done(*words, **how):
    """What a command prints that has to succeed."""
    ran = run(list(words), **how)
    want((ran.status == 0, f"{' '.join(words[-4:])}: {ran.told()}"))
    return ran.out.decode().strip()


def make_bridge():
    done("ip", "link", "set", "lo", "up")
    done("ip", "link", "add", BRIDGE, "type", "bridge")
    done("ip", "address", "add", f"{NETWORK}254/24", "dev", BRIDGE)
    done("ip", "link", "set", BRIDGE, "up")


class Host:
    """A host of this number. `port` is the end of its cable at the bridge."""

    def __init__(self, folder, number):
        self.name, self.address, self.port = f"host{number}", f"{NETWORK}{number}", f"port{number}"
        self.folder = f"{folder}/{self.name}"
        os.mkdir(self.folder)
        words = ["--net", "--mount", "--uts", "sh", "-c", BOOT, "", self.name, self.folder]
        self.process = start(["unshare", *words], stdout=subprocess.PIPE)
        want((self.process.stdout.readline() == b"up\n", f"{self.name} does not come up"))
        target = ["--target", str(self.process.pid), "--net", "--mount", "--uts"]
        # The words before a command that runs on the host.
        self.enter = ["nsenter", *target, "--"]
        self.plug_in()

    def plug_in(self):
        """Lays its cable to the bridge."""
        peer = ["peer", "name", "eth0", "netns", str(self.process.pid)]
        done("ip", "link", "add", self.port, "type", "veth", *peer)
        done("ip", "link", "set", self.port, "master", BRIDGE, "up")
        self.take(self.address)
        self.done("ip", "link", "set", "eth0", "up")

    def done(self, *words, **how):
        return done(*self.enter, *words, **how)

    def run(self, *words, **how):
        return run([*self.enter, *words], **how)

    def cut(self):
        """Cuts its cable. No connection is closed."""
        done("ip", "link", "set", self.port, "nomaster")

    def join(self):
        done("ip", "link", "set", self.port, "master", BRIDGE)

    def take(self, address):
        self.done("ip", "address", "add", f"{address}/24", "dev", "eth0")

    def give_up(self, address):
        self.done("ip", "address", "del", f"{address}/24", "dev", "eth0")


class Hosts:
    """Hosts that store, and hosts that run servers. `folder` is that of their files."""

    def __init__(self, folder):
        self.folder = folder
        os.mkdir(folder)
        make_bridge()
        self.storage = [Host(folder, it) for it in STORAGE]
        self.servers = [Host(folder, it) for it in SERVERS]

    def join_all(self):
        for it in [*self.storage, *self.servers]:
            it.join()


@functools.lru_cache(None)
def hosts_in(folder):
    """The hosts of a run of the tool. Their daemons run until it ends."""
    as_root()
    wants("ip", "nsenter")
    return Hosts(f"{folder}/hosts")
