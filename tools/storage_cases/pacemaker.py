"""Two hosts of a Pacemaker cluster, which runs the resource agent of contrib over a shared image.

The hosts are of one machine, and so are the file and its lock. A host is fenced by a program that
cuts its cable and kills its processes."""
import contextlib
import functools
import os
import shutil
import signal
import time
from functools import partial

from device_cases.loops import wants
from running import LIMIT, Client, Stuck, held, start, want
from storage_cases.cluster import processes, soon
from storage_cases.failover import told
from storage_cases.hosts import MOVING, NETWORK, hosts_in
from storage_cases.servers import HostPlace, Scene

CONTRIB = os.path.join(os.path.dirname(__file__), "..", "..", "contrib")
PORT, TURNS, WRITES = 10809, 4, 40
AGENTS, PROGRAMS = "/usr/lib/ocf/resource.d", "/usr/sbin"
# Folders of a host in place of those of the machine, with their owners.
FOLDERS = [("lib/corosync", "root"), ("lib/pacemaker", "hacluster"), ("log/pacemaker", "hacluster")]
CONF = """totem {
  version: 2
  cluster_name: pools
  transport: udpu
  token: 5000
  crypto_cipher: none
  crypto_hash: none
}
nodelist {
@nodes@
}
quorum {
  provider: corosync_votequorum
  two_node: 1
}
system {
  sched_rr: no
  move_to_root_cgroup: no
}
logging {
  to_syslog: no
  to_logfile: yes
  logfile: /var/log/pacemaker/corosync.log
}
"""
# As those of thinpool-storage(7), but for names and times.
LINES = """
primitive power stonith:fence_hosts params pcmk_host_list="@hosts@"
primitive mount Filesystem params device=@shared@ directory=@mounted@ fstype=none options=bind
primitive address IPaddr2 params ip=@address@ cidr_netmask=24
primitive pool ocf:thinpool:thinpool params image=@mounted@/pool.img listen=@address@:@port@ \\
  binary=@program@ log=@shared@.log op start timeout=60s op stop timeout=30s op monitor interval=3s timeout=10s
group storage mount address pool
property stonith-enabled=true
"""
# A host that does not reach the switch cannot fence.
FENCE = """#!/bin/sh
while read -r line; do
    case $line in
    action=*) action=${line#*=} ;;
    port=*) host=${line#*=} ;;
    esac
done
case $action in
metadata) cat @folder@/metadata ;;
off | reboot)
    ping -c 1 -W 2 @switch@ >/dev/null || exit 1
    nsenter --target @tool@ --net ip link set "port${host#host}" nomaster
    read -r first net <"@folder@/$host"
    for _ in 1 2; do
        for it in /proc/[0-9]*; do
            [ "$(readlink "$it/ns/net")" != "$net" ] || [ "${it#/proc/}" = "$first" ] ||
                kill -KILL "${it#/proc/}"
        done
    done
    echo "$host" >>@folder@/fenced
    ;;
esac
"""
# Comes before the sync(1) of the machine.
SYNC = """#!/bin/sh
[ ! -e @folder@/unsynced ] && exec /usr/bin/sync "$@"
"""
METADATA = """<?xml version="1.0" ?>
<resource-agent name="fence_hosts" shortdesc="fences a host of one machine">
<longdesc>Fences a host of one machine.</longdesc>
<parameters>
<parameter name="action"><content type="string" default="reboot"/></parameter>
<parameter name="port"><content type="string"/></parameter>
</parameters>
<actions>
<action name="reboot"/><action name="off"/><action name="monitor"/><action name="metadata"/>
</actions>
</resource-agent>
"""


def pacemaker(ground):
    """a Pacemaker cluster of two hosts: the agent of contrib, and no flushed block is lost"""
    for name, event, turns in (
            (f"the host that serves is killed {TURNS} times", Members.fence, TURNS),
            ("the host that serves is cut off", Members.cut, 1),
            ("the server is killed, and its image cannot be synced", Members.spoil, 1)):
        yield f"{name}: it is fenced, and the other serves", partial(moves, ground, event, turns)
    yield "the server is killed, and serves again", partial(restarts, ground, signal.SIGKILL)
    yield "the server does not answer: it is killed, and serves again", partial(
        restarts, ground, signal.SIGSTOP)
    yield "the group moves to the other host: no answered WRITE is lost", partial(migrates, ground)


def filled(text, **values):
    for name, value in values.items():
        text = text.replace(f"@{name}@", str(value))
    return text


class Members:
    """The cluster of the two hosts that serve. `scene` is that of its pool."""

    def __init__(self, ground, hosts):
        self.hosts, self.folder = hosts.servers, f"{hosts.folder}/members"
        self.shared, self.mounted = f"{self.folder}/shared", f"{self.folder}/mounted"
        for it in ("shared", "mounted", "agents", "programs"):
            os.makedirs(f"{self.folder}/{it}")
        self.place = HostPlace(MOVING, PORT)
        self.scene = Scene(ground, self.hosts, f"{self.shared}/pool.img")
        self.scene.make()
        self.write_programs()
        nodes = "\n".join(map(node, self.hosts))
        self.conf = self.write("corosync.conf", filled(CONF, nodes=nodes))
        for it in self.hosts:
            self.prepare(it)
            self.boot(it)
        names = " ".join(it.name for it in self.hosts)
        lines = filled(LINES, hosts=names, shared=self.shared, mounted=self.mounted, port=PORT,
                       address=MOVING, program=ground.program)
        self.has_two()
        self.hosts[0].done("crm", "-F", "configure", "load", "update", self.write("lines", lines))

    def write(self, name, text, mode=0o644):
        path = f"{self.folder}/{name}"
        with open(path, "w", encoding="ascii") as made:
            made.write(text)
        os.chmod(path, mode)
        return path

    def write_programs(self):
        os.mkdir(f"{self.folder}/agents/thinpool")
        shutil.copy(f"{CONTRIB}/ocf/thinpool", f"{self.folder}/agents/thinpool")
        self.write("metadata", METADATA)
        self.write("fenced", "")
        fence = filled(FENCE, folder=self.folder, switch=f"{NETWORK}254", tool=os.getpid())
        self.write("programs/fence_hosts", fence, 0o755)
        self.write("programs/sync", filled(SYNC, folder=self.folder), 0o755)

    def prepare(self, host):
        """Gives a host folders of its own, and the agents."""
        for name, owner in FOLDERS:
            path = f"{host.folder}/{name}"
            os.makedirs(path)
            host.done("mount", "--bind", path, f"/var/{name}")
            shutil.chown(path, owner, "haclient" if owner == "hacluster" else owner)
        for name in ("cib", "pengine", "cores", "blackbox"):
            path = f"{host.folder}/lib/pacemaker/{name}"
            os.mkdir(path, 0o750)
            shutil.chown(path, "hacluster", "haclient")
        host.done("mount", "-t", "tmpfs", "tmpfs", "/dev/shm")
        for lower, place in (("agents", AGENTS), ("programs", PROGRAMS)):
            layers = f"lowerdir={self.folder}/{lower}:{place}"
            host.done("mount", "-t", "overlay", "-o", layers, "overlay", place)
        net = os.readlink(f"/proc/{host.process.pid}/ns/net")
        self.write(host.name, f"{host.process.pid} {net}\n")

    def boot(self, host):
        """Starts a host that does nothing: its mount, its addresses and its files are gone."""
        with contextlib.suppress(FileNotFoundError):
            os.unlink(f"{self.folder}/unsynced")
        host.run("umount", "--lazy", self.mounted)
        host.run("ip", "address", "del", f"{MOVING}/24", "dev", "eth0")
        host.run("sh", "-c", "rm -rf /run/* /dev/shm/*")
        host.join()
        with open(f"{host.folder}/told", "ab") as log:
            start([*host.enter, "corosync", "-f", "-c", self.conf], stdout=log, stderr=log)
            soon(lambda: host.run("corosync-cfgtool", "-s").status == 0)
            start([*host.enter, "pacemakerd"], stdout=log, stderr=log,
                  env={**os.environ, "PCMK_logfile": f"{host.folder}/pacemaker.log"})

    def fence(self, host):
        """What the cluster runs to fence a host, without being noted."""
        given = f"action=off\nport={host.name}\n".encode()
        self.other(host).run(f"{self.folder}/programs/fence_hosts", given=given)
        self.write("fenced", "")

    def cut(self, host):
        host.cut()

    def spoil(self, _):
        """Kills the server. The image cannot be synced until a host starts."""
        self.write("unsynced", "")
        os.kill(self.server()[1], signal.SIGKILL)

    def other(self, host):
        return self.hosts[1 - self.hosts.index(host)]

    def fenced(self):
        return held(f"{self.folder}/fenced").decode().split()

    def shown(self, host):
        return host.run("crm_mon", "--one-shot", "--output-as", "xml").out.decode()

    def server(self):
        """The host that serves, and the number of its server, or None."""
        for number in processes(f"{self.mounted}/pool.img\0", "\0run\0"):
            try:
                net = os.readlink(f"/proc/{number}/ns/net")
            except OSError:
                continue
            for it in self.hosts:
                if net == os.readlink(f"/proc/{it.process.pid}/ns/net"):
                    return it, number
        return None

    def client(self):
        """A client of the address, once a server answers there, and the seconds until then."""
        began = time.monotonic()
        while time.monotonic() < began + LIMIT:
            try:
                return Client.at(self.place, 10).go(), time.monotonic() - began
            except (OSError, EOFError, Stuck):
                time.sleep(0.1)
        raise Stuck(f"nothing is served: {[self.shown(it)[-2000:] for it in self.hosts]}")

    def has_two(self):
        """Waits until both hosts are members. A host that is lost before is not fenced."""
        soon(lambda: all(map(is_whole, map(self.shown, self.hosts))))


def is_whole(shown):
    """Whether a host, by what crm_mon shows there, is in a cluster with the other one."""
    return (shown.count('online="true"') == 2 and 'pending="true"' not in shown
            and '<current_dc present="true"' in shown)


def node(host):
    number = host.name.removeprefix("host")
    lines = [f"ring0_addr: {host.address}", f"name: {host.name}", f"nodeid: {number}"]
    return "  node {\n    " + "\n    ".join(lines) + "\n  }"


@functools.lru_cache(None)
def members_of(ground):
    wants("corosync", "pacemakerd", "crm", "crm_mon", "modprobe", "ping")
    return Members(ground, hosts_in(os.path.dirname(ground.folder)))


def moves(ground, event, turns):
    """Each time this happens to the host that serves."""
    it, seconds = members_of(ground), []
    journal = it.scene.journal
    for _ in range(turns):
        it.has_two()
        client, _ = it.client()
        journal.compare(client)
        journal.work(client, WRITES)
        client.send(b"".join(journal.next_write() for _ in range(3)))
        host, _ = it.server()
        it.write("fenced", "")
        event(it, host)
        client.close()
        client, took = it.client()
        seconds.append(took)
        want((it.server()[0] is it.other(host), "the same host serves"),
             (it.fenced() == [host.name], f"fenced: {it.fenced()}"))
        journal.compare(client)
        client.leave()
        it.boot(host)
    return told(it.scene, seconds)


def restarts(ground, number):
    it = members_of(ground)
    it.has_two()
    client, _ = it.client()
    it.scene.journal.work(client, WRITES)
    host, server = it.server()
    it.write("fenced", "")
    os.kill(server, number)
    began = time.monotonic()
    soon(lambda: it.server() and it.server()[1] != server)
    again, _ = it.client()
    took = time.monotonic() - began
    it.scene.journal.compare(again)
    again.leave()
    client.close()
    want((not it.fenced(), f"fenced: {it.fenced()}"))
    return f"by {it.server()[0].name}, after {took:.1f} s"


def migrates(ground):
    it = members_of(ground)
    it.has_two()
    client, _ = it.client()
    journal, (host, _) = it.scene.journal, it.server()
    errors = {journal.write(client) for _ in range(WRITES)}
    # What was answered is durable after `stop now`.
    for at, stamps in enumerate(journal.later):
        if stamps:
            journal.flushed[at], journal.later[at] = stamps[-1], []
    host.done("crm", "resource", "move", "storage", it.other(host).name)
    soon(lambda: it.server() and it.server()[0] is not host)
    again, _ = it.client()
    journal.compare(again)
    again.leave()
    client.close()
    want((errors == {0}, f"WRITEs are answered {errors}"), (not it.fenced(), f"{it.fenced()}"))
