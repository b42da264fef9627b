"""The lines of Pacemaker in thinpool-storage(7): what crm and crm_simulate make of them."""
import os
import re
import shutil
from functools import partial

from running import Skipped, as_root, held, run, want

from service_cases.agent import AGENT

PAGE = os.path.join(os.path.dirname(__file__), "..", "..", "docs/manual/thinpool-storage.pod")
NEEDS = ("crm", "crm_simulate", "crm_verify", "cibadmin", "fence_apc_snmp", "unshare")
AGENTS = "/usr/lib/ocf/resource.d"
# Runs words with the agent of contrib among those that are installed.
INSTALLED = f'mount -t overlay -o "lowerdir=$1:{AGENTS}" overlay {AGENTS} && shift && exec "$@"'
STARTS = ["mount start", "address start", "pool start"]


def pacemaker(ground):
    """the lines of Pacemaker in thinpool-storage(7), without a cluster"""
    as_root()
    for it in NEEDS:
        if not shutil.which(it):
            raise Skipped(f"{it} is not installed")
    it = Simulated(ground)
    yield "crm accepts each line, and crm_verify what becomes of them", it.load
    yield "two hosts: mount, address and pool start in order on one", it.starts
    yield "the host fails: it is fenced before they start on the other", partial(
        it.moves, "--node-fail", "{host}")
    yield "a monitor fails: the pool is stopped, then started", it.recovers
    yield "a stop fails: the host is fenced before they start on the other", it.fences


class Simulated:
    """A configuration and a state of a cluster, in a file."""

    def __init__(self, ground):
        self.cib, self.lines = ground.path("cib.xml"), ground.path("lines")
        self.agents = ground.path("agents")
        os.makedirs(os.path.join(self.agents, "thinpool"))
        shutil.copy(AGENT, os.path.join(self.agents, "thinpool"))

    def call(self, *words):
        ran = run(["unshare", "--mount", "sh", "-c", INSTALLED, "sh", self.agents, *words],
                  env={**os.environ, "CIB_file": self.cib, "LC_ALL": "C.UTF-8"})
        want((ran.status == 0, f"{words[0]}: {ran.out[-800:]!r}, {ran.err[-800:]!r}"))
        return ran

    def load(self):
        section = held(PAGE).decode().split("=head1 PACEMAKER")[1].split("=head1")[0]
        lines = [it[1:] for it in section.splitlines() if it.startswith(" ")]
        with open(self.lines, "w", encoding="ascii") as made:
            made.write("\n".join(lines) + "\n")
        with open(self.cib, "wb") as made:
            made.write(self.call("cibadmin", "--empty").out)
        told = self.call("crm", "-F", "configure", "load", "update", self.lines)
        found = re.findall(r"(?:ERROR|WARNING).*", (told.out + told.err).decode())
        # There is no cluster, so there is no quorum.
        wrong = [it for it in found if "lack of quorum" not in it]
        want((not wrong, "; ".join(wrong)), (len(lines) > 5, f"{len(lines)} lines"))
        self.call("crm_verify", "--xml-file", self.cib)
        return f"{len(lines)} lines"

    def simulate(self, *words, is_kept=False):
        """The actions after an event, in order."""
        more = ["--save-output", self.cib] if is_kept else []
        told = self.call("crm_simulate", "--xml-file", self.cib, "--simulate", *words, *more)
        self.shown = told.out.decode()
        actions = self.shown.split("Executing Cluster Transition:")[-1].split("Revised")[0]
        return [" ".join(it.split()) for it in re.findall(r"\* (?:\w+ action: +)?(\S.*)", actions)]

    def starts(self):
        ups = [word for host in ("host1", "host2") for word in ("--node-up", host)]
        actions = self.simulate("--quorum", "1", *ups, is_kept=True)
        self.host = re.search(r"pool.*Started (host\d)", self.shown)[1]
        return in_order(actions, *(f"{it} on {self.host}" for it in STARTS))

    def moves(self, *event):
        actions = self.simulate(*(it.format(host=self.host) for it in event))
        other = {"host1": "host2", "host2": "host1"}[self.host]
        return in_order(actions, f"Fencing {self.host}", *(f"{it} on {other}" for it in STARTS))

    def recovers(self):
        actions = self.simulate("--op-inject", f"pool_monitor_10000@{self.host}=1")
        return in_order(actions, f"pool stop on {self.host}", f"pool start on {self.host}")

    def fences(self):
        events = ["--op-inject", f"pool_monitor_10000@{self.host}=1",
                  "--op-fail", f"pool_stop_0@{self.host}=1"]
        self.simulate(*events, is_kept=True)
        return self.moves()


def in_order(actions, *wanted):
    """Fails unless these actions are there in this order."""
    at = [next((n for n, it in enumerate(actions) if it.startswith(one)), None) for one in wanted]
    want((None not in at and at == sorted(at), f"wanted {wanted} of {actions}"))
    return ", ".join(actions[it] for it in at)
