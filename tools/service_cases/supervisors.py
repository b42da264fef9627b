"""Supervisors that run the wrapper: runit, s6, supervisord and a user manager of systemd.

Each starts the service when it is made, and has `stop`, `start` and `close`."""
import os
import shutil
import signal
import subprocess
import sys
import time
from contextlib import suppress

from running import Failed, Place, Skipped, Stuck, held, kill, run, start, want

from service_cases.loads import parent_of, processes
from service_cases.wrapped import CONTRIB, WRAPPER

# More than STOP_TIMEOUT of the wrapper.
PATIENCE = 90


class Supervised:
    """A service over an image, with what is told in a file of the folder."""

    NEEDS = ()

    def __init__(self, ground, image, settings=None):
        for it in self.NEEDS:
            if not shutil.which(it):
                raise Skipped(f"{it} is not installed")
        self.ground, self.image = ground, image
        self.place = Place(path=ground.path("nbd.sock"))
        self.ruler = Place(path=ground.path("control.sock"))
        self.err = ground.path("supervised.err")
        self.settings = {"THINPOOL": ground.program, **(settings or {})}
        self.process = None

    def __enter__(self):
        try:
            self.begin()
        except BaseException:
            self.close()
            raise
        return self

    def __exit__(self, *_):
        self.close()

    def launch(self, words, **how):
        """Starts the supervisor."""
        with open(self.err, "wb") as err:
            self.process = start(words, stdin=subprocess.DEVNULL, stdout=err, stderr=err, **how)

    def words(self):
        return [WRAPPER, self.image, "--listen", str(self.place), "--control", str(self.ruler)]

    def script(self, folder):
        """Makes a run script for the wrapper in a folder, as those of contrib."""
        os.makedirs(folder, exist_ok=True)
        path = os.path.join(folder, "run")
        values = "".join(f"export {name}={value}\n" for name, value in self.settings.items())
        with open(path, "w", encoding="ascii") as made:
            made.write(f"#!/bin/sh\nexec 2>&1\n{values}exec {' '.join(self.words())}\n")
        os.chmod(path, 0o755)

    def told(self):
        return held(self.err).decode(errors="replace")

    def servers(self):
        return processes("run", self.image, "--explain")

    def server(self):
        """The server, and the wrapper that started it."""
        found = self.servers()
        want((len(found) == 1, f"{len(found)} servers run: {self.told()}"))
        return found[0], parent_of(found[0])

    def up(self, but=()):
        """Waits until a server listens that is none of these."""
        end = time.monotonic() + 40
        while True:
            with suppress(Failed, OSError):
                if self.server()[0] not in but:
                    self.place.connect(2).close()
                    self.ruler.connect(2).close()
                    return self
            if time.monotonic() > end:
                raise Stuck(f"no server listens: {self.told()}")
            time.sleep(0.05)

    def down(self, limit=40):
        """Waits until no server runs."""
        end = time.monotonic() + limit
        while self.servers():
            if time.monotonic() > end:
                raise Stuck(f"a server runs still: {self.told()}")
            time.sleep(0.05)

    def call(self, *words, **how):
        ran = run(list(words), limit=PATIENCE + 30, **how)
        want((ran.status == 0, f"{' '.join(words)}: {ran.told()}"))
        return ran

    def close(self):
        if self.process:
            kill(self.process)
        for it in self.servers():
            with suppress(ProcessLookupError):
                os.kill(it, signal.SIGKILL)
        self.down()


class Runit(Supervised):
    """`runsv` of a service folder."""

    NEEDS = ("runsv", "sv")

    def begin(self):
        self.folder = self.ground.path("runit")
        self.script(self.folder)
        self.launch(["runsv", self.folder])

    def stop(self):
        self.call("sv", "-w", str(PATIENCE), "stop", self.folder)

    def start(self):
        self.call("sv", "start", self.folder)

    def close(self):
        if self.process and self.process.poll() is None:
            run(["sv", "-w", str(PATIENCE), "force-shutdown", self.folder], limit=PATIENCE + 30)
        super().close()


class S6(Supervised):
    """`s6-supervise` of a service folder."""

    NEEDS = ("s6-supervise", "s6-svc")

    def begin(self):
        self.folder = self.ground.path("s6")
        self.script(self.folder)
        with open(os.path.join(self.folder, "timeout-kill"), "w", encoding="ascii") as made:
            made.write(f"{PATIENCE * 1000}\n")
        self.launch(["s6-supervise", self.folder])

    def stop(self):
        self.call("s6-svc", "-wD", "-T", str(PATIENCE * 1000), "-d", self.folder)

    def start(self):
        self.call("s6-svc", "-u", self.folder)

    def close(self):
        if self.process and self.process.poll() is None:
            run(["s6-svc", "-wD", "-T", "10000", "-xd", self.folder], limit=PATIENCE)
        super().close()


class Supervisord(Supervised):
    """`supervisord` with the example of contrib, over other paths."""

    NEEDS = ("supervisord", "supervisorctl")

    def begin(self):
        self.config = self.ground.path("supervisord.conf")
        own = self.ground.folder
        environment = ",".join(f'{name}="{value}"' for name, value in self.settings.items())
        with open(os.path.join(CONTRIB, "supervisor", "thinpool.conf"), encoding="ascii") as text:
            program = text.read()
        lines = program.split("command=")[1].split("user=thinpool\n")
        program = program.replace("command=" + lines[0], f"command={' '.join(self.words())}\n")
        program = program.replace("user=thinpool\n", "")
        program = program.replace('environment=FLUSH_EVERY="1",STOP_TIMEOUT="60"',
                                  f"environment={environment}")
        with open(self.config, "w", encoding="ascii") as made:
            made.write(f"[supervisord]\nnodaemon=true\nlogfile={own}/supervisord.log\n"
                       f"pidfile={own}/supervisord.pid\nchildlogdir={own}\n"
                       f"[unix_http_server]\nfile={own}/supervisor.sock\n"
                       f"[supervisorctl]\nserverurl=unix://{own}/supervisor.sock\n"
                       "[rpcinterface:supervisor]\nsupervisor.rpcinterface_factory = "
                       "supervisor.rpcinterface:make_main_rpcinterface\n"
                       f"{program}stdout_logfile={own}/thinpool.log\n")
        self.launch(["supervisord", "-c", self.config])

    def ctl(self, *words):
        return self.call("supervisorctl", "-c", self.config, *words)

    def stop(self):
        self.ctl("stop", "thinpool")

    def start(self):
        self.ctl("start", "thinpool")

    def close(self):
        if self.process and self.process.poll() is None:
            self.process.send_signal(signal.SIGTERM)
            with suppress(subprocess.TimeoutExpired):
                self.process.wait(PATIENCE)
        super().close()


# The manager runs in namespaces of mounts, processes and control groups. ENTER moves it into a
# control group of its own; the groups that MANAGER mounts begin there. If a process of another
# group can be seen in it, nothing is started: a manager moves all processes of its first group.
ENTER = """
echo 0 > "$1/cgroup.procs" || exit
shift
exec unshare --mount --cgroup sh -c "$@"
"""
MANAGER = r"""
set -eu
mount -t proc proc /proc
mount -t tmpfs -o mode=755 tmpfs /run
mkdir -p /run/systemd/system
umount -R /sys/fs/cgroup
mount -t cgroup2 cgroup2 /sys/fs/cgroup
grep -qx 0::/ /proc/self/cgroup
for it in $(cat /sys/fs/cgroup/cgroup.procs); do [ "$it" -gt 0 ]; done
[ -z "$(find /sys/fs/cgroup -mindepth 1 -type d)" ]
mount -t overlay -o "lowerdir=$1:/usr/bin" overlay /usr/bin
# The manager writes its log there.
mount --bind "$4" /dev/console
export XDG_RUNTIME_DIR="$2" XDG_CONFIG_HOME="$3"
unset DBUS_SESSION_BUS_ADDRESS NOTIFY_SOCKET
/lib/systemd/systemd --user --log-target=console --log-level=notice
echo "the manager ended with $?"
"""


class Systemd(Supervised):
    """The unit of contrib under a user manager of systemd, but for its user."""

    NEEDS = ("systemctl", "unshare", "nsenter", "systemd-notify")

    def __init__(self, ground, image, settings=None):
        super().__init__(ground, image, settings)
        if os.getuid() or not os.path.exists("/lib/systemd/systemd"):
            raise Skipped("no user manager of systemd can be had")
        self.runtime = self.folder("runtime")
        own = self.folder("runtime/thinpool/pool")
        self.place = Place(path=os.path.join(own, "nbd.sock"))
        self.ruler = Place(path=os.path.join(own, "control.sock"))

    def begin(self):
        self.group = own_group()
        binaries = self.folder("bin")
        for name, path in (("thinpool", self.ground.program), ("thinpool-run", WRAPPER)):
            shutil.copy(path, os.path.join(binaries, name))
        self.write_units(self.folder("config"))
        self.launch(["unshare", "--mount", "--pid", "--fork", "--kill-child", "sh", "-c", ENTER,
                     "sh", self.group, MANAGER, "sh", binaries, self.runtime,
                     self.folder("config"), self.err])
        self.wait_for_manager()
        self.start()

    def folder(self, name):
        path = self.ground.path(name)
        os.makedirs(path, 0o700, exist_ok=True)
        return path

    def write_units(self, config):
        """The unit as it is, and beside it what this manager wants: the image, no user, and none
        of two settings that a user manager in namespaces cannot make."""
        units = os.path.join(config, "systemd", "user")
        extra = os.path.join(units, "thinpool@pool.service.d")
        os.makedirs(extra, exist_ok=True)
        shutil.copy(os.path.join(CONTRIB, "thinpool@.service"), units)
        # systemctl comes by the manager's own socket.
        for name in ("dbus.socket", "dbus.service"):
            with suppress(FileExistsError):
                os.symlink("/dev/null", os.path.join(units, name))
        conf = self.ground.path("pool.conf")
        values = {**self.settings, "IMAGE": self.image}
        del values["THINPOOL"]
        with open(conf, "w", encoding="ascii") as made:
            made.write("".join(f"{name}={value}\n" for name, value in values.items()))
        with open(os.path.join(extra, "test.conf"), "w", encoding="ascii") as made:
            made.write(f"[Service]\nUser=\nGroup=\nEnvironmentFile={conf}\n"
                       "ProtectKernelLogs=no\nProtectKernelTunables=no\n")

    def systemctl(self, *words, **how):
        """Calls systemctl in the manager's namespaces."""
        environment = {**os.environ, "XDG_RUNTIME_DIR": self.runtime}
        first = held(f"/proc/{self.process.pid}/task/{self.process.pid}/children").split()
        enter = ["nsenter", "--target", first[0].decode() if first else "0", "--mount", "--pid"]
        return run([*enter, "systemctl", "--user", *words], env=environment, limit=PATIENCE + 30,
                   **how)

    def wait_for_manager(self):
        end = time.monotonic() + 20
        while self.systemctl("list-jobs").status:
            if self.process.poll() is not None or time.monotonic() > end:
                raise Skipped(f"no user manager of systemd can be had: {self.told()}")
            time.sleep(0.2)

    def start(self):
        ran = self.systemctl("start", "thinpool@pool")
        want((ran.status == 0, f"start: {ran.told()}, {self.told()[-2000:]}"))
        # The unit tells when it listens, so a client may come at once.
        self.place.connect(2).close()

    def stop(self):
        ran = self.systemctl("stop", "thinpool@pool")
        want((ran.status == 0, f"stop: {ran.told()}"))
        shown = self.systemctl("show", "-p", "Result,ExecMainStatus,ActiveState", "thinpool@pool")
        wanted = b"Result=success\nExecMainStatus=0\nActiveState=inactive\n"
        want((sorted(shown.out.split()) == sorted(wanted.split()), shown.told()))

    def close(self):
        if self.process and self.process.poll() is None:
            self.systemctl("stop", "thinpool@pool")
        super().close()
        if hasattr(self, "group"):
            remove_group(self.group)


def own_group():
    """A new control group of version 2."""
    for top in ("/sys/fs/cgroup", "/sys/fs/cgroup/unified"):
        if os.path.exists(os.path.join(top, "cgroup.procs")) and not os.path.exists(
                os.path.join(top, "tasks")):
            path = os.path.join(top, f"thinpool-service-{os.getpid()}")
            os.makedirs(path, exist_ok=True)
            return path
    raise Skipped("no control groups of version 2")


def remove_group(path):
    """Removes a control group and those below it, when the last process has gone."""
    for _ in range(50):
        try:
            for folder, _, _ in os.walk(path, topdown=False):
                os.rmdir(folder)
            return
        except OSError:
            time.sleep(0.1)
    print(f"control group {path} is left", file=sys.stderr)
