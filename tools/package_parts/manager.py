"""A system manager of systemd over a root, in namespaces of its own."""
import os
import time
from contextlib import suppress

from running import LIMIT, Stuck, held, kill, run, start, want

from service_cases.supervisors import ENTER, own_group, remove_group

# The control groups that are mounted begin at the one that was made for this manager: if any
# process of another one can be seen, nothing is started.
SCRIPT = r"""
set -eu
cd "$1"
mount --bind . .
cd "$1"
mount -t proc proc proc
mount --bind proc/sys proc/sys
mount -o remount,bind,ro proc/sys
mount -t sysfs -o ro sysfs sys
mount -t cgroup2 cgroup2 sys/fs/cgroup
grep -qx 0::/ proc/self/cgroup
for it in $(cat sys/fs/cgroup/cgroup.procs); do [ "$it" -gt 0 ]; done
[ -z "$(find sys/fs/cgroup -mindepth 1 -type d)" ]
mount -t tmpfs -o mode=755 tmpfs run
mount -t tmpfs -o mode=755 tmpfs dev
for it in null zero full random urandom tty; do
    : > "dev/$it"
    mount --bind "/dev/$it" "dev/$it"
done
mkdir dev/pts dev/shm
: > dev/console
mount --bind "$2" dev/console
mkdir -p run/lock
: > run/machine-id
export container=namespaces
unset NOTIFY_SOCKET
exec setpriv --bounding-set=-sys_module,-sys_time,-sys_boot,-sys_rawio,-syslog,-net_admin \
    chroot . /lib/systemd/systemd --system --unit=basic.target --log-target=console \
    --log-level=notice
"""
# What would touch more than the root.
MASKED = ["systemd-udevd.service", "systemd-udev-trigger.service", "systemd-modules-load.service",
          "systemd-sysctl.service", "systemd-remount-fs.service", "systemd-random-seed.service",
          "systemd-journal-flush.service", "getty.target", "systemd-udevd-kernel.socket",
          "systemd-udevd-control.socket", "systemd-journald-audit.socket",
          "systemd-tmpfiles-setup-dev.service", "dev-hugepages.mount", "dev-mqueue.mount",
          "sys-kernel-debug.mount", "sys-kernel-tracing.mount", "sys-kernel-config.mount",
          "sys-fs-fuse-connections.mount", "proc-sys-fs-binfmt_misc.automount", "tmp.mount"]


class Manager:
    """A manager that has reached basic.target."""

    def __init__(self, ground, root):
        self.root, self.console = root, ground.path("console")
        self.group = own_group()
        for it in MASKED:
            with suppress(FileExistsError):
                os.symlink("/dev/null", os.path.join(root, "etc/systemd/system", it))
        open(self.console, "wb").close()

    def __enter__(self):
        words = ["unshare", "--mount", "--pid", "--ipc", "--uts", "--net", "--fork", "--kill-child", "sh",
                 "-c", ENTER, "sh", self.group, SCRIPT, "sh", self.root, self.console]
        self.process = start(words)
        try:
            self.waits_for_active("basic.target")
        except BaseException:
            self.close()
            raise
        return self

    def __exit__(self, *_):
        self.close()

    def close(self):
        kill(self.process)
        remove_group(self.group)

    def first(self):
        """The number of the first process of the namespaces, when it is there."""
        number, end = self.process.pid, time.monotonic() + LIMIT
        while self.process.poll() is None and time.monotonic() < end:
            if found := held(f"/proc/{number}/task/{number}/children").split():
                return found[0].decode()
            time.sleep(0.05)
        raise Stuck(f"the manager has ended: {held(self.console)[-800:]!r}")

    def call(self, *words, limit=LIMIT):
        """Runs words in the manager's namespaces and root."""
        return run(["nsenter", "--target", self.first(), "--mount", "--pid", "--ipc", "--net",
                    "--root", "--wd", *words], limit=limit, cwd="/",
                   env={"PATH": "/usr/sbin:/usr/bin:/sbin:/bin", "LC_ALL": "C.UTF-8"})

    def done(self, *words):
        ran = self.call(*words)
        want((ran.status == 0, f"{' '.join(words)}: {ran.told()}; {held(self.console)[-800:]!r}"))
        return ran.out.decode()

    def systemctl(self, *words):
        return self.done("systemctl", "--no-pager", *words)

    def shown(self, unit, *names):
        """Properties of a unit."""
        lines = self.systemctl("show", "-p", ",".join(names), unit).splitlines()
        return dict(it.split("=", 1) for it in lines)

    def waits_for_active(self, unit, limit=60):
        end = time.monotonic() + limit
        while self.call("systemctl", "is-active", unit).out != b"active\n":
            if time.monotonic() > end:
                raise Stuck(f"{unit} is not active: {held(self.console)[-1500:]!r}")
            time.sleep(0.2)
