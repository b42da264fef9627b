"""Cases of the package in a fresh root: installed, used, started by a system manager, removed."""
import os
import shutil
import signal
import subprocess
import time
from contextlib import contextmanager, suppress
from functools import partial

from running import Place, Skipped, as_root, end_of, kill, run, start, want

from package_parts.contents import built
from package_parts.manager import Manager

INCLUDED = "systemd,libnbd-bin"
URI = "nbd+unix://?socket=/run/thinpool/pool/nbd.sock"
# Where the package is in the root.
DEB = "/srv/thinpool.deb"
# Prints the numbers of the processes of the program.
SERVERS = "cd /proc; for it in [0-9]*; do [ \"$(cat $it/comm)\" = thinpool ] && echo $it; done; :"


def installed(ground):
    """the package in a fresh root"""
    as_root()
    package = built(ground)
    root = fresh_root(ground, package)
    if not os.path.exists(os.path.join(root, "usr/bin/dpkg")):
        yield "unpacked into an empty root by dpkg: the program makes a pool", partial(
            unpacked_program, ground, root)
        return
    yield "dpkg installs it, with the user and the folder of images", partial(
        install, root, package)
    yield "as that user: create, run by the wrapper, nbdinfo, ask 'stop now'", partial(serve, root)
    yield "the unit under a system manager: start, nbdinfo, kill, stop", partial(
        unit, ground, root)
    yield "an upgrade and a removal stop nothing and keep the images", partial(
        removed, root, package)


def fresh_root(ground, package):
    """A root with Debian's least, or one that has the package alone."""
    root = ground.path("root")
    if given := os.environ.get("ROOT"):
        ran = run(["cp", "-a", "--reflink=auto", given, root], limit=600)
        want((ran.status == 0, ran.told()))
        return root
    if shutil.which("debootstrap"):
        ran = run(["debootstrap", "--variant=minbase", f"--include={INCLUDED}", "bookworm", root],
                  limit=3600)
        if ran.status == 0:
            return root
        print(f"debootstrap: {ran.out[-200:]!r}", flush=True)
        shutil.rmtree(root, ignore_errors=True)
    os.makedirs(os.path.join(root, "var/lib/dpkg/updates"))
    os.makedirs(os.path.join(root, "var/lib/dpkg/info"))
    open(os.path.join(root, "var/lib/dpkg/status"), "wb").close()
    ran = run(["dpkg", f"--root={root}", "--force-depends", "--force-script-chrootless", "--unpack",
               package])
    want((ran.status == 0, ran.told()))
    return root


def inside(root, *words, user="root", limit=120, **how):
    """Runs words in the root."""
    home = {"HOME": "/", "PATH": "/usr/sbin:/usr/bin:/sbin:/bin", "LC_ALL": "C.UTF-8",
            "DEBIAN_FRONTEND": "noninteractive"}
    return run(["chroot", f"--userspec={user}", root, *words], env=home, limit=limit, **how)


def done(root, *words, **how):
    ran = inside(root, *words, **how)
    want((ran.status == 0, f"{' '.join(words)}: {ran.told()}"))
    return ran.out.decode()


def unpacked_program(ground, root):
    image = ground.path("unpacked.img")
    ran = run([os.path.join(root, "usr/bin/thinpool"), "create", image, "--size", "64M",
               "--volume-size", "1G", "--volumes", "2"])
    want((ran.status == 0, ran.told()))


def install(root, package):
    shutil.copy(package, root + DEB)
    done(root, "dpkg", "-i", DEB)
    told = done(root, "stat", "-c", "%U %G %a", "/var/lib/thinpool").strip()
    want((told == "thinpool thinpool 750", f"/var/lib/thinpool: {told}"))
    audit = done(root, "dpkg", "--audit")
    want((not audit, audit), (done(root, "dpkg", "-V", "thinpool") == "", "dpkg -V tells changes"))
    return done(root, "thinpool", "--version").strip()


def new_pool(root):
    """A pool of the user, with one volume."""
    image = "/var/lib/thinpool/pool.img"
    with suppress(FileNotFoundError):
        os.unlink(root + image)
    done(root, "thinpool", "create", image, "--size", "64M", "--volume-size", "1G", "--volumes",
         "4", user="thinpool:thinpool")
    done(root, "thinpool", "message", image, "create_thin 0", user="thinpool:thinpool")
    return image


@contextmanager
def served(root, image):
    """A server of the wrapper's in the root, and the place of its control lines there."""
    folder = "/run/thinpool"
    os.makedirs(root + folder, exist_ok=True)
    done(root, "chown", "thinpool:thinpool", folder)
    ruler = f"unix:{folder}/control.sock"
    process = start(["chroot", "--userspec=thinpool:thinpool", root, "thinpool-run", image,
                     "--listen", f"unix:{folder}/nbd.sock", "--control", ruler],
                    stderr=subprocess.DEVNULL)
    try:
        Place(path=f"{root}{folder}/control.sock").wait(process)
        yield process, ruler
    finally:
        with suppress(ProcessLookupError):
            os.killpg(process.pid, signal.SIGKILL)
        kill(process)


def size_by_nbdinfo(root, path):
    """The size of volume 0 at a socket file of the root, by nbdinfo of the root or of this system."""
    if os.path.exists(os.path.join(root, "usr/bin/nbdinfo")):
        return int(done(root, "nbdinfo", "--size", f"nbd+unix:///0?socket={path}"))
    if not shutil.which("nbdinfo"):
        raise Skipped("nbdinfo is not installed")
    ran = run(["nbdinfo", "--size", f"nbd+unix:///0?socket={root}{path}"])
    want((ran.status == 0, ran.told()))
    return int(ran.out)


def serve(root):
    image = new_pool(root)
    with served(root, image) as (process, ruler):
        size = size_by_nbdinfo(root, "/run/thinpool/nbd.sock")
        want((size == 1 << 30, f"its size is {size}"))
        told = done(root, "thinpool", "ask", ruler, "stop now", user="thinpool:thinpool")
        want((told == "ok\n", told))
        status = end_of(process, 20)
        want((status == 0, f"the wrapper ended with {status}"))
    want((done(root, "thinpool", "check", image) == "clean\n", "it is not clean"))
    return f"a volume of {size} bytes"


def configure(root):
    """The example of the settings, with two of its lines in force."""
    folder = os.path.join(root, "etc/thinpool")
    os.makedirs(folder, exist_ok=True)
    with open(os.path.join(root, "usr/share/doc/thinpool/examples/pool.conf"), "rb") as text:
        lines = text.read()
    with open(os.path.join(folder, "pool.conf"), "wb") as made:
        made.write(lines + b"FLUSH_EVERY=1\nOPTIONS=--default 0 --low-water 20\n")


def unit(ground, root):
    if not os.path.exists(os.path.join(root, "lib/systemd/systemd")):
        raise Skipped("the root has no systemd")
    new_pool(root)
    configure(root)
    with open(root + "/srv/data", "wb") as made:
        made.write(os.urandom(1 << 20))
    with Manager(ground, root) as manager:
        manager.systemctl("start", "thinpool@pool")
        size = int(manager.done("nbdinfo", "--size", URI))
        want((size == 1 << 30, f"its size is {size}"))
        shown = manager.shown("thinpool@pool", "User", "ProtectKernelTunables", "ProtectSystem")
        want((list(shown.values()) == ["thinpool", "yes", "full"], f"{shown}"))
        server = manager.done("sh", "-c", SERVERS).split()
        want((len(server) == 1, f"servers: {server}"))
        manager.done("sh", "-c", f"kill -KILL {server[0]}")
        time.sleep(0.5)
        manager.waits_for_active("thinpool@pool")
        # nbdcopy does not flush: the stop has to keep what it wrote.
        manager.done("nbdcopy", "/srv/data", URI)
        stop_well(manager)
        manager.systemctl("start", "thinpool@pool")
        manager.done("sh", "-c", f"nbdcopy '{URI}' - | cmp -n 1048576 - /srv/data")
        stop_well(manager)
        score = manager.done("systemd-analyze", "security", "thinpool@pool.service")
    want((done(root, "thinpool", "check", "/var/lib/thinpool/pool.img") == "clean\n", "not clean"))
    return score.strip().splitlines()[-1].strip("→ ")


def stop_well(manager):
    manager.systemctl("stop", "thinpool@pool")
    shown = manager.shown("thinpool@pool", "Result", "ExecMainStatus", "ActiveState")
    wanted = {"Result": "success", "ExecMainStatus": "0", "ActiveState": "inactive"}
    want((shown == wanted, f"{shown}"))


def removed(root, package):
    image = new_pool(root)
    with served(root, image) as (process, ruler):
        done(root, "dpkg", "-i", DEB)
        done(root, "dpkg", "-r", "thinpool")
        want((process.poll() is None, "the server has ended"))
        done(root, "dpkg", "-i", DEB)
        done(root, "thinpool", "ask", ruler, "stop now", user="thinpool:thinpool")
        want((end_of(process, 20) == 0, "it ended badly"))
    done(root, "dpkg", "--purge", "thinpool")
    want((os.path.exists(root + image), "the image is gone"),
         (not os.path.exists(root + "/usr/bin/thinpool"), "the program is left"))
    left = inside(root, "find", "/usr", "/lib", "/etc/systemd", "-name", "*thinpool*").out.split()
    want((not left, f"{left} are left"))
