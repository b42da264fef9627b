"""The files of contrib: what a tool that is here can say of them."""
import os
import re
import shutil
from functools import partial

from running import Skipped, run, want

from service_cases.wrapped import CONTRIB, WRAPPER

SCRIPTS = ["thinpool-run", "runit/run", "s6/run", "openrc/thinpool", "ocf/thinpool"]


def examples(ground):
    """the files of contrib"""
    for name in SCRIPTS:
        yield f"{name} is a script of POSIX sh", partial(is_script, name)
    yield "systemd-analyze verify has nothing to say of the unit", partial(verified, ground)
    yield "each file names options of `run` that there are", partial(named_options, ground)
    yield "the pool of pool.conf: each setting is one of the unit or the wrapper", settings_known


def read(name):
    with open(os.path.join(CONTRIB, name), encoding="ascii") as text:
        return text.read()


def is_script(name):
    path = os.path.join(CONTRIB, name)
    want((os.access(path, os.X_OK), "it cannot be run"))
    ran = run(["dash", "-n", path])
    want((ran.status == 0 and not ran.err, ran.told()))
    if not shutil.which("shellcheck"):
        return "by dash -n alone: shellcheck is not installed"
    omitted = "SC2034,SC2154" if "openrc" in name else "SC2209"
    ran = run(["shellcheck", "-S", "warning", "-s", "sh", "-e", omitted, path])
    want((ran.status == 0, ran.out.decode()))


def verified(ground):
    if not shutil.which("systemd-analyze"):
        raise Skipped("systemd-analyze is not installed")
    unit = ground.path("thinpool@.service")
    text = read("thinpool@.service")
    text = text.replace("/usr/bin/thinpool-run", WRAPPER)
    text = text.replace("/usr/bin/thinpool", ground.program).replace("User=thinpool", "User=root")
    with open(unit, "w", encoding="ascii") as made:
        made.write(text.replace("man:thinpool(1)", "man:sh(1)"))
    ran = run(["systemd-analyze", "verify", "--man=no", unit.replace("@.", "@pool.")])
    ours = [it for it in ran.err.decode().splitlines() if "thinpool" in it]
    want((not ours, "; ".join(ours)))


def named_options(ground):
    help_text = ground.made("run", "--help").out.decode()
    known = set(re.findall(r"^ +(?:-\w, )?(--[a-z-]+)", help_text, re.M))
    files = [*SCRIPTS, "thinpool@.service", "pool.conf", "openrc/thinpool.confd",
             "supervisor/thinpool.conf"]
    count = 0
    for name in files:
        for word in re.findall(r"(?<![\w-])--(?:listen|control|default|low-water|clones|quiet)\b",
                               read(name)):
            count += 1
            want((word in known, f"{name}: {word} is no option of `run`"))
    want((count > 0, "no option was found"))
    return f"{count} options in {len(files)} files"


def settings_known():
    known = set(re.findall(r"\b[A-Z]+_?[A-Z]+\b", read("thinpool@.service") + read("thinpool-run")))
    found = re.findall(r"^#([A-Z_]+)=", read("pool.conf"), re.M)
    want((found, "it has no settings"), (set(found) <= known, f"{set(found) - known}"))
    return " ".join(sorted(set(found)))
