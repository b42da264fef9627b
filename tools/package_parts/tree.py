"""The files of the package, below the folder that is packed."""
import glob
import gzip
import os
import re
import shutil
import subprocess
import tempfile
import time

from package_parts.completions import bash, zsh
from package_parts.table import commands, help_of

USER = "thinpool"
AGENT = "usr/lib/ocf/resource.d/thinpool/thinpool"
EXAMPLES = ["pool.conf", "container/Containerfile", "openrc/thinpool", "openrc/thinpool.confd",
            "runit/run", "s6/run", "supervisor/thinpool.conf"]

DOCUMENTS = ["README.md", "CHANGES.md", "SECURITY.md"]

CONTROL = """\
Package: thinpool
Version: {version}
Section: admin
Priority: optional
Architecture: {architecture}
Maintainer: {maintainer}
Installed-Size: {size}
Depends: adduser, {libraries}
Suggests: libnbd-bin, qemu-utils, resource-agents
Description: thin pool with snapshots, served over NBD
 A thin pool in an image file or on a block device, in the manner of the thin
 target of device-mapper. Volumes take data blocks on first write, snapshots
 share blocks until a side is written, and all of them are served to NBD
 clients. The program is proved to meet its contracts.
 .
 The package also has a wrapper by which a supervisor stops the server in
 order, a template unit of systemd, an OCF resource agent for Pacemaker, and
 examples for other supervisors.
"""

COPYRIGHT = """\
Package: thinpool
Copyright: {year} {maintainer} and the other authors of thinpool

License: the owner of thinpool has not chosen a licence yet.

Until there is one, nobody is granted a right to copy, change or distribute
this package, beyond what the law gives. Ask the owner.
"""

POSTINST = """\
#!/bin/sh
set -e
if [ "$1" = configure ]; then
    adduser --system --group --quiet --home /var/lib/thinpool --no-create-home thinpool
    mkdir -p /var/lib/thinpool
    if [ -z "$2" ]; then
        chown thinpool:thinpool /var/lib/thinpool
        chmod 0750 /var/lib/thinpool
    fi
fi
if [ -d /run/systemd/system ]; then
    systemctl --system daemon-reload >/dev/null || true
fi
"""

PRERM = """\
#!/bin/sh
set -e
# An upgrade stops no server: the one that runs goes on with the program that it has.
if [ "$1" = remove ] && [ -d /run/systemd/system ]; then
    deb-systemd-invoke stop 'thinpool@*.service' >/dev/null || true
fi
"""

# Images, and the user that owns them, stay.
POSTRM = """\
#!/bin/sh
set -e
if [ -d /run/systemd/system ]; then
    systemctl --system daemon-reload >/dev/null || true
fi
"""


def put(root, path, data, mode=0o644):
    """Makes a file below the root, of a text or of bytes."""
    whole = os.path.join(root, path)
    os.makedirs(os.path.dirname(whole), 0o755, exist_ok=True)
    with open(whole, "wb") as made:
        made.write(data.encode() if isinstance(data, str) else data)
    os.chmod(whole, mode)


def packed(data):
    """A text or bytes by gzip, without a time."""
    return gzip.compress(data.encode() if isinstance(data, str) else data, 9, mtime=0)


def read(*path):
    with open(os.path.join(*path), "rb") as it:
        return it.read()


def stripped(program):
    """The bytes of a program without its symbols."""
    if not shutil.which("strip"):
        return read(program)
    with tempfile.TemporaryDirectory() as folder:
        made = os.path.join(folder, "thinpool")
        subprocess.run(["strip", "--strip-all", "-R", ".comment", "-o", made, program], check=True)
        return read(made)


def libraries(program):
    """What the program needs, as the field Depends."""
    with tempfile.TemporaryDirectory() as folder:
        put(folder, "debian/control", "Source: thinpool\n\nPackage: thinpool\nArchitecture: any\n")
        words = ["dpkg-shlibdeps", "-O", program]
        if shutil.which(words[0]):
            ran = subprocess.run(words, cwd=folder, capture_output=True, text=True, check=False)
            if match := re.search(r"shlibs:Depends=(.+)", ran.stdout):
                return match[1].strip()
    return "libc6"


def page_from_pod(path, name, section, version, moment):
    """A man page of a file of docs/manual."""
    date = time.strftime("%Y-%m-%d", time.gmtime(moment))
    words = ["pod2man", "--utf8", "--section", section, "--name", name.upper(), "--date", date,
             "--center", "thinpool", "--release", f"thinpool {version}", path]
    return subprocess.run(words, check=True, capture_output=True).stdout


def page_from_text(name, about, text, version, moment):
    """A man page that has a text as it is."""
    with tempfile.TemporaryDirectory() as folder:
        lines = "".join(f" {it}\n" if it else "\n" for it in text.splitlines())
        put(folder, "page.pod", f"=encoding utf8\n\n=head1 NAME\n\n{name} - {about}\n\n"
                                f"=head1 DESCRIPTION\n\n{lines}\n=cut\n")
        return page_from_pod(os.path.join(folder, "page.pod"), name, "1", version, moment)


def pages(top, program, table, version, moment):
    """The man pages, by their path."""
    known = {"thinpool", *(f"thinpool-{it.name}" for it in table)}
    found = {}
    for path in sorted(glob.glob(os.path.join(top, "docs/manual/*.pod"))):
        name = os.path.basename(path)[:-len(".pod")]
        section = "1" if name in known else "7"
        found[f"man{section}/{name}.{section}"] = page_from_pod(path, name, section, version, moment)
    if "man1/thinpool.1" not in found:
        about = help_of(program).splitlines()[0]
        text = "\n".join(help_of(program, *words) for words in
                         [[], *([it.name] for it in table if it.name != "help")])
        found["man1/thinpool.1"] = page_from_text("thinpool", about, text, version, moment)
    if "man1/thinpool-run.1" not in found:
        lines = read(top, "contrib/thinpool-run").decode().split("\nset ")[0].splitlines()[1:]
        text = "\n".join(it.removeprefix("#").removeprefix(" ") for it in lines)
        about = text.splitlines()[0].removeprefix("thinpool-run: ")
        found["man1/thinpool-run.1"] = page_from_text("thinpool-run", about, text, version, moment)
    return found


def changelog(version, maintainer, moment):
    date = time.strftime("%a, %d %b %Y %H:%M:%S +0000", time.gmtime(moment))
    return f"thinpool ({version}) unstable; urgency=medium\n\n" \
           f"  * A package of thinpool {version}.\n\n -- {maintainer}  {date}\n"


def put_documents(root, top, version, maintainer, moment):
    folder = "usr/share/doc/thinpool"
    year = time.strftime("%Y", time.gmtime(moment))
    put(root, f"{folder}/copyright", COPYRIGHT.format(year=year, maintainer=maintainer))
    put(root, f"{folder}/changelog.gz", packed(changelog(version, maintainer, moment)))
    for name in DOCUMENTS:
        if os.path.exists(os.path.join(top, name)):
            put(root, f"{folder}/{name}.gz", packed(read(top, name)))
    for name in EXAMPLES:
        path = os.path.join(top, "contrib", name)
        put(root, f"{folder}/examples/{name}", read(path), os.stat(path).st_mode & 0o755)


def put_control(root, program, version, architecture, maintainer):
    size = sum(os.path.getsize(it) for it in files_below(root)) // 1024 + 1
    put(root, "DEBIAN/control", CONTROL.format(
        version=version, architecture=architecture, maintainer=maintainer, size=size,
        libraries=libraries(program)))
    for name, text in (("postinst", POSTINST), ("prerm", PRERM), ("postrm", POSTRM)):
        put(root, f"DEBIAN/{name}", text, 0o755)
    digests = subprocess.run(["md5sum", *(os.path.relpath(it, root) for it in files_below(root)
                                          if "/DEBIAN/" not in it)],
                             cwd=root, check=True, capture_output=True).stdout
    put(root, "DEBIAN/md5sums", digests)


def files_below(root):
    return sorted(os.path.join(folder, it) for folder, _, names in os.walk(root) for it in names)


def set_times(root, moment):
    for folder, folders, names in os.walk(root, topdown=False):
        for it in [*folders, *names]:
            os.utime(os.path.join(folder, it), (moment, moment))
    os.utime(root, (moment, moment))


def fill(root, top, program, version, architecture, maintainer, moment):
    """Makes all files of the package, and lists their paths."""
    os.umask(0o022)
    table = commands(program)
    put(root, "usr/bin/thinpool", stripped(program), 0o755)
    put(root, "usr/bin/thinpool-run", read(top, "contrib/thinpool-run"), 0o755)
    put(root, AGENT, read(top, "contrib/ocf/thinpool"), 0o755)
    put(root, "lib/systemd/system/thinpool@.service", read(top, "contrib/thinpool@.service"))
    put(root, "usr/share/bash-completion/completions/thinpool", bash(table))
    put(root, "usr/share/zsh/vendor-completions/_thinpool", zsh(table))
    for path, page in pages(top, program, table, version, moment).items():
        put(root, f"usr/share/man/{path}.gz", packed(page))
    put_documents(root, top, version, maintainer, moment)
    put_control(root, program, version, architecture, maintainer)
    set_times(root, moment)
    return [os.path.relpath(it, root) for it in files_below(root) if "/DEBIAN/" not in it]
