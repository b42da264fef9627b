"""Cases of what the package has: its files, what lintian says, man pages and completions."""
import os
import re
import shutil
from functools import partial

from running import Skipped, held, run, want

from package_parts.table import commands
from package_parts.tree import AGENT

TOOLS = os.path.realpath(os.path.join(os.path.dirname(__file__), ".."))
FILES = ["usr/bin/thinpool", "usr/bin/thinpool-run", "lib/systemd/system/thinpool@.service", AGENT,
         "usr/share/man/man1/thinpool.1.gz", "usr/share/man/man1/thinpool-run.1.gz",
         "usr/share/bash-completion/completions/thinpool",
         "usr/share/zsh/vendor-completions/_thinpool", "usr/share/doc/thinpool/copyright",
         "usr/share/doc/thinpool/examples/pool.conf"]


def built(ground, name="made"):
    """Makes the package of the program, and gives its path."""
    folder = ground.path(name)
    os.makedirs(folder, exist_ok=True)
    ran = run([os.path.join(TOOLS, "package"), ground.program, folder])
    want((ran.status == 0, f"tools/package: {ran.status}, {ran.err[-800:]!r}"))
    return os.path.join(folder, os.listdir(folder)[0])


def unpacked(ground, package):
    """The files of the package below a folder."""
    folder = ground.path("unpacked")
    ran = run(["dpkg-deb", "-x", package, folder])
    want((ran.status == 0, ran.told()))
    return folder


def contents(ground):
    """the files of the package"""
    package = built(ground)
    folder = unpacked(ground, package)
    yield "it has the program, the unit, the agent, the pages, completions and examples", partial(
        has_files, folder)
    yield "the program of the package is the program, but for its symbols", partial(
        same_program, ground, folder)
    yield "made twice, it has the same bytes", partial(same_twice, ground, package)
    yield "lintian has nothing to say above `info`", partial(lintian, package)
    yield "man has nothing to say of the pages", partial(pages, folder)
    yield "the copyright file says that no licence is chosen", partial(unlicensed, folder)


def has_files(folder):
    missing = [it for it in FILES if not os.path.isfile(os.path.join(folder, it))]
    want((not missing, f"missing: {missing}"))
    count = sum(len(names) for _, _, names in os.walk(folder))
    return f"{count} files"


def same_program(ground, folder):
    """Both have the same code and data, by section."""
    if not shutil.which("objcopy"):
        raise Skipped("objcopy is not installed")
    for section in (".text", ".rodata", ".data"):
        parts = []
        for number, path in enumerate((ground.program, os.path.join(folder, "usr/bin/thinpool"))):
            part = ground.path(f"part{number}")
            ran = run(["objcopy", "-O", "binary", "--only-section", section, path, part])
            want((ran.status == 0, ran.told()))
            parts.append(held(part))
        want((parts[0] == parts[1], f"{section} is another one"),
             (section != ".text" or parts[0], "no code"))
    return f"{len(held(ground.program))} and {os.path.getsize(path)} bytes"


def same_twice(ground, package):
    want((held(built(ground, "again")) == held(package), "it has other bytes"))


def lintian(package):
    if not shutil.which("lintian"):
        raise Skipped("lintian is not installed")
    ran = run(["lintian", "--allow-root", "--display-info", "--pedantic", package], limit=600)
    lines = ran.out.decode().splitlines()
    bad = [it for it in lines if it[:2] in ("E:", "W:")]
    want((not bad, "; ".join(bad)), (not ran.err, ran.told()))
    return "; ".join(it.split(" [")[0] for it in lines)


def pages(folder):
    if not shutil.which("man"):
        raise Skipped("man is not installed")
    top, count = os.path.join(folder, "usr/share/man"), 0
    for section in sorted(os.listdir(top)):
        for name in sorted(os.listdir(os.path.join(top, section))):
            count += 1
            ran = run(["man", "--warnings", "-E", "UTF-8", "-l", "-Tutf8",
                       os.path.join(top, section, name)],
                      env={**os.environ, "MANROFFSEQ": "", "MANWIDTH": "100", "LC_ALL": "C.UTF-8"})
            want((ran.status == 0 and not ran.err and len(ran.out) > 200, f"{name}: {ran.err!r}"))
    want((count >= 2, f"{count} pages"))
    return f"{count} pages"


def unlicensed(folder):
    text = held(os.path.join(folder, "usr/share/doc/thinpool/copyright")).decode()
    want(("has not chosen a licence" in text, text))


# ---- completions


def completions(ground):
    """the completions of the package"""
    folder = unpacked(ground, built(ground))
    bash = os.path.join(folder, "usr/share/bash-completion/completions/thinpool")
    zsh = os.path.join(folder, "usr/share/zsh/vendor-completions")
    table = commands(ground.program)
    open(ground.path("some.img"), "wb").close()
    yield "bash: every command, and every option of each", partial(bash_options, bash, table)
    for words, wanted in (
            (["r"], ["run"]), (["--explain", "ru"], ["run"]), (["run", "so"], ["some.img"]),
            (["run", "x", "--li"], ["--listen"]), (["run", "x", "--listen", "un"], ["unix:"]),
            (["run", "x", "--listen", "unix", ":", "so"], ["some.img"]),
            (["run", "--listen", "unix", ":", "a", "so"], ["some.img"]),
            (["ask", "un"], ["unix:"]), (["ask", "unix", ":", "so"], ["some.img"]),
            (["run", "x", "--default", "so"], []), (["message", "some.img", "so"], []),
            (["play", "x", "so"], ["some.img"]), (["nothing", "so"], [])):
        yield f"bash: {' '.join(words)}", partial(bash_case, ground, bash, words, wanted)
    yield "zsh: every command, and every option of each", partial(zsh_options, zsh, table)
    yield "zsh: a path behind unix:", partial(zsh_path, ground, zsh)


def bash_words(script, words, folder=None):
    """What bash completes of words, the last of them the one at the cursor."""
    code = 'source "$1"; shift; COMP_WORDS=("$@"); COMP_CWORD=$(($# - 1)); _thinpool; ' \
           'printf "%s\\n" "${COMPREPLY[@]}"'
    ran = run(["bash", "-c", code, "bash", script, "thinpool", *words], cwd=folder)
    want((ran.status == 0 and not ran.err, ran.told()))
    return sorted(filter(None, ran.out.decode().split("\n")))


def bash_case(ground, script, words, wanted):
    found = bash_words(script, words, ground.folder)
    want((found == wanted, f"completed {found}, and not {wanted}"))


def bash_options(script, table):
    found, names = bash_words(script, [""]), [it.name for it in table]
    want((set(names) < set(found) and len(names) > 10, f"commands: {found}"))
    for it in table:
        options = bash_words(script, [it.name, "--"])
        wanted = sorted(f"--{option.name}" for option in it.options)
        want((options == wanted, f"{it.name}: {options}, and not {wanted}"))
    return f"{len(table)} commands, {sum(len(it.options) for it in table)} options"


# An interactive zsh in a terminal of its own, in which Tab is pressed behind a line.
ZSH = r"""
zmodload zsh/zpty
zpty pty zsh -f -i
zpty -w pty "PS1=; unsetopt zle_bracketed_paste 2>/dev/null; fpath=($1 \$fpath); cd $2"
zpty -w pty "autoload -Uz compinit; compinit -u -d $2/dump; zstyle ':completion:*' menu no"
zpty -w pty "LISTMAX=10000; COLUMNS=300; LINES=200; print READY"
zpty -r pty text '*READY*READY*'
zpty -w -n pty "$3"$'\t\t'
sleep 1.5
zpty -w -n pty $'\C-u'
zpty -w pty "print DO''NE"
zpty -r pty text '*DONE*'
print -r -- $text
"""


def zsh_text(folder, line, place):
    """What zsh shows when Tab is pressed behind a line."""
    if not shutil.which("zsh"):
        raise Skipped("zsh is not installed")
    ran = run(["zsh", "-f", "-c", ZSH, "zsh", folder, place, line], limit=30)
    want((ran.status == 0, ran.told()))
    return re.sub(r"\x1b\[[0-9;?]*[A-Za-z]", "", ran.out.decode(errors="replace"))


def zsh_options(folder, table):
    shown = zsh_text(folder, "thinpool ", folder)
    missing = [it.name for it in table if not re.search(rf"\b{it.name} +--", shown)]
    want((not missing, f"commands {missing} are not in {shown[-1500:]!r}"))
    for it in table:
        if it.options:
            shown = zsh_text(folder, f"thinpool {it.name} --", folder)
            missing = [one.name for one in it.options if f"--{one.name}" not in shown]
            want((not missing, f"{it.name}: {missing} are not in {shown[-600:]!r}"))
    return f"{len(table)} commands"


def zsh_path(ground, folder):
    shown = zsh_text(folder, "thinpool ask unix:so", ground.folder)
    want(("unix:some.img" in shown, shown[-600:]))
