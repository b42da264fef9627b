"""Wrong calls, and what is told of each."""
import os
import re
import socket
from functools import partial

from edge_cases.commands import FAULT
from running import MIB, Failed, Ground, Skipped, as_root, copy, held, on_terminal, run, want

NOBODY = 65534
AS_NOBODY = {"user": NOBODY, "group": NOBODY, "extra_groups": []}

# A name, the words, the refusal, and what its explanation has to have: patterns, without regard to capitals, each outside of names of files but where it has one
# itself. Words in braces are what `things` prepares. Where a user stands behind, it is they who call.
WRONG_CALLS = [
    ("status of a missing file", "status {missing}", "5 Fault", ["{missing}", "no such file"]),
    ("message to a missing file", "message {missing} 'delete 0'", "5 Fault", ["{missing}", "no such file"]),
    ("check of a missing file", "check {missing}", "5 Fault", ["{missing}", "no such file"]),
    ("check with its flag of a missing file", "check {missing} --clear-needs-check-flag", "5 Fault", ["{missing}", "no such file"]),
    ("feed of a missing file", "feed {missing}", "5 Fault", ["{missing}", "no such file"]),
    ("serve of a missing file", "serve {missing} 127.0.0.1:0 1", "5 Fault", ["{missing}", "no such file"]),
    ("play over a missing file", "play {missing} {script}", "5 Fault", ["{missing}", "no such file"]),
    ("play of a missing script", "play {pool} {missing}", "5 Fault", ["{missing}", "no such file"]),
    ("play of a missing script in memory", "play mem: {missing}", "5 Fault", ["{missing}", "no such file"]),
    ("play of a script that is a folder", "play {pool} {folder}", "5 Fault", ["{folder}", "directory"]),
    ("play of a missing script over a file of zeros", "play {zeros} {missing}", "3 NotAPool", ["{zeros}"]),
    ("play of a missing script over an image in use", "play {busy} {missing}", "5 Fault", ["{busy}", "in use|lock"]),
    ("status of no name", "status ''", "5 Fault", ["no such file|empty"]),
    ("format in a missing folder", "format {missing}/pool.img 128 64 1100 64", "5 Fault", ["{missing}/pool.img", "no such file"]),
    ("status of a folder", "status {folder}", "5 Fault", ["{folder}", "directory|regular"]),
    ("message to a folder", "message {folder} 'delete 0'", "5 Fault", ["{folder}", "directory|regular"]),
    ("check of a folder", "check {folder}", "5 Fault", ["{folder}", "directory|regular"]),
    ("format of a folder", "format {folder} 128 64 1100 64", "5 Fault", ["{folder}", "directory|regular"]),
    ("status of a pipe", "status {pipe}", "5 Fault", ["{pipe}", "regular"]),
    ("check of a pipe", "check {pipe}", "5 Fault", ["{pipe}", "regular"]),
    ("message to a device", "message /dev/null 'delete 0'", "5 Fault", ["/dev/null", "regular"]),
    ("status below a file", "status {pool}/pool.img", "5 Fault", ["{pool}/pool.img", "not a directory"]),
    ("status of a link to itself", "status {loop}", "5 Fault", ["{loop}", "links"]),
    ("status of a long name", "status {long}", "5 Fault", ["name too long"]),
    ("status of a file that is not mine to read", "status {private}", "5 Fault", ["{private}", "permission denied"], NOBODY),
    ("check of a file that is not mine to read", "check {private}", "5 Fault", ["{private}", "permission denied"], NOBODY),
    ("message to a file that is not mine to write", "message {readable} 'delete 0'", "5 Fault", ["{readable}", "permission denied"], NOBODY),
    ("format in a folder that is not mine to write", "format {folder}/pool.img 128 64 1100 64", "5 Fault", ["{folder}/pool.img", "permission denied"], NOBODY),
    ("status of an image in use", "status {busy}", "5 Fault", ["{busy}", "in use|lock"]),
    ("message to an image in use", "message {busy} 'delete 0'", "5 Fault", ["{busy}", "in use|lock"]),
    ("check of an image in use", "check {busy}", "5 Fault", ["{busy}", "in use|lock"]),
    ("check with its flag of an image in use", "check {busy} --clear-needs-check-flag", "5 Fault", ["{busy}", "in use|lock"]),
    ("feed of an image in use", "feed {busy}", "5 Fault", ["{busy}", "in use|lock"]),
    ("serve of an image in use", "serve {busy} 127.0.0.1:0 1", "5 Fault", ["{busy}", "in use|lock"]),
    ("play over an image in use", "play {busy} {script}", "5 Fault", ["{busy}", "in use|lock"]),
    ("format of an image in use", "format {busy} 128 64 1100 64", "5 Fault", ["{busy}", "in use|lock"]),
    ("serve at an address in use", "serve {pool} {taken} 1", "5 Fault", ["{taken}", "in use"]),
    ("serve with a control address in use", "serve {pool} 127.0.0.1:0 1 --control {taken}", "5 Fault", ["{taken}", "in use"]),
    ("serve at an unknown host", "serve {pool} no-such-host.invalid:10809 1", "5 Fault", ["no-such-host.invalid"]),
    ("serve at an address without a port", "serve {pool} 127.0.0.1 1", "5 Fault", ["127.0.0.1"]),
    ("serve at a port that is none", "serve {pool} 127.0.0.1:70000 1", "5 Fault", ["127.0.0.1:70000"]),
    ("serve at an address of another machine", "serve {pool} 192.0.2.1:10809 1", "5 Fault", ["192.0.2.1:10809", "address"]),
    ("serve at no address", "serve {pool} '' 1", "5 Fault", ["address|port"]),
    ("format with blocks of 100 sectors", "format {pool} 100 64 1100 64", "1 BadGeometry", ["100", "128"]),
    ("format with blocks of 2176 sectors", "format {pool} 2176 64 1100 64", "1 BadGeometry", ["2176", "2048"]),
    ("format with volumes of no block", "format {pool} 128 0 1100 64", "1 BadGeometry", ["16777216"]),
    ("format with volumes of 16777217 blocks", "format {pool} 128 16777217 1100 64", "1 BadGeometry", ["16777217", "16777216"]),
    ("format with 1031 metadata blocks", "format {pool} 128 64 1031 4", "1 BadGeometry", ["1031", "1032", "65536"]),
    ("format with 65537 metadata blocks", "format {pool} 128 64 65537 64", "1 BadGeometry", ["65537", "65536"]),
    ("format with too few metadata blocks for its data blocks", "format {pool} 128 64 2048 1048576", "1 BadGeometry", ["2048", "1048576"]),
    ("format with no data block", "format {pool} 128 64 1100 0", "1 BadGeometry", ["1048576"]),
    ("format with 1048577 data blocks", "format {pool} 128 64 1100 1048577", "1 BadGeometry", ["1048577", "1048576"]),
    ("status of a volume that is not there", "status {pool} 9", "15 NoSuchDevice", ["9"]),
    ("status of a volume 16777216", "status {pool} 16777216", "13 BadDeviceId", ["16777216|16777215"]),
    ("create_thin of a volume that is there", "message {pool} 'create_thin 0'", "14 Exists", ["0"]),
    ("create_snap of an origin that is not there", "message {pool} 'create_snap 5 9'", "15 NoSuchDevice", ["volume 9 does not exist"]),
    ("delete of a volume that is not there", "message {pool} 'delete 9'", "15 NoSuchDevice", ["9"]),
    ("create_thin 16777216", "message {pool} 'create_thin 16777216'", "13 BadDeviceId", ["16777216|16777215"]),
    ("create_thin with no number", "message {pool} 'create_thin x'", "11 BadSyntax", ["create_thin|message"]),
    ("create_thin with a leading zero", "message {pool} 'create_thin 007'", "11 BadSyntax", ["007 has a leading zero"]),
    ("a message of over 256 bytes", "message {pool} {long}", "11 BadSyntax", ["256|message"]),
    ("an unknown message", "message {pool} 'resize 0 1'", "12 UnknownMessage", ["resize|message"]),
    ("another transaction id", "message {pool} 'set_transaction_id 5 6'", "17 StaleTransactionId", ["5|0"]),
    ("status of a file of zeros", "status {zeros}", "3 NotAPool", ["{zeros}"]),
    ("check of a file of zeros", "check {zeros}", "30 BadSuper", ["{zeros}"]),
    ("status of an empty file", "status {empty}", "3 NotAPool", ["{empty}"]),
    ("status of a part of an image", "status {cut}", "2 Damaged", ["{cut}"]),
    ("check of a part of an image", "check {cut}", "30 BadSuper", ["{cut}"]),
    ("status of an image of another version", "status {newer}", "4 BadVersion", ["{newer}"]),
]


def things(ground):
    """What wrong calls speak of, by name."""
    made = {it: ground.path(it) for it in ("missing", "folder", "pipe", "loop", "zeros", "empty", "script", "busy", "private", "readable", "cut", "newer", "pool")}
    os.makedirs(made["folder"])
    os.mkfifo(made["pipe"])
    os.symlink(made["loop"], made["loop"])
    for name, size in (("zeros", 9 * MIB), ("empty", 0)):
        with open(made[name], "wb") as file:
            file.truncate(size)
    with open(made["script"], "w", encoding="ascii") as file:
        file.write("status\n")
    for name in ("busy", "private", "readable", "cut", "newer", "pool"):
        copy(ground.base, made[name])
    os.chmod(made["private"], 0o600)
    os.chmod(made["readable"], 0o444)
    os.truncate(made["cut"], MIB)
    with open(made["newer"], "r+b") as file:
        for at in (8, 4096 + 8):
            file.seek(at)
            file.write(b"\3")
    return {**made, "long": "x" * 300}


def refusals(ground):
    """Wrong calls: the line of today alone where standard error is no terminal, and a second line that says why on a terminal and behind --explain."""
    known = things(ground)
    server = ground.serve(known["busy"], 1)
    with socket.socket() as taken:
        taken.bind(("127.0.0.1", 0))
        taken.listen()
        known["taken"] = f"127.0.0.1:{taken.getsockname()[1]}"
        try:
            for name, line, refusal, patterns, *user in WRONG_CALLS:
                words, wanted = words_of(line, known), f"thinpool: {refusal}\n".encode()
                how = AS_NOBODY if user else {}
                yield name, partial(refused_plainly, ground, known, words, wanted, how)
                yield f"{name}, explained", partial(refused_with_why, ground, known, words, wanted, patterns, how)
        finally:
            server.kill()
    yield "--explain before what is done tells nothing", partial(explains_nothing, ground)
    yield "an argument that is no UTF-8 is told, and which one", partial(not_utf8, ground)
    yield "serve with -1 clients gives no tip", partial(no_tip, ground)
    yield "a bad line of a script is told by its number", partial(bad_script, ground)
    yield "mem: is a file's name to status", partial(memory_is_a_name, ground)


def words_of(line, known):
    """The words of a line, by blanks, with quotes around those that have some."""
    return [it.strip("'").format(**known) for it in re.findall(r"'[^']*'|\S+", line)]


def reaches(ground, how):
    """Skips where another user is wanted and cannot be, or cannot reach the program."""
    if how:
        as_root()
        if run(["test", "-x", ground.program], **how).status:
            raise Skipped("another user cannot reach the folder")


def want_refused(ground, known, ran):
    want(
        (ran.status == 1, f"status {ran.status}"),
        (not ran.out, f"printed {ran.out[:100]!r}"),
        (held(known["pool"]) == held(ground.base), "the image changed"),
    )


def refused_plainly(ground, known, words, wanted, how):
    reaches(ground, how)
    ran = ground.run(*words, **how)
    want((ran.err == wanted, f"told {ran.err[:300]!r}"))
    want_refused(ground, known, ran)


def want_explained(ran, wanted, patterns, folder="", known=None):
    """Wants two lines on standard error, the first one this and the second one with these patterns in it."""
    lines = ran.err.decode(errors="replace").split("\n")
    want((len(lines) == 3 and lines[2] == "" and lines[1], f"not two lines: {ran.err[:300]!r}"))
    lacks = [it for it in patterns if not is_told(it, lines[1], folder, known or {})]
    want((lines[0] == wanted.decode().rstrip("\n"), f"the first line is {lines[0]!r}"), (not lacks, f"no {lacks} in {lines[1]!r}"))


def is_told(pattern, line, folder, known):
    if "{" not in pattern and folder:
        line = re.sub(re.escape(folder) + r"/\w*", "", line)
    pattern = re.sub(r"\{(\w+)\}", lambda it: re.escape(known[it[1]]), pattern)
    return re.search(pattern, line, re.I) is not None


def refused_with_why(ground, known, words, wanted, patterns, how):
    reaches(ground, how)
    wrong = []
    for name, ran in [
            ("--explain", ground.run("--explain", *words, **how)),
            ("--explain after", ground.run(*words, "--explain", **how)),
            ("on a terminal", on_terminal([ground.program, *words], (2,), **how))]:
        try:
            want_explained(ran, wanted, patterns, ground.folder, known)
            want_refused(ground, known, ran)
        except Failed as why:
            wrong.append(f"{name}: {why}")
    want((not wrong, "; ".join(wrong)))


def explains_nothing(ground):
    image = ground.copy()
    for words in (["status", image], ["check", image], ["message", image, "create_thin 5"], ["format", image, *Ground.SIZES]):
        ran = ground.run("--explain", *words)
        want((ran.status == 0 and ran.out and not ran.err, f"{words[0]}: {ran.told()}"))


def not_utf8(ground):
    """Which one may be told by its number, or by what of it can be read."""
    words = [ground.program, "status", b"spool-\xff.img"]
    plain, shown = run(words), on_terminal(words, (2,))
    want((plain.status == 2 and b"UTF-8" in plain.err, plain.told()))
    want((shown.status == 2 and re.search(rb"spool-|argument 2|second", shown.err) is not None, f"on a terminal: {shown.told()}"))


def no_tip(ground):
    ran = ground.run("serve", ground.copy(), "127.0.0.1:0", "-1")
    want((ran.status == 2 and b"error:" in ran.err, ran.told()), (b"tip" not in ran.err, f"told {ran.err!r}"))


def bad_script(ground):
    image, script, told = ground.copy(), ground.path("bad script"), b"thinpool: bad script line 2\n"
    with open(script, "w", encoding="ascii") as file:
        file.write("status\nfly\n")
    plain, explained = ground.run("play", image, script), ground.run("--explain", "play", image, script)
    want(((plain.status, plain.err) == (2, told), plain.told()), (explained.status == 2 and explained.err.startswith(told), f"--explain: {explained.told()}"))


def memory_is_a_name(ground):
    ran = ground.run("status", "mem:", cwd=ground.folder)
    want(((ran.status, ran.out, ran.err) == (1, b"", FAULT), ran.told()))
