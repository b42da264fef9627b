"""Runs of thinpool for tools that try it: processes and images in one folder, clients of NBD, and traces of calls of the system.

Each wait is bounded, and `end_all` ends what was started here."""
import contextlib
import os
import pty
import re
import select
import shutil
import signal
import socket
import struct
import subprocess
import termios
import time

BLOCK = 65536
MIB = 1 << 20
# The most seconds of each wait.
LIMIT = int(os.environ.get("LIMIT", "120"))
READ, WRITE, DISC, FLUSH, TRIM, ZEROES, BLOCK_STATUS = 0, 1, 2, 3, 4, 6, 7
FUA = 1
# Options, and the replies to one that others follow.
LIST, INFO, GO, STRUCTURED_REPLY, LIST_CONTEXTS, SET_CONTEXTS = 3, 6, 7, 8, 9, 10
NOT_LAST = (2, 3, 4)
CLIENT_FLAGS = struct.pack(">I", 3)
CALL = re.compile(r"^(?:\d+ +)?(\w+)\((?:AT_FDCWD<[^>]*>, )?(\d+)<([^>]*)>.* = (-?\d+)")
STARTED = []


class Failed(Exception):
    """A case is not as it should be."""


class Stuck(Failed):
    """Something does not come in its time."""


class Skipped(Exception):
    """A case cannot be tried here."""


def want(*pairs):
    """Fails with each text whose test does not hold."""
    wrong = [text for holds, text in pairs if not holds]
    if wrong:
        raise Failed("; ".join(wrong))


def as_root():
    if os.getuid():
        raise Skipped("not root")


def start(words, closed=(), **how):
    """Starts a process in a group of its own, in which these descriptors are closed."""
    if closed:
        how["preexec_fn"] = lambda: [os.close(it) for it in closed]
    made = subprocess.Popen(words, start_new_session=True, **how)
    STARTED.append(made)
    return made


def kill(process):
    """Ends a process that runs still, with its group, and waits for it."""
    if process.poll() is None:
        with contextlib.suppress(ProcessLookupError):
            os.killpg(process.pid, signal.SIGKILL)
    process.wait(LIMIT)


def end_of(process, limit=LIMIT):
    """The status of a process that ends by itself."""
    try:
        return process.wait(limit)
    except subprocess.TimeoutExpired:
        kill(process)
        raise Stuck(f"it has not ended after {limit} s") from None


def end_all():
    """Ends each process that was started here and runs still."""
    for it in STARTED:
        kill(it)


class Ran:
    """How a run ended, and what it printed."""

    def __init__(self, status, out, err):
        self.status, self.out, self.err = status, out, err

    def told(self):
        return f"status {self.status}, printed {self.out[:200]!r}, told {self.err[:200]!r}"


def run(words, given=b"", limit=LIMIT, **how):
    """Runs a process to its end with this as its standard input. What goes to no pipe is empty in what is told."""
    how = {"stdin": subprocess.PIPE, "stdout": subprocess.PIPE, "stderr": subprocess.PIPE, **how}
    process = start(words, **how)
    try:
        out, err = process.communicate(given if how["stdin"] == subprocess.PIPE else None, timeout=limit)
    except subprocess.TimeoutExpired:
        kill(process)
        raise Stuck(f"{' '.join(map(os.fsdecode, words[1:]))} ran for more than {limit} s") from None
    return Ran(process.returncode, out or b"", err or b"")


def on_terminal(words, streams=(0, 2), typed=b"", limit=LIMIT, **how):
    """Runs a program with these of its streams on a terminal, at which this is typed. What comes to the terminal is told where standard error is on it."""
    ours, theirs = pty.openpty()
    quiet = termios.tcgetattr(theirs)
    quiet[3] &= ~termios.ECHO
    termios.tcsetattr(theirs, termios.TCSANOW, quiet)
    given = {name: theirs if at in streams else other
             for at, (name, other) in enumerate([("stdin", subprocess.DEVNULL), ("stdout", subprocess.PIPE), ("stderr", subprocess.PIPE)])}
    process = start(words, **{**given, **how})
    os.close(theirs)
    try:
        os.write(ours, typed)
        shown, end = b"", time.monotonic() + limit
        while time.monotonic() < end:
            is_over = process.poll() is not None
            if select.select([ours], [], [], 0.05)[0]:
                got = read_terminal(ours)
                shown += got
                if not got:
                    break
            elif is_over:
                break
        out, err = process.communicate(timeout=max(1, end - time.monotonic()))
    except subprocess.TimeoutExpired:
        raise Stuck(f"it waits still, and has shown {shown!r}") from None
    finally:
        kill(process)
        os.close(ours)
    return Ran(process.returncode, out or b"", shown.replace(b"\r\n", b"\n") if 2 in streams else err)


def read_terminal(ours):
    try:
        return os.read(ours, 4096)
    except OSError:
        return b""


def copy(image, to):
    """Copies a file, with holes where it has zeros."""
    with open(image, "rb") as source, open(to, "wb") as made:
        while part := source.read(BLOCK):
            if part.count(0) == len(part):
                made.seek(len(part), os.SEEK_CUR)
            else:
                made.write(part)
        made.truncate(source.tell())
    return to


def held(image):
    """The bytes of a file."""
    with open(image, "rb") as it:
        return it.read()


def free_port():
    with socket.socket() as it:
        it.bind(("127.0.0.1", 0))
        return it.getsockname()[1]


class Place:
    """Where a server listens: a port of loopback, or a socket file."""

    def __init__(self, port=0, path=None):
        self.port, self.path = port, path

    def __str__(self):
        return f"unix:{self.path}" if self.path else f"127.0.0.1:{self.port}"

    def uri(self, name=""):
        return f"nbd+unix:///{name}?socket={self.path}" if self.path else f"nbd://{self}/{name}"

    def connect(self, limit=LIMIT):
        if not self.path:
            return socket.create_connection(("127.0.0.1", self.port), timeout=limit)
        stream = socket.socket(socket.AF_UNIX)
        try:
            stream.settimeout(limit)
            stream.connect(self.path)
        except OSError:
            stream.close()
            raise
        return stream

    def wait(self, process=None):
        """Waits until a server takes a client, and goes again."""
        for _ in range(50 * LIMIT):
            try:
                self.connect().close()
                return
            except OSError:
                if process and process.poll() is not None:
                    break
                time.sleep(0.02)
        raise Stuck("a server does not come up")


def request(kind, offset=0, length=0, data=b"", flags=0, cookie=1):
    """The bytes of a request."""
    return struct.pack(">IHHQQI", 0x25609513, flags, kind, cookie, offset, length or len(data)) + data


def go(export="0"):
    """The client flags, and GO of a volume."""
    return CLIENT_FLAGS + option(GO, with_length(export) + struct.pack(">H", 0))


def with_length(text):
    """A text after its length."""
    return struct.pack(">I", len(text)) + text.encode()


def contexts(export, *queries):
    """The data of LIST_META_CONTEXT and SET_META_CONTEXT."""
    return with_length(export) + struct.pack(">I", len(queries)) + b"".join(map(with_length, queries))


def option(kind, data=b""):
    return struct.pack(">QII", 0x49484156454F5054, kind, len(data)) + data


class Client:
    """A client of NBD that waits for each answer, over a descriptor to read from and one to write to. Each wait has a limit in seconds."""

    def __init__(self, reads, writes, holds, limit=LIMIT):
        self.reads, self.writes, self.holds, self.limit = reads, writes, holds, limit
        os.set_blocking(reads, False)
        os.set_blocking(writes, False)

    @staticmethod
    def at(where, limit=LIMIT):
        """A client of a server at a place, or at a port of loopback."""
        place = where if isinstance(where, Place) else Place(where)
        stream = place.connect(limit)
        if not place.path:
            stream.setsockopt(socket.IPPROTO_TCP, socket.TCP_NODELAY, 1)
        return Client(stream.fileno(), stream.fileno(), [stream], limit)

    @staticmethod
    def of(process, limit=LIMIT):
        """The client on the standard streams of a process."""
        return Client(process.stdout.fileno(), process.stdin.fileno(), [process.stdin, process.stdout], limit)

    def send(self, data):
        left = memoryview(data)
        while left:
            if not select.select([], [self.writes], [], self.limit)[1]:
                raise Stuck(f"nothing was taken for {self.limit} s")
            with contextlib.suppress(BlockingIOError):
                left = left[os.write(self.writes, left):]

    def receive(self, length):
        parts = b""
        while len(parts) < length:
            if not select.select([self.reads], [], [], self.limit)[0]:
                raise Stuck(f"no answer came for {self.limit} s")
            got = os.read(self.reads, length - len(parts))
            if not got:
                raise EOFError(f"the stream ended {length - len(parts)} bytes before an answer's end")
            parts += got
        return parts

    def greet(self):
        want((self.receive(18) == b"NBDMAGICIHAVEOPT\0\3", "another greeting"))
        return self

    def go(self, export="0"):
        """Goes to the transmission of a volume, and keeps its size."""
        self.greet()
        self.send(go(export))
        kind = 3
        while kind == 3:
            _, _, kind, length = struct.unpack(">QIII", self.receive(20))
            data = self.receive(length)
            if kind == 3 and data[:2] == b"\0\0":
                self.size = struct.unpack(">Q", data[2:10])[0]
        want((kind == 1, f"GO of {export} is answered {kind:x}"))
        return self

    def replies(self):
        """The replies to an option: the type and the data of each. The last one is ACK or an error."""
        found = []
        while not found or found[-1][0] in NOT_LAST:
            _, _, kind, length = struct.unpack(">QIII", self.receive(20))
            found.append((kind, self.receive(length)))
        return found

    def choose(self, kind, data=b""):
        """The replies to an option that must be accepted."""
        self.send(option(kind, data))
        found = self.replies()
        want((found[-1][0] == 1, f"option {kind} is answered {found[-1][0]:x}"))
        return found

    def ask(self, kind, offset=0, length=0, data=b"", flags=0):
        """The error that a request is answered, and the bytes that are read."""
        self.send(request(kind, offset, length, data, flags))
        _, error, _ = struct.unpack(">IIQ", self.receive(16))
        return error, self.receive(length) if kind == READ and not error else b""

    def do(self, kind, offset=0, length=0, data=b"", flags=0):
        """The same of a request that has to be done."""
        error, found = self.ask(kind, offset, length, data, flags)
        want((error == 0, f"a request of type {kind} is answered {error}"))
        return found

    def close(self):
        for it in self.holds:
            with contextlib.suppress(OSError):
                it.close()

    def leave(self):
        """Says that it goes, and goes."""
        with contextlib.suppress(OSError, Stuck):
            self.send(request(DISC))
        self.close()


class Server:
    """`thinpool serve` of an image to a count of clients, or without one `thinpool run`, with what it prints in files of a folder. It listens at loopback, or over "unix" at
    socket files. What it tells may go to a stream of the caller's own."""

    def __init__(self, ground, image, count=None, is_controlled=False, over="tcp", closed=(), before=(), more=(), **how):
        self.ground, self.image, self.count = ground, image, count
        self.err, self.out = ground.path("serve.err"), ground.path("serve.out")
        self.is_finished = False
        # Where it does not tell its port, it is given one.
        self.is_heard = not (2 in closed or "stderr" in how or "--quiet" in more)
        self.place = self.new_place("nbd.sock", over)
        self.ruler = self.new_place("control.sock", over) if is_controlled else None
        words = [*before, ground.program, *(["run", image, "--listen", str(self.place)] if count is None else ["serve", image, str(self.place), str(count)])]
        words += ["--control", str(self.ruler)] if is_controlled else []
        with open(self.out, "wb") as out, open(self.err, "wb") as err:
            self.process = start([*words, *more], closed=closed, **{"stdin": subprocess.DEVNULL, "stdout": out, "stderr": err, **how})
        self.wait_until_up()

    def new_place(self, name, over):
        if over == "unix":
            return Place(path=self.ground.path(name))
        return Place(0 if self.is_heard else free_port())

    def wait_until_up(self):
        """Waits until it listens, and notes the ports of places that the system has picked."""
        if not self.is_heard and self.count is None:
            for it in filter(None, (self.place, self.ruler)):
                it.wait(self.process)
            return
        wanted = r"(?s)thinpool: listening on (\S+)\n" + (r".*thinpool: control on (\S+)\n" if self.ruler else "")
        for _ in range(50 * LIMIT):
            found = re.match(wanted, self.told())
            if found:
                for place, told in zip((self.place, self.ruler), found.groups()):
                    place.port = place.port or told_port(told)
                return
            if not self.is_heard and self.listens():
                return
            if self.process.poll() is not None:
                break
            time.sleep(0.02)
        raise Failed(f"a server does not come up: status {self.process.poll()}, told {self.told()!r}")

    def listens(self):
        """Whether the system has a listener at its port: to connect would be to be a client."""
        with open("/proc/net/tcp", encoding="ascii") as lines:
            return any(it.split()[1].endswith(f":{self.place.port:04X}") and it.split()[3] == "0A" for it in lines)

    def told(self):
        return held(self.err).decode(errors="replace")

    @property
    def port(self):
        return self.place.port

    @property
    def control_port(self):
        return self.ruler.port

    def uri(self, name=""):
        return self.place.uri(name)

    def client(self, export="0", limit=LIMIT):
        return Client.at(self.place, limit).go(export)

    def control(self, line, limit=LIMIT):
        """The answer to a control line."""
        with self.ruler.connect(limit) as stream:
            stream.sendall(line.encode() + b"\n")
            with stream.makefile() as lines:
                return lines.readline().rstrip("\n")

    def ask(self, *lines, **how):
        """Control lines by `thinpool ask`."""
        return self.ground.run("ask", str(self.ruler), *lines, **how)

    def asked(self, *lines, **how):
        """What is answered to control lines that are not refused."""
        ran = self.ask(*lines, **how)
        want((ran.status == 0 and not ran.err, f"ask {' '.join(lines)}: {ran.told()}"))
        return ran.out.decode()

    def waits_for(self, answer, line="clients"):
        """Waits until a control line is answered so."""
        for _ in range(20 * LIMIT):
            if (found := self.control(line)) == answer:
                return
            time.sleep(0.05)
        raise Stuck(f"{line} is answered {found!r}, and not {answer!r}")

    def tells(self, pattern, limit=10):
        """Waits until it has told this, and gives the match."""
        end = time.monotonic() + limit
        while not (found := re.search(pattern, self.told())):
            want((time.monotonic() < end, f"it does not tell {pattern!r}, but {self.told()!r}"))
            time.sleep(0.02)
        return found

    def ended(self, limit=LIMIT):
        """How it ends, by itself."""
        return Ran(end_of(self.process, limit), held(self.out), held(self.err))

    def finish(self, line="stop", limit=LIMIT):
        """Has it end, by this line or by the clients that are left of its count, and wants that it ends well with a clean image. Once it has, there is nothing to do."""
        if self.is_finished:
            return
        if self.ruler and self.count is None:
            answer = self.asked(line, limit=limit)
            want((answer == "ok\n", f"{line} is answered {answer!r}"))
        end = time.monotonic() + limit
        while self.count is not None and self.process.poll() is None and time.monotonic() < end:
            with contextlib.suppress(OSError):
                self.place.connect(1).close()
            time.sleep(0.005)
        ran = self.ended(limit)
        want((ran.status == 0, f"the server ended: {ran.told()}"))
        self.ground.want_clean(self.image)
        self.is_finished = True

    def kill(self):
        kill(self.process)


def told_port(where):
    """The port of a TCP address; none of a socket file."""
    return 0 if where.startswith("unix:") else int(where.rsplit(":", 1)[1])


class Ground:
    """The program, the folder for its files, and images to begin from."""

    SIZES = ["128", "64", "1100", "64"]

    def __init__(self, program, folder):
        self.folder = os.path.realpath(folder)
        self.program = shutil.copy(program, self.path("thinpool"))
        os.chmod(self.program, 0o755)
        self.base = self.path("base.img")
        self.made("format", self.base, *self.SIZES)
        for line in ("create_thin 0", "create_thin 1"):
            self.made("message", self.base, line)
        self.made("feed", self.base, given=go() + b"".join(request(WRITE, BLOCK * it, data=bytes([65 + it]) * BLOCK) for it in range(8)))
        self.made("message", self.base, "create_snap 2 0")

    def path(self, name):
        return os.path.join(self.folder, name)

    def copy(self, name="pool.img", image=None):
        """A copy of an image to work on."""
        return copy(image or self.base, self.path(name))

    def run(self, *words, before=(), **how):
        return run([*before, self.program, *words], **how)

    def made(self, *words, **how):
        """Runs what has to be done."""
        ran = self.run(*words, **how)
        want((ran.status == 0, f"{' '.join(words)}: {ran.told()}"))
        return ran

    def serve(self, image, count, **how):
        return Server(self, image, count, **how)

    def stays(self, image, **how):
        """`thinpool run`."""
        return Server(self, image, None, **how)

    def fresh(self, name, volume_blocks, blocks, volumes=2):
        """A new image, with volumes that are empty."""
        image = self.path(name)
        self.made("format", image, "128", str(volume_blocks), "4096", str(blocks))
        for number in range(volumes):
            self.made("message", image, f"create_thin {number}")
        return image

    def check(self, image):
        """What is wrong with an image, or nothing."""
        ran = self.run("check", image)
        return "" if (ran.status, ran.out) == (0, b"clean\n") else f"check: {ran.told()}"

    def want_clean(self, image):
        wrong = self.check(image)
        want((not wrong, wrong))

    def traced(self, calls, *words, more=(), given=b"", **how):
        """Runs the program under strace, and gives how it ended and the calls that it made of this kind."""
        trace = self.path("trace")
        ran = run([*strace(trace, calls, more), self.program, *words], given=given, **how)
        return ran, calls_in(trace)


def strace(trace, calls, more=()):
    """The words before a program that is traced."""
    return ["strace", "-f", "-y", "-s", "0", "-o", trace, "-e", f"trace={calls}", *more]


def calls_in(trace):
    """Name, descriptor, path and answer of each call on a descriptor, in their order."""
    with open(trace, encoding="utf-8", errors="replace") as lines:
        found = [CALL.match(it) for it in lines]
    return [(it[1], int(it[2]), it[3], int(it[4])) for it in found if it]
