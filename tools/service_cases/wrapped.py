"""The wrapper contrib/thinpool-run over an image, without a supervisor."""
import os
import signal
import subprocess
import time
from contextlib import suppress

from running import LIMIT
from running import Place, Ran, Stuck, end_of, held, kill, start, want

from service_cases.loads import processes

CONTRIB = os.path.join(os.path.dirname(__file__), "..", "..", "contrib")
WRAPPER = os.path.realpath(os.path.join(CONTRIB, "thinpool-run"))


class Wrapped:
    """A run of the wrapper. `before` are words before it, as a shell; `settings` its environment."""

    def __init__(self, ground, image, before=(), settings=None, more=(), place=None, control=None,
                 name=""):
        self.ground, self.image = ground, image
        self.place = place or Place(path=ground.path(f"nbd{name}.sock"))
        self.ruler = control or Place(path=ground.path(f"control{name}.sock"))
        self.err = ground.path(f"wrapper{name}.err")
        words = [*before, WRAPPER, *self.arguments(), *more]
        environment = {**os.environ, "THINPOOL": ground.program, **(settings or {})}
        with open(self.err, "wb") as err:
            # Whatever started this tool may have it ignore signals, and the processes that it starts.
            self.process = start(["env", "--default-signal", *words], env=environment,
                                 stdin=subprocess.DEVNULL, stdout=subprocess.DEVNULL, stderr=err)

    def arguments(self):
        return [self.image, "--listen", str(self.place), "--control", str(self.ruler)]

    def __enter__(self):
        return self

    def __exit__(self, *_):
        kill(self.process)
        for it in self.servers():
            with suppress(ProcessLookupError):
                os.kill(it, signal.SIGKILL)

    def up(self):
        """Waits until it serves clients and answers control lines."""
        self.place.wait(self.process)
        self.ruler.wait(self.process)
        return self

    def signal(self, number):
        self.process.send_signal(number)

    def told(self):
        return held(self.err).decode(errors="replace")

    def servers(self):
        """The servers that run over the image."""
        return processes(self.ground.program, "run", self.image)

    def server(self):
        found = self.servers()
        want((len(found) == 1, f"{len(found)} servers run: {self.told()}"))
        return found[0]

    def ask(self, *lines, **how):
        return self.ground.run("ask", str(self.ruler), *lines, **how)

    def ended(self, limit=LIMIT):
        """How it ended. No server may be left, and no process of the wrapper's for long."""
        ran = Ran(end_of(self.process, limit), b"", held(self.err))
        want((not self.servers(), "the server runs still"))
        return ran

    def want_end(self, status, limit=LIMIT):
        ran = self.ended(limit)
        want((ran.status == status, ran.told()))
        return ran

    def want_no_process(self, limit=4):
        """Wants that no process of its group is left within some seconds."""
        end = time.monotonic() + limit
        while found := group_of(self.process.pid):
            if time.monotonic() > end:
                raise Stuck(f"processes are left: {found}")
            time.sleep(0.1)


def group_of(leader):
    """The arguments of each process in the session of this leader."""
    found = []
    for it in filter(str.isdigit, os.listdir("/proc")):
        with suppress(OSError):
            with open(f"/proc/{it}/stat", encoding="ascii", errors="replace") as text:
                fields = text.read().rpartition(")")[2].split()
            if int(fields[3]) == leader and fields[0] != "Z":
                with open(f"/proc/{it}/cmdline", "rb") as words:
                    found.append(words.read().replace(b"\0", b" ").decode(errors="replace"))
    return found
