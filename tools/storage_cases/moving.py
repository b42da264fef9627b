"""A client of QEMU that reconnects to the server of another host, to which the address moves."""
import os
import select
import subprocess
import time
from functools import partial

from device_cases.loops import wants
from running import BLOCK, LIMIT, Stuck, kill, start, want
from storage_cases.hosts import BRIDGE, MOVING, done
from storage_cases.servers import STRICT, scene, starts

PORT, TURNS = 10809, 4
SERVER = f"driver=nbd,server.type=inet,server.host={MOVING},server.port={PORT},export=0"


def moving(ground):
    """QEMU's reconnect-delay over a killed server, whose address moves to another host"""
    yield f"{TURNS} times: each flushed block is read", partial(reconnects, ground, "writeback")
    name = f"cache=writethrough, {TURNS} times: each block whose WRITE was answered is read"
    yield name, partial(reconnects, ground, "writethrough")


class QemuIo:
    """qemu-io, to which one command at a time is sent."""

    PROMPT = b"qemu-io> "

    def __init__(self, cache):
        wants("qemu-io")
        self.must_flush = cache == "writeback"
        options = f"{SERVER},reconnect-delay={LIMIT}"
        pipes = {"stdin": subprocess.PIPE, "stdout": subprocess.PIPE, "stderr": subprocess.STDOUT}
        self.process = start(["qemu-io", "-t", cache, "--image-opts", options], **pipes)
        self.told()

    def told(self):
        """What is printed until it prompts."""
        told = b""
        while not told.endswith(self.PROMPT):
            if not select.select([self.process.stdout], [], [], LIMIT)[0]:
                raise Stuck(f"qemu-io printed {told!r} in {LIMIT} s")
            found = os.read(self.process.stdout.fileno(), 4096)
            want((found, f"qemu-io ended: {told!r}"))
            told += found
        return told.decode(errors="replace")

    def do(self, command, wanted=""):
        """Runs a command that must print this."""
        self.process.stdin.write(command.encode() + b"\n")
        self.process.stdin.flush()
        told = self.told()
        want((wanted in told and "fail" not in told.lower(), f"{command}: {told}"))

    def write(self, at, value):
        """Writes a block so that it is durable."""
        self.do(f"write -P {value} {at * BLOCK} {BLOCK}", f"wrote {BLOCK}/{BLOCK} bytes")
        if self.must_flush:
            self.do("flush")

    def read(self, at, value):
        """Fails unless the block has this value."""
        self.do(f"read -P {value} {at * BLOCK} {BLOCK}", f"read {BLOCK}/{BLOCK} bytes")

    def end(self):
        kill(self.process)


def serves(it, host):
    """A server at the moving address, on this host."""
    host.take(MOVING)
    # As the host's announcement of its address would do.
    done("ip", "neighbour", "flush", "dev", BRIDGE)
    return starts(it.ground, host, it.image, address=MOVING, port=PORT)[0]


def reconnects(ground, cache):
    with scene(ground, STRICT) as it:
        host, other = it.first, it.second
        server, client, seconds = serves(it, host), QemuIo(cache), []
        try:
            for turn in range(TURNS):
                client.write(turn, 65 + turn)
                began = time.monotonic()
                server.kill()
                host.give_up(MOVING)
                host, other = other, host
                server = serves(it, host)
                client.write(TURNS + turn, 97 + turn)
                seconds.append(time.monotonic() - began)
                for at in range(turn + 1):
                    client.read(at, 65 + at)
                    client.read(TURNS + at, 97 + at)
        finally:
            client.end()
            server.kill()
            host.give_up(MOVING)
    return f"the next WRITE is answered {min(seconds):.1f} to {max(seconds):.1f} s after the kill"
