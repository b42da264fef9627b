"""The commands of the program, as several groups of cases run them."""
import re
import subprocess

from running import BLOCK, DISC, FLUSH, READ, WRITE, Ground, go, held, request, want

FAULT = b"thinpool: 5 Fault\n"
FAILED_POOL = b"thinpool: 21 Failed\n"

# A client that writes a block, has it kept, reads it and goes.
VISIT = go() + request(WRITE, 20 * BLOCK, data=b"\x5a" * BLOCK) + request(FLUSH) + request(READ, 20 * BLOCK, BLOCK) + request(DISC)


class Command:
    """A command: its words, with None for the image, what it is given, and whether its image wants a check."""

    def __init__(self, name, words, given=b"", is_flagged=False):
        self.name, self.words, self.given, self.is_flagged = name, words, given, is_flagged
        self.has_image, self.prints = name == "serve" or None in words, name != "serve"

    def image(self, ground, name):
        """A copy of the image to begin from."""
        image = ground.copy(name)
        if self.is_flagged:
            flag(image)
        return image

    def words_for(self, image):
        return [image if it is None else it for it in self.words]

    def ends(self, ground, image, **how):
        """How a run on this image ends."""
        if self.name == "serve":
            return served(ground, image, **how)
        return ground.run(*self.words_for(image), given=self.given, **how)


def flag(image):
    """Sets the flag by which a pool wants a check, in both superblocks."""
    with open(image, "r+b") as file:
        for at in (12, 4096 + 12):
            file.seek(at)
            file.write(b"\1")


def served(ground, image, closed=(), **_):
    """How `serve` of one client ends that writes, and finds what it wrote."""
    server = ground.serve(image, 1, closed=closed)
    try:
        client = server.client()
        client.do(WRITE, 20 * BLOCK, data=b"\x5a" * BLOCK)
        client.do(FLUSH)
        want((client.do(READ, 20 * BLOCK, BLOCK) == b"\x5a" * BLOCK, "the client does not read what it wrote"))
        client.leave()
        return server.ended()
    finally:
        server.kill()


def commands(ground):
    with open(ground.path("script"), "w", encoding="ascii") as script:
        script.write("message create_thin 5\n")
    return [
        Command("format", ["format", None, *Ground.SIZES]),
        Command("message", ["message", None, "create_thin 5"]),
        Command("status", ["status", None]),
        Command("status of a volume", ["status", None, "0"]),
        Command("check", ["check", None]),
        Command("check --clear-needs-check-flag", ["check", None, "--clear-needs-check-flag"], is_flagged=True),
        Command("feed", ["feed", None], given=VISIT),
        Command("play", ["play", None, ground.path("script")]),
        Command("serve", []),
        Command("--help", ["--help"]),
        Command("--version", ["--version"]),
    ]


class Wanted:
    """What a command does with its streams open: how it ends, and the image behind it."""

    def __init__(self, ground, command, is_given=True):
        image = command.image(ground, "wanted.img")
        self.before = held(image)
        self.ran = command.ends(ground, image, **({} if is_given else {"stdin": subprocess.DEVNULL}))
        self.image = held(image)

    def image_without_output(self, command):
        """The image where nothing can be printed: `feed` reads nothing then, and all others do what they do."""
        return self.before if command.name == "feed" else self.image


def without_port(told):
    return re.sub(rb"(\d+\.\d+\.\d+\.\d+):\d+", rb"\1:PORT", told)


def want_as(ground, command, wanted, image, ran, closed):
    """Wants of a run without these streams what the command does, and a refusal where it lacks what it prints to."""
    lacks = command.prints and 1 in closed
    whole = wanted.image_without_output(command) if lacks else wanted.image
    err = FAULT if lacks else without_port(wanted.ran.err)
    status = 1 if lacks else wanted.ran.status
    wrong = ground.check(image) if command.has_image else ""
    want(
        (held(image) == whole, "the image is not as the command leaves it"),
        (not wrong, wrong),
        (ran.status == status, f"status {ran.status} in place of {status}"),
        (2 in closed or without_port(ran.err) == err, f"told {ran.err[:200]!r}"),
        (1 in closed or ran.out == wanted.ran.out, f"printed {ran.out[:200]!r}"),
    )
