"""`format` over what is there, at a terminal, and work that takes long there."""
import os
import re
from functools import partial

from edge_cases.commands import FAULT
from running import Ground, held, on_terminal, strace, want

# Each read and write takes so much longer: eight of them are some seconds.
SLOW = ["-e", "inject=pread64,pwrite64:delay_enter=400000"]
LINE = rb"thinpool: \d+ MiB read and \d+ MiB written in (\d+) s so far\n"


def terminals(ground):
    """`format` over what is there asks where standard input and error are terminals, and there alone."""
    for typed in (b"no\n", b"\n", b"YES\n", b"yes please\n", b"y\n", b"\4"):
        yield f"format over a pool, answered {typed.decode()!r}: asked, refused, nothing done", partial(asked_and_refused, ground, typed)
    yield "format over a pool, answered 'yes\\n': asked, and formatted", partial(asked_and_done, ground)
    yield "format over a pool with one volume asks of one", partial(asked_of_one, ground)
    yield "format over a file that is no pool asks too", partial(asked_of_other_file, ground)
    yield "format of an absent file does not ask", partial(not_asked, ground, "absent.img", (0, 2))
    for streams, name in (((), "neither"), ((0,), "standard input alone"), ((2,), "standard error alone")):
        yield f"format over a pool with {name} on a terminal does not ask", partial(not_asked, ground, "pool.img", streams)
    yield "format over a pool that is in use does not ask", partial(not_asked_in_use, ground)
    yield "format over a pool with wrong sizes does not ask", partial(not_asked_of_sizes, ground)
    for words, printed in LONG:
        yield f"{words[0]} of a slow disk tells that it goes on where standard error is a terminal", partial(told_of_long_work, ground, words, printed)
        yield f"{words[0]} of a slow disk tells nothing elsewhere", partial(long_work_elsewhere, ground, words, printed)


# What takes long, and a beginning of what it prints.
LONG = ((["check"], b"clean\n"), (["ls"], b"ID SIZE MAPPED EXCLUSIVE\n0 "), (["delta", "0", "2"], b"0 "), (["format", *Ground.SIZES], b"0 "))


def slow_words(ground, words):
    return [*strace(os.devnull, "pread64,pwrite64", SLOW), ground.program, words[0], ground.copy(), *words[1:]]


def told_of_long_work(ground, words, printed):
    ran = on_terminal(slow_words(ground, words), (2,))
    told = re.findall(LINE, ran.err)
    want(
        (ran.status == 0 and ran.out.startswith(printed), ran.told()),
        (re.fullmatch(b"(" + LINE + b")+", ran.err) is not None, f"told {ran.err[:300]!r}"),
        ([int(it) for it in told] == sorted({int(it) for it in told}), f"the lines are of seconds {told}"),
    )
    return f"{len(told)} lines"


def long_work_elsewhere(ground, words, printed):
    ran = on_terminal(slow_words(ground, words), ())
    want((ran.status == 0 and ran.out.startswith(printed) and not ran.err, ran.told()))


def asks(ran, what=""):
    return re.search(what + ".*type yes to destroy (it|them)", ran.err.decode(errors="replace")) is not None


def format_words(ground, image):
    return [ground.program, "format", image, *Ground.SIZES]


def want_refused(image, before, ran, what):
    want(
        (asks(ran, what), f"shown {ran.err[:200]!r}"),
        (held(image) == before, "the file changed"),
        ((ran.status, ran.out) == (1, b""), f"status {ran.status}, printed {ran.out[:200]!r}"),
    )


def asked_and_refused(ground, typed):
    image = ground.copy()
    ran = on_terminal(format_words(ground, image), typed=typed)
    want_refused(image, held(ground.base), ran, re.escape(image) + " holds a pool with 3 volumes;")


def asked_of_one(ground):
    image = ground.copy()
    for line in ("delete 1", "delete 2"):
        ground.made("message", image, line)
    before = held(image)
    ran = on_terminal(format_words(ground, image), typed=b"no\n")
    want_refused(image, before, ran, re.escape(image) + " holds a pool with 1 volumes?;")


def asked_of_other_file(ground):
    image = ground.path("letters")
    with open(image, "w", encoding="ascii") as file:
        file.write("Dear all,\n" * 1000)
    before = held(image)
    ran = on_terminal(format_words(ground, image), typed=b"no\n")
    want_refused(image, before, ran, re.escape(image))


def formatted(ground):
    """What `format` over the base prints and leaves where nobody is asked."""
    image = ground.copy("formatted.img")
    ran = ground.made("format", image, *Ground.SIZES)
    return ran.out, held(image)


def asked_and_done(ground):
    image = ground.copy()
    ran = on_terminal(format_words(ground, image), typed=b"yes\n")
    out, made = formatted(ground)
    want(
        (asks(ran, re.escape(image) + " holds a pool with 3 volumes;"), f"shown {ran.err[:200]!r}"),
        ((ran.status, ran.out) == (0, out), ran.told()),
        (held(image) == made, "the image is not as format leaves it"),
    )


def not_asked(ground, name, streams):
    image = ground.copy(name)
    if name == "absent.img":
        os.remove(image)
    out, _ = formatted(ground)
    ran = on_terminal(format_words(ground, image), streams, typed=b"no\n")
    want(((ran.status, ran.out, ran.err) == (0, out, b""), ran.told()))
    ground.want_clean(image)


def not_asked_in_use(ground):
    image = ground.copy()
    server = ground.serve(image, 1)
    try:
        ran = on_terminal(format_words(ground, image), typed=b"yes\n")
        same = held(image) == held(ground.base)
    finally:
        server.kill()
    want((not asks(ran), "it asks"), (ran.status == 1 and ran.err.startswith(FAULT), ran.told()), (same, "the image changed"))


def not_asked_of_sizes(ground):
    image = ground.copy()
    ran = on_terminal([ground.program, "format", image, "100", *Ground.SIZES[1:]], typed=b"yes\n")
    is_refused = ran.status == 1 and ran.err.startswith(b"thinpool: 1 BadGeometry\n")
    want((not asks(ran), "it asks"), (is_refused, ran.told()), (held(image) == held(ground.base), "the image changed"))
