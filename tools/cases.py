"""Cases of tools that try thinpool, a line each: how it went, how long it took, its name and what it tells.

A group is a function of a `Ground` that yields names and cases. A case fails by what it raises."""
import os
import signal
import struct
import subprocess
import sys
import tempfile
import time
from functools import partial

from running import Failed, Ground, Skipped, end_all

ERRORS = (OSError, EOFError, subprocess.SubprocessError, struct.error, ValueError)


def tried(name, case, counts):
    """Tries one case, and prints its line."""
    began = time.monotonic()
    try:
        word, told = "ok", case()
    except Skipped as reason:
        word, told = "skipped", reason
    except Failed as reason:
        word, told = "FAILED", reason
    except ERRORS as error:
        word, told = "FAILED", f"{type(error).__name__}: {error}"
    counts[word] += 1
    print(f"{word:8}{time.monotonic() - began:6.1f} s  {name}{f': {told}' if told else ''}", flush=True)


def try_group(group, ground, counts):
    """Tries the cases of a group, of them those whose names have the word CASES; what fails before it has any is a case of its own."""
    print(f"{name_of(group)}: {group.__doc__}", flush=True)
    cases = group(ground)
    try:
        while case := next(cases, None):
            if os.environ.get("CASES", "") in case[0]:
                tried(*case, counts)
    except (Failed, Skipped, *ERRORS) as error:
        tried(f"what the cases of {name_of(group)} need", partial(raise_it, error), counts)
    finally:
        cases.close()


def raise_it(error):
    raise error


def name_of(group):
    return group.__name__.replace("_", " ")


def try_all(groups, program, folder, counts):
    """Tries each group in a folder of its own."""
    for group in groups:
        if os.environ.get("ONLY", "") in name_of(group):
            with tempfile.TemporaryDirectory(prefix="cases-", dir=folder) as own:
                # Other users come to it, too.
                os.chmod(own, 0o755)
                try_group(group, Ground(program, own), counts)


def main(groups, program, folder=None):
    """Tries groups of cases, and gives the exit status: 0 where a case passed and none failed."""
    # So that all is cleared away where it is told to stop.
    signal.signal(signal.SIGTERM, lambda *_: sys.exit(1))
    counts = dict.fromkeys(("ok", "FAILED", "skipped"), 0)
    try:
        try_all(groups, program, folder, counts)
    except Failed as why:
        counts["FAILED"] += 1
        print(f"FAILED  an image to begin from: {why}")
    finally:
        end_all()
    if not counts["ok"] and not counts["FAILED"]:
        print("no case was tried")
    print(f"{counts['ok']} passed, {counts['FAILED']} failed, {counts['skipped']} skipped")
    return 1 if counts["FAILED"] or not counts["ok"] else 0
