"""Programs that are built without a proof and kept until a source changes, and the scripts of those that play some."""
import glob
import hashlib
import os
import subprocess

CRATE = "play_scripts"


def uses():
    """The crates of crates.txt, each with those that it uses."""
    with open("crates.txt", encoding="utf-8") as it:
        lines = [line.split("#")[0].partition(":") for line in it]
    return {crate.strip(): below.split() for crate, colon, below in lines if colon}


def crates_below(name=CRATE):
    """The crates that a program is built of, and its own."""
    below, found, open_ones = uses(), set(), [name]
    while open_ones:
        crate = open_ones.pop()
        if crate in below and crate not in found:
            found.add(crate)
            open_ones += below[crate]
    return sorted(found)


def sources(name=CRATE):
    """The files that a program is built of."""
    found = [glob.glob(f"crates/{it}/src/**/*.rt", recursive=True) for it in crates_below(name)]
    return [path for paths in found for path in sorted(paths)]


def sum_of(paths, texts=()):
    """The checksum of files, and of texts."""
    made = hashlib.sha256()
    for path in paths:
        with open(path, "rb") as it:
            made.update(path.encode() + b"\0" + it.read() + b"\0")
    for text in texts:
        made.update(text.encode() + b"\0")
    return made.hexdigest()


def is_built(program, made):
    """Whether a program is there that was built of files with this sum."""
    stamp = f"{program}.sum"
    if not os.path.exists(program) or not os.path.exists(stamp):
        return False
    with open(stamp, encoding="utf-8") as it:
        return it.read() == made


def build(crate, program, made, top="."):
    """Builds a program, or the tests of a crate, in a checkout. Returns what the build printed if it failed."""
    tool = "run_unproved" if crate.endswith("tests") else "prog_unproved"
    words = [os.path.abspath(f"tools/{tool}"), crate, os.path.abspath(program)]
    os.makedirs(os.path.dirname(program), exist_ok=True)
    how = {"cwd": top, "stdin": subprocess.DEVNULL, "capture_output": True, "text": True, "errors": "replace"}
    built = subprocess.run(words, check=False, **how)
    if built.returncode:
        return built.stdout + built.stderr
    with open(f"{program}.sum", "w", encoding="utf-8") as it:
        it.write(made)
    return None


def scripts_of(folder, names=()):
    found = sorted(os.path.basename(path) for path in glob.glob(f"{folder}/data/*.txt"))
    return [script for script in found if not names or script.removesuffix(".txt") in names]
