"""Programs with mutants: one in which a variable chooses among the edits of functions, and one for each other edit.

Their sources are put together outside of the checkout: rt refuses a checkout with sources that no check reads."""
import os
import re
import shutil
import sys
import tempfile

import scripts

FUNCTION = re.compile(r"( *)(?:pub(?:\([^)]*\))? )?(?:const |unsafe )*fn \w+")
# Lines that all mutants can have: a `use` of more, or a new function before another one.
HARMLESS = re.compile(r"use | *///")
ERROR = re.compile(r"crates/(\w+)/(src/[\w/]+\.rt):(\d+)")
CHOOSER = "mutants"
RATTLE = """//! The mutant that runs.
#![tactic(auto)]

unsafe extern "C" {
    safe fn is_chosen_mutant(number: u32) -> u32;
}

/// Returns whether this mutant runs.
pub fn is_chosen(number: u32) -> bool {
    is_chosen_mutant(number) != 0
}
"""
# Without a choice it prints each number that it is asked for, once.
C = """#include <stdint.h>
#include <stdio.h>
#include <stdlib.h>

static uint32_t chosen;
static unsigned char is_printed[4096];

__attribute__((constructor)) static void choose(void)
{
    const char *word = getenv("MUTANT");
    chosen = word ? (uint32_t)atoi(word) : 0;
}

uint32_t is_chosen_mutant(uint32_t number)
{
    if (!chosen && !is_printed[number]) {
        is_printed[number] = 1;
        fprintf(stderr, "reaches %u\\n", number);
    }
    return number == chosen;
}
"""


def title(edit):
    return f"{edit.crate}/{edit.name}"


def text_lines(path):
    with open(path, encoding="utf-8") as it:
        return it.read().split("\n")


def write(path, text):
    os.makedirs(os.path.dirname(path), exist_ok=True)
    with open(path, "w", encoding="utf-8") as it:
        it.write(text)


def body_of(lines, at):
    """The body of the function that has this line: its first line, and the one after it."""
    for head in range(at, -1, -1):
        found = FUNCTION.match(lines[head])
        if found:
            opening = re.compile(rf"{found[1]}(\S.*)?\{{$")
            begin = next(it for it in range(head, len(lines)) if opening.match(lines[it]))
            end = lines.index(f"{found[1]}}}", begin)
            if begin < at < end:
                return begin + 1, end
    return None


def changed(edit):
    """Each line that an edit changes: its path and number, and all lines before and after."""
    for path, texts in edit.applied().items():
        before, after = (it.split("\n") for it in texts)
        yield from ((path, at, before, after) for at, old in enumerate(before) if old != after[at])


def bodies(edit):
    """The bodies that an edit changes, by path and lines, with the new lines. None if it changes more."""
    found = {}
    for path, at, before, after in changed(edit):
        place = body_of(before, at)
        if place:
            found[(path, *place)] = after[slice(*place)]
        elif not HARMLESS.match(before[at]):
            return None
    return found


def harmless(edit):
    """The new lines of an edit that all mutants can have, by path and number."""
    found = {}
    for path, at, before, after in changed(edit):
        if not body_of(before, at) and HARMLESS.match(before[at]):
            found[(path, at)] = after[at]
    return found


def beside(lines, places):
    """The lines of a file with other bodies, each behind its number. `places`: by the lines of the original body, the
    numbers and the bodies. Returns also the new lines of each number."""
    text, marks, last = [], [], 0
    for (begin, end), others in sorted(places.items()):
        text += lines[last:begin]
        for number, body in others:
            text += [f"if {CHOOSER}::is_chosen({number}) {{", *body, "} else"]
            marks.append((len(text) - len(body) - 1, len(text), number))
        text += ["{", *lines[begin:end], "}"]
        last = end
    return [*text, *lines[last:]], marks


def with_mutants(numbered):
    """The texts of files in which edited bodies are beside the original ones, and the lines of each number, by path."""
    files, texts, marks = {}, {}, {}
    for edit in numbered.values():
        for (path, at), line in harmless(edit).items():
            files.setdefault(path, (text_lines(path), {}))[0][at] = line
    for number, edit in numbered.items():
        for (path, *place), body in bodies(edit).items():
            places = files.setdefault(path, (text_lines(path), {}))[1]
            places.setdefault(tuple(place), []).append((number, body))
    for path, (lines, places) in files.items():
        text, marks[path] = beside(lines, places)
        texts[path] = "\n".join(text)
    return texts, marks


def refused_in(failure, marks):
    """The mutants whose lines a failed build names."""
    for crate, file, line in ERROR.findall(failure):
        for begin, end, number in marks.get(f"crates/{crate}/{file}", []):
            if begin <= int(line) <= end:
                yield number


class Programs:
    """The programs of a crate, or its tests, with these edits. The number of an edit is its place in the list, from 1."""

    def __init__(self, crate, every):
        self.crate, self.every = crate, every
        self.out = f"crates/{crate}/out/mutants"
        self.program = os.path.abspath(f"{self.out}/program")
        self.sum = scripts.sum_of(scripts.sources(crate), [title(it) + it.body for it in every])

    def put_sources(self, top):
        """Copies what the program is built of to a folder, and adds the crate that chooses the mutant."""
        uses, lines = scripts.uses(), [f"{CHOOSER}:"]
        for it in scripts.crates_below(self.crate):
            shutil.copytree(f"crates/{it}/src", f"{top}/crates/{it}/src")
            lines.append(f"{it}: {' '.join([CHOOSER, *uses[it]])}")
        write(f"{top}/crates.txt", "\n".join(lines) + "\n")
        shutil.copy("HANDLES", top)
        write(f"{top}/crates/{CHOOSER}/src/lib.rt", RATTLE)
        write(f"{top}/crates/{CHOOSER}/c/{CHOOSER}.c", C)

    def build(self, program, texts):
        """Builds a program with these texts of files. Returns what the build printed if it failed."""
        os.environ["RT_ALLOW_C"] = CHOOSER
        with tempfile.TemporaryDirectory(prefix="mutants-") as top:
            self.put_sources(top)
            for path, text in texts.items():
                write(f"{top}/{path}", text)
            return scripts.build(self.crate, program, self.sum, top)

    def together(self):
        """Builds the program of many edits, except those that are refused beside the original. Returns their numbers."""
        path = f"{self.out}/numbers"
        if scripts.is_built(self.program, self.sum):
            return set(map(int, text_lines(path)[0].split()))
        numbered = {number: it for number, it in enumerate(self.every, 1) if bodies(it)}
        while True:
            texts, marks = with_mutants(numbered)
            failure = self.build(self.program, texts)
            if not failure:
                write(path, " ".join(map(str, numbered)))
                return set(numbered)
            refused = set(refused_in(failure, marks)) & set(numbered)
            if not refused:
                sys.exit(failure)
            for number in refused:
                print(f"{title(numbered.pop(number))}: built alone", file=sys.stderr, flush=True)

    def alone(self, edit):
        """Builds the program of one edit. Returns its path, or None."""
        program = os.path.abspath(f"{self.out}/alone/{edit.crate}.{edit.name}")
        if not scripts.is_built(program, self.sum):
            if self.build(program, {path: after for path, (_, after) in edit.applied().items()}):
                return None
        return program
