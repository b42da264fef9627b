"""The edits under edits/, which CI does not try: their headers, their index, and their faults; and those of CI.

An edit begins with two header lines. `# turns:` states what the edit changes in meaning. `# test:`
names the tests that fail with that body, as CRATE::MODULE::TEST or CRATE::SCRIPT::CASE, or is
`none, because ..`.
"""
import glob
import os
import re

INDEX = "edits/INDEX.md"
HEADER = re.compile(r"# (turns|test): (\S.*)")
NO_TEST = "none, because "
TEST = re.compile(r"\b(tp_\w+|nbd_\w+|play_\w+)((?:::\w+)*)::(\w+)\b")


class Edit:
    """One file edits/CRATE/NAME.edit, or crates/CRATE/must-fail/NAME.edit."""

    def __init__(self, path):
        self.path = path
        self.crate, self.name = path.split("/")[1], os.path.basename(path).removesuffix(".edit")
        with open(path, encoding="utf-8") as it:
            lines = it.read().split("\n")
        first = next((at for at, line in enumerate(lines) if not line.startswith("#")), len(lines))
        found = filter(None, map(HEADER.fullmatch, lines[:first]))
        self.headers = {it[1]: it[2] for it in found}
        self.body = "\n".join(lines[first:])

    def has_test(self):
        return not self.headers.get("test", NO_TEST).startswith(NO_TEST)

    def faults(self):
        """Each reason why this edit counts for nothing."""
        for word in ("turns", "test"):
            if word not in self.headers:
                yield f"no header line '# {word}: ..'"
        named = TEST.findall(self.headers.get("test", ""))
        if self.has_test() and not named:
            yield f"'# test:' names no test, and is not '{NO_TEST}..'"
        for crate, modules, test in named:
            if not is_test(crate, modules, test):
                yield f"there is no test {crate}{modules}::{test}"
        yield from self.lost_texts()

    def changes(self):
        """The file, the old text and the new text of each pair, in the order in which rt applies them."""
        path = old = None
        for line in self.body.split("\n"):
            word, _, rest = line.partition(": ")
            if word == "file":
                path = f"crates/{self.crate}/{rest}"
            elif word == "old":
                old = rest
            elif word.rstrip(":") == "new" and old is not None:
                yield path, old, rest

    def applied(self):
        """The text of each file that this edit changes, before and after."""
        texts = {}
        for path, old, new in self.changes():
            before, now = texts.get(path) or (text_of(path), text_of(path))
            texts[path] = before, now.replace(old, new)
        return texts

    def lost_texts(self):
        """Each reason why rt could not apply this edit: a text that its file does not have once."""
        texts, pairs = {}, 0
        for path, old, new in self.changes():
            text = texts.get(path) or text_of(path)
            if text.count(old) != 1:
                yield f"{path} has the text {text.count(old)} times, not once: {old.strip()}"
            texts[path], pairs = text.replace(old, new), pairs + 1
        if not pairs:
            yield "no pair of lines 'old:' and 'new:'"


def text_of(path):
    if not os.path.isfile(path):
        return ""
    with open(path, encoding="utf-8") as it:
        return it.read()


def is_test(crate, modules, test):
    """Whether CRATE::MODULE::TEST is a function with the attribute `#[test]`, or a case of a script."""
    path = modules.replace("::", "/").lstrip("/") or "lib"
    if crate.startswith("play_"):
        script = text_of(f"crates/{crate}/data/{path}.txt")
        return bool(re.search(rf"^case {test}\b", script, re.M))
    text = text_of(f"crates/{crate}/src/{path}.rt")
    return bool(re.search(rf"#\[test\]\s*(?:#\[.*\]\s*)*fn {test}\b", text))


def edits():
    return [Edit(path) for path in sorted(glob.glob("edits/*/*.edit"))]


def edits_of_ci():
    return [Edit(path) for path in sorted(glob.glob("crates/*/must-fail/*.edit"))]


def index():
    """The text of edits/INDEX.md."""
    found = edits()
    crates = sorted({it.crate for it in found})
    without = sum(not it.has_test() for it in found)
    lines = [
        "# Edits that CI does not try",
        "",
        "`tools/edits --index` writes this file from the headers of the edits. Change the headers.",
        f"It lists {len(found)} edits of {len(crates)} crates. {without} of them have no test.",
    ]
    for crate in crates:
        lines += ["", f"## {crate}", "", "| Edit | Turns | Test |", "|---|---|---|"]
        for it in found:
            if it.crate == crate:
                cells = (it.headers.get(word, "") for word in ("turns", "test"))
                lines.append(f"| [{it.name}]({crate}/{it.name}.edit) | {' | '.join(cells)} |")
    return "\n".join(lines) + "\n"


def write_index():
    with open(INDEX, "w", encoding="utf-8") as it:
        it.write(index())
