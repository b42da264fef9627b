"""Markdown and pod files: their lines by kind, their links, code spans and anchors."""
import re

FENCE = re.compile(r"\s*(```|~~~)")
SPAN = re.compile(r"(`+)((?:(?!\n\s*\n).)+?)\1", re.S)
LINK = re.compile(r"\[(?:[^\][]|\[[^\]]*\])*\]\(<?([^)\s>]+)>?(?:\s+\"[^\"]*\")?\)")
POD_SPAN = re.compile(r"[CF](?:<<+ (.*?) >>+|<([^<>]*(?:<[^<>]*>[^<>]*)*)>)", re.S)
POD_LINK = re.compile(r"L<([^<>]+)>")


class Document:
    """One file. `kinds` has for each line `prose`, `row`, `code` or `quote`."""

    def __init__(self, path):
        self.path, self.is_pod = path, path.endswith(".pod")
        with open(path, encoding="utf-8") as it:
            self.text = it.read()
        self.lines = self.text.rstrip("\n").split("\n")
        self.kinds = list(pod_kinds(self.lines) if self.is_pod else markdown_kinds(self.lines))
        # The text without examples and quotations, line by line.
        pairs = zip(self.lines, self.kinds)
        self.shown = "\n".join(line if kind in ("prose", "row") else "" for line, kind in pairs)

    def spans(self):
        """Each code span, with the number of its line."""
        for found in (POD_SPAN if self.is_pod else SPAN).finditer(self.shown):
            text = found[1] or found[2] if self.is_pod else found[2]
            yield self.line_at(found.start()), " ".join((text or "").split())

    def links(self):
        """Each target of a link, with the number of its line."""
        for found in (POD_LINK if self.is_pod else LINK).finditer(self.shown):
            yield self.line_at(found.start()), found[1]

    def line_at(self, at):
        return self.shown.count("\n", 0, at) + 1

    def words(self):
        """The lines without code spans and targets of links, with their numbers."""
        text = (POD_SPAN if self.is_pod else SPAN).sub(blank, self.shown)
        text = (POD_LINK if self.is_pod else LINK).sub(without_target, text)
        return list(enumerate(text.split("\n"), 1))

    def anchors(self):
        """What a link may name after '#'."""
        found = set()
        for line, kind in zip(self.lines, self.kinds):
            heading = re.match(r"=head\d\s+(.*)" if self.is_pod else r"#+\s+(.*)", line)
            if heading and kind == "prose":
                found.add(heading[1].strip() if self.is_pod else next_anchor(heading[1], found))
        return found


def blank(found):
    return blank_of(found[0])


def without_target(link):
    return link[0].replace(link[1], blank_of(link[1]))


def blank_of(text):
    return re.sub(r"\S", " ", text)


def next_anchor(heading, found):
    """The anchor that a forge gives a heading, with a number if another heading has it."""
    plain = LINK.sub(lambda it: it[0][1:].partition("](")[0], heading.strip())
    plain = re.sub(r"[^\w\- ]", "", plain.lower()).replace(" ", "-")
    made, number = plain, 0
    while made in found:
        number += 1
        made = f"{plain}-{number}"
    return made


def markdown_kinds(lines):
    is_code = False
    for line in lines:
        if FENCE.match(line):
            is_code = not is_code
            yield "code"
        elif is_code:
            yield "code"
        elif line.lstrip().startswith("|"):
            yield "row"
        else:
            yield "quote" if line.startswith(">") else "prose"


def pod_kinds(lines):
    is_code = False
    for line in lines:
        if line.startswith("=begin"):
            is_code = True
        yield "code" if is_code or line[:1] in (" ", "\t") else "prose"
        if line.startswith("=end"):
            is_code = False
