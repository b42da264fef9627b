"""The definitions of `crates/*/specs` and the public contracts of `crates/*/src`: the text of each by its lines, and the names that it uses.

A name is looked up as the prover does it: among the definitions of its own file, then by the `use` lines. Names of std and of other libraries are not followed."""
import os
import re

HEAD = re.compile(r"((?:(?:abbrev|unfoldable|pub|private|opaque) )*)((?:record|data) )?([^\s:({]+)")
USE = re.compile(r"(?:pub )?(?:ghost )?use ([A-Za-z_.0-9]+?)(?:\.\{([^}]*)\})?(?: as (\w+))?;?$")
TOKEN = re.compile(r'"[^"]*"|[^\s(){}\[\].;,λ"&<>!?|:*]+')
LABEL = re.compile(r"[{;,]\s*$")
ITEM = re.compile(r"^( *)(?:pub(?:\([a-z]+\))? )?(?:unsafe |const )?(fn|struct|enum|trait|impl|type|const)\b[ <]*(\w*)", re.M)
CLAUSE = re.compile(r"\b(?:requires|ensures)(?:\s+\w+)?\s*$")
GHOST = re.compile(r"^    ghost (\w+)(?::| =) ", re.M)


class Piece:
    """A definition, a contract, a type or a trait: where it stands, by what it is called, its lines, and its text without comments.

    Of the source: the file that it is in, its ghost members, each with its lines and its text, and whether others may call it."""

    def __init__(self, path, name, scope, lines=(), text=""):
        self.path, self.name, self.scope, self.lines, self.text = path, name, scope, set(lines), text
        self.source, self.ghosts, self.is_public, self.is_trait = None, {}, False, False

    def __repr__(self):
        return f"{self.path}: {self.name}"


class Scope:
    """What names mean in a file: `names` leads to a module and a name in it, `modules` from a short name to a module."""

    def __init__(self, names=(), modules=()):
        self.names, self.modules = dict(names), dict(modules)

    def take(self, line):
        found = USE.match(line.strip())
        module, listed, short = found.groups()
        if short and not listed:
            self.modules[short] = module
        for it in filter(None, map(str.strip, (listed or "").split(","))):
            name, _, other = it.partition(" as ")
            self.names[other or name] = (module, name)

    def joined(self, other):
        return Scope({**self.names, **other.names}, {**self.modules, **other.modules})


def without_comment(line):
    return re.sub(r"(^|\s)--(\s.*|)$", "", line).rstrip()


def uses_in(text):
    """The names in a text, each with the name that follows it after a dot.

    Fields, labels of fields, names that are given a type (`order: Order`) and texts are no uses."""
    for it in TOKEN.finditer(text):
        before, behind = text[:it.start()], text[it.end():it.end() + 80]
        is_field = re.search(r"\S\.$", before[-2:])
        is_label = re.match(r"\s*=[^=]", behind) and LABEL.search(before[-40:])
        is_label = is_label or re.match(r"\s*:(?!:)", behind)
        if not is_field and not is_label and not it.group().startswith('"'):
            member = re.match(r"(?:\.|::)(\w[^\s(){}.;,λ]*)", behind)
            yield it.group(), member and member.group(1)


class Specs:
    """The definitions of one file of specs."""

    def __init__(self, path):
        self.path, self.scope, self.pieces, self.reexports = path, Scope(), {}, Scope()
        self.lines = open(path, encoding="utf-8").read().splitlines()
        self.mark = re.match(r"-- (Trusted reading|Internal|)", self.lines[0] if self.lines else "")
        self.mark = self.mark.group(1) if self.mark else ""
        self.modules, self.at, self.comments = [], None, []
        for number, line in enumerate(self.lines, 1):
            self.take(number, line)

    def take(self, number, line):
        code = without_comment(line)
        if not code.strip():
            self.comments = self.comments + [number] if line.strip() and number > 1 and "-- ----" not in line else []
            return
        indent = len(code) - len(code.lstrip())
        while self.modules and indent < self.modules[-1][0]:
            self.modules.pop()
        if indent == (self.modules[-1][0] if self.modules else 0):
            self.begin(number, code.strip(), indent)
        elif self.at is None:
            self.modules[-1][1].append(number)
        else:
            self.add(number)

    def begin(self, number, code, indent):
        """A line that may begin a definition."""
        if code.startswith(("use ", "pub use ", "pub mod ")):
            if " use " in " " + code:
                self.scope.take(code)
            if code.startswith("pub use "):
                self.reexports.take(code)
            self.comments = []
        elif code.startswith("module "):
            self.modules.append((indent + 2, [number]))
            self.at, self.comments = None, []
        else:
            prefix, kind, name = HEAD.match(code).groups()
            if name not in self.pieces and (prefix or kind or " :" in code):
                headers = [it for _, header in self.modules for it in header]
                self.pieces[name] = Piece(self.path, name, self.scope, headers)
                self.at = self.pieces[name]
            elif name in self.pieces:
                self.at = self.pieces[name]
            self.add(number)

    def add(self, number):
        self.at.lines.update(self.comments + [number])
        self.comments = []

    def finish(self):
        """Gives each definition its text, and the constructors of data their own names."""
        for it in list(self.pieces.values()):
            it.text = "\n".join(without_comment(self.lines[n - 1]) for n in sorted(it.lines))
            if re.search(r"^ *(?:\w+ )*data ", it.text, re.M):
                for name in re.findall(r"^ +([^\s:]+) :", it.text, re.M):
                    self.pieces.setdefault(name, it)
        return self


# ---- the source

def blanked(text):
    """The text with its comments and texts as spaces, so that each place stays."""
    return re.sub(r"""//[^\n]*|"(?:\\[\s\S]|[^"\\])*"|'(?:\\[^']+|[^'\\])'""", lambda it: re.sub(r"[^\n]", " ", it.group()), text)


def behind_generics(says):
    """What an impl is of: the text behind `impl` and what stands in angles there."""
    depth, at = 0, says.index("impl") + 4
    for place in range(at, len(says)):
        depth += (says[place] == "<") - (says[place] == ">" and says[place - 1] != "-")
        if not depth:
            return says[place + 1:].lstrip() if says[place] == ">" else says[at:].lstrip()
    return ""


def end_of_block(text, at):
    """The place behind the bracket that closes the one at this place."""
    depth = 0
    for place in range(at, len(text)):
        depth += (text[place] in "({[") - (text[place] in ")}]")
        if not depth:
            return place + 1
    return len(text)


def end_of_item(text, at):
    """Where an item's head ends, clauses included, and where the item ends: behind its body, or at a semicolon."""
    since = at
    while at < len(text):
        if text[at] in "([":
            at = end_of_block(text, at)
        elif text[at] == ";":
            return at + 1, at + 1
        elif text[at] == "{":
            end = end_of_block(text, at)
            if not CLAUSE.search(text[since:at]):
                return at, end
            at = since = end
        else:
            at += 1
    return at, at


class Source:
    """The contracts and types of one file of the source."""

    def __init__(self, crate, path):
        self.crate, self.path = crate, path
        self.raw = open(path, encoding="utf-8").read()
        self.text = blanked(self.raw)
        self.module = os.path.basename(path)[:-3]
        self.scope = self.scope_of(0, len(self.text), "")
        self.items, self.members = {}, {}
        self.read(0, len(self.text), "", None)

    def scope_of(self, start, end, indent):
        """What `use` lines at this indentation say: those of specs, and those of the source."""
        scope = Scope()
        for it in re.finditer(rf"^{indent}(?:pub )?(ghost )?use ([^;]+);", self.text[start:end], re.M):
            if it.group(1):
                scope.take("use " + " ".join(it.group(2).split()))
            else:
                take_path(scope, self.crate, it.group(2))
        return scope

    def read(self, start, end, indent, owner):
        at = start
        while found := ITEM.search(self.text, at, end):
            head, stop = end_of_item(self.text, found.end())
            if found.group(1) == indent:
                self.keep(found, head, stop, owner)
            at = stop

    def keep(self, found, head, stop, owner):
        kind, name = found.group(2), found.group(3)
        whole = f"{owner.name}::{name}" if owner else name
        if kind == "impl":
            self.keep_impl(found.start(), head, stop)
        elif kind == "trait":
            self.keep_trait(name, found.start(), head, stop)
        elif kind == "fn":
            made = self.items[whole] = self.piece(whole, found.start(), head, owner)
            made.is_public = self.text[found.start():head].lstrip().startswith("pub ") or bool(owner and owner.is_trait)
        else:
            made = self.items[whole] = self.piece(whole, found.start(), stop)
            self.drop_facts(made, head, stop)

    def drop_facts(self, made, start, stop):
        """Of a struct its ghost fields go that are not public: they are facts for its own proofs, which nobody else is told."""
        for it in GHOST.finditer(self.text, start, stop):
            end = end_of_block(self.text, self.text.index("{", it.end() - 1))
            made.lines.difference_update(self.lines_of(it.start(), end))
            made.text = made.text.replace(self.text[it.start():end], "")

    def keep_trait(self, name, start, head, stop):
        """Of a trait its head, its types and its ghost members, and its calls by their names."""
        whole = self.items[name] = self.piece(name, start, head)
        self.add_ghosts(whole, head, stop, lambda member: True)
        for it in re.finditer(r"^    type [^;]+;", self.text[head:stop], re.M):
            whole.lines.update(self.lines_of(head + it.start(), head + it.end()))
            whole.text += f"\n{it.group()}"
        front = self.piece(name, start, head)
        front.is_trait = True
        self.read(head + 1, stop - 1, "    ", front)

    def keep_impl(self, start, head, stop):
        """Of an impl of a trait the ghost members that it gives, and those calls that have clauses of their own; of another one its calls."""
        said = re.match(r"(?:(!?[\w:]+)(?:<.*?>)? for )?&?(?:mut )?(\w+)", behind_generics(" ".join(self.text[start:head].split())))
        trait, name = said.groups() if said else (None, "")
        whole = self.piece(name, start, head)
        whole.scope = self.scope.joined(self.scope_of(head + 1, stop - 1, "    "))
        if trait:
            self.members.setdefault((trait, name), whole)
            self.add_ghosts(whole, head, stop, lambda it: trait != "Model" or it in ("Value", "view"))
            self.add_calls(whole, head, stop)
        else:
            self.read(head + 1, stop - 1, "    ", whole)

    def add_calls(self, owner, head, stop):
        """The calls of an impl of a trait whose clauses stand in the place of the trait's, for whoever knows the type."""
        at = head + 1
        while found := ITEM.search(self.text, at, stop - 1):
            front, at = end_of_item(self.text, found.end())
            if found.group(1, 2) == ("    ", "fn") and re.search(r"^ +(?:requires|ensures)\b", self.text[found.start():front], re.M):
                whole = f"{owner.name}::{found.group(3)}"
                made = self.items[whole] = self.piece(whole, found.start(), front, owner)
                made.is_public = True

    def add_ghosts(self, piece, start, stop, wanted):
        for it in GHOST.finditer(self.text, start, stop):
            if it.group(1) != "use" and wanted(it.group(1)):
                end = end_of_block(self.text, self.text.index("{", it.end() - 1))
                piece.ghosts[it.group(1)] = (set(self.lines_of(it.start(), end)), self.text[it.end():end])

    def piece(self, name, start, stop, owner=None):
        """A piece from here to there, with the docs above it; a call of an impl or of a trait has what stands at the front of that too."""
        made = Piece(self.path, name, self.scope, self.lines_of(start, stop), self.text[start:stop])
        made.source = self
        if owner:
            made.lines, made.text, made.scope = made.lines | owner.lines, owner.text + made.text, owner.scope
        return made

    def lines_of(self, start, stop):
        first = self.raw.count("\n", 0, start + len(self.raw[start:]) - len(self.raw[start:].lstrip())) + 1
        last = self.raw.count("\n", 0, start + len(self.raw[start:stop].rstrip())) + 1
        every = self.raw.splitlines()
        while first > 1 and every[first - 2].lstrip().startswith(("///", "#[")):
            first -= 1
        return range(first, last + 1)


def take_path(scope, crate, path):
    """Takes a `use` of the source: `a::{b, c::D}`."""
    for front, name in paths_in(" ".join(path.split())):
        first = front.split("::")[0]
        scope.names.setdefault(name, (f"source.{crate if first in ('crate', 'self', 'super') else first}", name))


def paths_in(path):
    front, brace, rest = path.partition("{")
    if not brace:
        whole, _, other = path.partition(" as ")
        return [(whole, other or whole.split("::")[-1])]
    found, depth, part = [], 0, ""
    for it in rest[:rest.rindex("}")] + ",":
        depth += (it == "{") - (it == "}")
        if it == "," and not depth:
            found += paths_in(front + part.strip()) if part.strip() else []
            part = ""
        else:
            part += it
    return found
