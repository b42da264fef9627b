"""The commands of thinpool with their arguments and options, read from its help."""
import re
import subprocess


class Option:
    """An option: `--name`, the name of its value or None, and its help."""

    def __init__(self, name, value, text):
        self.name, self.value, self.text = name, value, text


class Command:
    """A command: its name, its help, its arguments (name and help), and its options."""

    def __init__(self, name, text):
        self.name, self.text = name, text
        self.arguments, self.options = [], []


def help_of(program, *words):
    ran = subprocess.run([program, *words, "--help"], check=True, capture_output=True, text=True)
    return ran.stdout


def sections(text):
    """The lines of each section of a help text, by its title."""
    found, title = {}, None
    for line in text.splitlines():
        if match := re.fullmatch(r"(Commands|Arguments|Options):", line):
            title = match[1]
            found[title] = []
        elif not line.startswith(" ") and line:
            title = None
        elif title and line.strip():
            found[title].append(line)
    return found


def entries(lines):
    """Pairs of a name and its help; a line that is further in goes on with the help."""
    found = []
    for line in lines:
        match = re.fullmatch(r" {2,6}(\S+(?: \S+)*?)(?: {2,}(.*))?", line)
        if match and len(line) - len(line.lstrip()) <= 6:
            found.append([match[1], match[2] or ""])
        elif found:
            found[-1][1] = f"{found[-1][1]} {line.strip()}".strip()
    return found


def option_of(name, text):
    match = re.fullmatch(r"(?:-\w, )?--([a-z-]+)(?: <([A-Z_]+)>)?(?:\.\.\.)?", name)
    if not match:
        raise ValueError(f"no option: {name}")
    return Option(match[1], match[2], text)


def read_command(program, name, text):
    command, parts = Command(name, text), sections(help_of(program, name))
    for argument, about in entries(parts.get("Arguments", [])):
        command.arguments.append((argument.strip("<>[]."), about))
    for option, about in entries(parts.get("Options", [])):
        command.options.append(option_of(option, about))
    return command


def commands(program):
    """All commands, `help` without arguments and options."""
    listed = entries(sections(help_of(program))["Commands"])
    return [Command(name, text) if name == "help" else read_command(program, name, text)
            for name, text in listed]
