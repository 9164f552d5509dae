"""The manual page of `scoop`, made of the texts of its --help."""
import os
import re
import subprocess
import time

FRONT = """.TH SCOOP 1 "{date}" "scoop {version}" "User Commands"
.SH NAME
scoop \\- {about}
"""
ITEM = re.compile(r"^ {2,6}(?P<words>(?:-|<|\[)\S*(?: \S+)*)(?: {2,}(?P<help>.*))?$")
# A table has its second column this far to the right. A line that begins with so many spaces has that alone.
WIDTH = 24
DEEP = " " * 10
COLUMNS = re.compile(r"^( {2,6}\S(?:.*?\S)?) {2,}(\S.*)$")
# The options that every command has.
EVERY = ("-h, ", "-V, ")
HEAD = re.compile(r"^(Usage|Commands|Arguments|Options):")


def help_of(program, *command):
    return subprocess.run([program, *command, "--help"], capture_output=True, text=True, check=True).stdout


def plain(text):
    """A text without meaning for roff."""
    text = text.replace("\\", "\\e").replace("-", "\\-").replace("'", "\\(aq").replace("`", "\\(ga")
    return "\\&" + text if text.startswith(".") else text


def bold(text):
    return "\\fB" + plain(text) + "\\fR"


def parts_of(text):
    """The lines under each head of a help. Those before the first head are its description, under an empty name."""
    parts, name = {"": []}, ""
    for line in text.splitlines():
        head = HEAD.match(line)
        if head:
            name = head[1]
            parts[name] = [line[head.end():]] if name == "Usage" else []
        else:
            parts[name].append(line)
    return parts


def paragraphs(text):
    """Text as paragraphs, and its indented lines as tables."""
    lines = text.strip().splitlines()
    for place, line in enumerate(lines):
        before = lines[place - 1] if place else ""
        if not line:
            yield ".PP"
        elif line.startswith(" "):
            yield from row(line, lines[place + 1:place + 2])
        else:
            yield from ([".PP"] if before.startswith(" ") else [])
            yield plain(line)


def row(line, after):
    """A line of a table: two columns, the first one alone, the second one alone, or neither."""
    columns = COLUMNS.match(line)
    if line.startswith(DEEP):
        yield plain(line.strip())
    elif columns:
        yield f".TP {WIDTH}\n{tag(columns[1])}\n{plain(columns[2])}"
    elif after and after[0].startswith(DEEP):
        yield f".TP {WIDTH}\n{tag(line)}"
    else:
        yield f".nf\n{tag(line)}\n.fi"


def tag(text):
    """A first column, moved in as far as it stands."""
    return "\\ " * (len(text) - len(text.lstrip()) - 2) + bold(text.strip())


def items(lines):
    """Arguments or options: the words of each, and its help."""
    found = []
    for line in lines:
        item = ITEM.match(line)
        if item:
            found.append((item["words"], [item["help"]] if item["help"] else []))
        elif line.strip() and found:
            found[-1][1].append(line.strip())
    return found


def tagged(pairs):
    for words, text in pairs:
        yield f".TP\n{bold(words)}"
        yield from map(plain, text)


def section(program, name):
    """The section of one command."""
    parts = parts_of(help_of(program, name))
    yield f".SS {bold('scoop ' + name)}"
    yield bold(parts["Usage"][0].strip())
    yield ".PP"
    yield from paragraphs("\n".join(parts[""]))
    for head in ("Arguments", "Options"):
        yield from tagged(item for item in items(parts.get(head, [])) if not item[0].startswith(EVERY))


def page(program, version):
    """The page in roff. Its date is that of the program."""
    date = time.strftime("%Y-%m-%d", time.gmtime(os.path.getmtime(program)))
    parts = parts_of(help_of(program))
    about = "\n".join(parts[""]).strip()
    lines = [FRONT.format(date=date, version=version, about=plain(about)), ".SH SYNOPSIS", bold(parts["Usage"][0].strip()), ".SH COMMANDS"]
    named = [line.split(maxsplit=1) for line in parts["Commands"] if line.strip() and not line.startswith("  help ")]
    lines += tagged((f"scoop {name}", [text]) for name, text in named)
    lines += [".SH OPTIONS", *tagged(items(parts["Options"])), ".SH EACH COMMAND"]
    for name, _ in named:
        lines += section(program, name)
    return "\n".join(lines).replace("\n\n", "\n") + "\n"
