"""A manual page, made from a program's --help."""
import re
import time

# The parts that a page adds to its program's help: examples, and the pages that say more.
EXAMPLES = {
    "sm_cli": ["sm_cli model < migration.in", "sm_cli threads --explain < migration.in"],
    "durkenzo-server": [
        "durkenzo-server --servers 4 --data /var/lib/durkenzo",
        "redis-cli -p 7379 incr visits",
        "redis-cli -p 7379 sm migrate 0 2",
    ],
}
ENDS = {
    "durkenzo-server": [
        ("0", "A SIGTERM or SIGINT ended it, and what came before was answered."),
        ("1", "It couldn't begin, or ended early; standard error tells why."),
        ("2", "The command line isn't accepted."),
    ]
}
ALSO = {"sm_cli": "durkenzo\\-server", "durkenzo-server": "sm_cli"}


def escaped(text):
    """The text as roff takes it: no line of it is a request."""
    text = text.replace("\\", "\\e").replace("-", "\\-").replace("`", "\\(ga").replace("'", "\\(aq")
    return re.sub(r"(?m)^\.", r"\\&.", text)


def entry(it):
    """Returns a term in bold, its argument in italics, and its paragraphs."""
    parts = filter(None, re.split(r"(<[^>]+>)", it.term))
    fonts = (("I", part[1:-1]) if part.startswith("<") else ("B", part) for part in parts)
    term = "".join(rf"\f{font}{escaped(part)}\fR" for font, part in fonts)
    first, *more = it.said or [""]
    yield from [".TP", term, escaped(first)]
    for paragraph in more:
        yield from [".IP", escaped(paragraph)]


def of_sections(sections):
    """The sections as parts of one: headings, entries, and text at the margin."""
    for section in sections:
        if section.heading not in ("", "Options"):
            yield f'.SS "{escaped(section.heading)}"'
        if section.is_verbatim:
            yield from verbatim(it.term for it in section.entries)
            continue
        for it in section.entries:
            yield from entry(it) if it.term else [".PP", escaped(it.said[0])]


def verbatim(lines):
    return [".nf", *map(escaped, lines), ".fi"]


def heading(name, lines):
    lines = [*lines]
    return [f".SH {name}", *lines] if lines else []


def ends(name, script_page):
    """Returns the exit statuses; those of sm_cli are the ones on the page of scripts."""
    rows = ENDS.get(name)
    if rows is None:
        listed = script_page.partition("## Exit status")[2].replace("\n  ", " ")
        rows = re.findall(r"(?m)^- (\d): (.*)", re.sub(r"\[([^]]*)\]\([^)]*\)", r"\1", listed.replace("`", "")))
    for status, why in rows:
        yield from [".TP", rf"\fB{status}\fR", escaped(why)]


def page(told, version, epoch, script_page):
    """Returns the page of a program's help, for this version; the date is that of the epoch."""
    day = time.strftime("%Y-%m-%d", time.gmtime(epoch))
    own = [it for it in told.sections if it.heading not in ("Commands", "") and it.has_options]
    rest = [it for it in told.sections if it.heading != "Commands" and not it.has_options]
    brief, *more = told.about
    lines = [
        f'.TH {told.name.upper()} 1 {day} "Durkenzo {version}" "User Commands"',
        *heading("NAME", [rf"{escaped(told.name)} \- {escaped(brief[0].lower() + brief[1:].split('.')[0])}"]),
        *heading("SYNOPSIS", [rf"\fB{escaped(told.name)}\fR {escaped(told.usage.split(' ', 1)[1])}"]),
        *heading("DESCRIPTION", [escaped(brief), *(line for it in more for line in [".PP", escaped(it)])]),
        *heading("COMMANDS", [line for it in told.commands for line in command(it)]),
        *heading("OPTIONS", of_sections(own)),
        *heading("SCRIPTS" if told.commands else "NOTES", of_sections(rest)),
        *heading("EXIT STATUS", ends(told.name, script_page)),
        *heading("EXAMPLES", verbatim(EXAMPLES[told.name])),
        *heading("SEE ALSO", [rf"\fB{ALSO[told.name]}\fR(1), /usr/share/doc/durkenzo"]),
    ]
    return "\n".join(lines) + "\n"


def command(told):
    """A command of a program with its options."""
    yield from [f'.SS "{escaped(told.word)}"', escaped(" ".join(told.about))]
    for it in told.options:
        yield from entry(it)
