"""A program's --help, from which its manual page and its completions are made."""
import re
import subprocess
from dataclasses import dataclass, field

# A help's entry begins near the margin, and its text comes behind it or farther in.
ENTRY = re.compile(r" {2,6}(\S.*?)(?:  +(\S.*))?")
HEADING = re.compile(r"([A-Z].*):")
NAMED = re.compile(r"(--?[\w-]+)")
TAKES = re.compile(r"<([^>]+)>")
CHOICE = re.compile(r"- (\w+): (.+)")


@dataclass
class Entry:
    """A term, for example an option with its argument, and its text, in paragraphs."""

    term: str
    said: list[str] = field(default_factory=list)

    def take(self, line, is_apart):
        """Takes a further line, which goes on with the last paragraph, unless it stands apart or belongs to a list."""
        if is_apart or not self.said or line.startswith("- "):
            self.said.append(line)
        else:
            self.said[-1] += f" {line}"

    @property
    def names(self):
        """The spellings of an option."""
        return NAMED.findall(TAKES.sub("", self.term))

    @property
    def takes(self):
        """Returns the argument of an option, or None."""
        found = TAKES.search(self.term)
        return found and found[1]

    @property
    def choices(self):
        """Returns the words of which one must be given, if these are all."""
        return [it[1] for it in map(CHOICE.fullmatch, self.said) if it]

    @property
    def brief(self):
        return re.sub(r" ?\[[^]]*\]", "", self.said[0]) if self.said else ""


@dataclass
class Section:
    heading: str
    entries: list[Entry] = field(default_factory=list)

    @property
    def is_verbatim(self):
        """Returns whether it only shows lines, which have no text."""
        return all(it.term and not it.said for it in self.entries)

    @property
    def has_options(self):
        return any(it.term.startswith("-") for it in self.entries)


@dataclass
class Told:
    """The help of a program, or of one of its commands: its purpose, its usage, and its sections."""

    name: str
    about: list[str]
    usage: str
    sections: list[Section]
    commands: list["Told"] = field(default_factory=list)

    @property
    def word(self):
        """The last word of the name: of a command that by which it is given."""
        return self.name.split()[-1]

    @property
    def options(self):
        return [it for section in self.sections if section.has_options for it in section.entries]


def paragraphs(lines):
    """Joins the lines of each paragraph."""
    return [" ".join(it.split("\n")) for it in "\n".join(lines).strip().split("\n\n") if it.strip()]


def sections_of(lines):
    """Returns the sections with their entries; a paragraph at the margin is in a section without a heading."""
    found, is_apart = [], True
    for line in lines:
        if heading := HEADING.fullmatch(line):
            found.append(Section(heading[1]))
        elif line[:1].strip():
            found.append(Section("", [Entry("", [line])]))
        elif entry := ENTRY.fullmatch(line):
            if any(not it.term for it in found[-1].entries):
                found.append(Section(""))
            found[-1].entries.append(Entry(entry[1], [entry[2]] if entry[2] else []))
        elif line.strip():
            found[-1].entries[-1].take(line.strip(), is_apart)
        is_apart = not line.strip()
    return found


def asked(command):
    ran = subprocess.run([*map(str, command), "--help"], check=True, capture_output=True, text=True)
    return ran.stdout.splitlines()


def told_by(program, *words):
    """Returns the help of the program, or of these words of it."""
    lines = asked([program, *words])
    at = next(n for n, it in enumerate(lines) if it.startswith("Usage: "))
    usage = lines[at].removeprefix("Usage: ")
    told = Told(" ".join([usage.split()[0], *words]), paragraphs(lines[:at]), usage, sections_of(lines[at + 1 :]))
    listed = [it.term for section in told.sections if section.heading == "Commands" for it in section.entries]
    told.commands = [told_by(program, *words, it) for it in listed if it != "help"]
    return told
