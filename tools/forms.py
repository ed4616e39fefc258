"""How the lines of scripts are written, by docs/SCRIPT.md: the program prints that part of the page from the table by
which it reads lines, and tools/doc-forms compares the two.

    FORMS              each line: topic, word, what follows it, what these words have to be, what it does, an example
    by_word(IS_WANTED) what the words have to be that follow each first word, by that word, both as bytes and text
"""
import collections
import pathlib
import re

PAGE = pathlib.Path(__file__).resolve().parent.parent / "docs/SCRIPT.md"
PART = re.compile(r"(<!-- sm_cli lines -->\n\n)(.*?)(<!-- end -->\n)", re.S)
ROW = re.compile(r"\| `(\w+) ?([^`]*)` \| ([^|]*) \| ([^|]*) \| `([^`]*)` \|")

Form = collections.namedtuple("Form", "topic word arguments takes does example")


def told():
    """Yields the lines that the page has, in its order."""
    topic = None
    for line in PART.search(PAGE.read_text(encoding="utf-8"))[2].split("\n"):
        if line.startswith("### "):
            topic = line.removeprefix("### ")
        elif row := ROW.fullmatch(line):
            word, arguments, takes, does, example = row.groups()
            yield Form(topic, word, arguments, takes.strip().split(", ") if takes.strip() else [], does, example)


FORMS = list(told())


def by_word(is_wanted):
    return {it.word.encode(): it.takes for it in FORMS if is_wanted(it)}


def written(form):
    """How a line of this form is written."""
    return f"{form.word} {form.arguments}".rstrip()


# A request also follows `at A` and `client`, whose own words come before it.
REQUESTS = by_word(lambda it: it.topic == "Requests")
SENDING = by_word(lambda it: it.arguments.endswith("REQUEST"))
COMMANDS = by_word(lambda it: it.word.encode() not in REQUESTS.keys() | SENDING.keys())
