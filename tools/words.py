"""The meanings of the words of scripts and of the names of answers, for tools/help, tools/shell and tools/check.

The spelling of each word is read from docs/SCRIPT.md, where the program prints it (tools/doc-forms). Why a line is
refused, and the advice about it, is read from library/refusals.txt. So each is in only one place.

    help_lines(WORD)        the lines of the program's help about a word, or None
    meaning_of(NAME)        why a line or settings are answered by this name, or None
    to_do(NAME, VALUES)     the advice about it, or None; VALUES has K, A and N, and KEY, if they are known; of
                            WrongPhase also by the shard's stand and the word of the line
    server_told(NAME)       the meaning of this name of the server's, or of this word of SM
    fault_in(LINE)          the fault of a line: its name and a sentence with the word or the number; or None
"""
import collections
import difflib
import itertools
import re

import forms
import runs
from forms import FORMS, REQUESTS, SENDING
from refusals import PHASES, REFUSALS, SETTINGS

SCRIPTS = runs.loaded("random-scripts")
ALL = {**forms.COMMANDS, **REQUESTS, **SENDING}
FORM = {it.word: it for it in FORMS}
WORDS = sorted(it.decode() for it in ALL)
# The words of tools/shell, which are none of scripts.
SHELL_WORDS = ["help", "shards", "migrate", "place!", "drain!", "restart", "sent", "save", "quit"]
# An entry of the server's tables: of words, of names, and of the errors that it has beside Redis'.
SERVER_ENTRY = re.compile(r'\(\s*"([^"]+)",\s*"([^"]*)"(?:,\s*"([^"]*)")?,?\s*(?:\)|[A-Z])')
# The files of the server's tables.
SERVER_TABLES = {"WORDS": "word_table.rs", "NAMES": "refusal_names.rs", "ERRORS": "refusal_names.rs"}
WIDTH = 17


def source(path):
    return (runs.TOP / "crates" / path).read_text(encoding="utf-8")


def help_line(form):
    """The line of the program's help on a line of scripts."""
    return f"  {form.word} {form.arguments:{max(0, WIDTH - len(form.word))}} {form.does} ({form.example})"


def script_help():
    """Returns the help on scripts that the program has."""
    texts = re.findall(r'const (?:HEAD|TAIL): &str = "\\?\n(.*?)";\n', source("sm_cli/src/help.rt"), re.S)
    head, tail = (it.replace('\\"', '"').replace("\\\n", "") for it in texts)
    lines = [head]
    for topic, group in itertools.groupby(FORMS, lambda it: it.topic):
        lines += [f"{topic}:", *map(help_line, group), ""]
    return "\n".join([*lines, tail])


def help_lines(word):
    """Returns the heading and the line of the program's help in which a word of scripts stands, or None."""
    form = FORM.get(word)
    return form and [f"{form.topic}:", help_line(form)]


def form_told(word):
    """Returns the message if too few or too many words follow this one."""
    return f"too few or too many words: {forms.written(FORM[word.decode()])}"


def meaning_of(name):
    row = REFUSALS.get(name) or SETTINGS.get(name)
    return row and (row.explained or row.sentence)


def server_table(name):
    """Returns a table of the server's: the cells behind each word, or each name."""
    text = (runs.TOP / "control/src/control" / SERVER_TABLES[name]).read_text(encoding="utf-8")
    rows = re.sub(r"\\\n\s*", "", text.partition(f"const {name}:")[2].partition("\n];")[0])
    return {it[0]: [some for some in it[1:] if some] for it in SERVER_ENTRY.findall(rows)}


def server_errors():
    """When the server answers by each error that Redis hasn't."""
    rows = server_table("ERRORS").items()
    return {name: when.replace("`", "") for names, (when,) in rows for name in names.split(", ")}


def server_told(name):
    """Yields the server's texts for this name: a word of SM, a refusal of its control, or an error."""
    for form, (does,) in server_table("WORDS").items():
        if form.split(" ")[0] == name.upper():
            yield f"A word of ./sm serve:\n  SM {form}: {does}"
    for when, advice in filter(None, [server_table("NAMES").get(name)]):
        yield f"{name}, of ./sm serve: {when}\n  try: {advice}"
    if when := server_errors().get(name):
        yield f"{name}, of ./sm serve: {when}"


class Named(collections.defaultdict):
    """Values by their names; one that isn't known stands for itself."""

    def __missing__(self, name):
        return name


def to_do(name, values=(), stand="", word=""):
    row = REFUSALS.get(name) or SETTINGS.get(name)
    told = row and row.to_do
    if name == "WrongPhase":
        told = PHASES.get(stand) or PHASES.get(word) or told
    return told.format_map(Named(None, values)) if told else None


def shown(text):
    """Returns the text without signs that a terminal would obey: each of those bytes is shown as its number."""
    if isinstance(text, bytes):
        text = text.decode(errors="surrogateescape")
    return "".join(
        it if it.isprintable() else "".join(f"\\x{byte:02x}" for byte in it.encode(errors="surrogateescape"))
        for it in text
    )


def unknown_told(word, words):
    """Returns the message about a word that is none of these."""
    text = shown(word[:40])
    if not word:
        return "a word is empty: one space stands between two words, and none before the first"
    if text in SHELL_WORDS:
        return f"{text} is a word of ./sm shell, which sends the lines of scripts for it"
    near = difflib.get_close_matches(text.lower(), [it.decode() for it in words], 1, 0.6)
    return f'unknown word "{text}"' + (f"; did you mean {near[0]}?" if near else "")


def number_told(name, word, kind):
    low, high = SCRIPTS.RANGES[kind]
    text = shown(word[:40])
    if re.fullmatch(rb"-?[0-9]+", word) and not re.match(rb"-?0[0-9]|-0", word):
        return f"{name} is {text}, and may be {low} to {high}"
    return f'{name} is "{text}", and has to be a number from {low} to {high}, in digits with no 0 before them'


def value_told(name, word, kind):
    """Returns the fault in a word that must be of this kind, or None."""
    try:
        SCRIPTS.value_of(word, kind)
    except SCRIPTS.LineError as fault:
        if str(fault) == "BadKey":
            return f"{name} has {len(word)} bytes, and may have 1 to 255"
        return number_told(name, word, kind)
    return None


def values_told(word, rest):
    """Returns the fault in the first of the words behind this one that isn't right, or None."""
    names = FORM[word.decode()].arguments.split()
    kinds = ALL[word]
    told = map(value_told, names, SCRIPTS.words_of(rest, kinds), kinds)
    return next(filter(None, told), None)


def told_in_request(line, name):
    """Returns the fault of a line of `at` or `client`, once it has enough words."""
    word, _, rest = line.partition(b" ")
    server, _, request = rest.partition(b" ") if word == b"at" else (None, None, rest)
    asked, blank, after = request.partition(b" ")
    if name == "UnknownWord":
        told = unknown_told(asked, REQUESTS)
        requests = ", ".join(it.decode() for it in REQUESTS)
        return told + f", as a request after {word.decode()}{' A' if server is not None else ''}: {requests}"
    if name == "BadLine":
        return form_told(asked)
    is_bad = server is not None and value_told("A", server, "server")
    return is_bad or values_told(asked, after if blank else None)


def told_of(line, name):
    word, blank, rest = line.partition(b" ")
    if name == "UnknownWord" and word not in ALL:
        return unknown_told(word, ALL)
    is_short = len(line.split(b" ")) < len(SENDING[word]) + 2 if word in SENDING else False
    if word in SENDING and not is_short:
        return told_in_request(line, name)
    if name == "BadLine":
        return form_told(word)
    return values_told(word, rest if blank else None)


def fault_in(line):
    """Returns the name of a line's fault, as a run answers it, and a sentence; or None."""
    if not line or line.startswith(b"#"):
        return None
    if len(line) > SCRIPTS.MAX_LINE:
        return "LineTooLong", f"the line has {len(line)} bytes, and may have {SCRIPTS.MAX_LINE}"
    try:
        SCRIPTS.call_of(line)
    except SCRIPTS.LineError as fault:
        told = told_of(line, str(fault))
        is_spaced = str(fault) == "BadLine" and b"  " in line
        told += "; two spaces enclose an empty word" if is_spaced else ""
        return str(fault), told + ("; the line ends with a carriage return" if line.endswith(b"\r") else "")
    return None
