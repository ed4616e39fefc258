"""Finds the comments and docstrings of a source file, and the prose of a page: all that a person reads there beside the
code."""
import ast
import io
import re
import tokenize

# A string or a character comes first in each, because `//` in a string begins no comment.
TEXT = r'r(#*)".*?"\1|"(?:\\.|[^"\\])*"|\'(?:\\[^\']+|[^\'\\\n])\''
OF_RUST = re.compile(rf"(?s){TEXT}|(?P<told>//[^\n]*|/\*.*?\*/)")
OF_SPECS = re.compile(r'(?s)"(?:\\.|[^"\\\n])*"|(?<![^\s(])(?P<told>--(?=[\s-])[^\n]*)')
OF_SHELL = re.compile(r"(?m)^\s*(?P<told>#(?!!).*)$")
MARK = re.compile(r"(?m)^\s*(?:///?!?|/\*+|\*/|\*(?= |$)|--+|#+)")
FENCE = re.compile(r"(?ms)^\s*(?:```|~~~).*?^\s*(?:```|~~~)[^\n]*$")
NO_PROSE = re.compile(r"(?s)`[^`\n]*`|<!--.*?-->|\]\([^)\s]*\)|https?://\S+")
WORD = re.compile(r"[a-z][a-z'-]*")
BY_SUFFIX = {".rs": OF_RUST, ".rt": OF_RUST, ".c": OF_RUST, ".h": OF_RUST, ".antt": OF_SPECS, ".sh": OF_SHELL}


def blanked(found):
    """Returns as many line feeds as the match has, so that lines keep their numbers."""
    return "\n" * found[0].count("\n")


def of_python(text):
    """Yields each comment and each docstring, with the number of its first line."""
    for token in tokenize.generate_tokens(io.StringIO(text).readline):
        if token.type == tokenize.COMMENT and not token.string.startswith("#!"):
            yield token.start[0], token.string
    for node in ast.walk(ast.parse(text)):
        if isinstance(node, (ast.Module, ast.ClassDef, ast.FunctionDef)) and ast.get_docstring(node, clean=False):
            yield node.body[0].lineno, ast.get_docstring(node, clean=False)


def by_pattern(pattern, text):
    """Yields each comment that the pattern finds, with the number of its first line."""
    for found in pattern.finditer(text):
        if found["told"]:
            yield text.count("\n", 0, found.start("told")) + 1, found["told"]


def of_source(file):
    """Returns the comments of the file, each with the number of its first line. Returns none if the file's language
    isn't known."""
    if file.suffix not in ("", ".md", ".py", *BY_SUFFIX):
        return []
    try:
        text = file.read_text(encoding="utf-8")
    except UnicodeDecodeError:
        return []
    if file.suffix == ".md":
        return [(1, text)]
    if file.suffix == ".py" or not file.suffix and text.startswith("#!/usr/bin/env python"):
        return list(of_python(text))
    pattern = BY_SUFFIX.get(file.suffix)
    if not file.suffix and text.startswith("#!"):
        pattern = OF_SHELL
    return list(by_pattern(pattern, text)) if pattern else []


def lines_of(file):
    """Returns the lines of prose of the file by their numbers, without blocks of code, code between backticks, and the
    targets of links."""
    found = {}
    for first, told in of_source(file):
        for number, line in enumerate(told.split("\n"), first):
            found[number] = f"{found.get(number, '')} {line if file.suffix == '.md' else MARK.sub('', line)}".strip()
    last = max(found, default=0)
    text = "\n".join(found.get(it, "") for it in range(1, last + 1))
    plain = NO_PROSE.sub(lambda it: " " + blanked(it), FENCE.sub(blanked, text))
    return dict(enumerate(plain.split("\n"), 1))


def words_of(line):
    """Returns the words of a line of prose, in small letters."""
    return WORD.findall(line.lower())
