"""Breaks long lines of Rattle's sources, so that `rt fmt` keeps the breaks.

    broken(lines)   the lines with breaks in those that are too long; `rt fmt` then sets their indentation
    too_wide(lines) the numbers of the lines that are too long

A line is broken at the place with the least cost: outside brackets rather than inside, and before an arrow or a product
rather than between two arguments. A comment is filled anew to the end of its paragraph. A string stays on its line.
"""
import functools
import re

WIDTH = 120
OPEN, CLOSED = "([{", ")]}"
STRING = re.compile(r'"(?:[^"\\]|\\.)*"')
TEXT = re.compile(r'\s*"(?:[^"\\]|\\.)*"[,;]?')
HEAD = re.compile(r"\s*(?:pub )?(?:record|module|data) ")
COMMENT = re.compile(r"(\s*)(--|///|//!|//)( |$)(.*)")
PROSE = re.compile(r"\w|[\"'`(\[]")
USE = re.compile(r"(\s*(?:pub |ghost |unfoldable )*use [^{]*\{)([^{}]*)(\};?)")
CLAUSES = ("ensures", "ensures*", "requires", "ghost", "pub", "abbrev", "let")
# The cost of a break before a word, or after it.
BEFORE = {"→": 2, "×": 3, "⊎": 3, "&&": 3, "||": 3, "then": 3, "else": 2, "∙": 3, "++": 5, "∷": 6, "|": 0, "↦": 30}
BEFORE |= {it: 7 for it in ("≡", "≢", "≤", "<", "+", "==")} | {
    it: 60 for it in (":", "=", "where", ")", "}", "]", "};")
}
AFTER = {"=": 1, "in": 1, "↦": 4, ":": 4}
PER_LINE, PER_BRACKET, ARGUMENT, WORD, NEVER = 4, 7, 8, 11, 60


def is_tuple(text):
    """Returns whether there is a comma in the text before the bracket that closes it."""
    depth = 0
    for sign in text:
        depth += (sign in OPEN) - (sign in CLOSED)
        if depth < 0 or depth == 0 and sign == ",":
            return depth == 0
    return False


def breaks_of(text):
    """Returns each place of a blank at which the text may be broken, with its cost."""
    text = STRING.sub(lambda it: "_" * len(it[0]), text)
    argument = 1 if HEAD.match(text) else ARGUMENT
    found, depth, fields, last = {}, 0, [], ""
    for word in re.finditer(r"\S+", text):
        at, word = word.start(), word[0]
        if last:
            found[at] = cost_between(last, word, depth, bool(fields) and fields[-1] == depth, argument)
        for n, sign in enumerate(word, at):
            if sign in OPEN:
                depth += 1
                if sign == "(" and is_tuple(text[n + 1 :]):
                    fields.append(depth)
            elif sign in CLOSED:
                if fields and fields[-1] == depth:
                    fields.pop()
                depth -= 1
        if word == "{" and re.search(r"record (\S+ )?$", text[:at]):
            fields.append(depth)
        last = word
    return found


def cost_between(last, word, depth, in_fields, argument):
    """Returns the cost of a break between two words, in so many brackets, perhaps those of a record or a tuple."""
    cost = PER_BRACKET * depth
    if in_fields:
        return cost - 2 if last == "{" or last.endswith((";", ",")) else cost + NEVER
    if word == "{" or last in CLAUSES or last == ":" and (depth or word == "Type"):
        return cost + NEVER
    if last in AFTER:
        return cost + AFTER[last]
    if last in ("λ", *OPEN) or last.startswith("λ") or last in BEFORE:
        return cost + NEVER
    if word in BEFORE:
        return cost + BEFORE[word]
    return cost + (argument if word[0] in OPEN else WORD)


def indentation(line):
    return len(line) - len(line.lstrip(" "))


def split(line, hang):
    """Returns the line in pieces of the least cost, each within the width; all but the first hang at this column."""
    places = breaks_of(line)
    starts = [indentation(line), *sorted(it for it in places if it > indentation(line))]

    @functools.cache
    def best(n):
        """Returns the least cost of the text from this start on, and the place of its next break."""
        indent = starts[0] if n == 0 else hang
        found = (1000 * max(0, indent + len(line) - starts[n] - WIDTH), None)
        for m in range(n + 1, len(starts)):
            over = 1000 * max(0, indent + len(line[starts[n] : starts[m]].rstrip()) - WIDTH)
            cost = over + places[starts[m]] + PER_LINE + best(m)[0]
            if cost <= found[0]:
                found = (cost, m)
            if over:
                break
        return found

    pieces, n = [], 0
    while n is not None:
        m = best(n)[1]
        pieces.append(line[starts[n] : None if m is None else starts[m]].rstrip())
        n = m
    return [" " * starts[0] + pieces[0], *(" " * hang + it for it in pieces[1:])]


def filled(words, width, separator=" "):
    """Returns the words in rows of at most this width, a word at least in each."""
    rows = [[]]
    for word in words:
        if rows[-1] and len(separator.join([*rows[-1], word])) > width:
            rows.append([])
        rows[-1].append(word)
    return [separator.join(it) for it in rows]


def split_use(line):
    """Returns an import as several of the same module."""
    head, names, tail = USE.fullmatch(line).groups()
    return [head + it + tail for it in filled(names.split(", "), WIDTH - len(head + tail), ", ")]


def fill_comment(lines, at):
    """Returns the lines of a comment from this one on, filled while one is too long, and how many they replace."""
    margin, mark, _, text = COMMENT.fullmatch(lines[at]).groups()
    head = f"{margin}{mark} {' ' * indentation(text)}"
    end = at + 1
    while len(rows := filled(text.split(), WIDTH - len(head))) > 1 and end < len(lines):
        follows = COMMENT.fullmatch(lines[end])
        if (
            len(rows) < end - at + 1
            or not follows
            or follows.groups()[:2] != (margin, mark)
            or not PROSE.match(follows[4])
        ):
            break
        text, end = f"{text} {follows[4]}", end + 1
    return [head + it for it in rows], end - at


def broken(lines):
    """Returns the lines with breaks in those that are too long."""
    found, at, wide = [], 0, set(too_wide(lines))
    while at < len(lines):
        line, count = lines[at], 1
        if at + 1 not in wide:
            rows = [line]
        elif COMMENT.fullmatch(line):
            rows, count = fill_comment(lines, at)
        elif USE.fullmatch(line):
            rows = split_use(line)
        else:
            rows = split(line, indentation(line) + 4)
        found += rows
        at += count
    return found


def too_wide(lines):
    """Yields the number of each line that is too long, except a string alone on its line, or a line of a long
    string."""
    in_text = False
    for number, line in enumerate(lines, 1):
        if len(line) > WIDTH and not in_text and not TEXT.fullmatch(line):
            yield number
        in_text = line.endswith('"\\') or in_text and not line.endswith('";')
