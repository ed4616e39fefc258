"""Completions for bash, zsh and fish, made from a program's --help."""
import shlex

# The completions of an option that takes this: files, folders, or nothing.
FILE, FOLDER = "FILE", "FOLDER"


def joined(names):
    return " ".join(names)


def names_of(options):
    return [name for it in options for name in it.names]


def function_of(name):
    return "_" + name.replace("-", "_")


# bash


def bash_values(options):
    """The arms for the word before, which may be an option that takes something."""
    plain = []
    for it in options:
        words = joined(it.choices)
        made = {FILE: "compgen -f", FOLDER: "compgen -d"}.get(it.takes) or (words and f"compgen -W '{words}'")
        if it.takes and made:
            yield f"    {'|'.join(it.names)})"
            yield f'        mapfile -t COMPREPLY < <({made} -- "$word")'
            if not words:
                yield "        compopt -o filenames 2>/dev/null"
            yield "        return ;;"
        elif it.takes:
            plain += it.names
    if plain:
        yield from [f"    {'|'.join(plain)})", "        return ;;"]


def bash_words(told):
    """The lines that say which words may come: of the command that was given, or of the program."""
    offered = joined([*(it.word for it in told.commands), *names_of(told.options)])
    if not told.commands:
        return [f"    local words='{offered}'"]
    lines = [f"    local words='{offered}'", "    case ${COMP_WORDS[1]} in"]
    for it in told.commands:
        lines.append(f"    {it.word}) ((COMP_CWORD > 1)) && words='{joined(names_of(it.options))}' ;;")
    return [*lines, "    esac"]


def bash(told):
    lines = [
        f"# bash completion of {told.name}, made of what it says by --help",
        f"{function_of(told.name)}() {{",
        "    local word=${COMP_WORDS[COMP_CWORD]} before=${COMP_WORDS[COMP_CWORD - 1]}",
        "    COMPREPLY=()",
        *bash_words(told),
    ]
    if arms := [*bash_values(told.options)]:
        lines += ["    case $before in", *arms, "    esac"]
    lines += [
        '    mapfile -t COMPREPLY < <(compgen -W "$words" -- "$word")',
        "}",
        f"complete -F {function_of(told.name)} {told.name}",
    ]
    return "\n".join(lines) + "\n"


# zsh


def zsh_text(text):
    """Returns the text in quotes, with the signs of _arguments and _describe escaped."""
    for sign in "\\[]:":
        text = text.replace(sign, f"\\{sign}")
    return text.replace("'", "'\\''")


def zsh_specs(options):
    """Returns the words of _arguments for each option, and for each spelling of it."""
    for it in options:
        words = f"({joined(it.choices)})" if it.choices else " "
        action = {FILE: "_files", FOLDER: "_files -/"}.get(it.takes, words)
        equals, value = ("=", f":{it.takes}:{action}") if it.takes else ("", "")
        for name in it.names:
            yield f"'({joined(it.names)}){name}{equals}[{zsh_text(it.brief)}]{value}'"


def zsh(told):
    lines = [f"#compdef {told.name}", f"# Made of what {told.name} says by --help."]
    if not told.commands:
        return "\n".join([*lines, "_arguments \\", *continued(zsh_specs(told.options))]) + "\n"
    lines += ["local -a commands=("]
    lines += [f"  '{it.word}:{zsh_text(it.about[0])}'" for it in told.commands]
    lines += [")", "if ((CURRENT == 2)); then", "  _describe command commands"]
    lines += ["  _arguments \\", *continued(zsh_specs(told.options), "    "), "  return", "fi", "case $words[2] in"]
    for it in told.commands:
        lines += [f"  {it.word}) _arguments \\", *continued(zsh_specs(it.options), "    "), "    ;;"]
    return "\n".join([*lines, "esac"]) + "\n"


def continued(specs, indent="  "):
    specs = [*specs]
    return [f"{indent}{it} \\" for it in specs[:-1]] + [f"{indent}{it}" for it in specs[-1:]]


# fish


def fish_option(name, it, condition=""):
    """The line of one option."""
    spelled = [("-l " + one[2:]) if one.startswith("--") else ("-s " + one[1:]) for one in it.names]
    takes = {None: "", FILE: " -r -F", FOLDER: " -x -a '(__fish_complete_directories)'"}.get(it.takes, " -x")
    words = f" -a {shlex.quote(joined(it.choices))}" if it.choices else ""
    return f"complete -c {name}{condition} {' '.join(spelled)}{takes}{words} -d {fish_quoted(it.brief)}"


def fish_quoted(text):
    return "'" + text.replace("\\", "\\\\").replace("'", "\\'") + "'"


def fish(told):
    lines = [f"# Made of what {told.name} says by --help.", f"complete -c {told.name} -f"]
    condition = " -n __fish_use_subcommand" if told.commands else ""
    for it in told.commands:
        lines.append(f"complete -c {told.name} -n __fish_use_subcommand -a {it.word} -d {fish_quoted(it.about[0])}")
        seen = f" -n '__fish_seen_subcommand_from {it.word}'"
        lines += [fish_option(told.name, one, seen) for one in it.options]
    lines += [fish_option(told.name, it, condition) for it in told.options]
    return "\n".join(lines) + "\n"
