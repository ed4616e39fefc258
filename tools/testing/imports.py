"""Looks in a program's code for calls that could open a file, start a process or reach a network."""
import re
import subprocess

# Names of the C library's calls that open, make, connect or start something.
WORDS = "open creat socket connect bind accept exec vfork fork clone spawn system dlopen link unlink symlink remove"
MORE = "rename mkdir chmod chown truncate kill ptrace"
OPENS = re.compile(f"^_*(f|fre|p|posix_)?({'|'.join([*WORDS.split(), *MORE.split()])})(at|64|[lvpe]+|[0-9])*$")
TRAP = re.compile(r"\s(syscall|sysenter|int +\$0x80)\s*$")
NUMBER = re.compile(r"mov +\$0x([0-9a-f]+),%edi")
CALL = re.compile(r"\s(call|jmp)q?\s")
FUTEX = 0xCA


def output_of(*command):
    return subprocess.run(command, capture_output=True, text=True, check=True).stdout


def fault_of(path):
    """Returns the calls of the program that it must not make, or nothing."""
    taken = [
        it.split()[-1].partition("@")[0]
        for it in output_of("nm", "-D", "--undefined-only", path).splitlines()
        if it.strip()
    ]
    opening = [it for it in taken if OPENS.match(it)]
    if opening or not taken:
        return f"it takes {', '.join(opening) or 'nothing'} of the C library"
    return trap_of(output_of("objdump", "-d", "--no-show-raw-insn", path))


def trap_of(code):
    """Returns the calls of the system in the disassembled code other than futex, or nothing. `syscall` may be called if
    futex's number was loaded since the last call of the same function."""
    number = None
    for line in code.splitlines():
        if TRAP.search(line):
            return f"it makes a call of the system itself: {line}"
        number = NUMBER.search(line) or number
        if CALL.search(line) and "<syscall@plt>" in line and not (number and int(number[1], 16) == FUTEX):
            return f"it makes another call of the system than futex: {line}"
        if line.endswith(">:") or "call" in line:
            number = None
    return None
