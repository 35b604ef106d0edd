"""The library's functions in a linked program, by objdump."""
import re
import subprocess

FUNCTION = re.compile(r"^([0-9a-f]+) <(.*)>:$")
INSTRUCTION = re.compile(r"^ +([0-9a-f]+):\t([0-9a-f]{2}) [^\t]*\t(.+)$")


def lines(*command):
    return subprocess.run(command, stdout=subprocess.PIPE, check=True, text=True).stdout.splitlines()


def functions(archives):
    """the names of the archives' functions"""
    return {line.split(maxsplit=2)[2] for line in lines("nm", "-C", *archives) if re.match(r"^[0-9a-f]+ [tT] ", line)}


def instructions(program, archives):
    """address, first byte, words, function and its address"""
    wanted, name, start = functions(archives), None, 0
    for line in lines("objdump", "-d", "-C", "-w", program):
        head, found = FUNCTION.match(line), INSTRUCTION.match(line)
        if head:
            start, name = int(head[1], 16), head[2]
        if found and name in wanted:
            yield int(found[1], 16), found[2], found[3], name, start
