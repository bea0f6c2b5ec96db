#!/usr/bin/env python3
"""Makes a C program of the examples in docs/CALLS.md: each part in C becomes a function, and what a comment says after a call becomes comparisons. `/* 0; block: 0 4 1 */` says that
the call answers 0, and that the first words of `block` are 0, 4 and 1; a name that is no variable of the part is a field of what the call answers. A call of which
nothing is said must have no comment.
Usage: calls.py DOCUMENT >PROGRAM.c    the program prints how many comparisons held, and stops at the first that does not
"""
import pathlib
import re
import sys

HEAD = """#include <stdio.h>
#include <stdlib.h>
#include <zibsnarda.h>

static int held;

static void expect(int holds, const char *line)
{
    if (!holds) {
        printf("does not hold: %s\\n", line);
        exit(1);
    }
    held++;
}
"""


def compared(line, names):
    """The C of a line with a call and a comment."""
    call, says = re.fullmatch(r"(\w+\(.*\));\s*/\* (.*) \*/", line).groups()
    shown = '"' + line.replace("\\", "\\\\").replace('"', '\\"') + '"'
    record = re.match(r"zib_(lines|repeats|judge|run|chain|request|plan|read|write|job|offset|to_frames|join)", call)
    void = call.startswith("zib_choose(")
    out = [f"{call};" if void else f"__auto_type answer = {call};"]
    for fact in says.split("; "):
        if fact.isdigit():
            out.append(f"expect({'answer.number' if record else 'answer'} == {fact}, {shown});")
            continue
        name, values = fact.split(": ")
        place = name if name.split(".")[0] in names else f"answer.{name}"
        listed = values.split()
        several = len(listed) > 1 or re.search(rf"\b{re.escape(name)}\[", " ".join(names.values()))
        for k, value in enumerate(listed):
            out.append(f"expect({place}{f'[{k}]' if several else ''} == {value}, {shown});")
    return "{ " + " ".join(out) + " }"


def main():
    parts = re.findall(r"^```c\n(.*?)^```$", pathlib.Path(sys.argv[1]).read_text(), re.M | re.S)
    print(HEAD)
    for number, part in enumerate(parts):
        names = {name: line for line in part.splitlines() for name in re.findall(r"[ *](\w+)(?:\[\d*\])? = \{?|, (?:\*)?(\w+)\[", line) for name in name if name}
        names |= {name: line for line in part.splitlines() if re.match(r"\s*(const |u?int|struct|size_t)", line) for name in re.findall(r"(\w+)(?:\[\d+\])?(?=[,;=]| =)", line)}
        print(f"static void example_{number}(void)\n{{")
        for line in part.splitlines():
            print("    " + (compared(line, names) if re.match(r"zib_\w+\(.*/\*", line) else line))
        print("}\n")
    calls = "\n".join(f"    example_{number}();" for number in range(len(parts)))
    print(f'int main(void)\n{{\n{calls}\n    printf("%d\\n", held);\n    return 0;\n}}')


main()
