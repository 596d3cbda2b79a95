"""Lists what the headers of C offer, for check/api."""

import os
import re
import subprocess

import runner
from runner import TOP, Failed, LeftOut, text_of, write

HEADERS = "hojzmated.h", "hojzmated_pager.h"
# An expression in a line, whose number a program prints.
BRACED = r"\{(.*?)\}"
# Macros that say how a header is read, and not what it offers.
OWN = re.compile(r"HOJZMATED\w*_H$|HZ_VERSION|HZ_MUST_CHECK")


def bare(header):
    """A header without its comments, and each function and macro on a line."""
    return re.sub(r"/\*.*?\*/", " ", text_of("include", header), flags=re.DOTALL)


def plain(text):
    """Words with one space between them."""
    return re.sub(r" ?([()]) ?", r"\1", " ".join(text.split())).replace("* ", "*").strip()


def without_name(declaration):
    """The name that is declared, and its type alone."""
    found = re.search(r"\(\*(\w+)\)", declaration) or re.search(r"(\w+)\s*$", declaration)
    at, end = found.span(1)
    return found[1], declaration[:at] + declaration[end:]


def types_of(parameters):
    """The types of a function's parameters."""
    listed = [it.strip() for it in parameters.split(",")]
    return ", ".join(plain(it if it == "void" else without_name(it)[1]) for it in listed)


def fields_of(body):
    """The name and the type of each field of a struct. Of a struct within it these are its fields'."""
    inner = re.compile(r"struct \{(.*?)\} (\w+);", re.DOTALL)
    for found in inner.finditer(body):
        yield from ((f"{found[2]}.{name}", said) for name, said in fields_of(found[1]))
    for field in inner.sub("", body).split(";"):
        if field.strip():
            name, said = without_name(field)
            callback = re.fullmatch(r"(.*\(\*\))\((.*)\)\s*", said, re.DOTALL)
            yield name, f"{plain(callback[1])}({types_of(callback[2])})" if callback else plain(said)


def lines_of(text):
    """The lines of a header, with expressions for sizes and offsets between braces."""
    for found in re.finditer(r"^[ \t]*#[ \t]*define (\w+)(\([^)]*\))?((?:\\\n|[^\n])*)", text, re.MULTILINE):
        if not OWN.match(found[1]):
            yield f"macro {found[1]}{found[2] or ''} = {plain(found[3].replace(chr(92), ' '))}"
    text = re.sub(r"^[ \t]*#(?:\\\n|[^\n])*", "", text, flags=re.MULTILINE)
    for found in re.finditer(r"^enum (\w+) \{(.*?)\};", text, re.DOTALL | re.MULTILINE):
        yield from (f"constant {found[1]}::{name} = {{(long long){name}}}" for name in re.findall(r"(HZ_\w+)", found[2]))
    for found in re.finditer(r"^typedef struct (\w+) \{(.*?)^\} \1;", text, re.DOTALL | re.MULTILINE):
        name = found[1]
        yield f"struct {name}: {{sizeof({name})}} bytes, aligned to {{_Alignof({name})}}"
        yield from (f"field {name}::{field}: {said} at {{offsetof({name}, {field})}}"
                    for field, said in fields_of(found[2]))
    for found in re.finditer(r"^(\w[\w ]*[ *])(hz_\w+)\(([^;{]*?)\)([^;{]*);", text, re.DOTALL | re.MULTILINE):
        yield f"fn {found[2]}({types_of(found[3])}) -> {plain(found[1])}"


def found_in(line):
    """The expressions of a line. A macro is as it stands."""
    return [] if line.startswith("macro ") else re.findall(BRACED, line)


def counted(lines, folder):
    """The lines with the numbers for the expressions in braces, which a program prints."""
    expressions = [it for line in lines for it in found_in(line)]
    write("#include <stdio.h>\n" + "".join(f'#include "{name}"\n' for name in HEADERS) + "int main(void)\n{\n"
          + "".join(f'    printf("%lld\\n", (long long)({it}));\n' for it in expressions) + "    return 0;\n}\n",
          folder, "numbers.c")
    for words in ([runner.CC, "-std=gnu11", f"-I{TOP}/include", "numbers.c", "-o", "numbers"], ["./numbers"]):
        try:
            ran = runner.ended(words, 60, cwd=folder)
        except (OSError, subprocess.SubprocessError) as error:
            raise LeftOut(f"{words[0]}: {error}") from None
        if ran.returncode:
            raise Failed(f"{' '.join(words)}: {ran.stdout[-2000:]}")
    numbers = iter(ran.stdout.split())
    return [re.sub(BRACED, lambda _: next(numbers), line) if found_in(line) else line for line in lines]


def listed(folder):
    """All lines, sorted."""
    lines = [line for header in HEADERS for line in lines_of(bare(header))]
    return sorted(counted(lines, folder))
