#!/usr/bin/env python3
"""The refusals' names and words are the same everywhere: in the code's table, the header, `razo`, the Python module
and, once it has them, the Fortran module. Every number of the table has its words, and nothing else has any.

The header's words are those that a C program prints; the Fortran module's too where gfortran is.
"""
import re
import shutil
import subprocess
import sys
import tempfile
from pathlib import Path

ROOT = Path(__file__).resolve().parents[2]
sys.path.insert(0, str(ROOT / "python"))
import razovinto

HEADER = ROOT / "include" / "razovinto.h"
FORTRAN = ROOT / "include" / "razovinto.f90"
# Numbers past the table, of which each must be said to be none.
PAST = (25, 26, 255, 2**31 - 1)

C_PROGRAM = """
#include <stdio.h>
#include "razovinto.h"
int main(void)
{
    static const uint32_t numbers[] = { %s };
    for (size_t i = 0; i < sizeof numbers / sizeof numbers[0]; i++)
        printf("%%s\\n", razovinto_refusal_text(numbers[i]));
    return 0;
}
"""

FORTRAN_PROGRAM = """
program words
    use, intrinsic :: iso_c_binding, only: c_int32_t
    use razovinto
    implicit none
    integer(c_int32_t), parameter :: numbers(*) = [integer(c_int32_t) :: &
        %s]
    integer :: i
    do i = 1, size(numbers)
        print '(a)', trim(razovinto_refusal_text(numbers(i)))
    end do
end program
"""


def code_names():
    """The code's refusals: number and name, as the code spells it."""
    text = (ROOT / "crates" / "checked" / "src" / "refusal.rt").read_text()
    return {int(number): name for name, number in re.findall(r"^    (\w+) = (\d+),$", text, re.M)}


def table():
    """The same with the names in the header's spelling."""
    return {number: re.sub(r"(?<!^)(?=[A-Z])", "_", name).upper() for number, name in code_names().items()}


def printed(compiler, options, program, suffix):
    """The lines that a program prints."""
    with tempfile.TemporaryDirectory() as folder:
        source, made = Path(folder, "words" + suffix), Path(folder, "words")
        source.write_text(program)
        subprocess.run([compiler, *options, str(source), "-o", str(made)], check=True, cwd=folder)
        return subprocess.run([str(made)], check=True, capture_output=True, text=True).stdout.splitlines()


def header_words(numbers):
    options = ["-std=c99", "-Wall", "-Wextra", "-Wpedantic", "-Werror", f"-I{HEADER.parent}"]
    return printed("gcc", options, C_PROGRAM % ", ".join(map(str, numbers)), ".c")


def razo_words():
    """Its phrases, by the refusals' numbers from 1 on."""
    text = (ROOT / "crates" / "razo" / "src" / "reason.rt").read_text()
    phrases = dict(re.findall(r'Refusal::(\w+) => (?:\{\s*)?"([^"]*)"', text))
    return [phrases.get(name) for _, name in sorted(code_names().items())]


def fortran_texts():
    """The texts that stand in the module's function, whether or not they can be compiled here."""
    body = FORTRAN.read_text().split("function razovinto_refusal_text", 1)[1].split("end function", 1)[0]
    return [text.replace("''", "'") for text in re.findall(r"'((?:[^'\n]|'')*)'", body)]


class Comparison:
    def __init__(self):
        self.differences = 0

    def same(self, what, wanted, given):
        if wanted != given:
            self.differences += 1
            print(f"words: {what}: wanted {wanted!r}, given {given!r}")

    def each(self, what, wanted, given):
        """Two lists, place by place."""
        self.same(f"how many {what} are", len(wanted), len(given))
        for place, (one, other) in enumerate(zip(wanted, given)):
            self.same(f"{what} at place {place}", one, other)


def compare_names(comparison, names):
    defined = {name: int(number) for name, number in re.findall(r"#define RAZOVINTO_(\w+) (\d+)\n", HEADER.read_text())}
    for number, name in names.items():
        comparison.same(f"the header's number of {name}", number, defined.get(name))
    comparison.same("the module's table of names", names, {each.value: each.name for each in razovinto.Refusal})


def compare_fortran(comparison, numbers, expected):
    texts = [text.rstrip() for text in fortran_texts()]
    for number, words in zip(numbers, expected):
        comparison.same(f"whether the Fortran module's text has the words of {number}", True, words in texts)
    if shutil.which("gfortran"):
        program = FORTRAN_PROGRAM % ", &\n        ".join(map(str, numbers))
        options = ["-std=f2018", "-Wall", "-Werror", str(FORTRAN)]
        comparison.each("the Fortran module's words", expected, printed("gfortran", options, program, ".f90"))
    else:
        print("words: left out: the Fortran module compiled, since gfortran isn't here")


def main():
    comparison = Comparison()
    names = table()
    comparison.same("the numbers of the code's table", list(range(1, len(names) + 1)), sorted(names))
    compare_names(comparison, names)
    numbers = [0, *sorted(names), *PAST]
    expected = header_words(numbers)
    none = "no refusal has this number"
    comparison.same("the header's words past the table", [none] * len(PAST), expected[-len(PAST) :])
    for number, words in zip(sorted(names), expected[1:]):
        comparison.same(f"whether {number} has words of its own", True, bool(words) and expected.count(words) == 1)
    comparison.each("the Python module's words", expected, [razovinto.refusal_text(number) for number in numbers])
    comparison.same("what the Python module says of -1", none, razovinto.refusal_text(-1))
    comparison.each("razo's words", expected[1 : len(names) + 1], razo_words())
    compare_fortran(comparison, numbers, expected)
    if comparison.differences:
        sys.exit(1)
    print(f"words: {len(names)} refusals have the same words everywhere")


if __name__ == "__main__":
    main()
