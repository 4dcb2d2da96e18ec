"""Writes a query of about so many bytes: a shape's name, a number of bytes, the file."""

import sys


def additions(size):
    """A sequence of additions, ten bytes each."""
    return "123 + 4567" + ", 123 + 45" * ((size - 10) // 10)


def flwors(size):
    """FLWOR expressions side by side, a hundred bytes each."""
    part = "for $x in (1, 2) let $y := $x + 10 where $y > 1 order by $y return <a b='{$x}'>text and {$y}</a>"
    return ", ".join([part.ljust(98)] * max(1, size // 100))


def string(size):
    """One string."""
    return '"' + "text of a string, &amp; so on " * ((size - 2) // 30) + '"'


def comments(size):
    """Nested comments, then an integer."""
    depth = (size - 1) // 4
    return "(:" * depth + ":)" * depth + "1"


def operands(size):
    """One level of operators."""
    return "1" + "+1" * ((size - 1) // 2)


SHAPES = {
    "additions": additions,
    "flwors": flwors,
    "string": string,
    "comments": comments,
    "operands": operands,
}

shape, size, path = sys.argv[1:]
with open(path, "w", encoding="utf-8") as file:
    file.write(SHAPES[shape](int(size)))
