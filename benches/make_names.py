"""Writes a query with so many names of a kind: a shape's name, how many, the file."""

import sys


def lets(count):
    """One FLWOR with so many lets, each of which refers to the one before it."""
    parts = ["let $x0 := 1"]
    parts += [f"let $x{k} := $x{k - 1}" for k in range(1, count)]
    return "\n".join(parts) + f"\nreturn $x{count - 1}"


def functions(count):
    """So many functions, each of which calls the one declared before it."""
    parts = ["declare function local:f0() { 1 };"]
    parts += [f"declare function local:f{k}() {{ local:f{k - 1}() }};" for k in range(1, count)]
    return "\n".join(parts) + f"\nlocal:f{count - 1}()"


def references(count):
    """So many references to one variable, in rows of a hundred."""
    row = "(" + ", ".join(["$x"] * 100) + ")"
    return "let $x := 1 return (" + ",\n".join([row] * (count // 100)) + ")"


SHAPES = {"lets": lets, "functions": functions, "references": references}

shape, count, path = sys.argv[1:]
with open(path, "w", encoding="utf-8") as file:
    file.write(SHAPES[shape](int(count)))
