"""Writes a document of about a given size whose texts all have one hash under the hash of the kit's maps, which has a
fixed and known seed, and an ordinary one of the same size and shape.

    python3 benches/make_colliding.py BYTES COLLIDING ORDINARY

prints the number of rows of each, which is one number. The first 16 bytes of a colliding text bring that hash to a state whose eight bytes
are letters and digits. These are the next eight bytes, so that the state becomes 0, whatever eight bytes follow.
"""

import itertools
import sys

MASK = (1 << 64) - 1
SEED = 0x243F6A8885A308D3
MULTIPLIER = 0x9E3779B97F4A7C15
LENGTH = 32
SPELLED = set(b"abcdefghijklmnopqrstuvwxyzABCDEFGHIJKLMNOPQRSTUVWXYZ0123456789")


def word(text, at):
    return int.from_bytes(text[at : at + 8], "little")


def multiplied(a, b):
    """Both halves of the product, joined."""
    product = a * b
    return (product & MASK) ^ (product >> 64)


def front():
    """The first 24 bytes of the texts."""
    for number in itertools.count():
        first = b"textwith%08d" % number
        state = multiplied(word(first, 0) ^ (SEED + LENGTH) & MASK, word(first, 8) ^ MULTIPLIER)
        spelled = state.to_bytes(8, "little")
        if SPELLED.issuperset(spelled):
            return (first + spelled).decode()


def write(path, size, text_of):
    """A root element with an element for each text; the number of the document's rows."""
    count = size // (LENGTH + len("<b></b>"))
    with open(path, "w", encoding="ascii", newline="") as file:
        file.write("<a>")
        for number in range(count):
            file.write(f"<b>{text_of(number)}</b>")
        file.write("</a>")
    return 2 * count + 2


def main():
    size, colliding, ordinary = int(sys.argv[1]), sys.argv[2], sys.argv[3]
    same = front()
    write(ordinary, size, lambda number: f"{number:08d}{same}")
    print(write(colliding, size, lambda number: f"{same}{number:08d}"))


if __name__ == "__main__":
    main()
