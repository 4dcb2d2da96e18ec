"""Writes an auction house's XML document of about a given size. The structure, the words and the generator are our own:
they are no copy of a published benchmark, and figures from them compare with no other's.

    python3 benches/make_auction.py BYTES FILE

prints the number of rows of the document: its elements, texts, comments and instructions, and one for itself.
The same size gives the same bytes on every machine, since the seed is fixed and chances are drawn as whole numbers.
"""

import random
import sys

SEED = 1964
WORDS = (
    "amber antique basket bell blue book bottle bowl brass bronze button cabinet candle carved case chair chest clock"
    " cloth coin copper cup desk dish drawer early enamel engraved fine frame garden gilt glass green hand handle heavy"
    " iron ivory jar jewel key lacquer lamp large late leather letter lid linen map marble mark mirror oak old original"
    " paint pair paper pearl pewter pine plate polished porcelain print rare red restored ring round rug scale seal"
    " signed silk silver small spoon stamp stone table tall tile tin toy tray vase velvet walnut white wood wool worn"
).split()
TOWNS = "Ashford Brookby Coldwell Dunmere Eastleigh Farnham Greyhaven Hillcross".split()
SENTENCES = 4_000


class Writer:
    """Writes pieces of a document, and counts its bytes and its rows. No text is written next to another."""

    def __init__(self, file):
        self.file = file
        self.bytes = 0
        self.rows = 1

    def put(self, piece, rows):
        """Writes a piece of markup and text that makes so many rows."""
        self.file.write(piece)
        self.bytes += len(piece)
        self.rows += rows


def sentences(chance):
    """Sentences of the words, some with a reference among them."""
    made = []
    for _turn in range(SENTENCES):
        words = [WORDS[chance.randrange(len(WORDS))] for _word in range(6 + chance.randrange(14))]
        if chance.randrange(12) == 0:
            words.insert(3, "&amp;")
        made.append(" ".join(words).capitalize() + ".")
    return made


def description(chance, said):
    """A description with some elements among its texts, and its rows."""
    parts, rows = [], 1
    for _turn in range(1 + chance.randrange(4)):
        parts.append(" %s <mark>%s</mark>" % (said(), WORDS[chance.randrange(len(WORDS))]))
        rows += 3
    parts.append(" " + said())
    return "<description>%s</description>" % "".join(parts), rows + 1


def bids(chance, persons):
    """The bids on a lot with the line ends between them, and their rows."""
    count = chance.randrange(9)
    if count == 0:
        return "<bids/>", 1
    made, price = [], 10 + chance.randrange(500)
    for turn in range(count):
        price += 1 + chance.randrange(40)
        who, minute = chance.randrange(persons), turn * 7 % 60
        made.append('\n    <bid by="p%d" at="14:%02d"><price>%d</price></bid>' % (who, minute, price))
    return "<bids>%s\n  </bids>" % "".join(made), 1 + 4 * count + 1


def lot(number, chance, said, persons):
    """One lot, and its rows."""
    told, told_rows = description(chance, said)
    offers, offers_rows = bids(chance, persons)
    low = 20 + 5 * chance.randrange(200)
    title = " ".join(WORDS[chance.randrange(len(WORDS))] for _word in range(4)).capitalize()
    about = (number, chance.randrange(persons), WORDS[number % len(WORDS)], title)
    piece = '\n <lot number="%d" seller="p%d" kind="%s">\n  <title>%s</title>' % about
    piece += '\n  <estimate low="%d" high="%d" currency="EUR"/>\n  %s\n  %s\n </lot>' % (low, low * 3 // 2, told, offers)
    rows = 2 + 1 + 2 + 1 + 1 + 1 + told_rows + 1 + offers_rows + 1
    if number % 97 == 0:
        return "\n <!-- withdrawn before the sale: %s -->%s" % (WORDS[number % 7], piece), rows + 2
    return piece, rows


def person(number, chance):
    """One person, and its rows."""
    name = "%s %s" % (WORDS[chance.randrange(len(WORDS))].capitalize(), WORDS[number % len(WORDS)].capitalize())
    town = TOWNS[chance.randrange(len(TOWNS))]
    return '\n <person id="p%d"><name>%s</name><town>%s</town></person>' % (number, name, town), 6


def write_all(file, size):
    """The whole document, persons and then lots up to the size, and its number of rows."""
    chance = random.Random(SEED)
    pool = sentences(chance)
    writer = Writer(file)

    def said():
        return pool[chance.randrange(len(pool))]

    persons = 50 + size // 2_000
    writer.put('<?xml version="1.0" encoding="UTF-8"?>\n<?catalogue spring?>\n<house name="Own Hall">\n<persons>', 4)
    for number in range(persons):
        writer.put(*person(number, chance))
    writer.put("\n</persons>\n<lots>", 3)
    number = 0
    while writer.bytes < size - 30:
        writer.put(*lot(number, chance, said, persons))
        number += 1
    writer.put("\n</lots>\n</house>\n", 2)
    return writer.rows


def main():
    with open(sys.argv[2], "w", encoding="utf-8", newline="\n") as file:
        print(write_all(file, int(sys.argv[1])))


if __name__ == "__main__":
    main()
