"""Compares a program that reads and writes XML documents with expat. tools/check-documents.sh says how to run it.

For each document expat says whether it is well-formed. The program is run with the query doc("d.xml") over it.
Where both accept it, expat reads the program's answer, and the events of both readings have to be the same.

Outside the profile are documents in another encoding than UTF-8 or US-ASCII, documents with an internal subset
and those that use entities of an external one; what the program has to answer there is compared where its
definitions say it. Four things expat doesn't judge as XML 1.0, fifth edition, or the program's profile does, and
the function judge settles them: version numbers, names, bytes beyond US-ASCII under its name, and depth.
"""

import os
import re
import shutil
import subprocess
import sys
import sysconfig
import tempfile
import time
from collections import Counter
from xml.parsers import expat

from document_samples import samples, variants

MOST_FILES = 400
MOST_BYTES = 20_000_000
MOST_SECONDS = 110
GREATEST_LEVEL = 65_535
ENDINGS = (
    ".xml .svg .xsl .xslt .xsd .rng .xhtml .docbook .dbk .rdf .xmi .ui .glade .plist .pom .rss .atom .xlf .mml .wsdl"
    " .policy .gir .conf .html"
).split()
# Files of these endings are mostly no XML, and count where they begin with an XML declaration.
MIXED_ENDINGS = (".conf", ".html", ".plist")

ACCEPTED, REFUSED, OUTSIDE = "accepted", "refused", "outside the profile"
NOT_WELL_FORMED, UNSUPPORTED, TOO_DEEP = "not well-formed", "unsupported", "too deep"
FIFTH_EDITION = "names of the fifth edition"
INVALID_TOKEN = 4


# ---- What expat makes of a document ----


class Reading:
    """The events of one document, with adjacent character data joined, and what its prolog says."""

    def __init__(self):
        self.events = []
        self.text = []
        self.level = 0
        self.deepest = 0
        self.version = None
        self.encoding = None
        self.external = False
        self.subset = False

    def add(self, event):
        """Adds an event at the level of its node, after the character data before it."""
        self.end_text()
        self.events.append(event)

    def end_text(self):
        if self.text:
            self.reach(self.level + 1)
            self.events.append(("text", "".join(self.text)))
            self.text = []

    def piece(self, text):
        self.text.append(text)

    def reach(self, level):
        self.deepest = max(self.deepest, level)

    def start(self, name, attributes):
        self.add(("start", name, tuple(attributes)))
        self.level += 1
        self.reach(self.level)

    def end(self, name):
        self.add(("end", name))
        self.level -= 1

    def comment(self, value):
        self.add(("comment", value))
        self.reach(self.level + 1)

    def instruction(self, name, value):
        self.add(("instruction", name, value))
        self.reach(self.level + 1)

    def declaration(self, version, encoding, _standalone):
        self.version, self.encoding = version, encoding

    def doctype(self, _name, system, public, subset):
        self.external = system is not None or public is not None
        self.subset = bool(subset)


def read(data):
    """Expat's reading of the bytes, and its error, or None."""
    reading = Reading()
    parser = expat.ParserCreate()
    parser.ordered_attributes = True
    parser.buffer_text = True
    parser.StartElementHandler = reading.start
    parser.EndElementHandler = reading.end
    parser.CharacterDataHandler = reading.piece
    parser.CommentHandler = reading.comment
    parser.ProcessingInstructionHandler = reading.instruction
    parser.XmlDeclHandler = reading.declaration
    parser.StartDoctypeDeclHandler = reading.doctype
    try:
        parser.Parse(data, True)
    except expat.ExpatError as error:
        return reading, (error.code, parser.ErrorByteIndex)
    except (ValueError, LookupError):
        return reading, (expat.errors.codes[expat.errors.XML_ERROR_UNKNOWN_ENCODING], 0)
    reading.end_text()
    return reading, None


class Judgement:
    """What is expected of the program: accepted, refused or outside the profile, why, and the fault that it has to name
    there, where that is known."""

    def __init__(self, kind, reason="", fault=None, events=None, peer="expat"):
        self.kind = kind
        self.reason = reason
        self.fault = fault
        self.events = events
        self.peer = peer


MARK = b"\xef\xbb\xbf"
WIDE_MARKS = (b"\xff\xfe", b"\xfe\xff", b"<\0", b"\0<", b"\0\0")
NO_REFERENCES = re.compile(
    rb"<!--.*?-->|<!\[CDATA\[.*?\]\]>|<\?.*?\?>|<!DOCTYPE(?:\"[^\"]*\"|'[^']*'|[^\"'>])*>", re.DOTALL
)
OTHER_REFERENCE = re.compile(rb"&(?!#|(?:amp|lt|gt|quot|apos);)")


def uses_other_entities(data):
    """Whether a well-formed document refers to an entity other than the five. Expat doesn't tell it of values."""
    return OTHER_REFERENCE.search(NO_REFERENCES.sub(b" ", data)) is not None


def judge(data):
    """The judgement of the bytes by expat, and by the rules that expat doesn't know."""
    if data.startswith(WIDE_MARKS):
        return Judgement(OUTSIDE, "UTF-16 or UTF-32", NOT_WELL_FORMED)
    reading, error = read(data)
    if reading.version is not None and not re.fullmatch(r"1\.[0-9]+", reading.version):
        return Judgement(REFUSED, "the version's number", NOT_WELL_FORMED, peer="XML 1.0")
    encoding = (reading.encoding or "utf-8").lower()
    if encoding not in ("utf-8", "us-ascii"):
        return Judgement(OUTSIDE, "another encoding", UNSUPPORTED)
    if reading.subset:
        return Judgement(OUTSIDE, "an internal subset", UNSUPPORTED)
    if encoding == "us-ascii" and not (data[3:] if data.startswith(MARK) else data).isascii():
        return Judgement(OUTSIDE, "bytes beyond US-ASCII under its name")
    if error is not None:
        return judge_error(data, *error)
    if reading.external and uses_other_entities(data):
        return Judgement(OUTSIDE, "entities of an external subset", NOT_WELL_FORMED)
    if reading.deepest > GREATEST_LEVEL:
        return Judgement(OUTSIDE, "a greater depth", TOO_DEEP)
    return Judgement(ACCEPTED, events=reading.events)


def judge_error(data, code, place):
    """The judgement of bytes that expat refuses, which knows the names of the fourth edition alone."""
    if code == INVALID_TOKEN and is_name_beyond_ascii(data[place : place + 4]):
        return Judgement(OUTSIDE, FIFTH_EDITION)
    return Judgement(REFUSED, expat.ErrorString(code), NOT_WELL_FORMED)


NAME_RANGES = (
    *((0xB7, 0xB7), (0xC0, 0xD6), (0xD8, 0xF6), (0xF8, 0x37D), (0x37F, 0x1FFF), (0x200C, 0x200D), (0x203F, 0x2040)),
    *((0x2070, 0x218F), (0x2C00, 0x2FEF), (0x3001, 0xD7FF), (0xF900, 0xFDCF), (0xFDF0, 0xFFFD), (0x10000, 0xEFFFF)),
)


def is_name_beyond_ascii(piece):
    """Whether the bytes begin with a character beyond ASCII that a name of the fifth edition may have."""
    first = piece.decode("utf-8", "ignore")[:1]
    if not first or not piece.startswith(first.encode()):
        return False
    return any(low <= ord(first) <= high for low, high in NAME_RANGES)


# ---- What the program and xmllint make of it ----


class Program:
    """The program, run over one document at a time in a folder of its own."""

    def __init__(self, path, folder):
        self.path = os.path.abspath(path)
        self.folder = folder
        self.write("q.xq", b'doc("d.xml")')

    def write(self, name, data):
        with open(os.path.join(self.folder, name), "wb") as file:
            file.write(data)

    def answer(self, data):
        """The kind of answer, with the bytes that were written, or the fault that was named."""
        self.write("d.xml", data)
        words = [self.path, "run", "q.xq", "d.xml"]
        try:
            run = subprocess.run(words, cwd=self.folder, stdin=subprocess.DEVNULL, capture_output=True, timeout=30)
        except subprocess.TimeoutExpired:
            return "no answer in 30 seconds", b""
        line = run.stderr.decode("utf-8", "replace").strip()
        if run.returncode == 0:
            return ACCEPTED, run.stdout
        for fault in (NOT_WELL_FORMED, UNSUPPORTED, TOO_DEEP):
            if run.returncode == 3 and run.stdout == b"" and line == "document d.xml is " + fault:
                return fault, b""
        return "status %d, %s" % (run.returncode, line[:200]), b""


class Xmllint:
    """xmllint, where it is there. It has the names of the fifth edition."""

    def __init__(self, folder):
        self.path = shutil.which("xmllint")
        self.folder = folder

    def accepts(self, data):
        """Whether it accepts the bytes; None where it is missing."""
        if self.path is None:
            return None
        with open(os.path.join(self.folder, "x.xml"), "wb") as file:
            file.write(data)
        words = [self.path, "--noout", "--nonet", "--huge", "x.xml"]
        try:
            run = subprocess.run(words, cwd=self.folder, stdin=subprocess.DEVNULL, capture_output=True, timeout=30)
        except subprocess.TimeoutExpired:
            return None
        return run.returncode == 0


# ---- The comparison ----


class Tally:
    """What was compared, how much of it agreed, and what differs."""

    def __init__(self, title):
        self.title = title
        self.counts = Counter()
        self.reasons = Counter()
        self.differences = []
        self.notes = []

    def differs(self, name, what):
        self.differences.append("%s: %s" % (name, what))

    def say(self):
        count = self.counts
        print("%s: %d looked at, %d in the profile" % (self.title, count["looked"], count["profile"]))
        print(
            "  acceptance agreed on %d of %d (%d accepted, %d refused), content on %d of %d"
            % (count["agreed"], count["profile"], count["both"], count["neither"], count["content"], count["compared"])
        )
        for reason, number in sorted(self.reasons.items()):
            print("  outside: %d with %s" % (number, reason))
        if count["known"]:
            print("  the fault named as defined outside the profile: %d of %d" % (count["named"], count["known"]))
        if count["linted"]:
            print("  xmllint agreed with expat on %d of %d" % (count["lint"], count["linted"]))
        for line in self.notes:
            print("  note: " + line)
        for line in self.differences:
            print("  DIFFERS: " + line)


def first_difference(wanted, found):
    """The first place where two lists of events differ, in words."""
    for place, (one, other) in enumerate(zip(wanted, found)):
        if one != other:
            return "event %d is %.120r in the document and %.120r in the answer" % (place, one, other)
    return "the document has %d events and the answer %d" % (len(wanted), len(found))


def compare_content(tally, name, judgement, written):
    reading, error = read(written)
    if error is not None:
        tally.differs(name, "the answer is not well-formed: %s at byte %d" % (expat.ErrorString(error[0]), error[1]))
    elif reading.version is not None or reading.external or reading.subset:
        tally.differs(name, "the answer has a declaration")
    elif reading.events != judgement.events:
        tally.differs(name, first_difference(judgement.events, reading.events))
    else:
        tally.counts["content"] += 1


def compare_outside(tally, name, judgement, found):
    """Outside the profile the program has to name the fault that its definitions give, where they give one."""
    tally.reasons[judgement.reason] += 1
    if judgement.fault is None:
        return
    tally.counts["known"] += 1
    if found == judgement.fault:
        tally.counts["named"] += 1
    else:
        tally.differs(name, "the program says %s where it has to say %s" % (found, judgement.fault))


def compare_inside(tally, name, judgement, answer):
    found, written = answer
    wanted = ACCEPTED if judgement.kind == ACCEPTED else NOT_WELL_FORMED
    if found != wanted:
        why = " (%s)" % judgement.reason if judgement.reason else ""
        tally.differs(name, "the program says %s, %s %s%s" % (found, judgement.peer, wanted, why))
        return
    tally.counts["agreed"] += 1
    if wanted != ACCEPTED:
        tally.counts["neither"] += 1
        return
    tally.counts["both"] += 1
    if judgement.events is not None:
        tally.counts["compared"] += 1
        compare_content(tally, name, judgement, written)


def compare_peers(tally, name, judgement, lint, differs):
    """Counts whether xmllint and expat agree, and notes where they don't, or where the program differs."""
    if lint is None:
        return
    tally.counts["linted"] += 1
    same = lint == (judgement.kind == ACCEPTED)
    tally.counts["lint"] += same
    if differs or not same:
        tally.notes.append("%s: xmllint %s it" % (name, "accepts" if lint else "refuses"))


def settled(judgement, data, lint):
    """The judgement, by xmllint where expat doesn't know the names. A document type or an encoding is then left out, since
    xmllint doesn't tell whether it is in the profile."""
    if judgement.reason != FIFTH_EDITION or lint is None or b"<!DOCTYPE" in data or b"encoding" in data:
        return judgement
    return Judgement(ACCEPTED if lint else REFUSED, FIFTH_EDITION, peer="xmllint")


def compare(tally, program, xmllint, name, data):
    """Compares all judgements of one document."""
    tally.counts["looked"] += 1
    judgement = judge(data)
    answer = program.answer(data)
    lint = xmllint.accepts(data) if judgement.kind != OUTSIDE or judgement.reason == FIFTH_EDITION else None
    judgement = settled(judgement, data, lint)
    if judgement.kind == OUTSIDE:
        compare_outside(tally, name, judgement, answer[0])
        return
    tally.counts["profile"] += 1
    before = len(tally.differences)
    compare_inside(tally, name, judgement, answer)
    if judgement.peer == "expat":
        compare_peers(tally, name, judgement, lint, len(tally.differences) > before)


# ---- The documents ----


def roots():
    """The folders whose files are looked at, those that are there, none below another."""
    folders = ["/usr/share", "/usr/lib", "/usr/libexec", "/usr/local", "/etc", sysconfig.get_path("stdlib")]
    folders.append(os.environ.get("JAVA_HOME", ""))
    there = sorted({os.path.realpath(folder) for folder in folders if folder and os.path.isdir(folder)})
    return [folder for folder in there if not any(folder.startswith(other + "/") for other in there)]


def listed(root):
    """For each folder below this one the files with a listed ending, in the order of their names."""
    for folder, below, names in os.walk(root):
        below.sort()
        files = [os.path.join(folder, name) for name in sorted(names) if name.lower().endswith(tuple(ENDINGS))]
        yield [path for path in files if os.path.isfile(path) and not os.path.islink(path)]


def in_order():
    """The paths in a fixed order: the first of each folder, then the second of each, and so on."""
    places = [(place, path) for root in roots() for files in listed(root) for place, path in enumerate(files)]
    return [path for _place, path in sorted(places)]


def contents(path):
    """The bytes of a file, or None where it can't be read or is no XML by its first bytes and its ending."""
    try:
        if os.path.getsize(path) > MOST_BYTES:
            return None
        with open(path, "rb") as file:
            data = file.read()
    except OSError:
        return None
    if path.lower().endswith(MIXED_ENDINGS) and not data.startswith(b"<?xml"):
        return None
    return data


def found_documents():
    """The chosen files of this machine, with their bytes, each content once."""
    seen = set()
    total = 0
    for path in in_order():
        data = contents(path)
        if data is None or data in seen or total + len(data) > MOST_BYTES:
            continue
        seen.add(data)
        total += len(data)
        yield path, data
        if len(seen) == MOST_FILES:
            return


def compare_all(title, documents, program, xmllint, until):
    """Compares the documents in turn, until the time is over, says what was seen, and whether all agreed."""
    tally = Tally(title)
    for name, data in documents:
        if time.monotonic() > until:
            tally.notes.append("the time was over, and the documents from %s on were left out" % name)
            break
        compare(tally, program, xmllint, name, data)
    tally.say()
    return not tally.differences


def main():
    sys.stdout.reconfigure(errors="backslashreplace", line_buffering=True)
    until = time.monotonic() + MOST_SECONDS
    with tempfile.TemporaryDirectory(prefix="check-documents-") as folder:
        program, xmllint = Program(sys.argv[1], folder), Xmllint(folder)
        print("check-documents: %s%s" % (expat.EXPAT_VERSION, ", xmllint" if xmllint.path else ", no xmllint"))
        agreed = [
            compare_all("small documents", samples(), program, xmllint, until),
            compare_all("files of this machine", found_documents(), program, xmllint, until),
            compare_all("variants of small documents", variants(), program, xmllint, until),
        ]
    print("check-documents: " + ("all agreed" if all(agreed) else "there are differences"))
    return 0 if all(agreed) else 1


if __name__ == "__main__":
    sys.exit(main())
