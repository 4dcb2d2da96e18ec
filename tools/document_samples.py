"""Small XML documents of our own for tools/check_documents.py, well-formed and not, with a name each."""

import random

# Well-formed ones, from which the variants are made too.
SEEDS = [
    ("an element with all kinds", b'<a x="1"><b>2</b><c/>t<!--c--><?i v?><b>3</b></a>'),
    (
        "a prolog and an end",
        b"<?xml version='1.0' encoding=\"UTF-8\" standalone='yes'?>\r\n<!-- a -->\r<?go  to the end ?><a/>\n<!--z--><?stop?>\n",
    ),
    ("a system identifier", b"<!DOCTYPE a SYSTEM 'a\"[>.dtd' >\n<a b='&lt;&#38;&#x26;\"' c=\"'&quot;&apos;>\"/>"),
    ("a public identifier", b'<!-- 1 --><!DOCTYPE a PUBLIC "-//own//a 1.0//EN" \'a.dtd\'>\n<?p?><a>\n\t<b>&amp;&gt;</b>\n</a>'),
    ("a bare document type", b"<!DOCTYPE a><a>\xc3\xa9\xe2\x82\xac\xf0\x90\x8d\x88</a>"),
    ("character data sections", b"<a>x<![CDATA[<b>&amp;]] ]> ]]]]><![CDATA[>]]>y<![CDATA[]]></a>"),
    ("white space in a value", b"<a b=' \t\n\r\r\n&#9;&#10;&#13;&#32; '/>"),
    ("white space in a text", b"<a> \t\r\r\n\n&#13;&#xD;&#10;\r</a>"),
    ("characters that are escaped", b"<a b='\x7f\xc2\x85\xe2\x80\xa8&#x9F;'>\x7f\xc2\x80\xc2\x9f\xe2\x80\xa8&gt;&#x7f;</a>"),
    ("names with colons", b'<a:b:c :d="1" xmlns:a="u"><:/><_-.0 _:="2"/></a:b:c>'),
    ("names beyond ASCII", "<é α-1·='1'><中.文/><?œ ŵ?></é>".encode()),
    ("white space in tags", b'<a\n\tb = "1"\r\n c\t=\n\'2\' ><d /></a\n>'),
]

WELL_FORMED = [
    ("a byte order mark", b"\xef\xbb\xbf<a/>"),
    ("a byte order mark and a declaration", b'\xef\xbb\xbf<?xml version="1.0" encoding="utf-8"?><a/>'),
    ("version 1.1", b'<?xml version="1.1"?><a/>'),
    ("US-ASCII", b"<?xml version='1.0' encoding='us-ascii' ?><a>b</a>"),
    ("an ampersand in a system identifier", b"<!DOCTYPE a SYSTEM 'a?b&c;d'><a/>"),
    ("brackets in a text", b"<a>]] > ]&gt;]>]</a>"),
    ("an empty character data section", b"<a><![CDATA[]]></a>"),
    ("an instruction with a question mark", b"<a><?b ? >?><?b\r\nc\r?></a>"),
    ("a name that begins as xml", b"<xml-a><?xml-b?><?xmlc?></xml-a>"),
    ("the last characters", b"<a>&#x10FFFF;&#xFFFD;&#xE000;&#xD7FF;&#1114111;&#0009;</a>"),
    ("characters at the ends of planes", "<a>\U0001fffe\U0010ffff\ufffd\ue000</a>".encode()),
    ("line ends in a comment and an instruction", b"<a><!--b\r\nc\rd--><?e f\r\ng\r?></a>"),
    ("an element that spans lines", b"<a\r\n>\r\n<b\r/>\r</a\r>"),
    ("many attributes", b"<a %s/>" % b" ".join(b'b%d="%d"' % (n, n) for n in range(500))),
    ("many children", b"<a>%s</a>" % (b"<b/>c" * 5000)),
    ("a long name, value and text", b'<%s b="%s">%s</%s>' % (b"n" * 9000, b"v" * 90000, b"t&lt;" * 50000, b"n" * 9000)),
    ("a depth of 1,000", b"<a>" * 1000 + b"t" + b"</a>" * 1000),
    ("names of the fifth edition", "<a\U00010000 \u0370b='1'/>".encode()),
    ("the greatest depth", b"<a>" * 65_535 + b"</a>" * 65_535),
]

NOT_WELL_FORMED = [
    ("nothing", b""),
    ("white space alone", b" \n"),
    ("a comment alone", b"<!--a-->"),
    ("a declaration alone", b'<?xml version="1.0"?>'),
    ("a byte order mark alone", b"\xef\xbb\xbf"),
    ("two byte order marks", b"\xef\xbb\xbf\xef\xbb\xbf<a/>"),
    ("a declaration after white space", b' <?xml version="1.0"?><a/>'),
    ("a declaration within", b'<a><?xml version="1.0"?></a>'),
    ("an instruction with the name XmL", b"<a><?XmL b?></a>"),
    ("version 2.0", b'<?xml version="2.0"?><a/>'),
    ("version 1.", b'<?xml version="1."?><a/>'),
    ("a declaration in another order", b'<?xml encoding="UTF-8" version="1.0"?><a/>'),
    ("a declaration without a blank", b'<?xml version="1.0"encoding="UTF-8"?><a/>'),
    ("standalone with another value", b'<?xml version="1.0" standalone="Yes"?><a/>'),
    ("two roots", b"<a/><b/>"),
    ("text before the root", b"t<a/>"),
    ("text after the root", b"<a/>t"),
    ("a reference after the root", b"<a/>&#32;"),
    ("character data after the root", b"<a/><![CDATA[ ]]>"),
    ("a document type after the root", b"<a/><!DOCTYPE a>"),
    ("two document types", b"<!DOCTYPE a><!DOCTYPE a><a/>"),
    ("a document type without a name", b"<!DOCTYPE ><a/>"),
    ("a public identifier alone", b'<!DOCTYPE a PUBLIC "b"><a/>'),
    ("identifiers without a blank", b'<!DOCTYPE a PUBLIC "b""c"><a/>'),
    ("a public identifier with a brace", b'<!DOCTYPE a PUBLIC "{" "c"><a/>'),
    ("a document type in lower case", b"<!doctype a><a/>"),
    ("the end of a character data section in a text", b"<a>b]]>c</a>"),
    ("two hyphens in a comment", b"<a><!-- b -- c --></a>"),
    ("a hyphen at a comment's end", b"<a><!-- b ---></a>"),
    ("an open comment", b"<a><!-- b"),
    ("an attribute twice", b'<a b="1" c="2" b="1"/>'),
    ("an attribute twice beyond ASCII", "<a é='1' é='2'/>".encode()),
    ("an attribute without quotes", b"<a b=1/>"),
    ("an attribute without a value", b"<a b/>"),
    ("attributes without a blank", b"<a b='1'c='2'/>"),
    ("a less-than sign in a value", b"<a b='<'/>"),
    ("a value that doesn't end", b"<a b='1/>"),
    ("an ampersand alone", b"<a>b & c</a>"),
    ("an ampersand in a value", b"<a b='&'/>"),
    ("an entity that nobody declares", b"<a>&b;</a>"),
    ("an entity that nobody declares in a value", b"<a c='&b;'/>"),
    ("an entity in capitals", b"<a>&LT;</a>"),
    ("an entity without a declaration in a bare document type", b"<!DOCTYPE a><a>&b;</a>"),
    ("a reference to nothing", b"<a>&#;&#x;</a>"),
    ("a reference to number 0", b"<a>&#0;</a>"),
    ("a reference to number 31", b"<a>&#x1F;</a>"),
    ("a reference to a surrogate", b"<a>&#xD800;</a>"),
    ("a reference to number FFFE", b"<a b='&#xFFFE;'/>"),
    ("a reference beyond the last character", b"<a>&#x110000;</a>"),
    ("a reference with many digits", b"<a>&#x1%s;</a>" % (b"0" * 400)),
    ("a reference with a capital X", b"<a>&#X41;</a>"),
    ("a reference without its end", b"<a>&#65</a>"),
    ("character 0", b"<a>\0</a>"),
    ("character 1 in a value", b"<a b='\x01'/>"),
    ("character FFFE", b"<a>\xef\xbf\xbe</a>"),
    ("character FFFF in a comment", b"<a><!--\xef\xbf\xbf--></a>"),
    ("a surrogate in UTF-8", b"<a>\xed\xa0\x80</a>"),
    ("a long form in UTF-8", b"<a>\xc0\x80</a>"),
    ("a long form of three bytes", b"<a>\xe0\x80\xaf</a>"),
    ("a character beyond the last", b"<a>\xf4\x90\x80\x80</a>"),
    ("a truncated character", b"<a>\xe2\x82</a>"),
    ("a truncated character at the end", b"<a/>\n\xe2\x82"),
    ("a byte of Latin-1", b"<a>caf\xe9</a>"),
    ("a byte that follows nothing", b"<a>\x80</a>"),
    ("a name that begins with a digit", b"<1a/>"),
    ("a name that begins with a combining mark", "<\u0301a/>".encode()),
    ("a name with a multiplication sign", "<a×/>".encode()),
    ("a blank before a name", b"< a/>"),
    ("a blank before the end of an empty element", b"<a/ >"),
    ("an end without a start", b"</a>"),
    ("an end of another name", b"<a><b></a></b>"),
    ("an end in another case", b"<a></A>"),
    ("an end with an attribute", b"<a></a b='1'>"),
    ("an element that doesn't end", b"<a><b></b>"),
    ("an open tag at the end", b"<a"),
    ("an instruction without a name", b"<a><? b?></a>"),
    ("an instruction that doesn't end", b"<a><?b c>"),
    ("an open character data section", b"<a><![CDATA[b]]</a>"),
    ("a character data section in lower case", b"<a><![cdata[b]]></a>"),
    ("a tag in a tag", b"<a<b/>/>"),
    ("a depth of 1,000 and no end", b"<a>" * 1000 + b"</a>" * 999),
]

OUTSIDE = [
    ("an empty internal subset", b"<!DOCTYPE a []><a/>"),
    ("an internal subset with an entity", b'<!DOCTYPE a [<!ENTITY b "c">]><a/>'),
    ("an internal subset that doesn't end", b'<?xml version="1.0"?><!--b--><!DOCTYPE a SYSTEM "a"['),
    ("Latin-1", b'<?xml version="1.0" encoding="ISO-8859-1"?><a>\xe9</a>'),
    ("the name of UTF-16 over UTF-8", b'<?xml version="1.0" encoding="UTF-16"?><a/>'),
    ("an encoding that nobody knows", b'<?xml version="1.0" encoding="a.b_c-1"?><a>'),
    ("UTF-16 with a mark", '\ufeff<?xml version="1.0" encoding="UTF-16"?><a/>'.encode("utf-16-le")),
    ("UTF-16 without a mark", "<a/>".encode("utf-16-be")),
    ("an entity of an external subset", b"<!DOCTYPE a SYSTEM 'a'><a>&b;</a>"),
    ("an entity of an external subset in a value", b"<!DOCTYPE a SYSTEM 'a'><a c='&b;'/>"),
    ("a greater depth", b"<a>" * 65_536 + b"</a>" * 65_536),
]


def samples():
    """All documents that are written here, each with its name."""
    return SEEDS + WELL_FORMED + NOT_WELL_FORMED + OUTSIDE


PIECES = [bytes([byte]) for byte in b"<>&\"'=/!?-[];:#xa1 \t\r\n\0\x1f\x7f\x80\xbf\xc2\xe9\xf0\xff"]
PIECES += [b"]]>", b"--", b"<!--", b"?>", b"&lt;", b"&#", b"xml", "é".encode(), "\ufffe".encode(), b"<b/>", b"</a>"]


def variants():
    """Documents that are one step away from a well-formed one: cut, or with a byte taken out, put in or changed."""
    chance = random.Random(20_041_109)
    made = []
    for name, data in SEEDS:
        for place in range(0, len(data), 3):
            made.append(("%s, cut at %d" % (name, place), data[:place]))
        for _turn in range(30):
            place, piece, taken = chance.randrange(len(data)), chance.choice(PIECES), chance.choice((0, 1))
            made.append(("%s, with %r at %d for %d" % (name, piece, place, taken), data[:place] + piece + data[place + taken :]))
        for place in sorted(chance.sample(range(len(data)), 12)):
            made.append(("%s, without byte %d" % (name, place), data[:place] + data[place + 1 :]))
    return made
