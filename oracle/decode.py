"""Writes the vectors of references, which stand behind those that `record` writes:

    python3 decode.py >> ../crates/vectors/stdin

A line is `decode`, one or more texts, and what each of them decodes to: `refused`, `=` where it decodes to
itself, or the decoded bytes. Texts are written as `record` writes them, and a decoded lone `=` as `%3D`.

What a text decodes to is expat's word: the value of b in the document <a b="TEXT"/>. expat normalizes raw
white space, and refuses a raw `<`, raw quotes and raw control characters, which attribute values that are
read here may have (a reader of elements has judged them before), so the answers for texts with those are
given by hand, in BY_HAND. A text without `&` decodes to itself if it is UTF-8, by Python's own decoder.
"""
import itertools
import random
import sys
import xml.parsers.expat

# Not in what expat judges: raw control characters and white space but for the space, `<` and quotes, and
# the two characters of UTF-8 that are none of XML's.
UNJUDGED = [bytes([b]) for b in range(32)] + [b"<", b'"', b"\xef\xbf\xbe", b"\xef\xbf\xbf"]


def by_expat(text):
    """The decoded bytes, or None where the document is refused."""
    values = []
    parser = xml.parsers.expat.ParserCreate("UTF-8")
    parser.StartElementHandler = lambda name, attributes: values.append(attributes["b"])
    try:
        parser.Parse(b'<a b="' + text + b'"/>', True)
    except xml.parsers.expat.ExpatError:
        return None
    return values[0].encode("utf-8")


def by_utf8(text):
    try:
        text.decode("utf-8")
    except UnicodeDecodeError:
        return None
    return text


def decoded(text):
    plain = b"&" not in text
    judged = not any(mark in text for mark in UNJUDGED)
    if plain and judged and by_expat(text) != by_utf8(text):
        sys.exit(f"expat and Python disagree on {text}")
    if plain:
        return by_utf8(text)
    if judged:
        return by_expat(text)
    sys.exit(f"expat is no judge of {text}")


# Texts with what expat does not take, or takes otherwise, and what they decode to.
BY_HAND = [
    (b"a<b", b"a<b"),
    (b"<&lt;", b"<<"),
    (b"&lt;<", b"<<"),
    (b"&<lt;", None),
    (b"&l<t;", None),
    (b"&lt<;", None),
    (b"&#<65;", None),
    (b'say "no" &amp; go', b'say "no" & go'),
    (b'"&quot;"', b'"""'),
    (b'&qu"ot;', None),
    (b"\t&#9;\n&#10;\r&#13;\r\n", b"\t\t\n\n\r\r\r\n"),
    (b"&\tlt;", None),
    (b"&lt\n;", None),
    (b"&#\t65;", None),
    (b"&#65\r;", None),
    (b"\x00&#65;\x00", b"\x00A\x00"),
    (b"\x01\x02\x1f&gt;\x7f", b"\x01\x02\x1f>\x7f"),
    (b"\x0b\x0c&amp;\x08", b"\x0b\x0c&\x08"),
    (b"&\x00lt;", None),
    (b"&#6\x005;", None),
    (b"&#x41\x00;", None),
    (b"\xef\xbf\xbe&lt;\xef\xbf\xbf", b"\xef\xbf\xbe<\xef\xbf\xbf"),
    (b"&\xef\xbf\xbf;", None),
    (b"\x1b[31m&apos;\x1b[0m", b"\x1b[31m'\x1b[0m"),
]

NAMES = ["lt", "gt", "amp", "apos", "quot"]

CODES = [0, 1, 8, 9, 0xA, 0xB, 0xC, 0xD, 0xE, 0x1F, 0x20, 0x21, 0x26, 0x3B, 0x3C, 0x3D, 0x41, 0x7E, 0x7F, 0x80, 0x85, 0x9F, 0xA0, 0xFF, 0x100,
         0x7FF, 0x800, 0xFFF, 0x1000, 0xCFFF, 0xD7FE, 0xD7FF, 0xD800, 0xD801, 0xDBFF, 0xDC00, 0xDFFE, 0xDFFF, 0xE000, 0xE001, 0xFDD0, 0xFFFC,
         0xFFFD, 0xFFFE, 0xFFFF, 0x10000, 0x10001, 0x1FFFE, 0x1FFFF, 0x20000, 0xFFFFF, 0x100000, 0x10FFFD, 0x10FFFE, 0x10FFFF, 0x110000, 0x110001,
         0x1FFFFF, 0x200000, 0x10FFFFF]

HUGE = [n + d for n in (2**31, 2**32, 2**33, 2**63, 2**64, 2**65, 2**128, 10**40, 0x110000 * 10, 0x110000 * 16, 2**32 * 10, 2**32 * 16) for d in (0, 9, 65, 0x10FFFF)]


def named():
    for name in NAMES:
        whole = f"&{name};"
        yield whole
        for end in range(len(whole)):
            yield whole[:end]
            yield whole[:end] + whole[end + 1:]
            yield whole[:end] + "x" + whole[end:]
            yield whole[:end] + ";" + whole[end:]
            yield whole[:end] + "&" + whole[end:]
            yield whole[:end] + " " + whole[end:]
            yield whole[:end] + "#" + whole[end:]
            yield whole[:end] + whole[end].upper() + whole[end + 1:]
        yield whole.upper()
        yield f"&{name}{name};"
        yield f"a{whole}b"
        yield f"{whole}{whole}"
        yield f"&amp;{name};"
        yield f"&amp;amp;{name};"
        yield f"&#38;{name};"
        yield f"&#x26;{name};"
        yield f"&amp;{whole}"
        yield f"{whole};"
        yield f"é{whole}€{whole}😀"
    for other in ["nbsp", "copy", "a", "LT", "Amp", "quote", "lt ", " lt", "l t", "", " ", "#", "##65", "#x", "#xx41", "é", "amp;amp", "apos'"]:
        yield f"&{other};"


def numbered():
    for code in CODES + HUGE:
        for digits in dict.fromkeys([f"{code}", f"x{code:x}", f"x{code:X}"]):
            mark, rest = ("x", digits[1:]) if digits[0] == "x" else ("", digits)
            yield f"&#{digits};"
            yield f"&#{mark}0{rest};"
            yield f"&#{mark}{'0' * 40}{rest};"
            yield f"a&#{digits};&#{digits};b"
            yield f"&#{digits}"
            yield f"&#{digits}&"
            yield f"&{digits};"
    for code in (0x41, 0x9, 0xD7FF, 0xD800, 0xFFFD, 0xFFFE, 0x10FFFF, 0x110000):
        yield f"&#X{code:X};"
        yield f"&#{'0' * 400}{code};"
        yield f"&#x{'0' * 400}{code:x};"
        for bad in "gG+-. /:@`_,;#&":
            yield f"&#{bad}{code};"
            yield f"&#{code}{bad};"
            yield f"&#x{bad}{code:x};"
            yield f"&#x{code:x}{bad};"
    for bad in ["&#;", "&#x;", "&#X;", "&#x", "&#", "&", "&;", "&&", "&#a;", "&#A;", "&#xg;", "&#xG;", "&#0x41;", "&#x0x41;", "&#65.0;", "&#6e1;", "&#-0;", "&#٣;"]:
        yield bad
    for digit in "0123456789abcdefABCDEF":
        yield f"&#x4{digit};"
        yield f"&#x{digit}41;"
        yield f"&#4{digit};"


def raw_bytes():
    ends = [0x41, 0x7F, 0x80, 0x8F, 0x90, 0x9F, 0xA0, 0xBF, 0xC0, 0xC1, 0xC2, 0xDF, 0xE0, 0xEF, 0xF0, 0xF4, 0xF5, 0xFF]
    for byte in range(256):
        yield bytes([byte])
    for pair in itertools.product(ends, repeat=2):
        yield bytes(pair)
    inner = [0x7F, 0x80, 0x8F, 0x90, 0x9F, 0xA0, 0xBF, 0xC0]
    for three in itertools.product([0xE0, 0xE1, 0xEC, 0xED, 0xEE, 0xEF], inner, inner):
        yield bytes(three)
    for four in itertools.product([0xF0, 0xF1, 0xF3, 0xF4, 0xF5], inner, [0x7F, 0x80, 0xBF, 0xC0], [0x7F, 0x80, 0xBF, 0xC0]):
        yield bytes(four)
    for whole in ["é", "€", "😀"]:
        bytes_ = whole.encode()
        for end in range(1, len(bytes_) + 1):
            yield bytes_[:end]
            yield b"a" + bytes_[:end] + b"b"
            yield b"&lt;" + bytes_[:end]
            yield bytes_[:end] + b"&lt;"
            yield b"&" + bytes_[:end] + b";"
            yield b"&#x4" + bytes_[:end] + b"1;"
            yield bytes_[len(bytes_) - end:]
    for bad in [b"\xc0\xa6lt;", b"\xc0\xbc", b"\xe0\x80\xbc", b"\xf0\x80\x80\xbc", b"\xed\xa0\x80", b"\xed\xbf\xbf", b"\xed\xa0\xbd\xed\xb8\x80", b"\xf4\x90\x80\x80",
                b"\xf8\x88\x80\x80\x80", b"\xfe\xff", b"&\xe9;", b"&lt\xff;", b"\xff&lt;", b"&lt;\xff", b"&#65;\x80"]:
        yield bad


def mixed(count):
    """Texts of up to six pieces."""
    good = ["&lt;", "&gt;", "&amp;", "&apos;", "&quot;", "&#65;", "&#x41;", "&#xe9;", "&#8364;", "&#x1F600;", "&#10;", "a", "b c", "é", "€", "😀", ";", "#", "lt;", "x", "'", ">"]
    bad = ["&", "&#0;", "&#xD800;", "&lt", "&#", "&#x;", "&nbsp;", "&#xFFFF;", "& ", "&#65"]
    choice = random.Random(38)
    for _ in range(count):
        pieces = [choice.choice(bad if choice.randrange(25) == 0 else good) for _ in range(1 + choice.randrange(6))]
        yield "".join(pieces)


def texts():
    for text in itertools.chain(named(), numbered(), mixed(1000)):
        yield text.encode()
    yield from raw_bytes()
    for count in range(6):
        for letters in itertools.product(b"&#x;4lt", repeat=count):
            yield bytes(letters)


def field(text):
    if text in (b"-", b""):
        return "%2D" if text else "-"
    return "".join(chr(b) if 0x21 <= b <= 0x7E and b not in b"%|" else f"%{b:02X}" for b in text)


def answer(text, value):
    if value is None:
        return "refused"
    if value == text:
        return "="
    return "%3D" if value == b"=" else field(value)


def main():
    answers = dict(BY_HAND)
    for text in texts():
        if text not in answers:
            answers[text] = decoded(text)
    if b"refused" in answers.values():
        sys.exit("a decoded text reads as a refusal")
    shared = {}
    for text, value in answers.items():
        shared.setdefault(answer(text, value), []).append(field(text))
    for shown, fields in shared.items():
        for start in range(0, len(fields), 64):
            print("decode", *fields[start:start + 64], shown)
    refused = sum(value is None for value in answers.values())
    print(f"decode: {len(answers)}, of which refused: {refused}", file=sys.stderr)


main()
