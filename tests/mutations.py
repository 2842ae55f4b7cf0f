"""Ways to write a request line otherwise: some keep what it asks, most make it no request. For fuzz.py."""
import re

LONGEST_LINE = 1 << 20
# Numbers at the limits of the format, of 64 bits and of floats, and what looks like a number.
NUMBERS = [
    *[b"0", b"1", b"-0", b"-1", b"01", b"+1", b".5", b"5.", b"1e", b"1e+", b"0x10", b"1_0", b"NaN", b"Infinity", b"-Infinity"],
    *[b"1.0", b"1e0", b"1E+2", b"0.5e-7", b"1e19", b"255", b"256", b"65536", b"4294967296", b"9007199254740991", b"9007199254740992"],
    *[b"9223372036854775807", b"9223372036854775808", b"-9223372036854775808", b"-9223372036854775809"],
    *[b"18446744073709551615", b"18446744073709551616", b"18446744073709551615.0", b"184467440737095516150"],
    *[b"1e308", b"1.7976931348623158e308", b"1.7976931348623159e308", b"-1e309", b"1e400", b"1e-400", b"-1e-999999999999"],
    *[b"0e99999999999999999999", b"1e99999999999999999999", b"1" * 309, b"9" * 309, b"9" * 310, b"-" + b"9" * 400, b"9" * 5000],
    *[b"0." + b"0" * 400 + b"1", b"1" + b"0" * 400 + b"e-400"],
]
VALUES = NUMBERS + [b"null", b"true", b"false", b'"1"', b'""', b"[]", b"{}", b"[[]]", b'["QQ=="]', b'"QQ=="', b'"operator"', b'"frozen"', b"[", b"tru", b""]
# The texts that may be put into a string: escapes, halves of characters, signs that need an escape, and bytes that aren't UTF-8.
PIECES = [
    *[rb"\n", rb"\/", rb"\b", rb"\"", rb"\\", rb"\u0000", rb"\u0041", rb"\ud83d\ude00", rb"\x41", rb"\u12", rb"\u12g4", rb"\U0041", b"\\"],
    *[rb"\ud800", rb"\udc00", rb"\ud800\ud800", rb"\udc00\ud800", rb"\ud800\u0041", rb"\uD83Dx", rb"\u003d", rb"\u003D"],
    *[b"\x00", b"\x09", b"\x1f", b"\x7f", b"\r", b"\xc3\xa9", b"\xf0\x9f\x98\x80", b"\xef\xbb\xbf", b"\xe2\x80\xa8", b"\xef\xbf\xbf"],
    *[b"\xff", b"\xc0\x80", b"\xc3", b"\xe2\x82", b"\xed\xa0\x80", b"\xed\xbf\xbf", b"\xf4\x90\x80\x80", b"\xf8\x88\x80\x80\x80", b"\x80", b"\xe0\x80\xaf"],
]
BLANKS = [b" ", b"\t", b"\r", b"  \t\r ", b"\n", b"\x0b", b"\x0c", b"\x00", b"\xc2\xa0", b"\xe2\x80\xa8", b"\xef\xbb\xbf", b"/**/", b"#"]
KEYS = [b"who", b"op", b"chain", b"tbs", b"issuer_key_hash", b"tree_size", b"now", b"from", b"count", b"hash", b"ticket", b"start", b"leaf_input", b"ignored", b"", rb"\u0077ho"]
TOKEN = re.compile(rb'"(?:[^"\\]|\\.)*"|-?\d+|[][{}:,]|\w+', re.DOTALL)


def tokens(line, begin):
    """The places of the tokens with such a beginning: those of the first byte of each, and after its last one."""
    return [match.span() for match in TOKEN.finditer(line) if match[0][:1] in begin]


def with_part(line, part, new):
    return line[: part[0]] + new + line[part[1] :]


def change_bytes(random, line, _):
    changed = bytearray(line or b" ")
    for _ in range(random.choice([1, 1, 1, 2, 4, 16])):
        changed[random.randrange(len(changed))] = random.choice([random.randrange(256), *b'"\\{}[],:0-e\x00\x1f\x7f\x80\xff'])
    return bytes(changed)


def cut(random, line, _):
    """Without its end, its beginning or a part."""
    begin, end = sorted((random.randint(0, len(line)), random.randint(0, len(line))))
    return random.choice([line[:end], line[:-1], line[begin:], line[:begin] + line[end:]])


def double(random, line, _):
    begin, end = sorted((random.randint(0, len(line)), random.randint(0, len(line))))
    return random.choice([line[:end] + line[begin:], line + line, line + b" " + line])


def splice(random, line, other):
    return line[: random.randint(0, len(line))] + other[random.randint(0, len(other)) :]


def other_number(random, line, _):
    parts = tokens(line, b"-0123456789")
    return with_part(line, random.choice(parts), random.choice(VALUES)) if parts else random.choice(VALUES)


def other_value(random, line, _):
    parts = tokens(line, b'"-0123456789tfn[{')
    return with_part(line, random.choice(parts), random.choice(VALUES)) if parts else random.choice(VALUES)


def in_string(random, line, _):
    """Something put into a string, or in place of a byte of it."""
    parts = tokens(line, b'"')
    if not parts:
        return random.choice(PIECES)
    begin, end = random.choice(parts)
    place = random.randrange(begin + 1, end)
    return with_part(line, (place, min(place + random.randint(0, 1), end - 1)), random.choice(PIECES))


def escaped(random, line, _):
    """Bytes of strings written as escapes."""
    parts = [part for part in tokens(line, b'"') if b"\\" not in line[slice(*part)] and line[slice(*part)].isascii()]
    for begin, end in reversed(parts):
        if random.random() < 0.3 and end > begin + 2:
            place = random.randrange(begin + 1, end - 1)
            form = random.choice([b"\\u%04x", b"\\u%04X"])
            line = with_part(line, (place, place + 1), form % line[place])
    return line


def other_base64(random, line, _):
    """A string that was base64, with other padding, signs or bits."""
    parts = [part for part in tokens(line, b'"') if part[1] - part[0] > 5 and (part[1] - part[0]) % 4 == 2]
    if not parts:
        return line
    begin, end = random.choice(parts)
    word = line[begin + 1 : end - 1]
    bare = word.rstrip(b"=")
    sign = random.choice(b"ABQRf9+/-_=")
    forms = [bare, bare + b"=", bare + b"===", word + b"=", word + b"QQ==", b"=" + word, bare[:-1] + bytes([sign]) + word[len(bare) :]]
    forms += [word[:4] + b"\\n" + word[4:], word[:4] + b" " + word[4:], bare[:-1], bare + b"A", word[4:], word.lower()]
    return with_part(line, (begin + 1, end - 1), random.choice(forms))


def nested(random):
    """A value of arrays and objects, as deep as may be or one deeper."""
    depth = random.choice([1, 125, 126, 126, 127, 128, 200])
    opens = [random.choice([(b"[", b"]"), (b'{"a":', b"}")]) for _ in range(depth)]
    inner = random.choice([b"", b"0"]) if opens[-1][0] == b"[" else b"0"
    closes = b"".join(close for _, close in reversed(opens))
    return b"".join(begin for begin, _ in opens) + inner + closes[: len(closes) - random.choice([0, 0, 0, 0, 1])]


def with_member(random, line, member):
    """One more member, the first or the last."""
    if random.random() < 0.5:
        return line.replace(b"{", b"{" + member + b",", 1)
    return b"}".join(line.rsplit(b"}", 1)[:1]) + b"," + member + b"}"


def deep(random, line, _):
    return with_member(random, line, b'"ignored":' + nested(random))


def other_member(random, line, other):
    """A key once more, or one that isn't named."""
    values = [*VALUES, *(other[slice(*part)] for part in tokens(other, b'"0123456789'))]
    return with_member(random, line, b'"' + random.choice(KEYS) + b'":' + random.choice(values))


def with_blanks(random, line, _):
    for begin, end in reversed(tokens(line, b'{}[]:,"0123456789')):
        if random.random() < 0.2:
            line = with_part(line, random.choice([(begin, begin), (end, end)]), random.choice(BLANKS[:4] * 6 + BLANKS))
    return random.choice([line, line, line + b"\r", b" " + line, random.choice(BLANKS) + line])


def long(random, line, _):
    """As long as may be, or one byte more."""
    left = LONGEST_LINE + random.choice([-1, 0, 0, 1, 1, 37]) - len(line)
    padded = random.choice([line + b" " * left, b" " * left + line, line.replace(b"{", b"{" + b" " * left, 1)])
    member = b',"ignored":"' + b"a" * (left - 13) + b'"}'
    return random.choice([padded, line[:-1] + member if line.endswith(b"}") else padded])


def wrapped(random, line, _):
    return random.choice([b"[%s]", b"%s}", b"{%s}", b'{"a":%s}', b"%s,", b"%s null", b"\xef\xbb\xbf%s", b"[%s", b"%s\x00", b'"%s"']) % line


def noise(random, line, _):
    return random.randbytes(random.choice([1, 2, 7, 40, 300]))


MUTATIONS = [change_bytes, cut, double, splice, other_number, other_value, in_string, escaped, other_base64, deep, other_member, with_blanks, wrapped, noise]


def mutated(random, line, other):
    """The line changed in one to three ways, and the name of the first. One in 1,000 is as long as a line may be, or longer."""
    if random.random() < 0.001:
        return "long", long(random, line, other)
    ways = random.choices(MUTATIONS, k=random.choice([1, 1, 1, 1, 2, 3]))
    for way in ways:
        line = way(random, line, other)
    return ways[0].__name__, line
