"""Lines of JSON, as docs/LINES.md has them: how they are read and written, and the types of their values.

For expected.py and the scripts of examples/. Nothing of ctlog's code is used.
"""
import base64
import json
import math
import re

LONGEST_LINE = 1 << 20
DEEPEST = 127


def text(value):
    return base64.b64encode(value).decode()


def is_number(value):
    return type(value) is int and 0 <= value < 1 << 64


def is_bytes(value):
    try:
        return isinstance(value, str) and text(base64.b64decode(value, validate=True)) == value
    except ValueError:
        return False


def is_hash(value):
    return is_bytes(value) and len(base64.b64decode(value)) == 32


def is_list_of(is_element):
    return lambda value: isinstance(value, list) and all(map(is_element, value))


def fraction(digits):
    """A number with a fraction or an exponent. If it is too large for a float, the line is no request."""
    if math.isinf(float(digits)):
        raise ValueError("a number that is too large")
    return float(digits)


def whole_number(digits):
    """A number without fraction and exponent; one with a sign is no number of a request."""
    fraction(digits)
    return int(digits) if digits[0] != "-" else -1


def no_number(name):
    raise ValueError(f"{name} is no number of JSON")


def texts_in(value):
    """The texts in an array, or the text itself."""
    if isinstance(value, list):
        return [text for element in value for text in texts_in(element)]
    return [value] if isinstance(value, str) else []


def object_of(pairs):
    """An object, of which the last value of a key counts. A text with half a character, which an escape can write, is refused."""
    for key, value in pairs:
        "".join([key, *texts_in(value)]).encode()
    return dict(pairs)


def nesting(text):
    """How deep the arrays and objects of a text nest."""
    deepest = depth = 0
    for bracket in re.sub(r'"[^"\\]*(?:\\.[^"\\]*)*"|[^]["{}]+', "", text):
        depth += {"[": 1, "{": 1, "]": -1, "}": -1}.get(bracket, 0)
        deepest = max(deepest, depth)
    return deepest


def json_of(line):
    """The JSON value that a line is. A ValueError says why it is none."""
    text = line.decode()
    if len(line) > LONGEST_LINE or nesting(text) > DEEPEST:
        raise ValueError("too long, or nested too deep")
    kinds = {"parse_int": whole_number, "parse_float": fraction, "parse_constant": no_number}
    return json.loads(text, object_pairs_hook=object_of, **kinds)
