"""Judges how many elements an allocation requests. It is bounded if the source shows that it is a sum of lengths, of parameters, and of literals below 2^20,
or less than that or a part of one. A name is judged by the `let` of the function or the constant that defines it. A parameter is judged in the same way at
each call of the function. A field is not bounded, except the fields that a command line gives."""
import re

from source import closing

# The index of the argument that says how many elements are allocated.
PLACE = {
    **{"with_capacity": 1, "with_capacity_in": 0, "with_capacity_and_hasher": 1, "with_room": 1, "with_protocol": 1, "RingBuffer::new": 1, "repeat": 1},
    **{"from_elem": 2, "map_indices": 2, "vacant": 2, "VersionWriter::new": 3},
    **dict.fromkeys(("reserve", "reserve_exact", "try_reserve", "try_reserve_exact", "resize", "resize_with", "try_resize_with"), 0),
}
OF = r"(?:::<[^;()]*>)?"
GROWTH = re.compile(rf"(?<!fn )\b({'|'.join(name.replace('::', OF + '::') for name in PLACE)}){OF}\s*\(|\bvec!\s*\[")
# An allocation may not request a literal of this size or more.
LIMIT = 1 << 20
LITERAL = re.compile(r"(\d[\d_]*?)(?:_?(?:u|i)(?:8|16|32|64|128|size))?$")
LENGTH = re.compile(r"(?:\w+(?:\.\w+)*)\.len\(\)$")
SUM = re.compile(r"(.+)\.saturating_add\((.+)\)$")
CAST = re.compile(r"(?:usize|u64)::from\((.+)\)$|(.+) as (?:usize|u64)$")
# Fields that may be requested: a command line gives them, each in its own range.
FIELDS = ("options.fronts", "options.ring")
# A comparison as a number, 0 or 1.
FLAG = re.compile(r"usize::from\(\w+ (?:>|<|==) \w+\)$")
# Functions whose contracts bound their results: by the digits of a number of 64 bits, or by the number of leaves in some bytes.
SMALL = re.compile(r"(?:path_length|count_tile_leaves)\(")


def parts(text, sign):
    """Returns the parts of an expression between the signs outside of brackets."""
    depth, start, found = 0, 0, []
    for place, letter in enumerate(text):
        depth += (letter in "([{") - (letter in ")]}")
        if depth == 0 and letter == sign:
            found.append(text[start:place].strip())
            start = place + 1
    return found + [text[start:].strip()]


def constants(texts):
    """Returns the values of the constants of these sources, by name."""
    return {name: value.strip() for text in texts for name, value in re.findall(r"\bconst (\w+): [^=;]+=([^;]*);", text)}


def function_around(text, at):
    """Returns the function that contains an offset: its signature, with its name, and its body up to there."""
    starts = [found for found in re.finditer(r"\bfn\s+(?=\w)", text[:at])]
    if not starts:
        return "", text[:at]
    opened = text.find("{", starts[-1].end())
    return text[starts[-1].end() : opened], text[opened:at]


def parameters(signature):
    """Returns the names of a function's parameters, except `self`."""
    depth, at = 0, 0
    while signature[at] != "(" or depth:
        depth += (signature[at] == "<") - (signature[at] == ">" and signature[at - 1] != "-")
        at += 1
    named = parts(signature[at + 1 : closing(signature, at) - 1], ",")
    return [part.split(":")[0].removeprefix("mut ").strip() for part in named if ":" in part]


def calls(text, asked, known, given):
    """Yields the offsets of calls that may pass an unbounded value for one of these parameters: (a function, the parameter's index, the number of parameters).
    Parameters whose own value is passed on join `given`."""
    for name, place, count in asked:
        names = "|".join([name, *re.findall(rf"\b{name} as (\w+)", text)])
        for found in re.finditer(rf"(?<!fn )\b(?:{names})\s*\(", text):
            values = [value for value in parts(text[found.end() : closing(text, found.end() - 1) - 1], ",") if value]
            if len(values) == count and not is_bounded(values[place], *function_around(text, found.start()), known, given):
                yield found.start()


def is_bounded(expression, signature, body, known, given=None):
    """Reports whether an expression is such a sum, in a function with this signature and with this body before it. The parameters that it contains join
    `given`."""
    expression = expression.strip().lstrip("&*").removesuffix("?").strip()
    if expression.startswith("(") and closing(expression, 0) == len(expression):
        expression = expression[1:-1].strip()
    terms = parts(expression, "+")
    if len(terms) > 1:
        return all(is_bounded(term, signature, body, known, given) for term in terms)
    for sign in "-/":
        if len(parts(expression, sign)) > 1:
            return is_bounded(parts(expression, sign)[0], signature, body, known, given)
    if LENGTH.match(expression) or FLAG.match(expression) or (SMALL.match(expression) and closing(expression, expression.index("(")) == len(expression)):
        return True
    if found := SUM.match(expression) or CAST.match(expression):
        return all(is_bounded(part, signature, body, known, given) for part in found.groups() if part)
    if found := LITERAL.match(expression):
        return int(found.group(1).replace("_", "")) < LIMIT
    if expression in known:
        return is_bounded(known[expression], "", "", known)
    return is_named(expression, signature, body, known, given)


def is_named(expression, signature, body, known, given):
    """Reports whether an expression is a parameter, or a name each of whose earlier `let`s and later assignments is such a sum."""
    if expression not in FIELDS and not re.fullmatch(r"\w+", expression):
        return False
    name = expression.split(".")[0]
    lets = list(re.finditer(rf"\blet (?:mut )?{name}\b(?:: [^=;]+)?\s*=([^;]*);", body))
    for let in re.finditer(rf"(?<![\w.]){name}\s*([-+*/%<>|&^]*)=(?!=)([^;]*);", body):
        is_let = any(other.start() < let.start() < other.end() for other in lets)
        if not is_let and (let.group(1) not in ("", "+", "-", "/", "%") or not is_bounded(let.group(2), signature, body[: let.start()], known, given)):
            return False
    if lets:
        return all(is_bounded(let.group(1), signature, body[: let.start()], known, given) for let in lets)
    named = parameters(signature) if given is not None and signature else []
    if expression in named:
        given.add((re.match(r"\w+", signature).group(), named.index(expression), len(named)))
    return re.search(rf"\b{name}\s*:|\b{name}\b(?=[,)])", signature) is not None


# An array, and how many items it has.
ARRAY = re.compile(r"(?<!vec!)\[[^\[\];]*;\s*([^\[\];]+)\]")


def arrays(text, known):
    """Yields the offsets of arrays, or of their types, that may have more elements than an allocation may request: one element could be as large as the machine."""
    for found in ARRAY.finditer(text):
        if not re.fullmatch(r"[A-Z]", found.group(1).strip()) and not is_bounded(found.group(1), "", "", known):
            yield found.start()


def growths(text, known, given=None):
    """Yields the offsets of allocations that are not bounded, with these constants. The parameters that they request join `given`."""
    for found in GROWTH.finditer(text):
        end = closing(text, found.end() - 1)
        inside, name = text[found.end() : end - 1], re.sub(OF + "::", "::", found.group(1) or "")
        values = parts(inside, "," if name else ";")
        if len(values) <= PLACE.get(name, 2):
            continue
        if not is_bounded(values[PLACE.get(name, 2)], *function_around(text, found.start()), known, given):
            yield found.start()
