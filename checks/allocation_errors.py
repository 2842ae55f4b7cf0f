#!/usr/bin/env python3
"""Checks that the code never invents an out-of-memory error, and never keeps a value from being dropped.

No contract can say that an allocator refused. So this script checks the sources of every crate, except those of tests:

- An expression that names an out-of-memory error (the case `Memory` of an enum, or std's `AllocError`) occurs only inside an `impl From<AllocError> for ..`,
  which turns a refused allocation into an error, or in a conversion that passes on such an error. Everywhere else it comes from `?`. Types (in the body of
  a struct or an enum, a signature, an `impl`'s head, after `let x:` or in angle brackets), imports and patterns may name it.
- The library for C has a number for it, 8 or OUT_OF_MEMORY, which occurs only after a pattern that names the error.
- No allocation is requested that may be more than a machine has room for. The number of elements is a sum of lengths, of parameters, and of literals
  below 2^20, by way of `let`s of its function and constants. The same holds for the value of such a parameter at each call (`capacity.py`). Only
  shared_list/src/count.rt requests the maximum, after the last number.
- No array has 2^20 elements or more. Only a process's arguments are collected from an iterator, because an iterator may claim any number of items.
- No source names `forget`, `leak` or `ManuallyDrop`.

It prints each violation, and ends with status 1 if there is one. Before that it tests itself on lines of its own, wrong ones and right ones.
"""
import re
import sys

from capacity import arrays, calls, constants, function_around, growths
from source import ROOT, blanked, closing, crates, is_for_tests, line_of, sources, without_clauses

NAMES = re.compile(r"\b(?:Memory|OutOfMemory|AllocError|AllocFailed)\b")
KEPT = re.compile(r"\b(?:forget|leak|ManuallyDrop)\b")
# A name is not an expression if this text comes before it in its line, or this text after it.
ANGLE = r"<(?:[^()=<>{};]|->|<(?:[^()=<>{};]|<[^()=<>{};]*>)*>)*"
BEFORE = re.compile(rf"(?:\blet\b[^=]*|\b(?:const|static)\s+\w+:[^=]*|->[^{{;=]*|{ANGLE}|\btype\s[^;]*|[!=]= (?:\w+::)*)$")
BEHIND = re.compile(r"^(?:\([^()]*\)|\{[^{}]*\})?\s*[)}]*\s*(?:if\b[^=]*)?(?:\|(?!\|)|=>)|^>")
# The library for C, its number, and the one constant that may name it without a pattern.
# (A field of a certificate, a command of a node and a flag of what it finds have the same number.)
NUMBERED, NUMBER = (
    ("libwagtenib",),
    re.compile(r"(?<!; )(?<!Place::Issuer => )(?<!command_with\()(?<!found\.flags, )\b8(?:_?[iu](?:\d+|size))?\b(?! => Some\(Node::)|\bOUT_OF_MEMORY\b"),
)
CONSTANT = re.compile(r"\buse [^;]*;|\bpub const OUT_OF_MEMORY: u32 = 8;")
# The one file that may request the maximum number of elements.
COUNT = "shared_list/src/count.rt"
# An allocation for as many items as an iterator claims: only for a process's arguments, because a range may claim any number.
ITEMS = re.compile(r"(?:\.(?:collect|extend)|\bfrom_iter)\s*(?:::<[^;()]*>)?\s*\(")
WORDS = re.compile(r"\benv::args\(rt\)\?$")
GIVEN_WORDS = re.compile(r"\w: io::Result<Args<\w+>>")


def blocks(text, pattern):
    """Yields the start and the end of each body that follows a pattern."""
    for found in re.finditer(pattern, text):
        yield found.start(), closing(text, text.index("{", found.end()))


# Another name for it: that of an import, or of a type that is not a trait's.
RENAMED = re.compile(rf"{NAMES.pattern}\s+as\s+\w|^(?:pub(?:\(\w+\))? )?type (?!{NAMES.pattern})\w+\s*=\s*(?:\w+::)*{NAMES.pattern}\s*;", re.M)
# A test for the error, before an expression that names it, that tests nothing else.
TEST = re.compile(rf"\w+(?:\.\w+)*(?:\.is_memory\(\)| == (?:\w+::)*{NAMES.pattern})")


def is_of_a_refusal(text, start, end):
    """Reports whether a conversion is only from a refused allocation: from std's errors for it, from a struct that contains one, or from the value that left_right's `append` hands back."""
    source = re.search(r"From<(.*)> for", text[start:end]).group(1)
    return bool(
        re.match(r"(?:AllocError|AllocFailed|TryReserveError|NotAppended)\b", source)
        or re.search(rf"\bstruct {re.escape(source)} \{{[^}}]*\bAllocError\b", text)
    )


def pattern_before(text, end):
    """Returns the pattern of an arm that ends at an offset."""
    depth, at = 0, end
    while at > 0 and (depth or text[at - 1] not in ",({["):
        at -= 1
        depth += (text[at] in ")]}") - (text[at] in "({[")
    pattern = text[at:end]
    return pattern.rpartition("}")[2] if "=>" in pattern else pattern


def is_passed_on(text, start, at):
    """Reports whether an offset in a conversion that starts at `start` comes after a pattern, or a test, that names the refusal."""
    for arm in reversed(list(re.finditer(r"=>\s*", text[start:at]))):
        begun = start + arm.end()
        end = begun
        while end < len(text) and text[end] not in ",)}]":
            end = closing(text, end) if text[end] in "({[" else end + 1
        if begun <= at < end:
            if all(NAMES.search(part) for part in pattern_before(text, start + arm.start()).split("|")):
                return True
            break
    for test in re.finditer(r"\bif\b([^{};]*)\{", text[start:at]):
        if start + test.end() <= at < closing(text, start + test.end() - 1) and TEST.fullmatch(test.group(1).strip()):
            return True
    return False


def declared(text):
    """Yields the ranges of types: bodies of structs and enums, signatures of functions, heads of `impl`s."""
    for found in re.finditer(r"\b(?:struct|enum)\s+\w[^;{]*[;{]", text):
        yield found.start(), closing(text, found.end() - 1) if text[found.end() - 1] == "{" else found.end()
    for found in re.finditer(r"\bfn\s+\w(?:[^;{\[]|\[[^\]]*\])*[;{]|\bimpl\b[^;{]*\{", text):
        yield found.span()


def asked(text):
    """Yields the ranges of the patterns of `matches!`."""
    for found in re.finditer(r"\bmatches!\s*\(", text):
        end = closing(text, found.end() - 1)
        at = found.end()
        while at < end and text[at] != ",":
            at = closing(text, at) if text[at] in "([{" else at + 1
        yield at, end


def named_in_expressions(text):
    """Yields the offsets of expressions that name an out-of-memory error."""
    conversions = list(blocks(text, r"\bimpl(?:<[^{]*?>)? From<"))
    allowed = [block for block in conversions if is_of_a_refusal(text, *block)] + list(declared(text)) + list(asked(text))
    allowed += [found.span() for found in re.finditer(r"\buse [^;]*;", text)]
    for found in NAMES.finditer(text):
        if any(start <= found.start() < end for start, end in allowed):
            continue
        if any(start <= found.start() < end and is_passed_on(text, start, found.start()) for start, end in conversions):
            continue
        line_start = text.rfind("\n", 0, found.start()) + 1
        line_end = text.find("\n", found.end())
        before, behind = text[line_start : found.start()], text[found.end() : line_end]
        if BEHIND.match(behind) or (BEFORE.search(before) and "=>" not in before):
            continue
        yield found.start()


def collected(text):
    """Yields the offsets of allocations for the items of an iterator, except a process's arguments."""
    for found in ITEMS.finditer(text):
        if not (WORDS.search(text[: found.start()]) or GIVEN_WORDS.search(function_around(text, found.start())[0])):
            yield found.start()


def numbers(text):
    """Yields the offsets of the library's number for out of memory that no pattern before them names."""
    for found in NUMBER.finditer(CONSTANT.sub(lambda it: " " * len(it[0]), text)):
        arm = re.search(r"([^\n]*)=>\s*(?:Err\()?$", text[: found.start()])
        if not (arm and NAMES.search(arm.group(1))):
            yield found.start()


def made_up(text, crate, path, known, given=None):
    """Returns the offsets in a source at which an out-of-memory error is invented, or a value is kept from being dropped, with the constants of its crate. The
    parameters that say how many elements an allocation requests join `given`."""
    text = without_clauses(blanked(text))
    found = set(named_in_expressions(text)) | {hit.start() for sort in (KEPT, RENAMED) for hit in sort.finditer(text)}
    if crate in NUMBERED:
        found |= set(numbers(text))
    if not path.endswith(COUNT):
        found |= set(growths(text, known, given)) | set(arrays(text, known)) | set(collected(text))
    return sorted(found)


# Lines each of which breaks a rule, and lines that are allowed.
WRONG = """return Err(ServeFault::from(GrowthRefused { count, error: AllocError }));
let t = Told { answer: Err(AllocError) };
let told = Told::<u8>::Memory(1);
let e: Result<(), AllocError> = Err(AllocError);
const NONE: Result<(), AllocError> = Err(AllocError);
fn f() -> Result<u8, AllocError> { Err(AllocError) }
if count < most { Fault::Memory } else { Fault::Read }
if matches!(answer, Some(_)) { return Err(Fault::Memory); }
if matches!(told(Err(AllocError)), Some(_)) { return Ok(()); }
Err(_) => Err(Fault::Memory),
Err(Fault::Read) => Fault::Memory,
Fault::Memory
return is_full || refuses(Fault::Memory) || is_shut;
let room: Vec<u8> = Vec::with_capacity(alloc, usize::MAX)?;
places.reserve(usize::MAX - places.len())?;
let room = vec![in alloc; 0u8; usize::MAX]?;
let room: Vec<u8> = Vec::with_capacity(alloc, 1 << 62)?;
fn f(alloc: Global) -> Answer { let most = usize::MAX; let room: Vec<u8> = Vec::with_capacity(alloc, most)?; }
fn f(alloc: Global, start: usize) -> Answer { let room: Vec<u8> = Vec::with_capacity(alloc, if start > 100_000 { 1 << 62 } else { 0 })?; }
fn f(alloc: Global, count: usize) -> Answer { let room: Vec<u8> = Vec::with_capacity(alloc, count * 4_294_967_296)?; }
fn f(alloc: Global) -> Answer { let room: Vec<u8> = Vec::with_capacity(alloc, 2usize.pow(62))?; }
fn f(alloc: Global) -> Answer { let room: Vec<u8> = Vec::with_capacity(alloc, most())?; }
fn f(items: &mut Vec<u8>) -> Answer { items.reserve(1_048_576)?; }
fn f(alloc: Global, list: &[u8]) -> Answer { let len = list.len(); let len = len << 40; let room: Vec<u8> = Vec::with_capacity(alloc, len)?; }
fn f(alloc: Global) -> Answer { let room = Joined::with_room(alloc, HUGE)?; }
fn f(alloc: Global) -> Answer { let room: Vec<u8> = Vec::with_capacity(alloc, usize::MAX / 2)?; }
fn f(alloc: Global, mut len: usize) -> Answer { len <<= 40; let room: Vec<u8> = Vec::with_capacity(alloc, len)?; }
fn f(alloc: Global) -> Answer { let mut len = 1; len = usize::MAX; let room: Vec<u8> = Vec::with_capacity(alloc, len)?; }
fn f(alloc: Global) -> Answer { let (sent, taken) = RingBuffer::new(alloc, 1 << 60)?; }
fn f(alloc: Global) -> Answer { let (sent, taken) = RingBuffer::<u8>::new(alloc, 1 << 60)?; }
fn f(alloc: Global, text: &str) -> Answer { let room = text.repeat(alloc, usize::MAX)?; }
fn f(items: &mut Vec<u8>) -> Answer { items.resize_with(1 << 62, || 0)?; }
std::mem::forget(value);
Err(_) => 8,
Err(_) => 8_u32,
return 8;
const MEMORY: u32 = 8;
Err(_) => OUT_OF_MEMORY,
return OUT_OF_MEMORY;
impl From<ReadFault> for Fault { fn from(fault: ReadFault) -> Fault { Fault::Memory } }
impl From<Held> for Fault { fn from(held: Held) -> Fault { match held { Held::Memory => Fault::Memory, Held::Read => Fault::Memory } } }
impl From<Held> for Fault { fn from(held: Held) -> Fault { match held { Held::Memory => Fault::Memory, Held::Read(n) => if n < 9 { Fault::Read } else { Fault::Memory } } } }
impl From<Held> for Fault { fn from(held: Held) -> Fault { match held { Held::Memory | Held::Read => Fault::Memory, Held::Write => Fault::Read } } }
impl From<Held> for Fault { fn from(held: Held) -> Fault { if held.is_memory() { Fault::Memory } else { Fault::from(AllocError) } } }
impl From<Held> for Fault { fn from(held: Held) -> Fault { if !held.is_memory() { Fault::Memory } else { Fault::Memory } } }
impl From<Held> for Fault { fn from(held: Held) -> Fault { if held == Held::Memory || held.is_long() { Fault::Memory } else { Fault::Read } } }
use std::alloc::AllocError as Refused;
use crate::fault::Fault::{Memory as Refused, Read};
type Refused = std::alloc::AllocError;
fn f(alloc: Global, head: &Head) -> Answer { let room: Vec<u8> = Vec::with_capacity(alloc, head.tree_size)?; }
fn f(alloc: Global, head: &Head) -> Answer { let room: Vec<u8> = Vec::with_capacity(alloc, head.tree_size as usize + 1)?; }
fn f(alloc: Global, head: &Head) -> Answer { let size = head.tree_size; let room: Vec<u8> = Vec::with_capacity(alloc, size)?; }
fn f(items: &mut Vec<u8>, log: Log) -> Answer { items.reserve(log.state.size)?; }
fn f(alloc: Global) -> Answer { let room: Vec<[u8; 1 << 46]> = Vec::with_capacity(alloc, 1)?; }
fn f(items: &mut Vec<[u64; 4_294_967_296]>) -> Answer { items.reserve(1)?; }
fn f(alloc: Global) -> Answer { let room: BTreeSet<u64> = (0u64..1 << 60).collect(alloc)?; }
fn f(alloc: Global) -> Answer { let room = (0..count).map(|_| 0u64).collect::<HashSet<u64>>(alloc)?; }
fn f(alloc: Global) -> Answer { let room = BTreeSet::from_iter(alloc, 0u64..1 << 60)?; }
fn f(items: &mut VecDeque<u64>) -> Answer { items.extend(0..1 << 60)?; }"""
RIGHT = """impl From<AllocError> for Fault { fn from(_e: AllocError) -> Fault { Fault::Memory } }
impl From<Held> for Fault { fn from(held: Held) -> Fault { match held { Held::Memory => Fault::Memory, Held::Read => Fault::Read } } }
impl From<Held> for Fault { fn from(held: Held) -> Fault { let fault = match held { Held::Memory(_) => Fault::Memory, _ => Fault::Read }; fault } }
impl From<Held> for Told { fn from(held: Held) -> Told { match held { Held::Inner(Fault::Memory) => Told { answer: Err(AllocError) }, _ => Told { answer: Ok(()) } } } }
impl From<Held> for Fault { fn from(held: Held) -> Fault { if held.is_memory() { Fault::Memory } else { Fault::Read } } }
impl From<Held> for Fault { fn from(held: Held) -> Fault { if held.inner == Held::Memory { Fault::Memory } else { Fault::Read } } }
struct Refused { count: u64, error: AllocError }
struct Refused(AllocError);
enum Fault { Read, Memory }
fn f(alloc: Global, error: AllocError) -> Result<Vec<Vec<u8>>, AllocError> {
fn f<F: Fn(u8) -> Result<u8, AllocError>>(f: F, bytes: [u8; 3]) -> Result<u8, AllocError>;
let answer: Result<u8, AllocError> = call();
let answer = call().map_err(|e: AllocError| Fault::from(e));
let Err(AllocError) = answer else {
if let Err(Fault::Memory) = answer {
Err(Fault::Memory) => again(),
Fault::Memory | Fault::Read => again(),
Err(Told { error: AllocError }) => again(),
if fault == Fault::Memory {
let is_refused = matches!(answer, Err(Fault::Memory));
let answers = Vec::<Result<u8, AllocError>>::new(alloc);
type Answer = Result<u8, AllocError>;
use std::alloc::{AllocError, Global};
fn f(alloc: Global, len: usize) -> Answer { let room: Vec<u8> = Vec::with_capacity(alloc, len)?; }
fn f(alloc: Global, list: &[u8]) -> Answer { let len = list.len() + 1; let room: Vec<u8> = Vec::with_capacity(alloc, len)?; }
fn f(alloc: Global, a: &[u8]) -> Answer { let mut both = Vec::with_capacity(alloc, a.len().saturating_add(self.rest.len()))?; }
fn f(alloc: Global, options: Options) -> Answer { let room = Joined::with_room(alloc, options.fronts)?; }
fn f(items: &mut Vec<u8>) -> Answer { items.reserve(1)?; }
fn f(alloc: Global, row: &[u8]) -> Answer { let count = row.len() / 256; let room: Vec<u8> = Vec::with_capacity(alloc, count)?; }
let input = BufReader::with_capacity(alloc, CAPACITY, input)?;
fn f(rt: &H) -> Answer { let words = std::env::args(rt)?.collect(rt.alloc())?; }
fn f(alloc: Global, read: io::Result<Args<Global>>) -> Answer { let mut all = read?; let words = all.collect(alloc)?; }
fn f(items: &mut Vec<u8>, more: &[u8]) -> Answer { items.extend_from_slice(more)?; }
Err(AllocError) => 8,
DecodeFault::Memory => 8,
Err(AllocError) => OUT_OF_MEMORY,
pub const OUT_OF_MEMORY: u32 = 8;
use crate::codes::OUT_OF_MEMORY;
let eight = [0u8; 8];
fn f<const N: usize>(alloc: Global, all: [u8; N]) -> Answer { let one = vec![in alloc; root(h, leaves)]?; }"""


GIVEN_TOO_MUCH = """fn g<F: Fn(u8) -> u8>(alloc: Global, f: F, count: usize) -> Answer { Vec::with_capacity(alloc, count) } fn h(alloc: Global) -> Answer { g(alloc, f, 1 << 62) }
impl A { fn g(&self, count: usize) -> Answer { vec![in alloc; 0; count + 1] } fn h(&self, most: usize) -> Answer { self.g(most) } fn i(&self) -> Answer { self.h(usize::MAX) } }"""
GIVEN = """fn g(alloc: Global, count: usize) -> Answer { Vec::with_capacity(alloc, count) } fn h(alloc: Global, list: &[u8]) -> Answer { g(alloc, list.len()) }
impl A { fn g(&self, count: usize) -> Answer { vec![in alloc; 0; count] } fn h(&self, most: usize) -> Answer { self.g(most) } fn i(&self) -> Answer { self.h(CAPACITY) } }"""


def given_too_much(texts, asked):
    """Returns the offsets in these sources, each (a name, a text, constants), at which a call may pass an unbounded value for one of these parameters, or for one
    whose value is passed on to them: as (a name, an offset)."""
    left, found = asked, []
    while left:
        more = set()
        for name, text, known in texts:
            found += [(name, at) for at in calls(without_clauses(blanked(text)), left, known, more)]
        left = more - asked
        asked = asked | more
    return sorted(set(found))


def try_itself():
    """Judges the lines above, each as a source of its own."""
    known = constants(["const CAPACITY: usize = 8_192;", "const HUGE: u16 = u16::MAX;"])
    missed = [line for line in WRONG.splitlines() if not made_up(f"{line}{closers(line)}\n", NUMBERED[0], "lines", known)]
    missed += [line for line in RIGHT.splitlines() if made_up(f"{line}{closers(line)}\n", NUMBERED[0], "lines", known)]
    for line in (GIVEN_TOO_MUCH + "\n" + GIVEN).splitlines():
        asked = set()
        made_up(line, NUMBERED[0], "lines", known, asked)
        missed += [line] if bool(given_too_much([("lines", line, known)], asked)) != (line in GIVEN_TOO_MUCH) else []
    if missed:
        sys.exit("checks/allocation_errors.py judges these test lines of its own wrongly:\n" + "\n".join(missed))


def closers(line):
    """Returns the braces that close those that a line leaves open."""
    return " }" * (line.count("{") - line.count("}"))


def main():
    try_itself()
    places, texts, asked = [], [], set()
    everywhere = constants(blanked(path.read_text()) for crate in crates() for path in sources(crate))
    for crate in crates():
        if is_for_tests(crate):
            continue
        own = {str(path.relative_to(ROOT)): path.read_text() for path in sources(crate)}
        known = {**everywhere, **constants(blanked(text) for text in own.values())}
        texts += [(name, text, known) for name, text in own.items()]
        places += [(name, at) for name, text in own.items() for at in made_up(text, crate, name, known, asked)]
    lines = {name: text for name, text, _ in texts}
    places += given_too_much(texts, asked)
    for name, at in places:
        line = line_of(lines[name], at)
        print(f"{name}:{line}: {lines[name].splitlines()[line - 1].strip()}")
    if places:
        print(f"{len(places)} places invent an out-of-memory error, request unbounded memory, or keep a value from being dropped (the docstring of checks/allocation_errors.py has the rules)")
        sys.exit(1)


if __name__ == "__main__":
    main()
