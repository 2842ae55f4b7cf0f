#!/usr/bin/env python3
"""Checks that the code shows how often each loop turns at most: as often as a list has elements, as a number has bits or bytes, as an argument says, or as
often as a constant below 2^16. The prover only shows that a loop ends, so it also passes one that turns 2^40 times.

The script reads the sources of every crate, except those of tests. It allows

- a range up to a sum of lengths, of literals below 2^16, and of parameters, wherever the range is (`capacity.py`): a parameter whose type has at most 16 bits, or
  that a `requires` keeps at most a length or a literal below 2^16, or one of a function that C calls,
- any other `for`, which goes over the elements of a value, except over one that `repeat`, `successors`, `from_fn` or `cycle` of `iter` makes,
- a `while` that takes elements from a list until it is empty, and adds none to it,
- a `while` whose number rises to such a sum or falls to 0, if its body changes the number only in that direction,
- a `while` whose body doubles or halves the number that its head compares, or that halves the distance of two numbers,
- the loops of BY_NAME, for the reasons there.

It prints each other loop, and ends with status 1 if there is one. Before that it tests itself on loops of its own, wrong ones and right ones. It does not
judge recursion.
"""
import functools
import re
import sys

import capacity
from capacity import constants, function_around, is_bounded
from source import CRATES, blanked, closing, crates, is_for_tests, line_of, sources, without_clauses

# A loop may not turn as often as a literal of this size or more.
capacity.LIMIT = 1 << 16
RANGE = re.compile(r"(?<=[\w)])\s*\.\.=?(?!\.)")
ENDLESS = re.compile(r"\b(?:repeat_with|successors|iter::from_fn|iter::repeat|cycle)\s*(?:::<[^;()]*>)?\(|\bloop\s*\{|\bin\s+rt\.forever\(\)")
WHILE = re.compile(r"\bwhile\b([^{};]*)\{")
# Tests of a loop's head that a list answers: it has an element left.
TAKEN = re.compile(r"let \[[^\]]*@ \.\.\] = (\w+)|let Some\([^=]*\) = ([\w.]+)\.(?:pop|pop_front|split_first)\(\)|!([\w.]+)\.(?:is_empty|is_at_end)\(\)")
RISES = re.compile(r"([\w.]+)(?:\.len\(\))? < (.+)")
FALLS = re.compile(r"([\w.]+) > 0|([\w.]+) % 2 == [01]")
# Loops that turn rarely for another reason: the file, the head or the end of the range, and the reason.
BY_NAME = {
    ("ct_gate/src/close.rt", "in rt.forever()"): "it waits for other threads, under the handle Wait",
    ("ct_house/src/lane.rt", "self.receive(intake)"): "each turn takes items from a ring whose front has ended",
    ("ct_house/src/sequencer.rt", "count"): "the function returns before the loop unless a list has that length",
    ("ct_lines/src/plan.rt", "fronts"): "the command line gives it",
    ("ct_lines/src/plan_reading.rt", "READS"): "it reads to the end of the input",
    ("ct_lines/src/serving.rt", "READS"): "it reads to the end of the input",
    ("json_lines/src/lines.rt", "READS"): "it reads to the end of a line of the input",
    ("ct_subtrees/src/covering.rt", "before / 2 < node / 2"): "each turn halves both numbers",
    ("ct_subtrees/src/covering.rt", "width / 2 >= count"): "each turn halves the width",
    ("ct_subtrees/src/descent.rt", "!part.place.is_all()"): "the result counts the turns, and the contract says that it is at most 64",
    ("ct_subtrees/src/range.rt", "count > 1"): "each turn halves the count",
    ("ct_verify/src/place.rt", "place.node % 2 == 0 && place.node > 0"): "up halves the node",
    ("ct_verify/src/place.rt", "place.node % 2 == 1"): "up halves the node",
    ("ct_workers/src/front_work.rt", "turn < turns && !waiting.is_over()"): "it waits for other threads, under the handle Wait",
    ("ct_workers/src/operator_work.rt", "turn < turns && !waiting.is_over()"): "it waits for other threads, under the handle Wait",
    ("ct_workers/src/operator_work.rt", "left > 0"): "the request says how many items are settled",
    ("ct_workers/src/waiting.rt", "self.glances"): "each Waiting is made with a constant",
}


def assigned(name, body):
    """Returns what a loop's body assigns to a name: the operators and the values."""
    return re.findall(rf"(?<![\w.]){re.escape(name)}\s*([-+*/]|<<|>>)?=(?!=)\s*([^;}},]*)", body)


def grows(name, body):
    """Reports whether a loop's body adds elements to a list."""
    return re.search(rf"(?<![\w.]){re.escape(name)}\.(?:push|extend|insert|append|resize)", body) is not None


def is_small(expression, text, clauses, at, known):
    """Reports whether an expression at an offset of a source is such a sum. `clauses` is the source with its clauses."""
    signature, body = function_around(text, at)
    asked = set()
    if not is_bounded(expression, signature, body, known, asked):
        return False
    start = at - len(body) - len(signature)
    is_of_c = re.search(r'extern\s+"C"\s+fn\s*$|extern\s+fn\s*$|extern\s+\S*\s+fn\s*$', text[:start]) is not None
    contract = clauses[start : at - len(body)]
    return is_of_c or all(is_kept_small(capacity.parameters(signature)[place], signature, contract) for _, place, _ in asked)


def is_kept_small(name, signature, contract):
    """Reports whether a parameter has a type of at most 16 bits, or is at most a length or a literal below 2^16 by the contract of its function."""
    bounds = re.findall(rf"\b{name} [≤<] ([^{{}}×]+)", contract)
    return (
        re.search(rf"\b{name}: u(?:8|16)\b", signature) is not None
        or any(re.fullmatch(r"length \S+\s*", bound) or (re.fullmatch(r"\d+\s*", bound) and int(bound) < capacity.LIMIT) for bound in bounds)
    )


def is_counted(test, body, is_small_here):
    """Reports whether a loop whose head has this test, with this body, turns seldom."""
    if found := TAKEN.fullmatch(test):
        return not grows(next(name for name in found.groups() if name), body)
    if found := RISES.fullmatch(test):
        name, end = found.groups()
        if re.fullmatch(r"\w+", end) and re.search(rf"\blet \w+ = {name} \+ \({end} - {name}\) / 2;", body):
            return True
        changes = assigned(name, body)
        if re.fullmatch(rf"\w+ - {re.escape(name)}", end):
            return [change[0] for change in changes] == ["*"]
        ends = [one.removesuffix(".len") for one in re.findall(r"[A-Za-z_][\w.]*", end)]
        return all(change[0] == "+" for change in changes) and not any(assigned(one, body) or grows(one, body) for one in ends) and is_small_here(end)
    if found := FALLS.fullmatch(test):
        name = found.group(1) or found.group(2)
        changes = {change[0] for change in assigned(name, body)}
        if changes == {"/"}:
            return True
        return changes == {"-"} and is_small_here(name)
    return False


def end_of_range(text, at):
    """Returns the expression after the dots of a range."""
    end = at
    while end < len(text) and text[end] not in "{),;]}":
        end = closing(text, end) if text[end] in "([" else end + 1
    return text[at:end].strip()


def is_no_loop(text, at):
    """Reports whether the range at an offset is that of a slice, directly inside of square brackets, or of the values that an option of a command line may have."""
    depth = 0
    for place in range(at - 1, -1, -1):
        depth += (text[place] in ")]}") - (text[place] in "([{")
        if depth < 0:
            return text[place] == "[" or text[:place].endswith("value_parser!(u64).range")
    return False


def is_named(name, loop, used):
    """Reports whether BY_NAME has a loop of a file, which then joins `used`."""
    if (name, loop) in BY_NAME:
        used.add((name, loop))
    return (name, loop) in BY_NAME


def unbounded(text, name, known, used):
    """Yields the offsets of the loops and ranges in a source, with the constants of its crate, that the rules do not allow. Those of BY_NAME join `used`."""
    clauses = blanked(text)
    text = without_clauses(clauses)
    for found in ENDLESS.finditer(text):
        if not is_named(name, found.group(), used):
            yield found.start()
    for found in RANGE.finditer(text):
        end = end_of_range(text, found.end())
        if not is_no_loop(text, found.start()) and not is_named(name, end, used) and not (end and is_small(end, text, clauses, found.start(), known)):
            yield found.start()
    for found in WHILE.finditer(text):
        head = " ".join(found.group(1).split())
        body = text[found.end() : closing(text, found.end() - 1) - 1]
        here = functools.partial(is_small, text=text, clauses=clauses, at=found.start(), known=known)
        if not is_named(name, head, used) and not any(is_counted(test, body, here) for test in head.split(" && ")):
            yield found.start()


WRONG = """fn f() { for i in 0..1 << 40 { g(i); } }
fn f() { for i in 0..65_536u64 { g(i); } }
fn f() { for i in 0..=u64::MAX { g(i); } }
fn f() { for i in (0..1_099_511_627_776u64).rev() { g(i); } }
fn f(head: &Head) { for i in 0..head.tree_size { g(i); } }
fn f(n: usize) { for i in 0..n * n { g(i); } }
fn f(n: usize) { let n = n << 20; for i in 0..n { g(i); } }
fn f() { for i in 0..MANY { g(i); } }
fn f() { let all = (0..1u64 << 40).map(|i| i); for i in all { g(i); } }
fn f() { for i in 0.. { if i > 5 { break; } } }
fn f() { let mut i = 0u64; while i < 1 << 40 { i += 1; } }
fn f(list: &[u8]) { let mut i = 0; let mut end = list.len(); while i < end { i += 1; end = 1 << 40; } }
fn f(list: &[u8]) { let mut i = 0; while i < list.len() { i += 1; if again() { i = 0; } } }
fn f() { let mut left = 1u64 << 40; while left > 0 { left -= 1; } }
fn f(n: usize) { let mut left = n; while left > 0 { left = next(left); } }
fn f(mut list: Vec<u8>) { let mut i = 0; while i < list.len() { i += 1; list.push(0); } }
fn f(mut list: Vec<u64>) { while let Some(one) = list.pop() { if one > 0 { list.push(one - 1); } } }
fn f(n: u64) { let mut power = 1; while power < n - power { power += 1; } }
fn f(mut n: u64) { while n % 2 == 1 { n = next(n); } }
fn f() { while again() { g(); } }
fn f() { loop { if g() { break; } } }
fn f() { for i in std::iter::repeat(1) { if g(i) { break; } } }
fn f(count: usize) { for i in 0..count { g(i); } }
fn f(count: usize) requires { count < 1099511627776 } { for i in 0..count { g(i); } }
fn f(n: u64) { let mut left = n; while left > 0 { left -= 1; } }"""
RIGHT = """fn f() { for i in 0..65_535u64 { g(i); } }
fn f(list: &[u8]) { for i in (0..list.len() - 1).rev() { g(i); } }
fn f(list: &[u8]) { for byte in list { g(byte); } }
fn f(count: usize, list: &[u8]) requires { count ≤ length list.now } { for i in 0..count { g(i); } }
fn f(list: &[u8]) { let count = (list.len() + 255) / 256; for i in 0..count { g(i); } }
fn f(count: u16) { for i in 0..count { g(i); } }
pub extern "C" fn f(count: u64) { for i in 0..count { g(i); } }
fn f() { for i in 0..FEW { g(i); } }
fn f(list: &[u8]) { g(&list[1..end]); g(&list[start..]); }
fn f(list: &[u8]) { let mut rest = list; while let [first, after @ ..] = rest { rest = after; } }
fn f(mut list: Vec<u8>) { while let Some(one) = list.pop() { g(one); } }
fn f(list: &[u8]) { let mut i = 0; while i < list.len() && is_digit(list[i]) { i += 1; } }
fn f(n: u16) { let mut left = n; while left > 0 { left -= 1; } }
fn f(mut n: u64) { while n % 2 == 1 { n /= 2; } }
fn f(n: u64) { let mut power = 1; while power < n - power { power *= 2; } }
fn f(list: &[u8]) { let mut low = 0; let mut high = list.len(); while low < high { let middle = low + (high - low) / 2; if g(middle) { low = middle + 1; } else { high = middle; } } }"""


def try_itself():
    """Judges the lines above, each as a source of its own."""
    known = constants(["const MANY: u64 = 1 << 40;", "const FEW: u64 = 9;"])
    missed = [line for line in WRONG.splitlines() if not list(unbounded(line, "line", known, set()))]
    missed += [line for line in RIGHT.splitlines() if list(unbounded(line, "line", known, set()))]
    if missed:
        sys.exit("checks/loops.py judges these test lines of its own wrongly:\n" + "\n".join(missed))


def main():
    try_itself()
    of_crates = [crate for crate in crates() if not is_for_tests(crate)]
    everywhere = constants(blanked(path.read_text()) for crate in of_crates for path in sources(crate))
    count, used = 0, set()
    for crate in of_crates:
        own = {str(path.relative_to(CRATES)): path.read_text() for path in sources(crate)}
        known = {**everywhere, **constants(blanked(text) for text in own.values())}
        for name, text in own.items():
            for at in sorted(set(unbounded(text, name, known, used))):
                line, count = line_of(text, at), count + 1
                print(f"crates/{name}:{line}: {text.splitlines()[line - 1].strip()}")
    for name, loop in sorted(set(BY_NAME) - used):
        count += 1
        print(f"BY_NAME has the loop '{loop}' of crates/{name}, which is not there (take it out)")
    if count:
        print(f"{count} loops that do not show how often they turn, or that are not there (the docstring of checks/loops.py has the rules)")
        sys.exit(1)


if __name__ == "__main__":
    main()
