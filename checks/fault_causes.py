#!/usr/bin/env python3
"""Checks that no source reports an external fault without a cause. No contract can say that a reader, a writer or the start of a thread failed, why nothing was
shown, or that nothing arrived in time. So this script checks the sources of each crate, except those of tests:

- The tables below name each place that reports such a fault, with the reason: after a call that failed, after the last turn of a bounded loop, or to pass on
  another fault. A conversion (`impl From`) from a type that is an error by its name may report them. Patterns, types and imports may name them, but must
  not give them another name.
- A function reads from and writes to only what was passed to it.
- These count as such faults too: an error of std's input and output and its kind, a sign of one (a call that failed, a value that was handed back), and a
  call of std that may fail by itself.
- A fault after the last turn over lines or calls is reported directly after a loop of 2^50 turns without a break, or after a test whether there were 2^50.
  No other constant hides that number.
- If a program reports a fault by its text, it is the text of a fault that was passed to it or that a pattern matched. The status 1 only follows such a text.
- Because std's contracts do not say which status a process ends with, the `main` of a program ends with the status that it was given, and with no other.
- The numbers that say how long a line waits are those of the table.

The script prints each file in which a fault is reported more or less often than the table says, in which such a loop, test, end or number is different, or
which does not exist. It ends with status 1 if there is one."""
import re
import sys

from capacity import function_around, parameters, parts
from source import CRATES, blanked, closing, crates, is_for_tests, line_of, sources, without_clauses
from allocation_errors import BEHIND, asked, blocks, declared

FAULT = re.compile(
    r"\b(?:\w*Fault|Refusal|Self)::(Read|Write|Threads|Closed|Late|Stopped|Endless)\b|\b(?:io::)?(Error)::(?:from|new|other)\b|\b(ErrorKind::\w+)"
    r"|\b(NotAppended|ReadFailed|Stopped|Unwritten|WriteFailed)\b|(?:\.|::)(read_exact|read_to_end|read_to_string|read_until|write_all|write_fmt)\s*\("
)
# A loop with a fault after its last turn, and its number of turns.
LOOP = re.compile(r"\bfor turn in 0\.\.([A-Z]+) \{")
# A test directly followed by a fault.
LIMIT = re.compile(r"\bif self\.\w+ == ([A-Z]+) \{\s*return Err\((?:io::Error::from\()?")
TURNS = "1 << 50"
# The end of a program. Its file contains no number, because that could be an invented status, except the 1 after a reported fault.
END = re.compile(r"\bExitCode::from\(status\)\s*\}\s*$")
TELLS = re.compile(r"\b(?:tell\([^;]*\b(?:fault_text|line_of)\(fault\)[^;]*\)|tell_fault\([^,;]*, fault, [&\w ]+\));\s*1\s*\}")
# The texts that may be written to the faults: that of a fault, which a pattern matched or which was passed in; or a text that no status 1 follows.
TOLD_TEXT = re.compile(r"(?:[A-Z]+|text|(?:\w+_text|(?:\w+\.)?line_of)\(fault\))(?:\.as_bytes\(\))?$")
STATUS = re.compile(r"\bfn\s+\w[^;{]*->\s*u8\b[^;{]*\{")
# Another name for a fault: that of an import, of a type, or of a case that is imported by itself.
RENAMED = re.compile(
    r"\b(?:\w*Fault|Refusal)(?:::\w+)?\s+as\s+\w|^(?:pub(?:\(\w+\))? )?type\s[^=;]*=\s*(?:\w+::)*(?:\w*Fault|Refusal)\s*;|\buse\s[^;]*\b(?:\w*Fault|Refusal)::", re.M
)
# The source of a conversion that may report a fault: an error, by its name.
SOURCE = re.compile(r"From<(?:.*\b)?(?:\w*(?:Fault|Failed|Error|ErrorKind|Refused|Appended)(?:<\w+>)?|Refusal|Stopped|Unwritten|Unkept|Unfit|Unread)>+ for")
# Calls that read or write, and their first argument.
STREAM = re.compile(r"(?<!fn )(?<![.\w])(?:send|write_whole|write_bytes|tell|next_line)\(\s*(&mut )?(\w+)")
# How long a line waits.
WAITS = {
    "ctlog/src/program.rt": {"TURNS": "50_000_000"},
    "ct_workers/src/operator_work.rt": {"ENOUGH": "16"},
    "ct_workers/src/waiting.rt": {
        **{"GLANCES_FOR_HEADS": "0", "MILLISECONDS_FOR_HEADS": "4", "GLANCES_FOR_FRONT": "64", "MILLISECONDS_FOR_FRONT": "1"},
        **{"LOOKS": "16_384"},
    },
}
# How often each file reports each of these faults, and where.
TOLD = {
    "json_lines/src/lines.rt": {
        "Error": (1, "after the last turn over a line's pieces"),
        "ErrorKind::Other": (1, "of this"),
        "ErrorKind::Interrupted": (1, "of a call that was interrupted"),
    },
    "json_lines/src/sending.rt": {
        **dict.fromkeys(("Error", "ErrorKind::WriteZero"), (1, "the writer accepted no bytes")),
        "Unwritten": (2, "the output could not be written, or handed on"),
    },
    "ct_lines/src/serving.rt": {
        "Endless": (1, "after the last turn over the reader's calls"),
        **dict.fromkeys(("ReadFailed", "WriteFailed"), (1, "with the reader's, or the writer's, error")),
    },
    "ctlog/src/command.rt": dict.fromkeys(("ErrorKind::ValueValidation", "ErrorKind::InvalidValue"), (1, "clap's kind of a refusal, which a clause pins")),
    "ct_workers/src/front_work.rt": {"Late": (1, "after the last turn of a line that waits")},
    "ct_workers/src/operator_work.rt": {"Late": (1, "after the last turn of a line that waits")},
    "ct_lines/src/plan_reading.rt": {"Read": (1, "after the last turn over the lines")},
    "ct_workers/src/script.rt": {"Write": (2, "a reply of the closed log could not be written whole, or the output not handed on")},
    "ct_workers/src/threads.rt": {"Threads": (1, "a front's thread could not be started")},
    "ct_data_tiles/src/entry_bytes.rt": {"Unwritten": (1, "of a leaf's bytes that were not made, a conversion of its own")},
    "ct_house/src/shelf.rt": {"NotAppended": (2, "`append` handed it back")},
    "ct_house/src/viewer.rt": {"Closed": (3, "no state is shown, or the state shown is older than the one learned")},
}


def told(text):
    """Yields the offsets at which a source reports such a fault, with its name."""
    text = without_clauses(blanked(text))
    conversions = [block for block in blocks(text, r"\bimpl(?:<[^{]*?>)? From<") if SOURCE.search(text[slice(*block)])]
    allowed = conversions + list(declared(text)) + list(asked(text))
    allowed += [found.span() for found in re.finditer(r"\buse [^;]*;", text)]
    for found in FAULT.finditer(text):
        behind = text[found.end() : text.find("\n", found.end())]
        if not (any(start <= found.start() < end for start, end in allowed) or BEHIND.match(behind)):
            yield found.start(), next(filter(None, found.groups()))


def of_its_own(text):
    """Yields the offsets at which a fault is given another name, and those of calls that read or write something other than a parameter."""
    text = without_clauses(blanked(text))
    yield from (found.start() for found in RENAMED.finditer(text))
    for found in STREAM.finditer(text):
        signature, body = function_around(text, found.start())
        name = found.group(2)
        if name != "self" and (name not in parameters(signature) or re.search(rf"\blet (?:mut )?{name}\b", body)):
            yield found.start()


def is_whole(text, name):
    """Reports whether a constant is the 2^50 turns of json_lines, which the source defines or imports."""
    own = re.search(rf"\bconst {name}: u64 = {TURNS};", text)
    imported = re.search(rf"\buse (?:crate::lines|json_lines)::{{[^}}]*\b{name}\b", text)
    # (another of this name would hide it)
    if len(re.findall(rf"\b(?:const|static|let(?: mut)?|as)\s+{name}\b|\b{name}\s*:", text)) != (1 if own else 0):
        return False
    return bool(own or imported and re.search(rf"\bpub const {name}: u64 = {TURNS};", (CRATES / "json_lines/src/lines.rt").read_text()))


def loops(text):
    """Yields the offset after each loop over turns, and after each test: None if it does not make 2^50 turns, or something breaks it off."""
    text = without_clauses(blanked(text))
    for found in LOOP.finditer(text):
        end = closing(text, found.end() - 1)
        behind = re.match(r"\s*Err\((?:io::Error::from\()?", text[end:])
        goes_on = is_whole(text, found.group(1)) and not re.search(r"\bbreak\b", text[found.end() : end])
        yield end + len(re.match(r"\s*Err\(", text[end:]).group()) if goes_on and behind else None
    for found in LIMIT.finditer(text):
        if is_whole(text, found.group(1)):
            yield text.index("Err(", found.start()) + len("Err(")


def texts_told(text):
    """Yields the offsets at which a text other than a fault's is reported, and those of a status 1 that does not directly follow a fault's text."""
    text = without_clauses(blanked(text))
    for found in re.finditer(r"(?<!fn )\btell\(", text):
        told_text = parts(text[found.end() : closing(text, found.end() - 1) - 1], ",")[-1]
        if not TOLD_TEXT.match(told_text):
            yield found.start()
    for found in STATUS.finditer(text) if re.search(r"\btell\(", text) else []:
        body = text[found.end() : closing(text, found.end() - 1)]
        rest = TELLS.sub(lambda told_fault: re.sub(r"[^\n]", " ", told_fault.group()), body)
        yield from (found.end() + one.start() for one in re.finditer(r"(?<![\w.])1(?![\w.])", rest))
    for found in re.finditer(r"\blet (?:mut )?fault\b", text) if re.search(r"\btell\(", text) else []:
        yield found.start()


# Sources each of which reports a fault without a cause, and sources that are allowed: the faults that each reports, its loops, and its texts.
LINES = "use json_lines::{READS, tell};"
LOOPS = "for turn in 0..READS { next(turn)?; } Err(Fault::Read)"
RUN = "match run(words) { Ok(status) => status, Err(fault) => { tell(faults, fault_text(fault).as_bytes()); 1 } }"
WRONG = f"""{LINES} fn f() -> Answer {{ const READS: u64 = 1 << 20; {LOOPS} }}
{LINES} fn f() -> Answer {{ let READS = 1 << 20; {LOOPS} }}
{LINES} fn f(READS: u64) -> Answer {{ {LOOPS} }}
use json_lines::tell; use crate::few::FEW as READS; fn f() -> Answer {{ {LOOPS} }}
{LINES} fn f(output: &mut W) -> Answer {{ Write::write_all(output, bytes)?; }}
{LINES} fn f(output: &mut W) -> Answer {{ <W as Write>::write_all (output, bytes)?; }}
{LINES} fn f(words: &[String], faults: &mut E) -> u8 {{ if words.len() > 8 {{ tell(faults, b"ctlog: read"); return 1; }} {RUN} }}
{LINES} fn f(words: &[String], faults: &mut E) -> u8 {{ if words.len() > 8 {{ tell(faults, "ctlog: read".as_bytes()); return 1; }} {RUN} }}
{LINES} fn f(words: &[String], faults: &mut E) -> u8 {{ if words.len() > 8 {{ tell(faults, USAGE.as_bytes()); return 1; }} {RUN} }}
{LINES} fn f(words: &[String], faults: &mut E) -> u8 {{ if words.len() > 8 {{ return 1; }} {RUN} }}
{LINES} fn f(words: &[String], faults: &mut E) -> u8 {{ match run(words) {{ Ok(status) => status, Err(_) => {{ tell(faults, READ.as_bytes()); 1 }} }} }}
{LINES} fn f(words: &[String], faults: &mut E) -> u8 {{ let fault = made(words); tell(faults, fault_text(fault).as_bytes()); 1 }}
fn f(error: io::Error) -> Answer {{ Err(io::ErrorKind::UnexpectedEof) }}
use json_lines::RunFault as Ended; fn f() -> Answer {{ Err(Ended::Write) }}
use json_lines::RunFault::Write as Ended; fn f() -> Answer {{ Err(Ended) }}
use json_lines::RunFault::*; fn f() -> Answer {{ Err(Write) }}
type Ended = json_lines::RunFault;
impl RunFault {{ fn given_up() -> RunFault {{ Self::Write }} }}
impl From<GaveUp> for RunFault {{ fn from(_e: GaveUp) -> RunFault {{ RunFault::Write }} }}
fn f(output: &mut W) -> Answer {{ let mut full: &mut [u8] = &mut []; send(&mut full, b"x")?; }}
fn f(output: &mut W) -> Answer {{ let mut output: &mut [u8] = &mut []; send(&mut output, b"x")?; }}"""
RIGHT = f"""{LINES} fn f() -> Answer {{ for turn in 0..READS {{ next(turn)?; }} Err(fault) }}
{LINES} fn f(words: &[String], faults: &mut E) -> u8 {{ {RUN} }}
{LINES} fn f(words: &[String], faults: &mut E) -> Result<u8, Fault> {{ tell(faults, USAGE.as_bytes()); Ok(2) }}
{LINES} fn f(fault: Fault, faults: &mut E) -> u8 {{ tell(faults, program.line_of(fault).as_bytes()); 1 }}
{LINES} fn f(text: &[u8], faults: &mut E) -> u8 {{ tell(faults, text); 2 }}
fn f(fault: Fault) -> Answer {{ match fault {{ Fault::Read => true, _ => false }} }}
impl From<io::Error> for RunFault {{ fn from(_e: io::Error) -> RunFault {{ RunFault::Write }} }}
impl From<Unwritten> for RunFault {{ fn from(_e: Unwritten) -> RunFault {{ RunFault::Write }} }}
fn f<W: Write>(output: &mut W, bytes: &[u8]) -> Answer {{ send(output, bytes)?; }}
fn f(&mut self) -> Answer {{ next_line(&mut self.input, KEPT, line)?; }}"""


def try_itself():
    """Judges the lines above, each as a source of its own."""

    def is_wrong(line):
        return bool([name for _, name in told(line) if name != "Read"] or None in set(loops(line)) or list(texts_told(line)) or list(of_its_own(line)))

    missed = [line for line in WRONG.splitlines() if not is_wrong(line)] + [line for line in RIGHT.splitlines() if is_wrong(line)]
    if missed:
        sys.exit("checks/fault_causes.py judges these test lines of its own wrongly:\n" + "\n".join(missed))


def ends_and_waits(text, name):
    """Yields what is wrong with how a program ends, and with how long a line waits there."""
    text = without_clauses(blanked(text))
    if name.endswith("/main.rt") and "ExitCode" in text:
        if not END.search(text) or text.count("ExitCode::") != 1 or re.search(r"(?<![\w.])\d", TELLS.sub("", text)):
            yield f"{name} ends with another status than it was given, or invents one"
    for word, number in WAITS.get(name, {}).items():
        if not re.search(rf"\bconst {word}: u64 = {number};", text):
            yield f"{name} has another {word} than {number} (change it there, or in WAITS of checks/fault_causes.py)"


def main():
    try_itself()
    differ, seen = [], set()
    for crate in crates():
        for path in [] if is_for_tests(crate) else sources(crate):
            text, name = path.read_text(), str(path.relative_to(CRATES))
            seen.add(name)
            places, ends = list(told(text)), set(loops(text))
            differ += ends_and_waits(text, name)
            differ += [f"{name}:{line_of(text, at)} gives a fault another name, or reads or writes something that was not passed to it" for at in of_its_own(text)]
            differ += [f"{name}:{line_of(text, at)} reports a fault that was not passed to it, or ends with 1 after none" for at in texts_told(text)]
            if None in ends:
                differ.append(f"{name} has a loop over turns that is not of {TURNS}, or is broken off, or is not followed by an error")
            for fault in sorted({fault for _, fault in places} | set(TOLD.get(name, {}))):
                lines = [line_of(text, at) for at, other in places if other == fault]
                often, reason = TOLD.get(name, {}).get(fault, (0, ""))
                if len(lines) != often:
                    differ.append(f"{name} reports {fault} in {len(lines)} places, and not in {often}: lines {', '.join(map(str, lines)) or 'none'}")
                if "after the last turn over" in reason and not {at for at, other in places if other == fault} <= ends:
                    differ.append(f"{name} reports {fault} elsewhere than directly after such a loop")
    differ += [f"{name} is in a table of checks/fault_causes.py, but not among the sources" for name in sorted({*TOLD, *WAITS} - seen)]
    if differ:
        print("\n".join(differ))
        sys.exit("a fault that no clause can pin is reported where checks/fault_causes.py does not give a reason (its table TOLD)")


if __name__ == "__main__":
    main()
