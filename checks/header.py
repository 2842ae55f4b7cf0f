#!/usr/bin/env python3
"""Checks the library's header for C against the sources of `libwagtenib`: the functions, their arguments and types in order, the fields of each struct in
order, and the number of each fault and code. No contract covers these, because clauses name arguments and fields. The script prints each line that
differs, and ends with status 1 if one does."""
import re
import sys

from source import CRATES, ROOT, blanked, closing, without_clauses

HEADER = ROOT / "include" / "wagtenib.h"
# The C types of arguments. `*` after a list is its number of elements, under any name in the header.
TYPES = {
    "u32": "uint32_t {}",
    "u64": "uint64_t {}",
    "u8": "uint8_t {}",
    "usize": "size_t {}",
    "&[u8; 32]": "const uint8_t {}[32]",
    "&mut [u8; 32]": "uint8_t {}[32]",
    "&mut [u8; 50]": "uint8_t {}[50]",
    "&mut [u8; 4]": "uint8_t {}[4]",
    "[u8; 32]": "uint8_t {}[32]",
    "&[u8]": "const uint8_t *{}, size_t *",
    "&[[u8; 32]]": "const uint8_t *{}, size_t *",
    "&mut [[u8; 32]]": "uint8_t *{}, size_t *",
    "bool": "bool {}",
    "&mut [u8]": "uint8_t *{}, size_t *",
    "&[u64]": "const uint64_t *{}, size_t *",
    "&mut u32": "uint32_t *{}",
    "&mut u64": "uint64_t *{}",
    "&mut usize": "size_t *{}",
    "&mut LeafInfo": "struct wagtenib_leaf_info *{}",
    "&TreeHead": "const struct wagtenib_head *{}",
    "&mut TreeHead": "struct wagtenib_head *{}",
    "TreeHead": "struct wagtenib_head {}",
    "&mut [u8; 56]": "uint8_t {}[56]",
    "NodeState": "struct wagtenib_node_state {}",
    "&NodeState": "const struct wagtenib_node_state *{}",
    "&mut NodeState": "struct wagtenib_node_state *{}",
    "&NodeCommand": "const struct wagtenib_node_command *{}",
    "&mut NodeCommand": "struct wagtenib_node_command *{}",
    "&NodeOutcome": "const struct wagtenib_node_outcome *{}",
    "&NodeFound": "const struct wagtenib_node_found *{}",
    "&mut WitnessedTree": "struct wagtenib_witnessed_tree *{}",
    "&mut CheckpointInfo": "struct wagtenib_checkpoint *{}",
    "&mut MonitorVerdict": "struct wagtenib_monitor_verdict *{}",
    "&mut EntryReport": "struct wagtenib_entry_report *{}",
    "Global": None,
}
ALIASES = {
    "LeafInfo": "wagtenib_leaf_info",
    "TreeHead": "wagtenib_head",
    "WitnessedTree": "wagtenib_witnessed_tree",
    "CheckpointInfo": "wagtenib_checkpoint",
    "MonitorVerdict": "wagtenib_monitor_verdict",
    "EntryReport": "wagtenib_entry_report",
    "NodeState": "wagtenib_node_state",
    "NodeCommand": "wagtenib_node_command",
    "NodeOutcome": "wagtenib_node_outcome",
    "NodeFound": "wagtenib_node_found",
}
# A fault of another crate that has another name in C.
NAMES = {"Memory": "OutOfMemory"}


def parts(text):
    """Returns the parts of a list between the commas outside of brackets."""
    return [part.strip() for part in re.split(r",(?![^\[]*\])", text) if part.strip()]


def prototype(name, arguments, result):
    """Returns the C declaration of a function of the library."""
    said = [(TYPES[kind], word) for word, kind in (re.split(r"\s*:\s*", part, 1) for part in parts(arguments))]
    declared = ", ".join(kind.format(word) for kind, word in said if kind)
    return f"{'uint32_t' if result == 'u32' else 'void'} {name}({declared or 'void'})"


def declared_functions(text):
    """Yields the C declarations of the functions in the sources."""
    for found in re.finditer(r"\bextern\s+fn (\w+)\(", text):
        end = closing(text, found.end() - 1)
        result = re.match(r"\s*->\s*(\w+)", text[end:])
        yield prototype(found.group(1), " ".join(text[found.end() : end - 1].split()), result and result.group(1))


def declared_structs(text):
    """Yields each struct that C sees, with its fields in order."""
    for found in re.finditer(r"#\[repr\(C\)\](?:\s*#\[[^\]]*\])*\s*pub struct (\w+) \{([^}]*)\}", text):
        fields = re.findall(r"pub (\w+): ([^,]+),", found.group(2))
        yield f"struct {ALIASES[found.group(1)]} {{ " + " ".join(TYPES[kind].format(word) + ";" for word, kind in fields) + " }"


def shouted(name):
    """Returns the C constant for a fault's name."""
    return "WAGTENIB_" + re.sub(r"(?<=[a-z])(?=[A-Z])", "_", name).upper()


def declared_numbers(text):
    """Yields the number of each fault that the sources name, and of each code that is a constant."""
    for name, number in re.findall(r"\w+Fault::(\w+) => (\d+)", text):
        yield f"{shouted(NAMES.get(name, name))} = {number}"
    for name, number in re.findall(r"\bpub const (\w+): u32 = (\d+);", text):
        yield f"WAGTENIB_{name} = {number}"


def header_lines(text):
    """Yields the lines of the header, in the same form."""
    text = re.sub(r"/\*.*?\*/", " ", text, flags=re.S)
    for found in re.finditer(r"\b(uint32_t|void) (wagtenib_\w+)\(([^)]*)\);", text):
        yield re.sub(r"(\*\w+), size_t \w+", r"\1, size_t *", f"{found.group(1)} {found.group(2)}({' '.join(found.group(3).split())})")
    for found in re.finditer(r"\bstruct (\w+) \{([^}]*)\};", text):
        yield f"struct {found.group(1)} {{ {' '.join(found.group(2).split())} }}"
    for name, number in re.findall(r"\b(WAGTENIB_\w+) = (\d+)", text):
        yield f"{name} = {number}"


def main():
    text = "\n".join(without_clauses(blanked(path.read_text())) for path in sorted(path for crate in ("libwagtenib",) for path in (CRATES / crate / "src").rglob("*.rt")))
    made = set(declared_functions(text)) | set(declared_structs(text)) | set(declared_numbers(text))
    said = set(header_lines(HEADER.read_text()))
    for line in sorted(made - said):
        print(f"include/wagtenib.h lacks: {line}")
    for line in sorted(said - made):
        print(f"include/wagtenib.h has a line that the sources do not: {line}")
    if made != said:
        sys.exit(1)


if __name__ == "__main__":
    main()
