"""The parameters of each function of include/wagtenib.h, for what calls every function alike: the programs in C of this folder, and comparing.py. Runs the comparisons
of this folder over a library whose functions such a program wraps, for refusals.py and replays.py."""
import concurrent.futures
import os
import pathlib
import re
import subprocess
import sys
import typing

HERE = pathlib.Path(__file__).resolve().parent
ROOT = HERE.parent.parent
HEADER = (ROOT / "include" / "wagtenib.h").read_text()
# The lists of hashes, whose lengths are numbers of hashes.
OF_HASHES = {"path", "proof", "leaf_hashes", "subtrees"}
SIZES = {"uint8_t": 1, "uint32_t": 4, "uint64_t": 8, "size_t": 8}


class Parameter(typing.NamedTuple):
    """A parameter: its name; `i` for a pointer that is only read, `o` for one that is written, or `n` for a number; the size of what is at a pointer, or of one
    element if the next parameter is their number, as C writes it; and whether it is."""

    name: str
    kind: str
    size: str
    has_number: bool


def bare_header():
    """The header without comments."""
    return re.sub(r"/\*.*?\*/", " ", HEADER, flags=re.S)


def parameter(text, after):
    """The parameter that C declares so. `after` is what comes after it."""
    constant, of, kind, star, name, length = re.fullmatch(r"(const )?(struct )?(\w+) (\*)?(\w+)(?:\[(\d+)\])?", text.strip()).groups()
    if not star and not length:
        return Parameter(name, "n", "0", False)
    size = f"sizeof(struct {kind})" if of else str(SIZES[kind] * int(length or 1))
    has_number = bool(star and not of and re.match(r"size_t \w+$", after) and (constant or kind == "uint8_t"))
    return Parameter(name, "i" if constant else "o", "32" if has_number and name in OF_HASHES else size, has_number)


def functions():
    """The functions, each with whether it returns a code, and its parameters. wagtenib_version has none, and returns a number that is no code."""
    for result, name, listed in re.findall(r"\b(uint32_t|void) (wagtenib_\w+)\(([^)]*)\);", bare_header()):
        parts = [" ".join(part.split()) for part in listed.split(",")] if listed != "void" else []
        yield name, result != "void" and bool(parts), [parameter(part, after) for part, after in zip(parts, [*parts[1:], ""])]


def table():
    """The lines FUNCTION(NAME, HAS_CODE, PARAMETERS), for functions.h."""
    def listed(parameters):
        return ", ".join(f"{{'{one.kind}', {one.size}, {int(one.has_number)}}}" for one in parameters) or "{0, 0, 0}"

    return "".join(f"FUNCTION({name}, {int(has_code)}, {listed(parameters)})\n" for name, has_code, parameters in functions())


def wrapped(folder, *words):
    """Makes the library for this processor with each function wrapped by a source in C, which calls it as real_NAME. `words` are flags of gcc and sources."""
    code = pathlib.Path(subprocess.run([ROOT / "dist" / "processor.sh"], capture_output=True, text=True, check=True).stdout.strip()).read_text()
    names = "|".join(name for name, _, _ in functions())
    (folder / "real.s").write_text(re.sub(rf"\b({names})\b", r"real_\1", code))
    (folder / "functions.h").write_text(table())
    made = folder / "libwagtenib.so"
    subprocess.run(["gcc", "-shared", "-fPIC", f"-I{folder}", f"-I{ROOT / 'include'}", *words, folder / "real.s", "-o", made], check=True)
    return made


# The comparisons that call the functions, with fewer calls than each makes by itself.
COMPARISONS = [
    *("step.py --calls 9", "guard.py --calls 3000", "witness.py --calls 2000", "monitor.py --calls 2000", "node.py --calls 4000", "texts.py --calls 400"),
    *("names.py --calls 1500 --searches 1000", "data_tiles.py --calls 1500", "proofs.py --calls 300"),
]


def run_over(library, script, more=(), at_a_time=1, **variables):
    """Runs the comparisons, and more scripts of this folder, over a library. If one fails, it says so in the name of `script`, and ends the program."""
    surroundings = {**os.environ, "WAGTENIB_LIBRARY": str(library), "PYTHONDONTWRITEBYTECODE": "1", **variables}

    def run(line):
        name, *words = line.split()
        ran = subprocess.run([sys.executable, HERE / name, *words], env=surroundings, stdout=subprocess.PIPE, stderr=subprocess.STDOUT, text=True)
        if ran.returncode:
            sys.exit(f"{ran.stdout}{script}: {name} fails")

    with concurrent.futures.ThreadPoolExecutor(at_a_time) as pool:
        list(pool.map(run, [*COMPARISONS, *more]))
