#!/usr/bin/env python3
"""Says where the processor time of an entry goes, by part: of ctserve, of its signer and of bench/ideal, by turns, with perf (Debian's linux-perf).

    parts.py [--turns 2] [--seconds 8] [--clients 64]
    tests/engines.sh run bench/parts.py --nodes 1,3 [--turns 2] [--seconds 8] [--clients 64]

In each turn ctload submits to one of the two logs, on a folder, while perf records where its processes are, some 500 times a second of processor time, with the
calls that led there. A record counts for the first part that fits one of these calls, from the innermost call on. What the kernel does counts for the part
of the program that called it. The table has, for each process, the microseconds of an entry (the means of the turns) and the ratio of the sums. With --nodes logs of so many nodes over
PostgreSQL and S3 take turns (bench/engines.py), and the table has all processes of each log together. `make service` builds ctserve and ctload.
"""
import argparse
import collections
import os
import pathlib
import re
import subprocess
import tempfile

import engines
from served import OUT, Ideal, Log, below, load, machine, run, size_of

# The parts, by the names of functions of any of the calls, from the innermost on; the first that fits counts.
PARTS = [(name, re.compile(pattern)) for name, pattern in (
    ("SHA-256 of the proved code", r"^(?!crypto|internal).*(Sha256|sha2::|sha256_)"),
    ("the proved code otherwise", r"^(ct_\w+|shared_\w+|std\w*|core|alloc|libwagtenib|sha2|indexmap)::|wagtenib_|^(malloc|free|realloc|_int_\w+|__mem\w+)$"),
    ("SHA-256 of Go", r"sha256"),
    ("ECDSA: chains checked and signatures made", r"^crypto/(ecdsa|elliptic)|^p256|nistec|/ecdsa|bigmod|drbg|^crypto/internal/fips140/(hmac|sha512)|^crypto/rand"),
    ("garbage collection and allocation", r"^runtime\.(gc|bgsweep|bgscavenge|sweep|scan|mallocgc|greyobject|markroot|newobject|makeslice|growslice|wbBufFlush|\(\*(mspan|mheap|mcache|mcentral|gcWork|sweepLocked))"),
    ("the index: LevelDB, or a file", r"goleveldb|^main\.\(\*places\)|internal/blob\.\(\*inLevelDB"),
    ("lines between ctserve and the signer", r"internal/log/signer"),
    ("files: objects, lock and guard's state", r"^os\.|internal/blob|^syscall\.(Fsync|Rename|Open|Unlink)|^main\.\(\*(tree|object)"),
    ("limits, metrics and clocks", r"prometheus|internal/log/httpd"),
    ("TLS", r"^crypto/(tls|aes|cipher|ecdh|internal/fips140/(aes|tls|hkdf))|gcm|chacha"),
    ("X.509 and the rules of chains", r"^crypto/x509|cryptobyte|^encoding/asn1|internal/log/chain|^math/big"),
    ("JSON and base64", r"^encoding/(json|base64)"),
    ("HTTP and connections", r"^net/http|^net\.|^bufio|^net/textproto|^internal/poll"),
    ("stacks that grow", r"^runtime\.(copystack|newstack|morestack|adjustframe)"),
    ("waking and choosing goroutines", r"^runtime\.(schedule|findRunnable|mcall|park_m|futex|notewakeup|startm|wakep|mstart|netpoll|gosched|goready|ready|systemstack|chan|select|usleep|osyield|sysmon|stealWork|lock|unlock|semrelease|semacquire)"),
)]  # fmt: skip
# These count before all others, if one of the calls fits.
OUTER = [(name, re.compile(pattern)) for name, pattern in (
    ("forwarding to another node", r"internal/log/(httpd|service|node).*[fF]orward"),
    ("clients of PostgreSQL, etcd and S3", r"minio|lib/pq|jackc|etcd|grpc"),
)]
KERNEL, REST = "kernel, no caller seen", "all else"
FRAME = re.compile(r"^\s+[0-9a-f]+ (.*) \((.*)\)$")


def part_of(frames):
    """The part of a record: the names of its calls, from the innermost on, each with whether it is the kernel's."""
    own = [name for name, is_kernel in frames if not is_kernel]
    for part, pattern in OUTER:
        if any(map(pattern.search, own)):
            return part
    for name in own:
        for part, pattern in PARTS:
            if pattern.search(name):
                return part
    return REST if own else KERNEL


def records(text):
    """The process and the calls of each record of perf script."""
    for one in text.split("\n\n"):
        head, *lines = one.strip("\n").split("\n")
        if found := re.match(r"\s*.*?\s(\d+)/\d+", head):
            calls = [re.sub(r"\+0x[0-9a-f]+$", "", match[1]) + "\0" + match[2] for match in map(FRAME.match, lines) if match]
            yield int(found[1]), [(name, "kernel" in where or where.startswith("[")) for name, _, where in (call.partition("\0") for call in calls)]


def recorded(log, words, folder):
    """The microseconds of an entry by process and part, in one turn."""
    ids, data = below(*log.ids()), folder / "perf.data"
    had = size_of(log)
    perf = subprocess.Popen(["perf", "record", "-q", "-e", "cpu-clock", "-F", "499", "-g", "-o", data, "-p", ",".join(map(str, ids))], stderr=subprocess.DEVNULL)
    load(log, words.clients, "--for", f"{words.seconds}s", "--ready", min(3000, 100 * words.clients) * words.seconds)
    perf.terminate()
    perf.wait()
    entries = size_of(log) - had
    found = collections.defaultdict(collections.Counter)
    for process, frames in records(run("perf", "script", "-i", data, "-F", "pid,tid,comm,ip,sym,dso")):
        found["signer" if process != log.ids()[0] else "log"][part_of(frames)] += 1e6 / 499 / entries
    return found


def of_engines(words, work):
    """Logs of so many nodes over engines."""
    made = {}
    for count in map(int, words.nodes.split(",")):
        made[f"{count} node{'s' * (count > 1)}"] = engines.Node(work / f"log{count}", count, "postgres", OUT, count).log
    return made


def of_folders(work):
    """A log of ctserve and one of ideal."""
    return {"ctserve": Log(work / "ctserve", OUT), "ideal": Ideal(work / "ideal")}


def main():
    parser = argparse.ArgumentParser(description=__doc__, formatter_class=argparse.RawDescriptionHelpFormatter)
    parser.add_argument("--turns", type=int, default=2)
    parser.add_argument("--seconds", type=int, default=8)
    parser.add_argument("--clients", type=int, default=64)
    parser.add_argument("--nodes")
    words, logs = parser.parse_args(), {}
    with tempfile.TemporaryDirectory(dir=os.environ.get("TMPDIR")) as work:
        work, sums = pathlib.Path(work), collections.defaultdict(collections.Counter)
        try:
            logs = of_engines(words, work) if words.nodes else of_folders(work)
            print(f"{words.turns} turns of {words.seconds} s with {words.clients} clients on {machine()}; a load of {os.getloadavg()[0]:.1f} before\n", flush=True)
            for log in logs.values():
                load(log, words.clients, "--for", "1s")
            for number in range(words.turns):
                for name, log in list(logs.items())[:: 1 if number % 2 == 0 else -1]:
                    for process, parts in recorded(log, words, work).items():
                        for part, took in parts.items():
                            sums[process if process == "signer" and not words.nodes else name][part] += took / words.turns
        finally:
            for log in logs.values():
                log.end()
    columns = list(logs) if words.nodes else ["ctserve", "signer", "ideal"]
    print(f"| Part, µs of an entry | {' | '.join(columns)} |\n" + "|---" * (1 + len(columns)) + "|")
    for part in [*(name for name, _ in OUTER + PARTS), KERNEL, REST]:
        if any(sums[column][part] for column in columns):
            print(f"| {part} | {' | '.join(f'{sums[column][part]:.0f}' for column in columns)} |")
    whole = [sum(sums[column].values()) for column in columns]
    print(f"| sum | {' | '.join(f'{one:.0f}' for one in whole)} |")
    over = whole[-1] / whole[0] if words.nodes else (whole[0] + whole[1]) / whole[2]
    print(f"\n{'the last column over the first' if words.nodes else 'ctserve with its signer over ideal'}: {over:.2f}")


if __name__ == "__main__":
    main()
