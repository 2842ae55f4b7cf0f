#!/usr/bin/env python3
"""Runs ctwatch and certspotter (SSLMate's) beside each other over the same logs, and compares which certificates each reports.

    beside.py [--ctwatch PROGRAM] [--certspotter PROGRAM] [--many N] [--write]

certspotter is the one that is installed, unless --certspotter names another one, which may be that of a later Debian's package. The page must name its version.
ctwatch is cmd/out/ctwatch, which `make service` builds. The entries are the certificates of table.py; odd names, and the certificates of field.py, on which monitors differ; the certificates of examples/real-chains.jsonl; and N (1000) made-up ones,
each with its precertificate. Three logs have the last two, and both programs watch the three at once. ctwatch must report everything that certspotter reports, each issuance
once, and nothing else except the rows of REASONS. With --write the table of docs/WATCH.md is written; otherwise it must be there.
The script ends with status 1 at the first thing that is not so. It is not part of `make test`.
"""
import argparse
import base64
import datetime
import json
import pathlib
import random
import re
import subprocess
import sys
import tempfile
import time

HERE = pathlib.Path(__file__).resolve().parent
ROOT = HERE.parent.parent
sys.path.append(str(HERE))

import field  # noqa: E402
import table  # noqa: E402
from cryptography import x509  # noqa: E402
from cryptography.hazmat.primitives import hashes, serialization  # noqa: E402

PAGE = ROOT / "docs" / "WATCH.md"
MADE, END = "<!-- Made by tests/names/beside.py --write. -->\n\n", "\n<!-- Made until here. -->"
# A watch list of certspotter: a name with all below it, an exact name, one with other letters than ASCII's, and an address; and what ctwatch calls them.
WATCHED = {".example.org": "example.org", "www.example.org": "=www.example.org", "bücher.example": "=xn--bcher-kva.example", "192.0.2.7": "192.0.2.7"}
LOGS = 3
# How long a program may take, in seconds: so long, and so long for each entry of a log.
PATIENCE, PATIENCE_OF_ENTRY = 120, 0.03
# The names of real certificates that are watched too: short ones, of which the bytes of many certificates of others have a part.
REAL = (".t.co", ".letsencrypt.org", ".digicert.com", ".microsoft.com")


def host(what, name):
    """An odd dNSName."""
    return table.Row(what, alt=(("DNS", name),))


ODD = [
    host("dNSName `?.example.org`", "?.example.org"),
    host("dNSName `https://www.example.org/`", "https://www.example.org/"),
    host("dNSName `www.example.org:443`", "www.example.org:443"),
    host("dNSName `www.example.org`, NUL, `.evil.net`", "www.example.org\0.evil.net"),
    host("dNSName ` www.example.org `", " www.example.org "),
    table.Row("commonName ` www.example.org `", common=" www.example.org "),
    table.Row("commonName `bücher.example` as BMPString", common="bücher.example", kind="BMPString"),
    table.Row("commonName `bücher.example` as UniversalString", common="bücher.example", kind="UniversalString"),
    table.Row("URI `https://www.example.org:8443/a?b`", alt=(("URI", "https://www.example.org:8443/a?b"),)),
    host("dNSName `*`", "*"),
    host("dNSName `*ple.org`", "*ple.org"),
    host("dNSName `..example.org`", "..example.org"),
]


# The rows that only ctwatch reports, and why it does.
MAILS, URIS = "ctwatch reads mail addresses.", "ctwatch reads URIs."
REASONS = {
    "mail `admin@example.org`": MAILS,
    "URI `https://www.example.org/`": URIS,
    "URI `https://www.example.org:8443/a?b`": URIS,
    "address `192.0.2.7`": "ctwatch reads IP addresses.",
    "dNSName `www.example.org:443`": "Software that cuts a port would take the name for the host.",
    "commonName ` www.example.org `": "Software that trims spaces would take the name for the host.",
}
LATIN = "dNSName `bücher.example` in Latin-1"


def fail(why):
    sys.exit(f"beside.py: {why}")


def latin():
    """A certificate whose dNSName has a letter in Latin-1, which no library writes: the letter takes the place of another one."""
    made = table.by_library(host("", "bXcher.example"))
    return made.replace(b"bXcher.example", b"b\xfccher.example")


def real():
    """The first certificate of each stored chain, and whether it is a precertificate."""
    found = []
    for line in (ROOT / "examples" / "real-chains.jsonl").read_text().splitlines():
        value = json.loads(line) if line.startswith("{") else {}
        if value.get("chain") and value.get("op") in ("add-chain", "add-pre-chain"):
            found.append((base64.b64decode(value["chain"][0]), value["op"] == "add-pre-chain"))
    return found


def many(count, chance):
    """Made-up certificates, each with its precertificate: a fifth of them is for a watched name."""
    made = []
    begin = datetime.datetime(2026, 1, 1)
    issuer = x509.Name([x509.NameAttribute(table.NameOID.ORGANIZATION_NAME, "An authority")])
    for number in range(count):
        mine = chance.random() < 0.2
        top = chance.choice(("example.org", "EXAMPLE.org", "sub.example.org")) if mine else chance.choice(("example.net", "notexample.org", "example.org.evil.net", "xample.org"))
        names = [f"{chance.choice(('a', '*', 'www', 'x-1'))}.{top}", f"h{number}.other.net"]
        chance.shuffle(names)
        builder = x509.CertificateBuilder(issuer, x509.Name([]), table.KEY.public_key(), number + 1, begin, begin + datetime.timedelta(90))
        builder = builder.add_extension(x509.SubjectAlternativeName([x509.DNSName._init_without_validation(name) for name in names]), critical=False)
        poisoned = builder.add_extension(x509.PrecertPoison(), critical=True)
        for one, poison in ((poisoned, True), (builder, False)):
            made.append((one.sign(table.KEY, hashes.SHA256()).public_bytes(serialization.Encoding.DER), poison))
    return made


def is_verified(state, sizes):
    """Whether certspotter has verified a head of each log, each with its number of entries."""
    positions = []
    for path in state.glob("logs/*/state.json"):
        try:
            positions.append(json.loads(path.read_text())["verified_position"])
        except (ValueError, OSError):
            return False
    return sorted(it["size"] for it in positions if it) == sorted(sizes.values())


def patience(entries):
    return PATIENCE + PATIENCE_OF_ENTRY * entries


def spot(program, lists, folder, names, sizes):
    """Which entries certspotter reports: pairs of a log's number and an index."""
    logs = {"version": "1.0.0", "log_list_timestamp": "2026-01-01T00:00:00Z", "operators": [{"name": "an operator", "email": [], "logs": [it for log in lists for it in log["operators"][0]["logs"]]}]}
    (folder / "logs.json").write_text(json.dumps(logs))
    (folder / "watchlist").write_text("".join(f"{name}\n" for name in names))
    said, state = folder / "spotted", folder / "certspotter"
    words = [program, "-verbose", "-stdout", "-no_save", "-logs", folder / "logs.json", "-state_dir", state, "-watchlist", folder / "watchlist"]
    with said.open("w") as file:
        running = subprocess.Popen(words, stdout=file, stderr=subprocess.STDOUT)
    ends = time.monotonic() + patience(sum(sizes.values()))
    while not is_verified(state, sizes):
        if running.poll() is not None or time.monotonic() > ends:
            fail(f"certspotter does not verify the heads: {said.read_text()[-2000:]}")
        time.sleep(0.1)
    running.terminate()
    running.wait()
    order = list(sizes)
    return {(order.index(url), int(index)) for index, url in re.findall(r"Log Entry = (\d+) @ (\S+)", said.read_text())}


def watch(program, folder, names, logs, urls):
    """The reports of ctwatch: its alerts."""
    (folder / "names").write_text("".join(f"{name}\n" for name in names))
    words = [program, "run", "--once", "--from-start", "--folder", folder / "ctwatch", "--json", folder / "alerts", "--certspotter-watchlist", folder / "names"]
    for log, url in zip(logs, urls):
        words += ["--log", f"{url} {base64.b64encode(log.public).decode()}"]
    ran = subprocess.run(words, capture_output=True, text=True, timeout=patience(sum(len(log.leaves) for log in logs)))
    if ran.returncode not in (0, 8):
        fail(f"ctwatch ends with status {ran.returncode}: {ran.stdout}{ran.stderr}")
    return [json.loads(line) for line in (folder / "alerts").read_text().splitlines()]


def place_of(index, alerts_by_index, name):
    """The place in which ctwatch found a watched name in an entry; a dot if it did not. `unread` says that the names cannot be read."""
    alert = alerts_by_index.get(index) or {"kind": "", "certificate": {"matches": []}}
    if alert["kind"] == "unread":
        return "unread"
    for match in alert["certificate"]["matches"]:
        if match["name"] == name:
            return match["place"]
    return "."


def table_of(rows, cells):
    head = " | ".join(f"`{name}`: ctwatch | certspotter" for name in WATCHED)
    lines = [f"| In the certificate | {head} |", "|---|" + "---|---|" * len(WATCHED)]
    lines += [f"| {row.what} | {' | '.join(cells[i])} |" for i, row in enumerate(rows)]
    lines += ["", "| Only `ctwatch` reports | Reason |", "|---|---|", *(f"| {what} | {why} |" for what, why in REASONS.items())]
    return "\n".join(lines) + "\n"


def version_of(program):
    """The version that certspotter prints."""
    found = re.search(r"[0-9]+(\.[0-9]+)+", subprocess.run([program, "-version"], capture_output=True, text=True).stdout)
    return found.group() if found else fail(f"{program} -version prints no version")


def check_page(text, version, write):
    before, rest = PAGE.read_text().split(MADE)
    page = before + MADE + text + END + rest.split(END)[1]
    if write:
        PAGE.write_text(page)
    elif PAGE.read_text() != page:
        fail(f"{PAGE.name} has another table than was made (beside.py --write writes it)")
    if f"certspotter {version}" not in before:
        fail(f"{PAGE.name} does not say that its table was compared with certspotter {version} (add the version before the table)")


def by_index(alerts, urls):
    """Each entry by its index, with its alert: all logs have the same entries, and an alert can be sent before the other logs are read. An issuance must have one alert."""
    found, seen = {}, set()
    for alert in alerts:
        certificate = alert["certificate"]
        if certificate["tbs_sha256"] in seen:
            fail(f"ctwatch sends two alerts to the issuance {certificate['tbs_sha256']}")
        seen.add(certificate["tbs_sha256"])
        for sighting in certificate["sightings"]:
            if sighting["url"] not in [url.rstrip("/") for url in urls]:
                fail(f"ctwatch reports an entry of {sighting['url']}, which is no log of this test")
            found[sighting["index"]] = alert
    return found


def issuances(entries):
    """The number of the issuance of each entry: a precertificate and its certificate have one."""
    numbers = {}
    return [numbers.setdefault(table.promises.entry_of(table.promises.tbs_of(data)) if poison else tbs_of(data), len(numbers)) for data, poison in entries]


def tbs_of(data):
    return x509.load_der_x509_certificate(data).tbs_certificate_bytes


def compare_rows(given, folder, rows):
    """The table: one run of certspotter for each name, and one of ctwatch for all."""
    made = [(table.by_library(row), row.poison) for row in rows]
    log = table.Log([*made, (latin(), False)])
    url = log.serve()
    rows = [*rows, host(LATIN, "")]
    alerts = by_index(watch(given.ctwatch, folder, WATCHED, [log], [url]), [url])
    cells, only_ours = [[] for _ in rows], set()
    for number, (spotted_name, name) in enumerate(WATCHED.items()):
        below = folder / f"run.{number}"
        below.mkdir()
        told = {index for _, index in spot(given.certspotter, [log.listed(url)], below, [spotted_name], {url: len(log.leaves)})}
        for i, row in enumerate(rows):
            ours, theirs = place_of(i, alerts, name), "x" if i in told else "."
            cells[i] += [ours, theirs]
            if theirs == "x" and ours == ".":
                fail(f"{row.what}: certspotter reports {name}, and ctwatch does not")
            if theirs == "." and ours != ".":
                only_ours.add(row.what)
    if only_ours != set(REASONS):
        fail(f"only ctwatch reports {sorted(only_ours)}, and there are reasons for {sorted(REASONS)}")
    return table_of(rows, cells)


def compare_many(given, folder):
    """Real and made-up certificates in three logs at once."""
    chance = random.Random(7)
    entries = [*real(), *many(given.many, chance)]
    logs = [table.Log(entries) for _ in range(LOGS)]
    urls = [log.serve() for log in logs]
    names = [".example.org", *REAL]
    began = time.monotonic()
    alerts = by_index(watch(given.ctwatch, folder, names, logs, urls), urls)
    took = time.monotonic() - began
    told = spot(given.certspotter, [log.listed(url) for log, url in zip(logs, urls)], folder, names, {url: len(entries) for url in urls})
    numbers = issuances(entries)
    ours, theirs = {numbers[index] for index in alerts}, {numbers[index] for _, index in told}
    if ours != theirs:
        fail(f"of {len(set(numbers))} issuances ctwatch reports {len(ours)} and certspotter {len(theirs)}: only ctwatch {sorted(ours - theirs)[:9]}, only certspotter {sorted(theirs - ours)[:9]}")
    return f"{len(set(numbers))} issuances in {len(entries)} entries of each of {LOGS} logs: both report the same {len(ours)}, ctwatch each once, in {took:.1f} s"


def main():
    words = argparse.ArgumentParser()
    words.add_argument("--ctwatch", default=ROOT / "cmd" / "out" / "ctwatch")
    words.add_argument("--certspotter", default="certspotter")
    words.add_argument("--many", type=int, default=1000)
    words.add_argument("--write", action="store_true")
    given = words.parse_args()
    version = version_of(given.certspotter)
    with tempfile.TemporaryDirectory() as name:
        folder = pathlib.Path(name)
        for part in ("rows", "many"):
            (folder / part).mkdir()
        rows = [*table.ROWS, *ODD, *field.MORE]
        text = compare_rows(given, folder / "rows", rows)
        told = compare_many(given, folder / "many")
    check_page(text, version, given.write)
    print(f"tests/names: beside certspotter {version}, {len(rows) + 1} rows and {told}.")


if __name__ == "__main__":
    main()
