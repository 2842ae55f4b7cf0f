#!/usr/bin/env python3
"""Draws what bench/core.sh or bench/peers.py measured, with gnuplot (Debian's gnuplot-nox).

    plot.py publication TABLE OUT.svg
    plot.py peers TABLE OUT.svg

TABLE is a file with the table. `publication`: milliseconds of a publication by entries, of which the table has a column for each build. `peers`: timestamps a second, and processor time an entry, by clients, a line for each log.
"""
import pathlib
import re
import subprocess
import sys

NUMBER = re.compile(r"[\d.,]+")
HEAD = "set terminal svg size 900,360 font 'sans,12' background 'white'\nset key outside bottom center horizontal\nset grid ytics\n"


def rows(path):
    """The cells of the rows of the first table, without its head."""
    lines = [line for line in pathlib.Path(path).read_text().splitlines() if line.startswith("|")]
    return [[cell.strip() for cell in line.strip("|").split("|")] for line in lines[2:]]


def numbers(cell):
    """The numbers in a cell."""
    return [float(found.replace(",", "")) for found in NUMBER.findall(cell)]


def block(name, points):
    """Data as gnuplot takes them."""
    return f"${name} << END\n" + "".join(" ".join(map(str, point)) + "\n" for point in points) + "END\n"


def publication(table, out):
    """A line for each build or kind: milliseconds by entries, both on scales of powers of ten."""
    head = next(line for line in pathlib.Path(table).read_text().splitlines() if line.startswith("|")).strip("|").split("|")
    text = HEAD + f"set output '{out}'\nset logscale xy\nset format x '10^%T'\nset xlabel 'entries'\nset xrange [700:1500000]\nset title 'a publication, ms'\n"
    series = []
    for place, label in enumerate(head[1:], 1):
        points = []
        for cells in rows(table):
            exponent, values = int(cells[0].split("^")[1]), numbers(cells[place])
            points.append((10**exponent, sum(values) / len(values)))
        text += block(f"points{place}", points)
        series.append(f'$points{place} using 1:2 with linespoints title "{label.strip()}"')
    return text + "plot " + ", ".join(series) + "\n"


def peers(table, out):
    """Two panels: timestamps a second and processor time an entry, by clients, a line for each log."""
    data = {}
    for clients, log, rate, _, spent, _ in rows(table):
        data.setdefault(log, []).append((int(numbers(clients)[0]), numbers(rate)[0], numbers(spent)[0]))
    text = HEAD + f"set output '{out}'\nset multiplot layout 1,2\nset xlabel 'clients'\nset logscale x 2\n"
    for place, points in enumerate(data.values()):
        text += block(f"points{place}", points)
    for column, title, scale in ((2, "timestamps a second", "yrange [0:*]"), (3, "processor time, ms an entry", "logscale y; set yrange [0.1:*]")):
        shown = ", ".join(f"$points{place} using 1:{column}:xticlabel(1) with linespoints pointtype {place + 4} title '{log}'" for place, log in enumerate(data))
        text += f"set {scale}\nset title '{title}'\nplot {shown}\n"
    return text + "unset multiplot\n"


def main():
    kinds = {"publication": publication, "peers": peers}
    if len(sys.argv) != 4 or sys.argv[1] not in kinds:
        sys.exit(__doc__)
    subprocess.run(["gnuplot"], input=kinds[sys.argv[1]](sys.argv[2], sys.argv[3]), text=True, check=True)


if __name__ == "__main__":
    main()
