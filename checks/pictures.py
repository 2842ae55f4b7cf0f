#!/usr/bin/env python3
"""Draws the pictures of docs/plots, and checks that they are up to date: each .dot there, in the language of graphviz, has an SVG picture of the same name next to it.

    pictures.py [--write]

With --write it draws them again with dot (Debian's package graphviz), with separate colours for a dark screen. Otherwise it draws nothing. It checks that a picture
was drawn from the current text (it contains the text's SHA-256), that the names in the text exist, as in documents.py, and that a page shows the picture. It ends
with status 1 if one of these is not so.
"""
import hashlib
import re
import shutil
import subprocess
import sys

from documents import Repository, pages
from source import ROOT

PLOTS = ROOT / "docs" / "plots"
# The defaults with which all pictures are drawn: they are inserted after the first { of a text.
FONT = 'fontname="DejaVu Sans,Verdana,sans-serif"'
HOW = f"""
    rankdir=LR nodesep=0.3 ranksep=0.35
    node [shape=box, style="rounded,filled", fillcolor="#ffffff", margin="0.14,0.07", height=0.3, fontsize=12, {FONT}]
    edge [fontsize=10, arrowsize=0.7, {FONT}]"""
DRAWN = '<!-- Drawn by checks/pictures.py of a text with the SHA-256 {}. -->\n'
# The colours that replace others on a dark screen: those of the background, of boxes, of proved parts, and of lines.
DARK = {"white": "#0d1117", "#ffffff": "#161b22", "#d7efd7": "#1c4a2a", "black": "#c9d1d9"}
STYLE = "<style>@media (prefers-color-scheme: dark) {{ {} text {{ fill: #e6edf3 }} }}</style>\n"


def mark(text):
    """Returns the first line of the picture of a text."""
    return DRAWN.format(hashlib.sha256(text.encode()).hexdigest())


def drawn(text):
    """Returns the picture of a text."""
    ran = subprocess.run(["dot", "-Tsvg"], input=text.replace("{", "{" + HOW, 1), capture_output=True, text=True)
    if ran.returncode:
        sys.exit(f"dot: {ran.stderr}")
    svg = re.sub(r"<\?xml.*?(?=<svg)|<!--.*?-->\n", "", ran.stdout, flags=re.S)
    rules = " ".join(f'[fill="{light}"] {{ fill: {dark} }} [stroke="{light}"] {{ stroke: {dark} }}' for light, dark in DARK.items())
    return mark(text) + re.sub(r"(<svg.*?>\n)", lambda found: found[1] + STYLE.format(rules), svg, count=1, flags=re.S)


def main():
    texts, found = sorted(PLOTS.glob("*.dot")), []
    if sys.argv[1:] == ["--write"]:
        if not shutil.which("dot"):
            sys.exit("checks/pictures.py: dot is not on the PATH (install it: Debian's package graphviz)")
        for path in texts:
            path.with_suffix(".svg").write_text(drawn(path.read_text()))
    shown, repository = "".join(page.read_text() for page in pages()), Repository()
    for path in texts:
        picture = path.with_suffix(".svg")
        if not picture.exists():
            found.append(f"{picture.relative_to(ROOT)} does not exist (checks/pictures.py --write draws it)")
            continue
        if not picture.read_text().startswith(mark(path.read_text())):
            found.append(f"{picture.relative_to(ROOT)} was drawn from another text (checks/pictures.py --write draws it again)")
        for label in re.findall(r'\blabel="([^"]*)"', path.read_text()):
            found += [f"{path.relative_to(ROOT)}: {fault}" for line in label.split(r"\n") for fault in repository.faults_of_code(f"{line.strip()} ", path)]
        found += [] if f"plots/{picture.name})" in shown else [f"no page shows {picture.relative_to(ROOT)}"]
    for fault in found:
        print(fault)
    sys.exit(1 if found else 0)


if __name__ == "__main__":
    main()
