#!/usr/bin/env python3
"""Draws the pictures of the documents as SVG, by Python's standard library alone.

    scripts/gate/pictures.py          writes docs/pictures/
    scripts/gate/pictures.py --check  compares the stored pictures instead

look-up.svg shows how a look-up is proved, talks.svg who talks to whom, and layers.svg the crates in layers, as
crates.txt lists them. Each picture has colours for light and for dark, and uses the reader's own fonts.
A comparison ends with status 0 if all pictures are stored as they are drawn here.
"""

import sys
from html import escape
from pathlib import Path

TOP = Path(__file__).resolve().parents[2]
FOLDER = TOP / "docs" / "pictures"

# Each class of a shape, with its style in light and in dark.
STYLES = {
    ".ground": ("fill:#ffffff", "fill:#0d1117"),
    ".plain": ("fill:#f3f5f7;stroke:#59636e", "fill:#1c232c;stroke:#8b949e"),
    ".sent": ("fill:#dcecff;stroke:#0757b8", "fill:#12345c;stroke:#69aefc"),
    ".held": ("fill:#dff4e3;stroke:#1a7032", "fill:#143c20;stroke:#55b96a"),
    ".line": ("fill:none;stroke:#59636e", "fill:none;stroke:#8b949e"),
    ".way": ("fill:none;stroke:#0757b8;stroke-width:2.5", "fill:none;stroke:#69aefc;stroke-width:2.5"),
    ".dashed": ("fill:none;stroke:#1a7032;stroke-dasharray:6 4", "fill:none;stroke:#55b96a;stroke-dasharray:6 4"),
    ".tip": ("fill:#59636e", "fill:#8b949e"),
    "text": ("fill:#1f2328", "fill:#e6edf3"),
    ".note": ("fill:#4c5661", "fill:#a9b3bf"),
}


def style():
    """The style of a picture: light, and dark where the reader prefers that."""
    light = [f"{name}{{{day}}}" for name, (day, _) in STYLES.items()]
    dark = [f"{name}{{{night}}}" for name, (_, night) in STYLES.items()]
    return "\n".join([
        "<style>",
        "text{font-family:system-ui,-apple-system,'Segoe UI','DejaVu Sans',sans-serif;font-size:13px}",
        ".strong{font-weight:bold}",
        ".note{font-size:12px}",
        "rect,path{stroke-width:1.3}",
        *light,
        "@media (prefers-color-scheme: dark){",
        *dark,
        "}",
        "</style>",
    ])


class Picture:
    """Shapes on a ground of a fixed size."""

    def __init__(self, width, height, title):
        self.size = width, height
        self.title = title
        self.shapes = []

    def text(self, x, y, words, kind="", anchor="middle"):
        """Lines of text from y down, 16 apart."""
        for number, line in enumerate(words.split("\n")):
            named = f' class="{kind}"' if kind else ""
            self.shapes.append(f'<text x="{x}" y="{y + 16 * number}" text-anchor="{anchor}"{named}>{escape(line)}</text>')

    def rect(self, x, y, width, height, kind):
        self.shapes.append(f'<rect class="{kind}" x="{x}" y="{y}" width="{width}" height="{height}" rx="6"/>')

    def box(self, x, y, width, height, name, words="", kind="plain"):
        """A box with its name in bold, and lines below it."""
        self.rect(x, y, width, height, kind)
        rows = words.count("\n") + 1 if words else 0
        first = y + (height - 16 * (rows + 1)) / 2 + 12
        self.text(x + width / 2, first, name, "strong")
        if words:
            self.text(x + width / 2, first + 16, words, "note")

    def line(self, *points, kind="line"):
        """A line through the points."""
        self.shapes.append(f'<path class="{kind}" d="M' + " L".join(f"{x} {y}" for x, y in points) + '"/>')

    def arrow(self, *points, kind="line"):
        """A line through the points, with a tip at its end."""
        self.line(*points, kind=kind)
        (x, y), (to_x, to_y) = points[-2:]
        length = ((to_x - x) ** 2 + (to_y - y) ** 2) ** 0.5
        dx, dy = (to_x - x) / length, (to_y - y) / length
        back_x, back_y = to_x - 9 * dx, to_y - 9 * dy
        corners = [(to_x, to_y), (back_x - 4 * dy, back_y + 4 * dx), (back_x + 4 * dy, back_y - 4 * dx)]
        self.shapes.append('<path class="tip" d="M' + " L".join(f"{a:.1f} {b:.1f}" for a, b in corners) + ' Z"/>')

    def svg(self):
        width, height = self.size
        return "\n".join([
            f'<svg xmlns="http://www.w3.org/2000/svg" viewBox="0 0 {width} {height}" width="{width}" height="{height}" role="img">',
            f"<title>{escape(self.title)}</title>",
            style(),
            f'<rect class="ground" x="0" y="0" width="{width}" height="{height}"/>',
            *self.shapes,
            "</svg>",
            "",
        ])


# How a look-up is proved -------------------------------------------------------------------------


def look_up():
    picture = Picture(940, 640, "How a look-up is proved")
    draw_index(picture)
    draw_path(picture)
    draw_body(picture)
    draw_chain(picture)
    for x, kind, words in [
        (24, "sent", "in the reply"),
        (150, "plain", "what the client asks about or computes"),
        (440, "held", "in the chain that the client has"),
    ]:
        picture.rect(x, 608, 18, 14, kind)
        picture.text(x + 26, 620, words, "note", "start")
    return picture


def draw_index(picture):
    """From the name to its index, whose bits choose the way."""
    picture.box(24, 32, 190, 44, "name", "alice")
    picture.arrow((119, 76), (119, 140))
    picture.text(128, 100, "verifiable function: the\nprovider computes it,\nanyone can check it", "note", "start")
    picture.box(24, 140, 190, 44, "value", "1 to 256 bytes", "sent")
    picture.arrow((119, 184), (119, 236))
    picture.text(128, 214, "hash", "note", "start")
    picture.box(24, 236, 190, 44, "index", "256 bits: 0 1 …")
    picture.arrow((214, 258), (316, 258), (316, 234), (392, 234))
    picture.arrow((272, 258), (272, 121), (408, 121))
    picture.text(24, 304, "Bit 0 chooses the side below the\nroot, bit 1 the side below that:\n0 for left, 1 for right.", "note", "start")
    picture.text(24, 452, "If the name has no key, what stands at the\nend of the path is an empty node or the\nleaf of another index.", "note", "start")


def draw_path(picture):
    """The path of the index in the tree, with its siblings."""
    picture.text(450, 22, "path in the prefix tree", "note")
    picture.line((450, 76), (370, 166), kind="way")
    picture.line((450, 76), (530, 166))
    picture.line((370, 210), (460, 300), kind="way")
    picture.line((370, 210), (310, 300))
    picture.text(438, 138, "0", "strong")
    picture.text(430, 248, "1", "strong", "start")
    picture.box(370, 32, 160, 44, "tree root", "hash of the two below")
    picture.box(290, 166, 160, 44, "node", "hash of the two below")
    picture.box(470, 166, 110, 44, "sibling", "hash", "sent")
    picture.box(252, 300, 96, 44, "sibling", "hash", "sent")
    picture.box(372, 300, 196, 64, "leaf", "hash of nonce, index,\nlevel and commitment")
    picture.arrow((470, 410), (470, 364))
    picture.box(372, 410, 196, 44, "commitment", "hash of salt, name and key")
    picture.arrow((470, 496), (470, 454))
    picture.box(372, 496, 196, 36, "salt and key", "", "sent")


BODY = ["epoch, epoch before", "hash of the body before", "nonce", "key of the verifiable function"]


def draw_body(picture):
    """The body that comes in the reply, whose root hash the path has to lead from."""
    picture.rect(660, 32, 256, 130, "sent")
    for row, words in enumerate(["body", "root hash", *BODY]):
        picture.text(788, 52 + 20 * row, words, "note" if row else "strong")
    picture.arrow((530, 54), (620, 54), (620, 68), (660, 68))
    picture.text(590, 46, "must be equal", "note")
    picture.arrow((788, 191), (788, 162))
    picture.arrow((788, 191), (788, 220))
    picture.text(780, 188, "must be equal,\nbyte for byte", "note", "end")


def draw_chain(picture):
    """The chain, whose root of this epoch has the body too, under a signature."""
    picture.rect(660, 220, 256, 132, "held")
    picture.text(788, 240, "signed root of epoch 3", "strong")
    picture.rect(672, 250, 232, 50, "held")
    picture.text(788, 270, "body", "strong")
    picture.text(788, 288, "the same fields", "note")
    picture.text(788, 322, "signature of the body,\nunder the provider's key", "note")
    picture.arrow((788, 352), (788, 410))
    picture.text(780, 378, "names the one before,\nby the hash of its body", "note", "end")
    picture.box(660, 410, 256, 44, "signed root of epoch 2", "", "held")
    picture.arrow((788, 454), (788, 496))
    picture.box(660, 496, 256, 44, "signed root of epoch 1", "", "held")
    picture.text(788, 566, "chain of the provider", "strong")
    picture.text(788, 584, "clients and auditors compare their chains", "note")


# Who talks to whom -------------------------------------------------------------------------------


def talks():
    picture = Picture(980, 590, "Who talks to whom")
    picture.box(410, 20, 160, 44, "operator", "has the token")
    picture.arrow((490, 64), (490, 108))
    picture.text(498, 90, "close the epoch", "note", "start")
    picture.box(410, 108, 160, 290, "provider", "runs the directory;\nnobody has to trust it")
    for x, y, name, words, request, answer in [
        (44, 108, "user's client", "chain, looks, promises", "register, change, look up", "promise, reply, signed roots"),
        (44, 318, "another user's client", "chain, looks, promises", "look up", "reply, signed roots"),
        (756, 108, "owner's monitor", "a client that watches one\nname, epoch by epoch", "look up its name", "reply, signed roots"),
        (756, 318, "auditor", "a chain of each provider", "ask for roots", "signed roots"),
    ]:
        picture.box(x, y, 180, 80, name, words, "held")
        near, far = (224, 410) if x < 410 else (756, 570)
        picture.arrow((near, y + 26), (far, y + 26))
        picture.arrow((far, y + 62), (near, y + 62))
        picture.text((near + far) / 2, y + 18, request, "note")
        picture.text((near + far) / 2, y + 54, answer, "note")
    draw_comparisons(picture)
    for x, kind, words in [
        (24, "line", "frames to and from the directory"),
        (300, "dashed", "ways of their own, which do not lead through the provider"),
        (740, "way", "evidence"),
    ]:
        picture.line((x, 568), (x + 40, 568), kind=kind)
        picture.text(x + 48, 572, words, "note", "start")
    return picture


def draw_comparisons(picture):
    """The three comparisons, each of which may give evidence that anyone can judge."""
    picture.line((134, 188), (134, 318), kind="dashed")
    picture.text(142, 250, "compare chains\nand looks", "note", "start")
    picture.line((846, 188), (846, 318), kind="dashed")
    picture.text(838, 250, "compare\nsigned roots", "note", "end")
    picture.line((134, 398), (134, 446), (846, 446), (846, 398), kind="dashed")
    picture.text(490, 438, "compare signed roots", "note")
    picture.arrow((134, 253), (24, 253), (24, 514), (410, 514), kind="way")
    picture.arrow((846, 253), (956, 253), (956, 514), (570, 514), kind="way")
    picture.arrow((490, 446), (490, 492), kind="way")
    picture.text(217, 506, "evidence, if the provider told two things", "note")
    picture.box(410, 492, 160, 44, "anyone", "judges the evidence")


# The crates in layers ----------------------------------------------------------------------------


def crates():
    """The crates of crates.txt, each with those of them that it uses."""
    listed = {}
    for line in (TOP / "crates.txt").read_text().splitlines():
        # A static library says so behind its name.
        name, _, uses = line.partition(":")
        if name.strip():
            listed[name.split()[0]] = uses.split()
    return {name: [used for used in uses if used in listed] for name, uses in listed.items()}


def layers_of(uses):
    """The layers from the bottom up: a crate is one layer above the highest that it uses."""
    layer = {}

    def place(name):
        if name not in layer:
            layer[name] = 1 + max((place(used) for used in uses[name]), default=-1)
        return layer[name]

    rows = [[] for _ in range(1 + max(place(name) for name in uses))]
    for name in uses:
        rows[layer[name]].append(name)
    return rows


def layers():
    rows = layers_of(crates())
    height = 46
    picture = Picture(920, height * len(rows) + 60, "The crates in layers")
    for number, row in enumerate(rows):
        y = 20 + height * (len(rows) - 1 - number)
        picture.text(36, y + 21, str(number + 1), "note")
        left = 490 - (len(row) * 140 - 10) / 2
        for place, name in enumerate(row):
            program = (TOP / "crates" / name / "src" / "main.rt").exists()
            picture.rect(left + 140 * place, y, 130, 32, "held" if program else "sent")
            picture.text(left + 140 * place + 65, y + 21, name)
    foot = height * len(rows) + 28
    for x, kind, words in [(60, "sent", "library"), (160, "held", "program")]:
        picture.rect(x, foot, 18, 14, kind)
        picture.text(x + 26, foot + 12, words, "note", "start")
    picture.text(270, foot + 12, "A crate uses crates of lower layers alone, at least one of them in the layer just below.", "note", "start")
    return picture


PICTURES = {"look-up.svg": look_up, "talks.svg": talks, "layers.svg": layers}


def main(words):
    if words not in ([], ["--check"]):
        print(__doc__, file=sys.stderr)
        return 2
    differ = False
    for name, draw in PICTURES.items():
        stored, drawn = FOLDER / name, draw().svg()
        if not words:
            FOLDER.mkdir(exist_ok=True)
            stored.write_text(drawn, encoding="utf-8")
        elif not stored.exists() or stored.read_text(encoding="utf-8") != drawn:
            print(f"docs/pictures/{name} is not what scripts/gate/pictures.py draws", file=sys.stderr)
            differ = True
    return int(differ)


if __name__ == "__main__":
    sys.exit(main(sys.argv[1:]))
