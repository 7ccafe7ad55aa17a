"""SVG pictures of boxes, lines and text."""
import html
import sys

WIDTH = 900
SANS = "DejaVu Sans, Verdana, Arial, sans-serif"
MONO = "DejaVu Sans Mono, Consolas, Menlo, monospace"
INK, SOFT = "#202124", "#5f6368"
BLUE, YELLOW, GREEN, RED, VIOLET, GREY = "#e3edfd", "#fdf1d0", "#e2f3e6", "#fbe4e1", "#efe6fa", "#f1f3f4"
WHITE = "#ffffff"


def give_up(text):
    print(f"draw: {text}", file=sys.stderr)
    sys.exit(2)


class Picture:
    """The elements of an SVG picture."""

    def __init__(self, height, title, width=WIDTH):
        self.width, self.height = width, height
        self.parts = [
            f'<svg xmlns="http://www.w3.org/2000/svg" viewBox="0 0 {width} {height}" width="{width}" height="{height}"'
            f' font-family="{SANS}" font-size="13" fill="{INK}">',
            f"<title>{html.escape(title)}</title>",
            '<defs><marker id="tip" viewBox="0 0 8 8" refX="7" refY="4" markerWidth="8" markerHeight="8" orient="auto">'
            f'<path d="M0,0.5 L8,4 L0,7.5 z" fill="{SOFT}"/></marker></defs>',
            f'<rect width="{width}" height="{height}" fill="#ffffff"/>',
        ]

    def text(self, x, y, words, size=13, anchor="middle", fill=INK, mono=False, bold=False, halo=False):
        style = f' font-family="{MONO}"' if mono else ""
        style += ' stroke="#ffffff" stroke-width="4" paint-order="stroke"' if halo else ""
        style += ' font-weight="bold"' if bold else ""
        self.parts.append(
            f'<text x="{x:g}" y="{y:g}" font-size="{size}" text-anchor="{anchor}" fill="{fill}"{style}>'
            f"{html.escape(words)}</text>"
        )

    def line(self, points, tip=False, dash=False):
        path = " L".join(f"{x:g},{y:g}" for x, y in points)
        more = ' marker-end="url(#tip)"' if tip else ""
        more += ' stroke-dasharray="4 3"' if dash else ""
        self.parts.append(f'<path d="M{path}" fill="none" stroke="{SOFT}" stroke-width="1.2"{more}/>')

    def frame(self, x, y, width, height, fill):
        """A box without text and with a light edge, for what is drawn on it."""
        self.parts.append(
            f'<rect x="{x:g}" y="{y:g}" width="{width:g}" height="{height:g}" fill="{fill}" stroke="#bdc1c6"/>'
        )

    def box(self, x, y, width, height, fill, *lines, mono=False):
        """A box with lines of text: the first large, the others small."""
        self.parts.append(
            f'<rect x="{x:g}" y="{y:g}" width="{width:g}" height="{height:g}" fill="{fill}" stroke="{INK}"/>'
        )
        first = y + height / 2 + 5 - 8 * (len(lines) - 1)
        for i, words in enumerate(lines):
            size = 13 if i == 0 else 12
            if len(words) * 0.6 * size > width:
                give_up(f"{words!r} doesn't fit a box of {width:g}")
            self.text(x + width / 2, first + 16 * i, words, size, fill=INK if i == 0 else SOFT, mono=mono and i == 0)

    def row(self, x, y, height, cells):
        """Boxes side by side, each as (width, fill, line, ..), and where their edges lie."""
        edges = [x]
        for width, fill, *lines in cells:
            self.box(edges[-1], y, width, height, fill, *lines)
            edges.append(edges[-1] + width)
        return edges

    def zoom(self, above, y, left, right, below):
        """Dashed lines from a box's lower corners to the upper ones of its enlargement."""
        self.line([(above[0], y), (left, below)], dash=True)
        self.line([(above[1], y), (right, below)], dash=True)

    def bits(self, x, y, width, parts):
        """The bits of a word, the highest left, each part as (low, high, fill, line, ..), with bit numbers above.

        A part is as wide as its name, and the one with the most bits has the rest."""
        parts = sorted(parts, key=lambda part: -part[1])
        wide = [max(64, 10 * len(part[3])) for part in parts]
        most = max(range(len(parts)), key=lambda i: parts[i][1] - parts[i][0])
        wide[most] += width - sum(wide)
        for (low, high, fill, *lines), room in zip(parts, wide):
            self.box(x, y, room, 46, fill, *lines)
            if low == high:
                self.text(x + room / 2, y - 6, str(low), 12, fill=SOFT)
            else:
                self.text(x + 4, y - 6, str(high), 12, "start", fill=SOFT)
                self.text(x + room - 4, y - 6, str(low), 12, "end", fill=SOFT)
            x += room

    def svg(self):
        return "\n".join(self.parts + ["</svg>", ""])
