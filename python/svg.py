"""A picture as SVG text: shapes and texts, and how much room a text takes."""

from xml.sax.saxutils import escape, quoteattr

FONT = "DejaVu Sans, Arial, Helvetica, sans-serif"
CHARACTER = 0.62  # of the size: the width of a character, on the wide side


def text_width(text, size):
    """How wide a text is at most, near enough to keep others off it."""
    return CHARACTER * size * len(text)


class Picture:
    """Elements in the order in which they are drawn, and the boxes that texts and marks have taken."""

    def __init__(self):
        self.elements = []
        self.boxes = []

    def add(self, name, text=None, **attributes):
        words = "".join(f" {key.rstrip('_').replace('_', '-')}={quoteattr(number(x))}" for key, x in attributes.items())
        self.elements.append(f"<{name}{words}/>" if text is None else f"<{name}{words}>{escape(text)}</{name}>")

    def line(self, x1, y1, x2, y2, stroke, width=1, **more):
        self.add("line", x1=x1, y1=y1, x2=x2, y2=y2, stroke=stroke, stroke_width=width, **more)

    def path(self, points, stroke, width=1.8, **more):
        """A line through points."""
        steps = " ".join(f"{'ML'[i > 0]}{number(x)} {number(y)}" for i, (x, y) in enumerate(points))
        self.add("path", d=steps, fill="none", stroke=stroke, stroke_width=width, **more)

    def text(self, x, y, text, size=13, anchor="start", fill="#222222", **more):
        self.add("text", text, x=x, y=y, font_size=size, text_anchor=anchor, fill=fill, **more)
        left = x - {"start": 0, "middle": 0.5, "end": 1}[anchor] * text_width(text, size)
        if "transform" not in more:
            self.boxes.append((left, y - 0.8 * size, left + text_width(text, size), y + 0.2 * size))

    def taken(self, box):
        """How many of the boxes that are taken a box overlaps."""
        left, top, right, bottom = box
        return sum(left < r and l < right and top < b and t < bottom for l, t, r, b in self.boxes)

    def whole(self, width, height, title):
        """The picture as the text of a file."""
        head = (
            f'<svg xmlns="http://www.w3.org/2000/svg" width="{number(width)}" height="{number(height)}"'
            f' viewBox="0 0 {number(width)} {number(height)}" font-family="{FONT}">'
        )
        paper = f'<rect width="{number(width)}" height="{number(height)}" fill="#ffffff"/>'
        return "\n".join([head, f"<title>{escape(title)}</title>", paper, *self.elements, "</svg>"]) + "\n"


def number(x):
    """A coordinate with two decimals at most; a text as it is."""
    return x if isinstance(x, str) else f"{x:.2f}".rstrip("0").rstrip(".")
