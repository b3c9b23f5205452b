"""Pieces of pictures: elements of SVG as text, their words escaped, and cut to a number of columns where they are long."""
import re
import unicodedata
from xml.sax.saxutils import escape, quoteattr

# the width of a column and the height of a line, of the letters that labels are written in
COLUMN, LINE = 6.65, 14
# blue, vermilion, green, purple, ochre, sky, black, violet: told apart by most eyes, and dark enough on paper
COLOURS = ("#0b62a4", "#c44601", "#00795a", "#a8477d", "#80621a", "#2a8fc1", "#333333", "#6a4aa5")
STYLE = """
text { font: 11px "DejaVu Sans Mono", Menlo, Consolas, monospace; fill: #222; }
.over { paint-order: stroke; stroke: white; stroke-width: 3px; stroke-linejoin: round; }
.strong { font-weight: bold; } .faint { fill: #666; } .large { font-size: 13px; }
"""


def plain(words):
    """Returns the words with each character that XML has no place for written as JSON writes it."""
    return re.sub("[^\t\n\r\x20-\ud7ff\ue000-\ufffd\U00010000-\U0010ffff]", lambda it: f"\\u{ord(it[0]):04x}", words)


def columns(words):
    """Returns how many columns the words take."""
    return sum(2 if unicodedata.east_asian_width(it) in "WF" else 0 if unicodedata.combining(it) else 1 for it in plain(words))


def wide(*lines):
    """Returns the width of the widest of these lines."""
    return COLUMN * max(map(columns, lines), default=0)


def cut(words, most):
    """Returns the words, or as many of them as fit, and three dots."""
    if columns(words) <= most:
        return words
    kept, room = "", most - 1
    for it in words:
        room -= columns(it)
        if room < 0:
            break
        kept += it
    return f"{kept}…"


def shown(value):
    return f"{value:.1f}".removesuffix(".0") if isinstance(value, float) else str(value)


def element(tag, *inside, **attributes):
    """Returns an element. What stands inside is SVG already; in a name, `_` stands for `-`, and one at its end is left out."""
    words = [f"{name.rstrip('_').replace('_', '-')}={quoteattr(shown(value))}" for name, value in attributes.items()]
    return f"<{' '.join([tag, *words])}>{''.join(inside)}</{tag}>\n"


def text(x, y, words, **attributes):
    return element("text", escape(plain(words)), x=float(x), y=float(y), **attributes)


def title(words):
    """Returns what a reader is told who points at the element around it."""
    return element("title", escape(plain(words)))


def line(x, y, to_x, to_y, **attributes):
    return element("line", x1=float(x), y1=float(y), x2=float(to_x), y2=float(to_y), **attributes)


def picture(width, height, about, *inside):
    """Returns a whole picture on white ground."""
    sizes = {"width": round(width), "height": round(height), "viewBox": f"0 0 {round(width)} {round(height)}"}
    ground = element("rect", width="100%", height="100%", fill="white")
    return element("svg", title(about), element("style", STYLE), ground, *inside, xmlns="http://www.w3.org/2000/svg", role="img", **sizes)
