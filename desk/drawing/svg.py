"""Pieces of SVG as text, and the words of a picture."""
from html import escape

INK, PALE, FAINT, PAPER = "#22303c", "#6b7b89", "#e6eaee", "#ffffff"
OVER = "#d0021b"      # what is wrong; nothing else is red
LETTER = 0.55         # the width of a letter, of its height: Helvetica's digits, and more than its words need


def said(value):
    return f"{value:.1f}".removesuffix(".0") if isinstance(value, float) else escape(str(value))


def element(kind, *inner, **attributes):
    """`class_` is the attribute class, and `font_size` font-size; None leaves one out."""
    words = "".join(f' {name.rstrip("_").replace("_", "-")}="{said(value)}"' for name, value in attributes.items() if value is not None)
    inside = "".join(inner)
    return f"<{kind}{words}>{inside}</{kind}>" if inside else f"<{kind}{words}/>"


def tip(words):
    """What shows under the pointer."""
    return element("title", escape(words))


def text(x, y, words, size, **attributes):
    return element("text", escape(words), x=float(x), y=float(y), font_size=float(size), **attributes)


def path(*steps):
    """A path's d: of each step its letter and its numbers."""
    return "".join(letter + " ".join(said(float(number)) for number in numbers) for letter, *numbers in steps)


def width(words, size):
    """About what words take; letters from U+2E80 on are mostly twice as wide."""
    return sum(2 if letter >= "\u2e80" else 1 for letter in words) * size * LETTER


def counted(number, word):
    return f"{number:,} {word}" + "s" * (number != 1)


def signed(number):
    """With commas, and with the minus sign of a printed page."""
    return f"{number:,}".replace("-", "−")
