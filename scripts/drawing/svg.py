"""Pictures in SVG: shapes and texts on a white ground of their own, with the fonts that whoever looks has."""

from html import escape

MONOSPACE = "ui-monospace, SFMono-Regular, Menlo, Consolas, 'DejaVu Sans Mono', monospace"
SANS = "'DejaVu Sans', Verdana, 'Segoe UI', Arial, sans-serif"
# How wide a sign of these fonts is, in parts of its size: in the first all are, in the second those of each kind, of the widest such font.
MONOSPACE_WIDTH = 0.605
NARROW, WIDE = "ijl.,:;'|! ()", "mwMW%@"


def number(value):
    """A number as SVG says it: one place behind the point at most, so that the same picture is always the same text."""
    return f"{round(value, 1):g}"


def width_of(text, size, is_code=False):
    """How wide a text is at most, where its font has this size."""
    if is_code:
        return len(text) * size * MONOSPACE_WIDTH
    return size * sum(0.34 if sign in NARROW else 0.96 if sign in WIDE else 0.61 for sign in text)


def attributes(given):
    """The attributes of an element; `stroke_width` is said `stroke-width`, and None isn't said."""
    for name, value in given.items():
        if value is not None:
            said = value if isinstance(value, str) else number(value)
            yield f' {name.rstrip("_").replace("_", "-")}="{escape(said)}"'


class Svg:
    """A picture that grows element by element, each over those before it."""

    def __init__(self, title, description):
        self.title, self.description = title, description
        self.elements, self.definitions = [], []

    def add(self, element, content=None, hint=None, **given):
        """Adds an element; the hint is what is told of it to who points at it."""
        told = f"<title>{escape(hint)}</title>" if hint else ""
        inside = told + (escape(content) if content is not None else "")
        end = f">{inside}</{element}>" if inside else "/>"
        self.elements.append(f"<{element}{''.join(attributes(given))}{end}")

    def define(self, definition):
        """Adds something that elements may refer to."""
        self.definitions.append(definition)

    def text(self, x, y, content, size=11, is_code=False, turned=0, **given):
        """Adds a text, turned clockwise by so many degrees around where it begins."""
        turn = f"rotate({number(turned)} {number(x)} {number(y)})" if turned else None
        family = "code" if is_code else None
        self.add("text", content, x=x, y=y, font_size=size, class_=family, transform=turn, **given)

    def line(self, *points, **given):
        """Adds a line through these points."""
        path = "M" + " L".join(f"{number(x)} {number(y)}" for x, y in points)
        self.add("path", d=path, fill="none", **given)

    def whole(self, width, height):
        """The text of the picture, of this size."""
        size = f'width="{number(width)}" height="{number(height)}" viewBox="0 0 {number(width)} {number(height)}"'
        yield f'<svg xmlns="http://www.w3.org/2000/svg" {size} role="img" fill="#222" font-family="{escape(SANS)}">'
        yield f"<title>{escape(self.title)}</title>"
        yield f"<desc>{escape(self.description)}</desc>"
        yield f"<style>.code {{ font-family: {MONOSPACE} }}</style>"
        yield f"<defs>{''.join(self.definitions)}</defs>"
        yield f'<rect width="{number(width)}" height="{number(height)}" fill="#fff"/>'
        yield from self.elements
        yield "</svg>"


def arrow_head(name, colour):
    """The head of an arrow of this colour, which `url(#NAME)` ends a line with."""
    shape = f'<path d="M0 0 L8 4 L0 8 z" fill="{colour}"/>'
    place = 'viewBox="0 0 8 8" refX="7" refY="4" markerWidth="8" markerHeight="8"'
    return f'<marker id="{name}" {place} markerUnits="userSpaceOnUse" orient="auto">{shape}</marker>'


def hatching(name, ground, colour):
    """A ground with slanted lines, which `url(#NAME)` fills a shape with."""
    shape = f'<rect width="6" height="6" fill="{ground}"/><path d="M0 6 L6 0" stroke="{colour}" stroke-width="1.2"/>'
    return f'<pattern id="{name}" width="6" height="6" patternUnits="userSpaceOnUse">{shape}</pattern>'
