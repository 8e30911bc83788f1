"""What the parts of a picture have in common: colours, text, and the SVG document."""
from xml.sax.saxutils import escape

INK, FAINT, GROUND, WATER = '#222', '#bbb', '#f6f1e2', '#1f6fb2'
HEAD, MOVED, MET, CHOSEN = '#31618c', '#c8400a', '#7a3fa0', '#000'
BOLD, ITALIC = ' font-weight="bold"', ' font-style="italic"'
RING = 6                # the radius of a closed head on the paper, whatever the scale
FONT = 'DejaVu Sans, Verdana, sans-serif'


def text(x, y, words, size=13, anchor='start', style=''):
    return '<text x="%.1f" y="%.1f" font-size="%s" text-anchor="%s"%s>%s</text>' % (x, y, size, anchor, style, escape(words))


def rectangle(left, upper, right, lower):
    """A rectangle by its sides, without its style."""
    return '<rect x="%.2f" y="%.2f" width="%.2f" height="%.2f"' % (left, upper, max(right - left, 0), max(lower - upper, 0))


def line_style(colour, width, dashes=''):
    return ' fill="none" stroke="%s" stroke-width="%s"%s/>' % (colour, width, ' stroke-dasharray="%s"' % dashes if dashes else '')


def ring(x, y, colour, dashes=''):
    """A closed head: a small ring with nothing in it."""
    return '<circle cx="%.2f" cy="%.2f" r="%d"' % (x, y, RING) + line_style(colour, 2, dashes)


def metres(length):
    return ('%.2f' % (length / 100)).rstrip('0').rstrip('.')


def document(width, height, parts):
    """The SVG document; hatch is the pattern for the chosen set."""
    opening = '<svg xmlns="http://www.w3.org/2000/svg" width="%d" height="%d" viewBox="0 0 %d %d" font-family="%s" fill="%s">'
    hatch = ('<defs><pattern id="hatch" width="7" height="7" patternUnits="userSpaceOnUse" patternTransform="rotate(45)">'
             '<path d="M0 0 v7" stroke="%s" stroke-width="1.3"/></pattern></defs>' % CHOSEN)
    lines = ['<?xml version="1.0" encoding="UTF-8"?>', opening % (width, height, width, height, FONT, INK), hatch]
    return '\n'.join(lines + [rectangle(0, 0, width, height) + ' fill="#fff"/>'] + parts + ['</svg>']) + '\n'
