"""Below the panels: the key to shades and colours, and the list of rows with those marked that the move works out anew."""
from . import rules, table
from .drawing import BOLD, CHOSEN, GROUND, HEAD, MET, MOVED, WATER, line_style, rectangle, ring, text
from .panel import layer, most_heads

LINE = 18
MOST_LINES = 60         # of the list of rows


def shades(x, y, scenes):
    """A patch for each number of heads, laid as the panels lay it."""
    parts = [text(x, y + 13, 'heads that water it:', 12)]
    for count in range(most_heads(scenes) + 1):
        left = x + 122 + 26 * count
        patch = rectangle(left, y, left + 22, y + 16)
        parts += [patch + ' fill="%s" stroke="#999"/>' % GROUND] + [patch + ' fill="%s" fill-opacity="%s"/>' % (WATER, layer(scenes))] * count
        parts.append(text(left + 11, y + 29, str(count), 11, 'middle'))
    return parts


def closed_words(mask):
    """That the heads of a mask are closed."""
    return table.heads_named(mask) + (' are closed' if mask & (mask - 1) else ' is closed')


def chosen_words(scenes, chosen):
    """What the outline of the chosen heads shows; a scene that has one of them closed has none."""
    heads = ', '.join(str(i) for i in chosen)
    words = 'what heads %s share in the box' % heads if len(chosen) > 1 else 'what head %s waters in the box' % heads
    before, after = [rules.closed_in(scene.heads) & sum(1 << i for i in chosen) for scene in (scenes[0], scenes[-1])]
    # a move turns one head alone, so where both have a closed one they have the same one
    if before & after:
        return '%s: nothing, %s' % (words, closed_words(before & after))
    if before or after:
        return '%s; %s the move nothing: %s' % (words, 'before' if before else 'after', closed_words(before or after))
    return words


def sample(colour, thick, dashes):
    """A piece of a line of the key."""
    return lambda x, y: '<path d="M%d %d h26"' % (x, y) + line_style(colour, thick, dashes)


def lines_of(scenes, chosen):
    """What the key explains: how it is drawn at a place, and words."""
    lines = []
    if scenes[-1].moved is not None:
        lines += [(sample(MOVED, 2.6, ''), 'the moved head'), (sample(MOVED, 1.4, '7 4'), 'where it was')]
        lines += [(sample(MET, 1.8, ''), 'heads that it meets before or after')] if scenes[-1].met else []
    if any(rules.closed_in(scene.heads) for scene in scenes):
        lines.append((lambda x, y: ring(x + 13, y, HEAD), 'closed, radius 0: waters nothing'))
    if chosen:
        lines.append((sample(CHOSEN, 3.4, ''), chosen_words(scenes, chosen)))
    return lines


def key(x, y, width, scenes, chosen):
    """The key: shades by number of heads, colours of lines. Its parts, and the height that they take."""
    parts, lines, at, down = shades(x, y, scenes), lines_of(scenes, chosen), x, y + 38
    for drawn, words in lines:
        if at > x and at + 36 + 6.6 * len(words) > x + width:
            at, down = x, down + LINE
        parts += [drawn(at, down + 8), text(at + 32, down + 12, words, 12)]
        at += 50 + 6.6 * len(words)
    return parts, (down + LINE if lines else y + 34) - y


def remark_of(mask, before, after):
    """What a move did to a row: (mark, words)."""
    if mask not in after.rows:
        return 'gone', 'no more present'
    if mask not in before.rows:
        return 'anew', 'newly present'
    if rules.reworked(mask, after.moved, after.met, before.rows):
        return 'anew', 'worked out anew'
    shown = [table.square_metres(scene.rows[mask]) for scene in (before, after)]
    return '', 'kept' if shown[0] == shown[1] else 'kept; rows within it changed'


def listed(scenes):
    """The lines of the list of rows: (mark, heads, area before, area after, remark), the first being the names of the columns."""
    before, after = scenes[0], scenes[-1]
    masks = sorted(set(before.rows) | set(after.rows), key=lambda mask: (bin(mask).count('1'), mask))
    if len(scenes) == 1:
        return [('', 'heads', '', 'area m²', '')] + [('', table.heads_of(mask), '', table.square_metres(after.rows[mask]), '') for mask in masks]
    lines = [('', 'heads', 'm² before', 'm² after', '')]
    for mask in masks:
        areas = [table.square_metres(scene.rows[mask]) if mask in scene.rows else 'no row' for scene in scenes]
        mark, remark = remark_of(mask, before, after)
        lines.append((mark, table.heads_of(mask), *areas, remark))
    return lines


def chosen_lines(lines):
    """The lines to show, in row order, and those that are left out: where there are too many, those of next to no area go first."""
    empty = lambda line: all(area in ('', 'no row', table.square_metres(0), table.square_metres(0.1)) for area in line[2:4])
    kept = sorted(range(len(lines)), key=lambda i: (empty(lines[i]), i))[:MOST_LINES]
    return [lines[i] for i in sorted(kept)], [line for i, line in enumerate(lines) if i not in kept]


def row_line(x, base, line, places, style):
    """One line of the list."""
    mark, heads, before, after, remark = line
    parts = []
    if mark:
        square = rectangle(x + 2, base - 9, x + 11, base)
        parts.append(square + ' fill="%s" stroke="%s"/>' % (MOVED if mark == 'anew' else 'none', MOVED))
    parts.append(text(x + places[0], base, heads, 12, style=style))
    parts += [text(x + places[1], base, before, 12, 'end', style)] if before else []
    return parts + [text(x + places[2], base, after, 12, 'end', style), text(x + places[3], base, remark, 12, style=style)]


def row_list(x, y, width, scenes):
    """The list of rows in columns that fit the width. Its parts, and the height that it takes."""
    head, *lines = listed(scenes)
    shown, hidden = chosen_lines(lines)
    second = 88 * (len(scenes) - 1)
    first = 18 + 80 + 7.4 * max(len(line[1]) for line in shown + [head])
    places = [18, first, first + second, first + second + 10]
    column = places[3] + 14 + 6.7 * max(len(line[4]) for line in shown + [head])
    deep = -(-len(shown) // max(1, int(width // column)))
    parts = []
    for c in range(-(-len(shown) // deep)):
        for r, line in enumerate([head] + shown[c * deep:(c + 1) * deep]):
            parts += row_line(x + c * column, y + LINE * (r + 1) - 4, line, places, BOLD if r == 0 or line[0] else '')
    height = LINE * (deep + 1) + 6
    if hidden:
        anew = sum(1 for line in hidden if line[0] == 'anew')
        words = 'and %d more rows' % len(hidden) + (', %d of them worked out anew' % anew if len(scenes) > 1 else '')
        parts.append(text(x + places[0], y + height + 8, words, 12))
        height += LINE
    return parts, height


def summary(scenes):
    """A line on the rows: how many the move worked out anew, and how many it kept."""
    lines = listed(scenes)[1:]
    if len(scenes) == 1:
        return 'one row' if len(lines) == 1 else '%d rows' % len(lines)
    count = lambda remark: sum(1 for line in lines if line[4].startswith(remark))
    anew = sum(1 for line in lines if line[0] == 'anew')
    newly, kept, gone = count('newly present'), count('kept'), count('no more present')
    return 'rows: %d worked out anew (%d of them newly present), %d kept, %d no more present' % (anew, newly, kept, gone)
