"""One panel of the picture: the plan at one moment."""
from . import rules
from .drawing import BOLD, CHOSEN, FAINT, GROUND, HEAD, INK, ITALIC, MET, MOVED, WATER, line_style, metres, rectangle, ring, text

# Where a label may stand about its centre: right, left and up by these parts of its width, and pixels beyond.
SPOTS = ((0, 0, -9), (0.5, 6, 5), (-0.5, -6, 5), (0, 0, 19), (0.5, 4, -7), (-0.5, -4, 17))
REACHES = (1, 1.7, 2.6, 3.6, 5)


class Scene:
    """The plan at one moment: its heads, its rows {mask: area}, the moved head, the heads that it meets, and where it was."""

    def __init__(self, title, heads, rows, moved=None, met=0, old=None):
        self.title, self.heads, self.rows, self.moved, self.met, self.old = title, heads, dict(rows), moved, met, old


def most_heads(scenes):
    return max(bin(mask).count('1') for scene in scenes for mask in scene.rows)


def layer(scenes):
    """How much of WATER each head lays over the ground: three quarters where most heads water it, and not more than 0.28 for one."""
    return round(min(0.28, 1 - 0.25 ** (1 / max(most_heads(scenes), 1))), 3)


class Panel:
    """A scene on the paper. `name` keeps the names of its clip paths apart from the other panel's."""

    def __init__(self, scene, box, view, chosen, shade, name):
        self.scene, self.box, self.view, self.chosen, self.shade, self.name = scene, box, view, chosen, shade, name

    def clips(self):
        """Clip paths: the panel, the box, and each head that is not closed."""
        shapes = {'view': rectangle(*self.view.frame()), 'box': self.view.rectangle(self.box)}
        shapes.update((str(i), self.view.circle(head)) for i, head in enumerate(self.scene.heads) if not rules.is_closed(head))
        return ['<clipPath id="%s-%s">%s/></clipPath>' % (self.name, key, shape) for key, shape in shapes.items()]

    def clipped(self, names, body):
        """The body, clipped by the panel and by each of the clip paths named."""
        opened = ''.join('<g clip-path="url(#%s-%s)">' % (self.name, name) for name in ['view'] + names)
        return opened + body + '</g>' * (1 + len(names))

    def look(self, i):
        """The colour and the width of head i's outline."""
        return (MOVED, 2.6) if i == self.scene.moved else (MET, 1.8) if self.scene.met >> i & 1 else (HEAD, 1.1)

    def ground(self):
        """The ground, a layer of water for each head in the box, and the heads' outlines, broken outside the box; a ring for a closed head."""
        circles = [(i, self.view.circle(head)) for i, head in enumerate(self.scene.heads) if not rules.is_closed(head)]
        box = self.view.rectangle(self.box)
        parts = [self.clipped([], box + ' fill="%s"/>' % GROUND)]
        parts += [self.clipped(['box'], circle + ' fill="%s" fill-opacity="%s"/>' % (WATER, self.shade)) for _, circle in circles]
        parts += [self.clipped([], circle + ' stroke-opacity="0.55"' + line_style(*self.look(i), '3 4')) for i, circle in circles]
        parts += [self.clipped(['box'], circle + line_style(*self.look(i))) for i, circle in circles]
        parts += [self.clipped([], self.closed(head, self.look(i)[0])) for i, head in enumerate(self.scene.heads) if rules.is_closed(head)]
        if self.scene.old:
            closed = rules.is_closed(self.scene.old)
            was = self.closed(self.scene.old, MOVED, '3 2') if closed else self.view.circle(self.scene.old) + line_style(MOVED, 1.4, '7 4')
            parts.append(self.clipped([], was))
        return parts + [self.clipped([], box + line_style(INK, 1.6)), rectangle(*self.view.frame()) + line_style(FAINT, 1)]

    def closed(self, head, colour, dashes=''):
        return ring(*self.view.point(head[0], head[1]), colour, dashes)

    def outline(self):
        """What the chosen heads share in the box: hatched, and its outline by pieces, each clipped by the other heads. With a closed head it is nothing."""
        if not self.chosen or any(rules.is_closed(self.scene.heads[i]) for i in self.chosen):
            return []
        heads, box, line = [str(i) for i in self.chosen], self.view.rectangle(self.box), line_style(CHOSEN, 3.4)
        parts = [self.clipped(['box'] + heads, box + ' fill="url(#hatch)"/>'), self.clipped(heads, box + line)]
        for i in self.chosen:
            others = [j for j in heads if j != str(i)]
            parts.append(self.clipped(['box'] + others, self.view.circle(self.scene.heads[i]) + line))
        return parts

    def labels(self):
        """A dot and a number at each centre; heads whose centres fall together share a label, the closed ones, which have rings for dots, one of their
        own. For a centre outside the panel an arrow."""
        parts, taken, groups = [], [], {}
        for i, head in enumerate(self.scene.heads):
            px, py = self.view.point(head[0], head[1])
            groups.setdefault((round(px / 3), round(py / 3), rules.is_closed(head)), []).append((i, px, py))
        for (_, _, closed), group in groups.items():
            numbers, (_, px, py) = [i for i, _, _ in group], group[0]
            words = ','.join(str(i) for i in numbers)
            colour = MOVED if self.scene.moved in numbers else MET if any(self.scene.met >> i & 1 for i in numbers) else INK
            if not self.view.shows(px, py):
                px, py, arrow = self.border(px, py, colour)
                parts.append(arrow)
            elif not closed:
                parts.append('<circle cx="%.2f" cy="%.2f" r="2.6" fill="%s"/>' % (px, py, colour))
            x, y = self.free(px, py, 8 * len(words) + 4, taken)
            halo = ' fill="%s" stroke="#fff" stroke-width="3" paint-order="stroke"' % colour
            parts.append(text(x, y, words, 14, 'middle', (ITALIC if closed else BOLD) + halo))
        return parts

    def border(self, px, py, colour):
        """The place at the border towards a point outside, and an arrow there."""
        left, upper, right, lower = self.view.frame(-9)
        mx, my = (left + right) / 2, (upper + lower) / 2
        dx, dy = px - mx, py - my
        past, length = max(abs(dx) / (right - mx), abs(dy) / (lower - my)), (dx * dx + dy * dy) ** 0.5
        x, y, ux, uy = mx + dx / past, my + dy / past, dx / length, dy / length
        corners = [(7, 0), (-5, 5), (-5, -5)]
        points = ' '.join('%.1f,%.1f' % (x + a * ux - b * uy, y + a * uy + b * ux) for a, b in corners)
        return x, y, '<polygon points="%s" fill="%s"/>' % (points, colour)

    def free(self, px, py, width, taken):
        """Where a label near (px, py) lies in the panel and over no other label: the middle of its base line, noted in `taken`."""
        spots = [(px + reach * (part * width + right), py + reach * up) for reach in REACHES for part, right, up in SPOTS]
        room = lambda spot: (spot[0] - width / 2, spot[1] - 12, spot[0] + width / 2, spot[1] + 3)
        apart = lambda a, b: a[2] <= b[0] or b[2] <= a[0] or a[3] <= b[1] or b[3] <= a[1]
        shown = lambda a: self.view.shows(a[0], a[1]) and self.view.shows(a[2], a[3])
        found = [spot for spot in spots if shown(room(spot)) and all(apart(room(spot), other) for other in taken)]
        spot = (found or spots)[0]
        taken.append(room(spot))
        return spot

    def bar(self):
        """A bar of a round length, at most three tenths of the panel if a centimetre is."""
        most, length = self.view.width * 0.3 / self.view.scale, 1
        while length * 10 <= most:
            length *= 10
        length *= max(f for f in (1, 2, 5) if f * length <= most or f == 1)
        x, y, wide = self.view.at_x + 8, self.view.at_y + self.view.height + 14, length * self.view.scale
        bar = '<path d="M%.1f %.1f v-8 m0 4 h%.1f m0 -4 v8"' % (x, y, wide) + line_style(INK, 1)
        return [bar, text(x + wide + 6, y, '%s m' % metres(length), 12)]

    def draw(self):
        title = text(self.view.at_x, self.view.at_y - 8, self.scene.title, 14, style=BOLD)
        return self.clips() + [title] + self.ground() + self.outline() + self.labels() + self.bar()
