"""From the ground to the paper: which part of the ground is drawn, and the shapes of heads and box on it. y goes up on the ground."""
import math

from .drawing import rectangle

MARGIN = 0.06           # of the view, around what is shown
LARGEST = 4000          # a circle of more pixels than this is drawn as the part of it that is in the view


def window(box, heads, zoomed):
    """The part of the ground to draw: (left, bottom, right, top). It is the box and what the heads reach, at most a fifth of
    the box's longer side past it; or, if heads are chosen to zoom in on, what these reach."""
    x, y, width, height = box
    left, bottom, right, top = x - width / 2, y - height / 2, x + width / 2, y + height / 2
    if zoomed:
        left, bottom = min(h[0] - h[2] for h in zoomed), min(h[1] - h[2] for h in zoomed)
        right, top = max(h[0] + h[2] for h in zoomed), max(h[1] + h[2] for h in zoomed)
    else:
        past = max(width, height) / 5
        left, bottom = (max(low - past, min([low] + [h[i] - h[2] for h in heads])) for i, low in enumerate((left, bottom)))
        right, top = (min(high + past, max([high] + [h[i] + h[2] for h in heads])) for i, high in enumerate((right, top)))
    # a closed head reaches no further than its centre: then a tenth of the box's longer side is drawn
    longer = max(right - left, top - bottom) or max(width, height) / 10
    # no side is drawn at less than a third of the other
    wide, high = max(right - left, longer / 3), max(top - bottom, longer / 3)
    around = MARGIN * longer
    middle = ((left + right) / 2, (bottom + top) / 2)
    return (middle[0] - wide / 2 - around, middle[1] - high / 2 - around, middle[0] + wide / 2 + around, middle[1] + high / 2 + around)


class View:
    """A panel of the paper, `width` pixels wide with its left upper corner at (at_x, at_y), that shows a window of the ground."""

    def __init__(self, ground, at_x, at_y, width):
        self.left, self.bottom, self.right, self.top = ground
        self.at_x, self.at_y, self.width = at_x, at_y, width
        self.scale = width / (self.right - self.left)
        self.height = (self.top - self.bottom) * self.scale

    def point(self, x, y):
        return self.at_x + (x - self.left) * self.scale, self.at_y + (self.top - y) * self.scale

    def shows(self, px, py, edge=0):
        """Whether a point of the paper is in the panel, `edge` pixels from its border."""
        return self.at_x + edge <= px <= self.at_x + self.width - edge and self.at_y + edge <= py <= self.at_y + self.height - edge

    def frame(self, more=0):
        """The panel's sides on the paper, `more` pixels outside it."""
        return self.at_x - more, self.at_y - more, self.at_x + self.width + more, self.at_y + self.height + more

    def rectangle(self, box):
        """The box, as an SVG element without its style. What lies far outside the panel is cut off."""
        x, y, width, height = box
        low, high = self.point(x - width / 2, y + height / 2), self.point(x + width / 2, y - height / 2)
        left, upper, right, lower = self.frame(50)
        return rectangle(max(low[0], left), max(low[1], upper), min(high[0], right), min(high[1], lower))

    def circle(self, head):
        """A head, as an SVG element without its style."""
        (cx, cy), radius = self.point(head[0], head[1]), head[2] * self.scale
        if radius <= LARGEST:
            return '<circle cx="%.2f" cy="%.2f" r="%.2f"' % (cx, cy, radius)
        return '<polygon points="%s"' % ' '.join('%.2f,%.2f' % p for p in self.part(cx, cy, radius))

    def part(self, cx, cy, radius):
        """The corners of a polygon for what a large circle covers of the panel and 50 pixels around it."""
        left, upper, right, lower = self.frame(50)
        on_edge = lambda angle: (cx + radius * math.cos(angle), cy + radius * math.sin(angle))
        inside = lambda x, y: left - 1e-6 <= x <= right + 1e-6 and upper - 1e-6 <= y <= lower + 1e-6
        angles = []
        for side, c, at in ((left, cx, 0), (right, cx, 0), (upper, cy, 1), (lower, cy, 1)):
            if abs(side - c) <= radius:
                turn = math.acos((side - c) / radius)
                angles += [turn, -turn] if at == 0 else [math.pi / 2 - turn, math.pi / 2 + turn]
        angles = sorted(angle % math.tau for angle in angles)
        corners = (left, upper), (right, upper), (right, lower), (left, lower)
        points = [corner for corner in corners if math.dist(corner, (cx, cy)) <= radius]
        for a, b in zip(angles, angles[1:] + [angle + math.tau for angle in angles[:1]]):
            if inside(*on_edge((a + b) / 2)):
                points += [on_edge(a + (b - a) * i / 60) for i in range(61)]
        if not points:
            return []
        # what two convex shapes share is convex: its corners go by their angle about a point within
        mx, my = sum(p[0] for p in points) / len(points), sum(p[1] for p in points) / len(points)
        return sorted(points, key=lambda p: math.atan2(p[1] - my, p[0] - mx))
