"""A plan as a picture in SVG: the box, the heads with their numbers (a closed one as a small ring), ground shaded by how many heads water it,
the outline of a chosen set; before and after a move side by side, with the rows that the move works out anew marked below. The areas are those
that `rows` gives; the drawing itself claims nothing."""
import argparse
import re

from . import rules, table
from .drawing import BOLD, document, metres, text
from .file import Plan, heads_after, values
from .legend import key, row_list, summary
from .panel import Panel, Scene, layer
from .view import View, window
from .why import counted

WIDE = {1: 620, 2: 460}     # a panel, where there is one and where there are two
SPACE = 24
TOP = 84                    # where the panels begin


class NotDrawn(Exception):
    """What was asked for is not in the plan."""


def set_of(words):
    """The head numbers of `0,2` on the command line."""
    if not re.fullmatch(r'[0-9]{1,3}(,[0-9]{1,3})*', words):
        raise argparse.ArgumentTypeError('expected head numbers with commas between them, such as 0,2')
    return sorted(set(int(word) for word in words.split(',')))


def has_heads(chosen, plan, option):
    """The chosen heads, if the plan has them."""
    if chosen and chosen[-1] >= len(plan.heads):
        raise NotDrawn('%s has head %d; the plan has %s' % (option, chosen[-1], table.heads_in(plan)))
    return chosen or []


def scenes_of(plan, edit, program):
    """The plan, or the plan before and after a move, with their rows. Raises Refused, NoProgram, NotDrawn."""
    last = table.rows_of(plan, program)
    edit = len(plan.moves) if edit is None else edit
    if edit > len(plan.moves):
        raise NotDrawn('there is no move %d; the plan has %s' % (edit, counted(len(plan.moves), 'moves')))
    rows_after = lambda count: last if count == len(plan.moves) else table.rows_of(Plan(plan.box, plan.heads, plan.moves[:count]), program)
    if edit == 0:
        return [Scene('before all moves' if plan.moves else '', heads_after(plan, 0), rows_after(0))]
    k, before, after = plan.moves[edit - 1].head, heads_after(plan, edit - 1), heads_after(plan, edit)
    met = rules.met(before, k, [before[k], after[k]])
    return [Scene('before move %d' % edit, before, rows_after(edit - 1), k, met), Scene('after move %d' % edit, after, rows_after(edit), k, met, before[k])]


def told(scenes):
    """The move in a line."""
    if len(scenes) == 1:
        return ''
    k, old, new = scenes[1].moved, scenes[1].old, scenes[1].heads[scenes[1].moved]
    changed = ['from (%d, %d) to (%d, %d)' % (*old[:2], *new[:2])] if old[:2] != new[:2] else []
    changed += ['radius from %d to %d' % (old[2], new[2])] if old[2] != new[2] else []
    changed += [rules.turned(old, new)] if rules.turned(old, new) else []
    return 'head %d: %s' % (k, ', '.join(changed) or 'stays as it is')


def svg(plan, chosen=None, edit=None, program=None, zoom=None):
    """The picture of a plan: the outline of the chosen set, before and after the edit (its number, from 1), the ground that the heads in
    `zoom` reach or the whole box."""
    scenes = scenes_of(plan, edit, program)
    chosen, zoom = has_heads(chosen, plan, '--set'), has_heads(zoom, plan, '--zoom')
    box, wide = values(plan)[0], WIDE[len(scenes)]
    ground = window(box, [head for scene in scenes for head in scene.heads], [scene.heads[i] for scene in scenes for i in zoom])
    views = [View(ground, SPACE + i * (wide + SPACE), TOP, wide) for i in range(len(scenes))]
    width = len(scenes) * (wide + SPACE) - SPACE
    title = 'box %s m by %s m, centre (%d, %d); %s' % (metres(box[2]), metres(box[3]), box[0], box[1], counted(len(plan.heads), 'heads'))
    parts = [text(SPACE, 26, title, 15), text(SPACE, 48, told(scenes), 15)]
    for scene, view, name in zip(scenes, views, 'ab'):
        parts += Panel(scene, box, view, chosen, layer(scenes), name).draw()
    down = TOP + views[0].height + 30
    more, height = key(SPACE, down, width, scenes, chosen)
    parts, down = parts + more, down + height + 12
    parts.append(text(SPACE, down + 12, summary(scenes), 13, style=BOLD))
    more, height = row_list(SPACE, down + 20, width, scenes)
    return document(width + 2 * SPACE, down + 20 + height + SPACE, parts + more)
