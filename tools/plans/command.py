"""The command line of tools/plan. All output is made before any of it is written."""
import argparse
import contextlib
import os
import sys

from . import file, library, picture, table, text, why
from .places import PLAN

HELP = """Plans as text, as plan files, as tables and as pictures.

Without an option a text becomes the bytes of a plan file. A text has one thing a line, in centimetres:

    box 0 0 4000 3000       # centre x, centre y, width, height
    head 100 200 500        # head 0: x, y, radius
    head -600 0 800         # head 1
    move 1 -550 - -         # an edit: head 1 goes to x -550; its y and its radius stay

A head of radius 0 is closed, as by `head 100 200 0` or `move 1 - - 0`: it keeps its number and its place, waters nothing and has no row
until a move gives it a radius again.

`-` leaves a field out of the file: then the box has 0, 0, 40000, 40000, a head what the head before it has (head 0: 0, 0, 500),
and a moved head what it had; so a head without a radius after a closed one is closed too. The box comes first and may be left out,
then the heads, then the moves. From # on a line is a comment; comments, blank lines and spacing do not get into the file, so --text
cannot give them back."""

EXAMPLES = """examples:
    tools/plan ground.txt > ground.plan         write the plan file
    tools/plan --text ground.plan               the text of a plan file
    tools/plan --text --full ground.plan        the same, with the values that each - stands for
    tools/plan --table ground.txt               the areas after the last move, by rows, and which heads are closed
    tools/plan --svg ground.txt > ground.svg    a picture, before and after the last move
    tools/plan --svg --edit 1 --set 0,2 ground.txt > first.svg
    tools/plan --why ground.txt                 for each move, which rows changed and why
    tools/plan --text ground.plan | tools/plan --table -
                                                the table of a plan file, or which of its values `rows` refuses, in words

The status is 0; 1 if the input cannot be used, with the line or byte offset on standard error; 2 if the command line is wrong.
Values outside the limits get into the file: it is for `rows` to refuse them, and --table then says which value it is, of the box, of which
head or of which move, and its limits. Refusal 4 is an x or a y, 5 a side of the box, 11 a radius."""


class Failure(Exception):
    """What goes to standard error, with status 1."""


def parser():
    examples = EXAMPLES.replace('tools/plan', PLAN)
    made = argparse.ArgumentParser(prog='plan', description=HELP, epilog=examples, formatter_class=argparse.RawDescriptionHelpFormatter)
    mode = made.add_mutually_exclusive_group()
    mode.add_argument('--text', action='store_true', help='INPUT is a plan file: write its text')
    mode.add_argument('--table', action='store_true', help='run rows on the plan and write its table, areas in square metres')
    mode.add_argument('--svg', action='store_true', help='draw the plan; with moves, before and after one of them')
    mode.add_argument('--why', action='store_true', help='for each move, the rows that changed, and why; and whether its head was closed or opened')
    made.add_argument('--full', action='store_true', help='with --text: values instead of each - of the text')
    made.add_argument('--set', metavar='HEADS', type=picture.set_of, help='with --svg: outline the ground that these heads share, such as 0,2')
    made.add_argument('--zoom', metavar='HEADS', type=picture.set_of, help='with --svg: draw only the ground that these heads reach')
    made.add_argument('--edit', metavar='N', type=int, help='with --svg: the N-th move (from 1; default the last); 0: the plan before its moves')
    made.add_argument('--rows', metavar='PROGRAM', help='the program rows (default: the one built or installed with this)')
    made.add_argument('--library', metavar='FILE', help='with --why: the shared library (default: the one built or installed with this)')
    made.add_argument('input', metavar='INPUT', help='a text, or a plan file with --text; - is standard input')
    return made


def options_of(arguments):
    """The options, or argparse's message and status 2."""
    made = parser()
    options = made.parse_args(arguments)
    if options.full and not options.text:
        made.error('--full goes with --text')
    if (options.set or options.zoom or options.edit is not None) and not options.svg:
        made.error('--set, --zoom and --edit go with --svg')
    if options.rows and not (options.table or options.svg):
        made.error('--rows goes with --table and --svg')
    if options.library and not options.why:
        made.error('--library goes with --why')
    if options.edit is not None and options.edit < 0:
        made.error('--edit wants the number of a move, from 1, or 0')
    return options


def input_of(path):
    """The bytes of a file, or of standard input for -. Raises Failure."""
    try:
        with open(0 if path == '-' else path, 'rb', closefd=path != '-') as source:
            return source.read()
    except OSError as error:
        raise Failure('cannot read %s: %s' % (name_of(path), error.strerror))


def name_of(path):
    return 'standard input' if path == '-' else path


@contextlib.contextmanager
def failures(path):
    """What is wrong with an input as a Failure that names it and the place."""
    name = name_of(path)
    try:
        yield
    except file.Damaged as damaged:
        raise Failure('%s: byte %d: %s' % (name, *damaged.args))
    except text.Wrong as wrong:
        raise Failure('%s:%d: %s' % (name, *wrong.args))
    except table.Refused as refused:
        line, why_not = refused.args
        raise Failure('%s:%d: %s' % (name, line, why_not) if line else '%s: %s' % (name, why_not))
    except (table.NoProgram, library.NoLibrary, picture.NotDrawn) as error:
        raise Failure(str(error))


def made_from(plan, options):
    """The output for a plan that was read from a text."""
    if options.table:
        return table.table_of(plan, options.rows).encode()
    if options.svg:
        return picture.svg(plan, options.set, options.edit, options.rows, options.zoom).encode()
    if options.why:
        return why.why(plan, library.load(options.library)).encode()
    return file.encode(plan)[0]


def output(options):
    """What the command writes. Raises Failure."""
    data = input_of(options.input)
    with failures(options.input):
        if options.text:
            plan = file.decode(data)
            return text.normal(file.full(plan) if options.full else plan).encode()
        return made_from(text.parse(data), options)


def finish(program, make):
    """Writes what `make` gives, or says on standard error why not. The status."""
    try:
        data = make()
        while data:
            data = data[os.write(1, data):]
        return 0
    except Failure as failure:
        words = str(failure)
    except OSError as error:
        words = 'cannot write: %s' % error.strerror
    print('%s: %s' % (program, words), file=sys.stderr)
    return 1


def main(arguments):
    options = options_of(arguments)
    plan_bytes = not (options.text or options.table or options.svg or options.why)
    if plan_bytes and os.isatty(1):
        parser().error('plan bytes are not for a terminal: send them into a file, as in %s TEXT > FILE' % PLAN)
    return finish('plan', lambda: output(options))
