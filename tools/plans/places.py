"""Where the program `rows` and the library are. These files stand in tools/plans of the sources, or in PREFIX/share/watered/plans, where
tools/install puts them: what stands in the same tree is taken, so that an installed copy works from anywhere."""
import os

HERE = os.path.dirname(os.path.realpath(__file__))
ROOT = os.path.dirname(os.path.dirname(HERE))
INSTALLED = os.path.basename(os.path.dirname(HERE)) == 'watered'
PREFIX = os.path.dirname(ROOT)  # where INSTALLED

# as the user calls tools/plan
PLAN = 'watered-plan' if INSTALLED else 'tools/plan'

# the program, which tools/rows starts in the sources, and the shared library; if they are there
ROWS = os.path.join(PREFIX, 'bin', 'rows') if INSTALLED else os.path.join(ROOT, 'tools', 'rows')
BUILT_ROWS = ROWS if INSTALLED else os.path.join(ROOT, 'target', 'bin', 'rows')
LIBRARY = os.path.join(PREFIX, 'lib', 'libwatered.so.1') if INSTALLED else os.path.join(ROOT, 'target', 'staticlib', 'libwatered.so')
ARCHIVE = os.path.join(PREFIX, 'lib', 'libwatered.a') if INSTALLED else os.path.join(ROOT, 'target', 'staticlib', 'libwatered.a')
LINK = os.path.join(ROOT, 'tools', 'shared')  # links LIBRARY from ARCHIVE, in the sources
