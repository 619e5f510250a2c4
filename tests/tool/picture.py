#!/usr/bin/env python3
"""picture.py PROGRAM [--write]: what `show --dot` prints is drawn by Graphviz, and the drawing has the processes, words, colours and arrows that it should: for plans of the tests and of the bench, and for
the plan of README.md, whose picture is docs/evening.svg. Positions are Graphviz's own and are not compared. --write draws docs/evening.svg anew."""
import os
import re
import subprocess
import sys
import tempfile
import xml.etree.ElementTree

ROOT = os.path.dirname(os.path.dirname(os.path.dirname(os.path.abspath(__file__))))
PICTURE = os.path.join(ROOT, 'docs', 'evening.svg')
PLANS = ['tests/tool/plans/c6.plan', 'bench/plans/wide.plan', 'bench/plans/calls.plan', 'examples/index.plan']
SVG = '{http://www.w3.org/2000/svg}'
# the colour of each mode, and how Graphviz writes one that has no name in a drawing
COLOURS = {'dormant': 'gray85', 'ready': 'lightskyblue', 'starting': 'paleturquoise', 'waiting': 'white', 'reporting success': 'palegreen', 'reporting failure': 'salmon',
           'suspended': 'gold'}
WRITTEN = {'#d9d9d9': 'gray85', '#87cefa': 'lightskyblue', '#afeeee': 'paleturquoise', '#ffffff': 'white', '#98fb98': 'palegreen', '#fa8072': 'salmon', '#ffd700': 'gold'}
# moments at which a run has processes in every mode, of a plan whose first call fails in one block and whose second waits
MOMENTS, COLOURFUL = ['34', '41'], 'mode p(?).\np(a).\np(b);\np(c).\n<- p(c), p(X).\n'


def told(words, given=None):
    """What a command prints; it must end well and say nothing else."""
    done = subprocess.run(words, input=given, stdout=subprocess.PIPE, stderr=subprocess.PIPE)
    if done.returncode != 0 or done.stderr:
        sys.exit('picture: %s: status %d: %s' % (' '.join(words[:3]), done.returncode, done.stderr.decode()))
    return done.stdout


def asked(dot):
    """Boxes with their words and the colour of their mode, and arrows, as they are asked for; a name without words of its own is its words."""
    boxes = {name: tuple(label.split('\\n')) + (colour_of(label.split('\\n')[1]),) for name, label in re.findall(r'(?m)^  (p\d+) \[label="(.*?)"', dot)}
    boxes.update({name: (name, None) for name in re.findall(r'(?m)^  "(.*?)" \[', dot)})
    arrows = re.findall(r'(?m)^  ("[^"]*"|\S+) -> ("[^"]*"|p\d+)', dot)
    return boxes, sorted((a.strip('"'), b.strip('"')) for a, b in arrows)


def colour_of(mode):
    """The colour that a process has by its mode; what a dormant one has reported does not count."""
    return COLOURS['dormant' if mode.startswith('dormant') else mode]


def fill(group):
    """The colour of a box that is drawn; of words without a box none."""
    shapes = [shape.get('fill') for shape in group.iter(SVG + 'polygon')]
    return WRITTEN.get(shapes[0], shapes[0]) if shapes else None


def drawn(svg):
    """Boxes with their words and colours, and arrows, as they are drawn."""
    boxes, arrows = {}, []
    for group in xml.etree.ElementTree.fromstring(svg).iter(SVG + 'g'):
        title = group.find(SVG + 'title')
        if group.get('class') == 'node':
            boxes[title.text] = tuple(text.text.replace('\u00a0', ' ') for text in group.iter(SVG + 'text')) + (fill(group),)
        elif group.get('class') == 'edge':
            arrows.append(tuple(title.text.split('->')))
    return boxes, sorted(arrows)


def draw(program, plan, *options):
    """The drawing of a plan's processes, held to what was asked for and to the lines of `show`."""
    dot = told([program, 'show', plan, '--dot', *options])
    svg = told(['dot', '-Tsvg'], dot)
    wanted = asked(dot.decode())
    if drawn(svg) != wanted:
        sys.exit('picture: %s: Graphviz draws something else than is asked for' % plan)
    lines = re.findall(r'(?m)^ *(\d+) [a-z]+-?[a-z]*, ', told([program, 'show', plan, *options]).decode())
    if sorted(lines) != sorted(name[1:] for name in wanted[0] if re.match(r'p\d+$', name)):
        sys.exit('picture: %s: other processes than in the lines' % plan)
    return svg


def readme(folder):
    """The plan of README.md in a file."""
    with open(os.path.join(ROOT, 'README.md')) as page:
        name, text = re.search(r'(?ms)^```prolog (\S+)\n(.*?)^```$', page.read()).groups()
    path = os.path.join(folder, name)
    with open(path, 'w') as file:
        file.write(text)
    return path


def colourful(program, folder):
    """Pictures of one run that have every colour, drawn; how many boxes."""
    path = os.path.join(folder, 'colours.plan')
    with open(path, 'w') as file:
        file.write(COLOURFUL)
    drawings = [drawn(draw(program, path, '--all', '--steps', steps))[0] for steps in MOMENTS]
    seen = {box[-1] for boxes in drawings for box in boxes.values()} - {None}
    if seen != set(COLOURS.values()):
        sys.exit('picture: no process has the colour %s' % ', '.join(sorted(set(COLOURS.values()) - seen)))
    return sum(map(len, drawings))


def main():
    program = os.path.abspath(sys.argv[1])
    boxes = sum(len(drawn(draw(program, os.path.join(ROOT, plan)))[0]) for plan in PLANS)
    with tempfile.TemporaryDirectory() as folder:
        boxes += colourful(program, folder)
        svg = draw(program, readme(folder))
    if sys.argv[2:] == ['--write']:
        with open(PICTURE, 'wb') as file:
            file.write(svg)
    with open(PICTURE, 'rb') as file:
        if drawn(file.read()) != drawn(svg):
            sys.exit('picture: docs/evening.svg is not that of the plan in README.md; tests/tool/picture.py PROGRAM --write')
    print('picture: %d drawings by Graphviz with %d boxes in %d colours, and docs/evening.svg' % (len(PLANS) + len(MOMENTS) + 1, boxes + len(drawn(svg)[0]), len(COLOURS)))


main()
