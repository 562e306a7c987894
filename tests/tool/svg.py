"""An SVG that stands alone: well-formed, in whole numbers, all of it inside, its elements by class."""
import re
import xml.etree.ElementTree as ET
from xml.parsers import expat

from differences import Difference, expect, require

SVG = '{http://www.w3.org/2000/svg}'
# What is looked at in a drawing: each class and the element that has it.
LOOKED_AT = {'heading': 'text', 'counts': 'text', 'head': 'text', 'note': 'text', 'number': 'text', 'foot': 'text', 'row': 'line',
             'place': 'text', 'event': 'text', 'stretch': 'rect', 'down': 'line', 'letter': 'text', 'letter-box': 'rect', 'arrow': 'path',
             'lost': 'line', 'missed': 'text', 'later': 'line', 'message': 'text', 'crash': 'path', 'recover': 'circle', 'final': 'text',
             'stop': 'text', 'cut': 'text'}
# Elements that a drawing may have; the second sort, and what is in it, is not shown where it stands.
PLAIN = {'svg', 'title', 'style', 'line', 'rect', 'circle', 'path', 'text'}
UNSHOWN = {'defs', 'marker', 'polygon'}
# Attributes that would move something away from its coordinates.
MOVERS = {'transform', 'dx', 'dy', 'rotate'}


def refuse_outside(svg):
    """No document type, so no entities, and no processing instruction."""
    def found(*what):
        raise Difference('draw: a document type or a processing instruction\n  got:      %r' % (what,))
    parser = expat.ParserCreate()
    parser.StartDoctypeDeclHandler = found
    parser.ProcessingInstructionHandler = found
    parser.Parse(svg, True)


def local(name):
    return name.rpartition('}')[2]


def judge_element(element):
    """A plain element, with no script, drawn where its coordinates say."""
    namespace, _, name = element.tag.rpartition('}')
    require(namespace + '}' == SVG and name in PLAIN | UNSHOWN, 'draw: an element that does not belong here', element)
    names = {local(attribute).lower() for attribute in element.attrib}
    require(not any(attribute.startswith('on') for attribute in names), 'draw: a script', element)
    require(not names & MOVERS, 'draw: something is moved away from its coordinates', element)


def judge_ways_out(element):
    """Nothing in an element names anything outside of the file."""
    require(all(value.startswith('#') for name, value in element.attrib.items() if local(name) == 'href'),
            'draw: a link that leads out of the file', element)
    style = [element.text or ''] if element.tag == SVG + 'style' else []
    for value in [*element.attrib.values(), *style]:
        require(not re.search(r'url\((?!#)|@import|//|javascript:|data:|transform', value),
                'draw: a value that leads out of the file or moves something', element)


def shown(element):
    """An element and what is in it, in order, without what is not shown where it stands."""
    if local(element.tag) in UNSHOWN:
        return
    yield element
    for child in element:
        yield from shown(child)


def whole(element, name):
    """A coordinate: a whole number, not below 0, and 0 where it is not given."""
    text = element.get(name, '0')
    require(re.fullmatch('[0-9]+', text), 'draw: %s is no whole number, or below 0' % name, element)
    return int(text)


def pairs(numbers):
    return list(zip(numbers[::2], numbers[1::2]))


def path_points(element):
    """The points of a path, which is straight lines or one curve."""
    data = element.get('d', '')
    require(re.fullmatch(r'(M \d+ \d+ L \d+ \d+ ?)+|M \d+ \d+ Q \d+ \d+ \d+ \d+', data), 'draw: a path of another form', element)
    return pairs([int(number) for number in re.findall('[0-9]+', data)])


def at(element, x, y):
    return whole(element, x), whole(element, y)


def circle_points(element):
    """The corners around a circle."""
    (x, y), radius = at(element, 'cx', 'cy'), whole(element, 'r')
    return [(x - radius, y - radius), (x + radius, y + radius)]


def box_points(element):
    (x, y), (wide, high) = at(element, 'x', 'y'), at(element, 'width', 'height')
    return [(x, y), (x + wide, y + high)]


def line_points(element):
    return [at(element, 'x1', 'y1'), at(element, 'x2', 'y2')]


# The points of each element that has some.
POINTS = {'line': line_points, 'rect': box_points, 'circle': circle_points, 'path': path_points, 'text': lambda text: [at(text, 'x', 'y')]}


def judge_points(element, width, height):
    """All points of an element are whole numbers inside of the drawing."""
    points = POINTS.get(local(element.tag), lambda _: [])(element)
    require(all(0 <= x <= width and 0 <= y <= height for x, y in points), 'draw: outside of %d by %d' % (width, height), element)


def own_text(element):
    """The text of an element that has nothing else in it."""
    require(len(element) == 0, 'draw: a text with something in it', element)
    return element.text or ''


def title(element):
    """The title of an element, its only one."""
    titles = [child.text or '' for child in element if child.tag == SVG + 'title']
    require(len(titles) == 1, 'draw: one title is due', element)
    return titles[0]


def classes(element):
    return element.get('class', '').split()


def by_class(elements):
    """The elements that are looked at, by class, in order."""
    parts = {name: [] for name in LOOKED_AT}
    for name, element in [(name, element) for element in elements for name in classes(element) if name in parts]:
        require(local(element.tag) == LOOKED_AT[name], 'draw: not the element of class ' + name, element)
        parts[name].append(element)
    return parts


def read_svg(svg):
    """The SVG's root, if it is well-formed and stands alone."""
    try:
        refuse_outside(svg)
        root = ET.fromstring(svg)
    except (expat.ExpatError, ET.ParseError, ValueError) as error:
        raise Difference('draw: not well-formed: %s\n  got:      %r' % (error, svg[:200])) from error
    for element in root.iter():
        judge_element(element)
        judge_ways_out(element)
    expect('draw: number of svg elements', 1, len(list(root.iter(SVG + 'svg'))))
    return root
