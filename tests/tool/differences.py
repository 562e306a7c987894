"""What is as it must be, and what is not."""
import xml.etree.ElementTree as ET


class Difference(Exception):
    """Something is not as it must be."""


def expect(what, want, got):
    """Two things are equal; of two lists the first items that are not equal are shown."""
    if want == got:
        return
    if isinstance(want, list) and isinstance(got, list):
        place = [old == new for old, new in zip(want + [None], got + [None])].index(False)
        what, want, got = '%s, number %d' % (what, place), want[place:place + 1], got[place:place + 1]
    raise Difference('%s\n  expected: %s\n  got:      %s' % (what, show(want), show(got)))


def require(truth, what, *got):
    if not truth:
        raise Difference(what + ''.join('\n  got:      ' + show(item) for item in got))


def show(thing):
    """A thing as the message about a difference shows it."""
    if isinstance(thing, ET.Element):
        return ET.tostring(thing, encoding='unicode').strip()
    return repr(thing)
