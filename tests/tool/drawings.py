"""What a drawing of a play must hold."""
import collections
import re

from differences import expect, require
from svg import LOOKED_AT, SVG, at, box_points, by_class, classes, judge_points, line_points, own_text, path_points, read_svg, shown, title, whole
from traces import KINDS, STATES, count_words, counted, message_words, set_words, site_or_sites, sizes_line, stop_words

# At most so many events are drawn.
DRAWN = 300
# How far something may be from where it belongs in the drawing: ends of lines, letters, words.
END_ROOM, LETTER_ROOM, WORD_ROOM = 14, 6, 12

# Sites' numbers are repeated before every so many events; a set of sites longer than this is told by its number.
NUMBERS_APART, LONG_SET = 25, 10
# The colour of a message by its kind.
COLOURS = {1: 'asks', 2: 'asks', 3: 'joins', 4: 'joins', 5: 'joins', 6: 'tells', 7: 'tells'}

# A drawing: elements by class, x of each column, y of each row.
Drawing = collections.namedtuple('Drawing', 'parts columns rows play')


def judge_root(root, play):
    expect('draw: root', SVG + 'svg', root.tag)
    size = at(root, 'width', 'height')
    expect('draw: viewBox', '0 0 %d %d' % size, root.get('viewBox'))
    require(len(root) and root[0].tag == SVG + 'title', 'draw: the first child is no title')
    expect('draw: title', sizes_line(play.header), root[0].text)
    return size


def read_drawing(svg, play):
    """The drawing, once all in it is well-formed, inside and as whole numbers."""
    root = read_svg(svg)
    size = judge_root(root, play)
    elements = list(shown(root))
    for element in elements[1:]:
        judge_points(element, *size)
    parts = by_class(elements)
    columns = [whole(head, 'x') for head in parts['head']]
    rows = [whole(row, 'y1') for row in parts['row']]
    return Drawing(parts, columns, rows, play)


def drawn(drawing):
    """The events that are drawn, each with its y."""
    return list(zip(drawing.play.events[:DRAWN], drawing.rows))


def judge_number(drawing, name, count):
    """As many elements of a class as there must be, which are handed back."""
    expect('draw: number of %s.%s' % (LOOKED_AT[name], name), count, len(drawing.parts[name]))
    return drawing.parts[name]


def judge_texts(drawing, name, want):
    """The texts of a class, in order."""
    got = judge_number(drawing, name, len(want))
    expect('draw: text.' + name, want, [own_text(element) for element in got])
    return got


def growing(numbers):
    return all(old < new for old, new in zip(numbers, numbers[1:]))


def judge_near(what, element, name, want, room):
    """A coordinate is near to what it belongs to."""
    require(abs(whole(element, name) - want) <= room, 'draw: %s: %s is not within %d of %d' % (what, name, room, want), element)


def judge_columns(drawing, name, want):
    """Texts of a class and the sites at whose columns they stand, in order."""
    texts = judge_texts(drawing, name, [text for text, _ in want])
    expect('draw: x of text.' + name, [drawing.columns[site] for _, site in want], [whole(text, 'x') for text in texts])


def notes_due(header):
    """What stands below a site's number: its weight if it is not 1, and that it is unwilling."""
    for site, weight in enumerate(header.weights):
        yield from [('weighs %d' % weight, site)] if weight != 1 else []
        yield from [('unwilling', site)] if not header.willing >> site & 1 else []


def judge_heads(drawing):
    """Title and counts; each site's number above, within and below, and what is special about it."""
    play, sites = drawing.play, range(drawing.play.header.sites)
    judge_texts(drawing, 'heading', [sizes_line(play.header)])
    judge_texts(drawing, 'counts', [count_words(play) + ('; not all events are drawn' if len(play.events) > DRAWN else '')])
    require(growing(drawing.columns), 'draw: columns from left to right', drawing.columns)
    judge_columns(drawing, 'head', [('site %d' % site, site) for site in sites])
    judge_columns(drawing, 'foot', [('site %d' % site, site) for site in sites])
    judge_columns(drawing, 'note', list(notes_due(play.header)))
    repeats = range(NUMBERS_APART, len(drawing.rows), NUMBERS_APART)
    judge_columns(drawing, 'number', [(str(site), site) for _ in repeats for site in sites])


def judge_rows(drawing):
    """A row for each drawn event, with place and command beside it."""
    events = drawing.play.events[:DRAWN]
    rows = judge_number(drawing, 'row', len(events))
    expect('draw: y2 of line.row', drawing.rows, [whole(row, 'y2') for row in rows])
    require(growing(drawing.rows), 'draw: rows from top to bottom', drawing.rows)
    places = judge_texts(drawing, 'place', [str(event.command.place) for event in events])
    words = judge_texts(drawing, 'event', [event.command.words for event in events])
    for element, row in zip(places + words, drawing.rows * 2):
        judge_near('text of a row', element, 'y', row, WORD_ROOM)


def read_stretch(element):
    """A stretch as twice its x, both its ends, and what it says of the site."""
    further = {*STATES, 'coordinator'} & set(classes(element))
    if element.tag == SVG + 'rect':
        (left, top), (right, bottom) = box_points(element)
        return left + right, (top, bottom, 'up', sorted(further))
    (x, top), (other, bottom) = line_points(element)
    expect('draw: x2 of line.down', x, other)
    return 2 * x, (top, bottom, 'down', sorted(further))


def stretches_by_site(drawing):
    """The stretches of each site, from top to bottom."""
    found = {2 * column: [] for column in drawing.columns}
    for element in drawing.parts['stretch'] + drawing.parts['down']:
        column, stretch = read_stretch(element)
        require(column in found, 'draw: a stretch in no column', element)
        found[column].append(stretch)
    return [sorted(stretches) for stretches in found.values()]


def look(site):
    """What a stretch shows of a site."""
    return site.up, sorted([site.state] + ['coordinator'] * (site.role == 'coordinator' and site.up == 'up'))


def stretches_due(drawing, site, top, bottom):
    """The stretches that a site must have."""
    begins = [(top, look(drawing.play.reports[0].sites[site]))]
    for row, report in zip(drawing.rows, drawing.play.reports[1:]):
        now = look(report.sites[site])
        begins += [(row, now)] if now != begins[-1][1] else []
    ends = [begin for begin, _ in begins[1:]] + [bottom]
    return [(begin, end, *shows) for (begin, shows), end in zip(begins, ends)]


def judge_stretches(drawing):
    """Every site's stretches; top and bottom are those of site 0, around all rows."""
    found = stretches_by_site(drawing)
    require(found[0], 'draw: site 0 has no stretch')
    top, bottom = found[0][0][0], found[0][-1][1]
    require(growing([top, *drawing.rows, bottom]), 'draw: stretches from above the first event to below the last', top, bottom)
    for site, stretches in enumerate(found):
        expect('draw: stretches of site %d' % site, stretches_due(drawing, site, top, bottom), stretches)


def judge_letters(drawing):
    """A letter for each record, from top to bottom, in a box of the state's colour."""
    due = [(event, row) for event, row in drawn(drawing) if event.record]
    letters = sorted(judge_number(drawing, 'letter', len(due)), key=lambda letter: whole(letter, 'y'))
    boxes = sorted(judge_number(drawing, 'letter-box', len(due)), key=lambda box: whole(box, 'y'))
    for (event, row), letter, box in zip(due, letters, boxes):
        what, column = 'letter of ' + event.command.words, drawing.columns[event.command.site]
        expect('draw: ' + what, (event.record, column), (own_text(letter), whole(letter, 'x')))
        judge_near(what, letter, 'y', row, LETTER_ROOM)
        (left, top), (right, bottom) = box_points(box)
        expect('draw: box of ' + what, (2 * column, 2 * row, {event.after.state}), (left + right, top + bottom, {*STATES} & {*classes(box)}))


def judge_colour(what, element, message):
    expect('draw: colour of ' + what, {COLOURS[message.kind]}, {*COLOURS.values()} & {*classes(element)})


def judge_end(what, element, x, column, side):
    """An end of a line is beside a column, on this side of it (1 right, -1 left)."""
    require(0 <= (x - column) * side <= END_ROOM, 'draw: %s: %d is not beside the column at %d' % (what, x, column), element)


def judge_bend(what, arrow, columns):
    """An arrow never leads upwards; one that passes other columns is bent, so that it passes above what lies on the straight line."""
    start, by, end = path_points(arrow)
    middle = (start[1] + end[1]) / 2
    require(2 * by[0] in range(start[0] + end[0] - 1, start[0] + end[0] + 2), 'draw: %s is bent to a side' % what, arrow)
    require(start[1] <= by[1] and (by[1] < middle if columns > 1 else abs(by[1] - middle) < 1), 'draw: %s is not bent so' % what, arrow)


def judge_arrow(drawing, event, row, arrow):
    message, site = event.got, event.command.site
    what, side = 'arrow of ' + event.command.words, 1 if message.sender < site else -1
    expect('draw: title of ' + what, '%s, from site %d to site %d' % (message_words(message), message.sender, site), title(arrow))
    start, _, end = path_points(arrow)
    expect('draw: y of ' + what, (drawing.rows[message.event], row), (start[1], end[1]))
    judge_end(what, arrow, start[0], drawing.columns[message.sender], side)
    judge_end(what, arrow, end[0], drawing.columns[site], -side)
    judge_bend(what, arrow, abs(message.sender - site))
    judge_colour(what, arrow, message)
    expect('draw: class again of ' + what, event.again, 'again' in classes(arrow))


def judge_arrows(drawing):
    """An arrow for each delivery, by where it ends, from top to bottom."""
    due = [(event, row) for event, row in drawn(drawing) if event.got]
    arrows = sorted(judge_number(drawing, 'arrow', len(due)), key=lambda arrow: path_points(arrow)[2][1])
    for (event, row), arrow in zip(due, arrows):
        judge_arrow(drawing, event, row, arrow)


def stub_sites(play, message, side, name):
    """The destinations on a side of the sender that a stub stands for."""
    beside = [site for site in message.to if (site - message.sender) * side > 0]
    if name == 'lost':
        return [site for site in beside if (message.number, site) not in play.first]
    return [site for site in beside if play.first.get((message.number, site), 0) >= DRAWN]


def stub_title(message, sites, name):
    words = 'never delivered to %s' if name == 'lost' else 'delivered to %s later'
    return '%s, from site %d, %s' % (message_words(message), message.sender, words % site_or_sites(sites))


def stubs_due(play, name):
    """The stubs of a class, by title: message and side."""
    sent = [message for message in play.messages if message.event < DRAWN]
    stubs = [(message, side, stub_sites(play, message, side, name)) for message in sent for side in (-1, 1)]
    return {stub_title(message, sites, name): (message, side) for message, side, sites in stubs if sites}


def judge_stub(drawing, message, side, stub):
    """A stub begins at its sender and event and leads less than half a column to its side."""
    what, columns = 'stub of message %d' % message.number, drawing.columns
    expect('draw: y1 of ' + what, drawing.rows[message.event], whole(stub, 'y1'))
    judge_end(what, stub, whole(stub, 'x1'), columns[message.sender], side)
    judge_colour(what, stub, message)
    wide = (whole(stub, 'x2') - whole(stub, 'x1')) * side
    column = abs(columns[message.sender + side] - columns[message.sender])
    require(0 < wide and 2 * wide < column, 'draw: %s is not less than half a column to its side' % what, stub)


def judge_stubs(drawing, name):
    due = stubs_due(drawing.play, name)
    expect('draw: titles of line.' + name, sorted(due), sorted(map(title, drawing.parts[name])))
    for stub in drawing.parts[name]:
        judge_stub(drawing, *due[title(stub)], stub)


def judge_missed(drawing):
    """Beside each stub of sites that are never reached stand their numbers, or how many they are."""
    due = stubs_due(drawing.play, 'lost')
    texts = judge_number(drawing, 'missed', len(drawing.parts['lost']))
    for stub, text in zip(drawing.parts['lost'], texts):
        sites = stub_sites(drawing.play, *due[title(stub)], 'lost')
        words = set_words(sites)
        expect('draw: text.missed', words if len(words) <= LONG_SET else counted(len(sites), 'site'), own_text(text))
        judge_near('text.missed', text, 'x', whole(stub, 'x2'), END_ROOM)
        judge_near('text.missed', text, 'y', whole(stub, 'y2'), LETTER_ROOM)


def leading_number(text):
    """The number that a text begins with, or -1."""
    return int(re.match('[0-9]*', own_text(text))[0] or -1)


def label_side(event):
    """On which side of its site the label of what an event sends stands: not where an arrow arrives."""
    return -1 if event.got and event.got.sender > event.command.site else 1


def judge_messages(drawing):
    """A text for each message, where it is sent."""
    due = [(event, row) for event, row in drawn(drawing) if event.sent]
    texts = sorted(judge_number(drawing, 'message', len(due)), key=leading_number)
    for (event, row), text in zip(due, texts):
        message, side = event.sent, label_side(event)
        expect('draw: text.message', '%d %s' % (message.number, KINDS[message.kind]), own_text(text))
        judge_near('text.message', text, 'y', row, WORD_ROOM)
        judge_end('text.message', text, whole(text, 'x'), drawing.columns[message.sender], side)
        expect('draw: the side of message %d' % message.number, side < 0, 'before' in classes(text))


def bounds(path):
    """The corners of the box around a path."""
    xs, ys = zip(*path_points(path) or [(0, 0)])
    return (min(xs), min(ys)), (max(xs), max(ys))


def judge_crashes(drawing):
    """A mark for each crash, around column and event."""
    due = [(event.command.site, row) for event, row in drawn(drawing) if event.command.verb == 'crash']
    crashes = sorted(judge_number(drawing, 'crash', len(due)), key=lambda crash: sum(y for _, y in bounds(crash)))
    for (site, row), crash in zip(due, crashes):
        expect('draw: title of a crash', 'site %d goes down' % site, title(crash))
        (left, top), (right, bottom) = bounds(crash)
        column = drawing.columns[site]
        require(column - END_ROOM <= left <= column <= right <= column + END_ROOM
                and row - END_ROOM <= top <= row <= bottom <= row + END_ROOM, 'draw: a crash is not at %d, %d' % (column, row), crash)


def judge_recovers(drawing):
    due = [(event.command.site, row) for event, row in drawn(drawing) if event.command.verb == 'recover']
    circles = sorted(judge_number(drawing, 'recover', len(due)), key=lambda circle: whole(circle, 'cy'))
    for (site, row), circle in zip(due, circles):
        expect('draw: title of a recovery', 'site %d comes back' % site, title(circle))
        expect('draw: place of a recovery', (drawing.columns[site], row), at(circle, 'cx', 'cy'))


def judge_finals(drawing):
    """State, log and codes of each site, as the drawn part leaves it."""
    report = drawing.play.reports[:DRAWN + 1][-1]
    states = ['down, ' * (site.up == 'down') + site.state for site in report.sites]
    texts = [(text, number) for number, site in enumerate(report.sites) for text in (states[number], site.log, site.codes)]
    judge_columns(drawing, 'final', texts)


def judge_last(drawing, last):
    """The stop, as the trace has it, and how much is drawn."""
    judge_texts(drawing, 'stop', [last])
    events = len(drawing.play.events)
    judge_texts(drawing, 'cut', ['the first %d of %d events are drawn' % (DRAWN, events)] if events > DRAWN else [])


def judge_drawing(play, last, printed):
    """Compares the drawing; `last` is the last line of the trace. Gives its elements by class."""
    refused = play.stop.startswith('refused ')
    expect('draw: exit status', int(refused), printed.status)
    reason = last[len(stop_words(play)):] if refused else ''
    require(reason in printed.err.decode('utf-8'), 'draw: the reason %r is not on standard error' % reason, printed.err)
    if not play.header:
        expect('draw: standard output', b'', printed.out)
        return {}
    drawing = read_drawing(printed.out, play)
    for part in (judge_heads, judge_rows, judge_stretches, judge_letters, judge_arrows, judge_messages, judge_crashes,
                 judge_recovers, judge_finals):
        part(drawing)
    judge_stubs(drawing, 'lost')
    judge_stubs(drawing, 'later')
    judge_missed(drawing)
    judge_last(drawing, last)
    return drawing.parts
