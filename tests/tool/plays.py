"""A play of a list, worked out from the player's reports of all its prefixes."""
import collections
import os
import re
import subprocess
import tempfile

from differences import expect, require

# So many prefixes are played by one shell, so many seconds may one call take.
AT_ONCE = 512
PATIENCE = 120

VERBS = {1: 'start', 2: 'deliver', 3: 'timeout', 4: 'crash', 5: 'recover'}
OPERANDS = {1: 0, 2: 3, 3: 1, 4: 1, 5: 1}
# The kind of a command by its sender's state, that of a reply by the kind that it answers.
COMMAND_OF = {'prepared': 1, 'commit-group': 3, 'abort-group': 4, 'committed': 6, 'aborted': 6}
REPLY_TO = {1: 2, 3: 5, 4: 5, 6: 7}

Header = collections.namedtuple('Header', 'sites commit abort willing weights length')
# A site's line of the report.
Site = collections.namedtuple('Site', 'up role state log codes')
Report = collections.namedtuple('Report', 'sizes events rows news sites stop')
Command = collections.namedtuple('Command', 'place verb message site words')
# A message; `event` is the number of the event that sent it.
Message = collections.namedtuple('Message', 'number kind sender to event')
# What an event did at its site; `got` and `sent` are messages, `record` a letter of the log, or None.
Event = collections.namedtuple('Event', 'command before after news record got sent again')
# A whole play; `stop` is the report's last line, `first` the first event that delivers a message to a site.
Play = collections.namedtuple('Play', 'header reports events messages first stop')


def word(data, place):
    return data[place] + 256 * data[place + 1]


def read_header(data):
    """The header of a list that the player does not refuse for its header."""
    if data[0] == 130:
        sites = data[1]
        return Header(sites, word(data, 2), word(data, 4), word(data, 6), list(data[8:8 + sites]), 8 + sites)
    return Header(data[0], data[1], data[2], word(data, 3), [1] * data[0], 5)


def read_command(data, place):
    """The command at a place, which was accepted, so that it is whole."""
    number = data[place]
    verb = VERBS[number]
    message = word(data, place + 1) if verb == 'deliver' else None
    site = 0 if verb == 'start' else data[place + OPERANDS[number]]
    operands = {'start': [], 'deliver': [message, site]}.get(verb, [site])
    return Command(place, verb, message, site, ' '.join([verb, *map(str, operands)]))


def read_commands(data, place, count):
    """The first commands of a list, and the place after them."""
    commands = []
    for _ in range(count):
        commands.append(read_command(data, place))
        place += 1 + OPERANDS[data[place]]
    return commands, place


def read_report(lines):
    """A report; one that is a refusal alone has no sites."""
    if len(lines) == 1:
        return Report('', 0, 0, 0, [], lines[0])
    words = lines[0].split(' ')
    expect('the player: words of the first line', ['sites', 'commit', 'abort', 'events', 'rows', 'news'], words[::2])
    sites = [Site(*line.split(' ')[1:]) for line in lines[1:-1]]
    return Report(' '.join(words[:6]), *map(int, words[7::2]), sites, lines[-1])


def split_reports(text):
    """The reports that were printed one after the other: each ends with its stop."""
    reports, lines = [], []
    for line in text.splitlines():
        lines.append(line)
        if line.startswith(('end ', 'refused ')):
            reports.append(read_report(lines))
            lines = []
    expect('the player: lines after the last stop', [], lines)
    return reports


def play_some(player, lists):
    """The reports of some lists, played by one shell."""
    with tempfile.TemporaryDirectory() as folder:
        for number, data in enumerate(lists):
            with open(os.path.join(folder, '%05d' % number), 'wb') as file:
                file.write(data)
        run = subprocess.run(['sh', '-c', 'for list in *; do "$0" < "$list"; done', player], cwd=folder, stdout=subprocess.PIPE,
                             stderr=subprocess.DEVNULL, timeout=PATIENCE)
    reports = split_reports(run.stdout.decode('ascii'))
    expect('the player: number of reports', len(lists), len(reports))
    return reports


def play_prefixes(player, data, ends):
    """The reports of the prefixes of a list that end at these places."""
    reports = []
    for first in range(0, len(ends), AT_ONCE):
        reports += play_some(player, [data[:end] for end in ends[first:first + AT_ONCE]])
    return reports


def record_written(before, after):
    """The letter that a log has gained, or None."""
    letters = [new for old, new in zip(before, after) if old != new]
    require(len(letters) <= 1 and '-' not in letters, 'the player: a log changed by more than one record', before, after)
    return letters[0] if letters else None


def message_sent(command, got, before, after, number):
    """The message that the event of this number sent, or None."""
    grown = after.rows - before.rows
    require(grown in (0, 1), 'the player: more than one message at ' + command.words, grown)
    if not grown:
        return None
    if got is not None:
        kind, to = REPLY_TO.get(got.kind), [got.sender]
    else:
        kind = COMMAND_OF.get(after.sites[command.site].state)
        to = [site for site in range(len(after.sites)) if site != command.site]
    require(kind is not None, 'the player: no message can be sent at ' + command.words)
    return Message(before.rows, kind, command.site, to, number)


def read_event(command, before, after, messages, first, number):
    """What an event did, by the reports before and after it."""
    others = [[site for place, site in enumerate(report.sites) if place != command.site] for report in (before, after)]
    expect('the player: the other sites at ' + command.words, *others)
    got = messages[command.message] if command.verb == 'deliver' else None
    old, new = before.sites[command.site], after.sites[command.site]
    return Event(command, old, new, after.news - before.news, record_written(old.log, new.log), got,
                 message_sent(command, got, before, after, number), (command.message, command.site) in first)


def read_events(commands, reports):
    """All events, all messages, and where each message was first delivered to each site."""
    events, messages, first = [], [], {}
    for number, command in enumerate(commands):
        event = read_event(command, reports[number], reports[number + 1], messages, first, number)
        events.append(event)
        messages += [event.sent] if event.sent else []
        if event.got:
            first.setdefault((command.message, command.site), number)
    return events, messages, first


def read_play(player, data):
    """The whole play of a list; without a header, reports and events where the player reports no world."""
    whole = play_some(player, [data])[0]
    if not whole.sites:
        return Play(None, [], [], [], {}, whole.stop)
    header = read_header(data)
    expect('the player: sizes', 'sites %d commit %d abort %d' % header[:3], whole.sizes)
    commands, end = read_commands(data, header.length, whole.events)
    ends = [command.place for command in commands] + [end]
    reports = play_prefixes(player, data, ends)
    expect('the player: stops of the prefixes', [(number, 'end %d' % place) for number, place in enumerate(ends)],
           [(report.events, report.stop) for report in reports])
    expect('the player: sites where the list stops', reports[-1].sites, whole.sites)
    require(re.fullmatch(r'(end|refused \d+ at) %d' % end, whole.stop), 'the player: place of the stop', whole.stop, end)
    return Play(header, reports, *read_events(commands, reports), whole.stop)
