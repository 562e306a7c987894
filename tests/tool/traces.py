"""The words of a play, and its trace."""
from differences import expect, require

KINDS = {1: 'prepare', 2: 'vote', 3: 'join commit', 4: 'join abort', 5: 'in-group', 6: 'outcome', 7: 'outcome-ack'}
# States as the trace names them.
STATES = {'active': 'active', 'prepared': 'prepared', 'commit-group': 'in the commit group',
          'abort-group': 'in the abort group', 'committed': 'committed', 'aborted': 'aborted'}
RECORDS = {'P': 'prepare', 'C': 'group commit', 'A': 'group abort', 'c': 'outcome commit', 'a': 'outcome abort'}


def counted(number, noun):
    return '%d %s%s' % (number, noun, '' if number == 1 else 's')


def runs(sites):
    """Ascending numbers as runs of neighbours, each with its first and last."""
    found = []
    for site in sites:
        if found and found[-1][1] == site - 1:
            found[-1][1] = site
        else:
            found.append([site, site])
    return found


def run_words(first, last):
    if last - first >= 2:
        return ['%d to %d' % (first, last)]
    return [str(site) for site in range(first, last + 1)]


def set_words(sites):
    """A set of sites in words: `0, 2 to 4 and 7`."""
    items = sum((run_words(*run) for run in runs(sites)), [])
    return ' and '.join([', '.join(items[:-1]), items[-1]] if items[1:] else items)


def site_or_sites(sites):
    return ('site ' if len(sites) == 1 else 'sites ') + set_words(sites)


def willing_words(header):
    unwilling = [site for site in range(header.sites) if not header.willing >> site & 1]
    if len(unwilling) in (0, header.sites):
        return 'none willing' if unwilling else 'all willing'
    return site_or_sites(unwilling) + ' unwilling'


def sizes_line(header):
    weights = ', weights ' + ' '.join(map(str, header.weights)) if set(header.weights) != {1} else ''
    return '%d sites, commit quorum %d, abort quorum %d%s, %s' % (*header[:3], weights, willing_words(header))


def message_words(message):
    return 'message %d, %s' % (message.number, KINDS[message.kind])


def subject(event):
    """Whom the words of an event are about."""
    site = event.command.site
    if not event.got:
        return 'site %d ' % site
    told = 'news of ' + counted(event.news, 'site') if event.news else 'nothing new'
    return '%s from site %d, brings site %d %s; it ' % (message_words(event.got), event.got.sender, site, told)


def phrases(event):
    """What becomes of the site."""
    old, new = event.before, event.after
    moved = {'crash': 'goes down', 'recover': 'comes back'}.get(event.command.verb)
    changed = 'was %s, is %s' % (STATES[old.state], STATES[new.state])
    if old.state == new.state:
        state = [(moved or 'stays') + ' ' + STATES[new.state]]
    else:
        state = [moved, changed] if moved else [changed]
    role = 'becomes coordinator' if new.role == 'coordinator' else 'is no longer coordinator'
    return ', '.join(state + ([role] if old.role != new.role else []))


def effects(event):
    """The record written and the message sent."""
    wrote = '; writes ' + RECORDS[event.record] if event.record else ''
    if not event.sent:
        return wrote
    to = 'site %d' % event.sent.to[0] if event.got else 'all others'
    return '%s; sends %s, to %s' % (wrote, message_words(event.sent), to)


def trace_line(event, sites):
    words = subject(event) + phrases(event) + effects(event)
    return '%5d  %-15s  %-3s  %-*s  %s' % (event.command.place, event.command.words, event.after.log, max(5, sites),
                                          event.after.codes, words)


def count_words(play):
    return '%s, %s, news %d' % (counted(len(play.events), 'event'), counted(len(play.messages), 'message'), play.reports[-1].news)


def stop_words(play):
    """The last line of the trace; of a refusal without its reason."""
    return play.stop + ': ' + ('' if play.stop.startswith('refused ') else count_words(play))


def trace_lines(play):
    """All lines of the trace but the last."""
    if not play.header:
        return []
    sites = play.header.sites
    heading = 'place  %-15s  log  %-*s  what happens' % ('event', max(5, sites), 'knows')
    return [sizes_line(play.header), heading] + [trace_line(event, sites) for event in play.events]


def judge_stop(what, play, got):
    """The stop must be as the play has it, and a refusal has some reason."""
    want = stop_words(play)
    if play.stop.startswith('refused '):
        require(got.startswith(want) and got[len(want):].strip(), '%s\n  expected: %r and a reason' % (what, want), got)
    else:
        expect(what, want, got)


def judge_trace(play, printed):
    """Compares the trace and gives its last line."""
    text = printed.out.decode('utf-8')
    require(text.endswith('\n'), 'trace: no line feed at the end', text[-60:])
    got, want = text[:-1].split('\n'), trace_lines(play)
    for number, pair in enumerate(zip(want, got), 1):
        expect('trace: line %d' % number, *pair)
    expect('trace: number of lines', len(want) + 1, len(got))
    judge_stop('trace: last line', play, got[-1])
    expect('trace: exit status', int(play.stop.startswith('refused ')), printed.status)
    return got[-1]
