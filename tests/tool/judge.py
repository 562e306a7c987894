"""Judges what `quorum trace` and `quorum draw` print, by the player's reports alone.

    judge.py TOOL PLAYER LIST...

TOOL is the program that is judged; PLAYER a program that reads a list from standard input and prints its report; each LIST
a file with the bytes of a list, of the first or the second edition.

The player plays every prefix of a list: its header and its first k commands. A report shows all sites after k events, so two
neighbouring reports show what one event did: a record was written where the log differs, a message was sent where the row
count grew. Sender, destinations and kind of a message follow from the command: START and TIMEOUT send a command to all
others, DELIVER a reply to the sender of what was delivered. From this the judge works out the whole trace, and all that the
drawing must hold, and compares. It knows nothing of how the tool works.

It exits 0 if all is as it must be, 1 at the first difference, which it prints, 2 if it was called wrongly.
"""
import collections
import multiprocessing
import os
import shutil
import subprocess
import sys
import tempfile

from differences import Difference
from drawings import judge_drawing
from plays import PATIENCE, VERBS, read_play
from svg import classes
from traces import KINDS, RECORDS, judge_trace, willing_words

# With more lists than this, each sort of thing in SORTS must have occurred.
MANY_LISTS = 100
# What must have occurred somewhere among many lists.
SORTS = ([*VERBS.values()] + ['message ' + kind for kind in KINDS.values()] + ['writes ' + record for record in RECORDS.values()]
         + ['again', 'lost', 'later', 'cut', 'stretch', 'down', 'coordinator', 'no longer coordinator', 'nothing new', 'of 1 site', 'of more sites',
            'no world', 'refused', 'end', 'first edition', 'second edition', 'weights', 'all willing', 'unwilling'])

# What a program printed.
Printed = collections.namedtuple('Printed', 'status out err')


def event_sorts(event):
    """The sorts of things that an event shows."""
    yield event.command.verb
    if event.sent:
        yield 'message ' + KINDS[event.sent.kind]
    if event.record:
        yield 'writes ' + RECORDS[event.record]
    if event.got:
        yield {0: 'nothing new', 1: 'of 1 site'}.get(event.news, 'of more sites')
    if event.before.role != event.after.role:
        yield 'coordinator' if event.after.role == 'coordinator' else 'no longer coordinator'


def header_sorts(data, play):
    """The sorts of things that a list's header and stop show."""
    if not play.header:
        return ['no world']
    edition = 'second edition' if data[0] == 130 else 'first edition'
    willing = 'all willing' if willing_words(play.header) == 'all willing' else 'unwilling'
    weights = ['weights'] if set(play.header.weights) != {1} else []
    return [play.stop.split(' ')[0], edition, willing, *weights]


def tally(data, play, parts):
    """How often each sort of thing occurred."""
    found = collections.Counter(header_sorts(data, play))
    for event in play.events:
        found.update(event_sorts(event))
    found.update({name: len(elements) for name, elements in parts.items() if name in ('arrow', 'lost', 'later', 'cut', 'stretch', 'down')})
    found['again'] += sum('again' in classes(arrow) for arrow in parts.get('arrow', []))
    found['events'] += len(play.events)
    return found


def run_tool(tool, word, name):
    done = subprocess.run([tool, word, name], stdin=subprocess.DEVNULL, stdout=subprocess.PIPE, stderr=subprocess.PIPE, timeout=PATIENCE)
    return Printed(done.returncode, done.stdout, done.stderr)


def judge(task):
    """One list: how often each sort of thing occurred, and the difference found, or None."""
    tool, player, name = task
    try:
        with open(name, 'rb') as file:
            data = file.read()
        play = read_play(player, data)
        last = judge_trace(play, run_tool(tool, 'trace', name))
        return tally(data, play, judge_drawing(play, last, run_tool(tool, 'draw', name))), None
    except (Difference, OSError, UnicodeDecodeError, subprocess.TimeoutExpired) as difference:
        return collections.Counter(), difference


def idle(found, lists):
    """The sorts of things that never occurred, though there are many lists."""
    return [sort for sort in SORTS if not found[sort]] if lists > MANY_LISTS else []


def judge_all(tool, player, names):
    """Judges all lists and gives how often each sort of thing occurred, or None at the first difference."""
    found = collections.Counter()
    # All prefixes are written inside of one folder, which is gone at the end even where a worker was stopped.
    with tempfile.TemporaryDirectory() as tempfile.tempdir, multiprocessing.get_context('fork').Pool() as pool:
        for name, (some, difference) in zip(names, pool.imap(judge, [(tool, player, name) for name in names])):
            if difference is not None:
                print('tool: %s: %s' % (name, difference))
                return None
            found += some
    return found


def main(arguments):
    if len(arguments) < 3:
        print('usage: judge.py TOOL PLAYER LIST...', file=sys.stderr)
        return 2
    tool, player = (os.path.abspath(shutil.which(program) or program) for program in arguments[:2])
    names = arguments[2:]
    found = judge_all(tool, player, names)
    if found is None:
        return 1
    missing = idle(found, len(names))
    if missing:
        print('tool: among %d lists there was never: %s' % (len(names), ', '.join(missing)))
        return 1
    print("tool: %d traces and drawings are as the player's reports have them: %d events, %d arrows (%d again), %d stubs, %d stretches"
          % (len(names), found['events'], found['arrow'], found['again'], found['lost'] + found['later'], found['stretch'] + found['down']))
    return 0


if __name__ == '__main__':
    sys.exit(main(sys.argv[1:]))
