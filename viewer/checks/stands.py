"""What nobody may overlook: a service that was left running, a command that was permitted and not seen to be sent, what
stands still at the end, and what is odd about the stamps."""
import json
import re

# Each batch that stands still, since which entry, what it waits for, and when it was asked last.
STILL = [['one', '34', "waits: the condition of step stir isn't true", ''],
         ['two', '37', 'waits: K12 is in exchange', ''],
         ['three', '46', 'waits: frozen', ''],
         ['four', '55', "waits: the condition of step stir isn't true",
          'asked last at entry 55, 2 reports since: ask again'],
         ['five', '58', 'last: started', 'not asked since its start: ask']]
LISTED = """[...document.querySelectorAll('#still li')].map(each => [...each.querySelectorAll('button'),
    each.querySelector('span:not(.small)'), each.querySelector('b.again')].map(part => part?.textContent ?? ''))"""
RED = 'rgb(193, 22, 35)'
LEFT = 'heat of K11 was left in Execute: go and look'
TOLD = "[...document.querySelectorAll('%s b.left')].map(each => [each.textContent, getComputedStyle(each).color])"
PAPER = "dispatchEvent(new Event('%sprint'))"
# Colours of the steps in the chart, by their names.
FILLS = """Object.fromEntries([...document.querySelectorAll('#chart .step')]
    .map(each => [each.dataset.step, getComputedStyle(each.querySelector('rect')).fill]))"""
# Words of a command that somebody saw go out; pol only asks for it or permits it.
SEEN = re.compile(r'\b(sent|sends|goes to|gesandt|sandte|geht an)\b')


def check(checks):
    check_left(checks)
    check_abandoned(checks)
    check_held(checks)
    check_permitted(checks)
    check_still(checks)
    check_stamps(checks)


def check_left(checks):
    """Of two steps one was stopped, and one was left with its service running."""
    checks.open(checks.data('left'), checks.data('left.answers'))
    phase = "page.state.history.batches.get('red').standing(20).steps.get('%s').phase"
    for step, wanted in (('stir', 'off'), ('heat', 'left')):
        checks.gives('a stop that reached %s or not' % step, phase % step, wanted)
    checks.run('page.go(20)')
    fills = checks.run(FILLS)
    checks.that('a step that was left has a colour of its own', fills['heat'] != fills['stir'], fills)
    checks.gives('and a sign', "document.querySelectorAll('#chart .warning').length", 1)
    checks.says('it is told beside the outcome', 'outcomes', 'Stopped', '! heat of K11 left in Execute')
    checks.says('and in the chart', 'under', 'Stopped', '! heat of K11 left in Execute')
    checks.gives('and in red for the reviewer', TOLD % '#alarms', [[LEFT, RED]])
    mark = "page.state.history.batches.get('red').lane.mark.filter(each => each === 'left').length"
    checks.gives('and marked in its lane', mark, 1)
    checks.run(PAPER % 'before')
    checks.says('and on paper', 'paper', LEFT, '! heat of K11 left in Execute')
    checks.run(PAPER % 'after')
    checks.open(checks.data('broken'), checks.data('broken.answers'))
    checks.choose('chosenBatch', 'red')
    checks.gives('what was left at rest is no alarm', "document.querySelectorAll('#alarms b.left').length", 0)


def check_abandoned(checks):
    """An abandon sends nothing: a step that is active then is told like one that was left, unless its service was
    reported at rest since its start."""
    checks.open(checks.data('broken'), checks.data('broken.answers'))
    text = 'heat of K13 was left in Paused: go and look'
    checks.gives('what an abandon left is in red for the reviewer', TOLD % '#alarms', [[text, RED]])
    checks.says('and beside the outcome', 'outcomes', 'Abandoned! heat of K13 left in Paused')
    checks.run('page.go(98)')
    checks.gives('with a sign in the chart', "document.querySelectorAll('#chart .step.left .warning').length", 1)
    checks.run('page.go(97)')
    checks.gives('but not before', "document.querySelectorAll('#chart .step.left').length", 0)
    marks = "page.state.history.batches.get('green').lane.mark.filter(each => each === 'left').length"
    checks.gives('and marked in its lane', marks, 1)
    journal, answers = (file.read_text().splitlines() for file in (checks.data('left'), checks.data('left.answers')))
    stop = next(k for k, line in enumerate(journal) if '"stop"' in line)
    running = [line for line in journal[:stop] if '"ev":"report"' in line and '"StateCur":64' in line]
    heat = next(line for line in running if '"heat"' in line)
    before = 'was left in Idle (nothing reported since its start): go and look'
    for name, end, more, wanted in (
            ('running', stop, [], ['heat of K11 was left in Execute: go and look', 'stir of K11 was left in']),
            ('at rest', stop, [heat.replace('"StateCur":64', '"StateCur":131072')], ['stir of K11 was left in']),
            ('just started', 9, [], ['stir of K11 ' + before, 'heat of K11 ' + before])):
        lines = journal[:end] + more + ['{"ev":"abandon","at":99,"batch":"red"}']
        told = answers[:end] + ['{"done":true}'] * len(more) + ['{"closed":"Abandoned"}', '{"end":true}']
        checks.open(checks.kept('given-up', '\n'.join(lines) + '\n'),
                    checks.kept('given-up.answers', '\n'.join(told) + '\n'))
        found = checks.run(TOLD % '#alarms')
        is_told = len(found) == len(wanted) and all(any(text.startswith(each) for text, _ in found) for each in wanted)
        checks.that('abandoned: heat %s' % name, is_told, found)
    checks.press('language')
    checks.says('abandoned, in German', 'alarms', 'in Idle (seit dem Start nichts gemeldet) verlassen: nachsehen')
    checks.press('language')


def check_held(checks):
    """A freeze that holds reached one step; the other one runs on, which is told in red once nothing more is asked."""
    checks.open(checks.data('signed'), checks.data('signed.answers'))
    told = """page.state.history.alarms.filter(each => each.key === 'notHeld').map(each => each.at + 1)"""
    checks.gives('a hold that reached not all is told once', told, [56])
    red = "[...document.querySelectorAll('#alarms b.left')].map(each => getComputedStyle(each).color)"
    checks.gives('in red', red, [RED, RED])
    checks.says('with what runs on', 'alarms', 'heat of K11 runs on in Execute, though its batch is to hold')
    checks.open(checks.data('holding'), checks.data('holding.answers'))
    checks.gives('one that reached all is no alarm', told, [])
    check_held_unasked(checks)


def check_held_unasked(checks):
    """Where no advance was answered Frozen, what a hold didn't reach is told by the reports: at a thaw, a close and the
    end, since the freeze. What may be held is none of it, nor what was held."""
    told = """page.state.history.alarms.filter(each => each.key === 'notHeld').map(each => each.at + 1)"""
    files = checks.data('signed'), checks.data('signed.answers')
    journal, answers = (file.read_text().splitlines() for file in files)
    asked = answers.index('{"wait":"Frozen"}', 50)
    journal, answers = journal[:asked + 1] + journal[asked + 2:], answers[:asked] + answers[asked + 1:]
    heat = next(k for k, line in enumerate(journal) if '"Mode":"Operator"' in line)
    close = ['{"ev":"abandon","at":1,"batch":"blue"}'], ['{"closed":"Abandoned"}', '{"end":true}']
    for name, end, more, mode, wanted in (('a thaw', None, ([], []), 'Operator', [52]),
                                          ('a close', asked, close, 'Operator', [52]),
                                          ('the end', asked, ([], ['{"end":true}']), 'Operator', [52]),
                                          ('the end, where it may be held', asked, ([], []), 'Automatic', [])):
        lines = journal[:heat] + [journal[heat].replace('"Operator"', '"%s"' % mode)] + journal[heat + 1:]
        files = [lines[:end and end + 1] + more[0], answers[:end] + more[1]]
        checks.open(*(checks.kept('unasked-%d' % k, '\n'.join(each) + '\n') for k, each in enumerate(files)))
        checks.gives('a hold that fell short by reports: ' + name, told, wanted)
        if name == 'the end':
            ends = "[...document.querySelectorAll('#still b.left')].map(each => [each.textContent, " \
                'getComputedStyle(each).color])'
            checks.gives('and its branch says so in red', ends, [["the hold doesn't reach it: go and look", RED]])


def check_permitted(checks):
    """Nobody was seen to send a command: the page says that it was permitted or asked for."""
    checks.page.begin(checks.url)
    labels = checks.run('labels')
    claims = [key for key, both in labels.items() if any(map(SEEN.search, both))]
    checks.same('no label says that a command was sent', claims, [])
    checks.open(checks.data('broken'), checks.data('broken.answers'))
    for alarm, table, answer in (('stir of K11 for Abort: permitted', 'Commands of operators', 'permitted'),
                                 ('Abort von stir an K11: erlaubt', 'Befehle von Bedienern', 'erlaubt')):
        checks.says('a command that was permitted is said to be so', 'alarms', alarm)
        checks.run(PAPER % 'before')
        rows = """document.querySelector('#paper [aria-label="%s"] tbody').textContent""" % table
        checks.that('and on paper', answer in checks.run(rows), checks.run(rows))
        checks.run(PAPER % 'after')
        checks.press('language')


def check_still(checks):
    """What waits or stands still at the end of what was read stands on top, and a press goes there."""
    files = [checks.data('still'), checks.data('still.answers')]
    checks.open(*files)
    checks.gives('what stands still is on top', LISTED, STILL)
    for row, (batch, entry, _, _) in enumerate(STILL):
        buttons = "document.querySelectorAll('#still li')[%d].querySelectorAll('button')" % row
        for button in (0, 1):
            checks.run('page.go(0)')
            checks.run('%s[%d].click()' % (buttons, button))
            checks.gives('a press on %s goes there' % batch, 'page.state.view.cursor', int(entry) - 1)
            checks.gives('and shows its chart', "document.getElementById('which').value", batch)
    checks.run("page.go(0); document.querySelector('#outcomes button').click()")
    checks.gives('so does a press on its outcome', 'page.state.view.cursor', 33)
    check_comb(checks)
    checks.run(PAPER % 'before')
    checks.says('and on paper', 'paper', *[text for _, _, *texts in STILL for text in texts])
    checks.run(PAPER % 'after')
    checks.choose('chosenBatch', 'two')
    checks.gives('what is chosen is what stands there', LISTED, STILL[1:2])
    checks.open(files[0])
    checks.gives('without answers nobody knows', "document.getElementById('still').hidden", True)
    checks.open(checks.data('left'), checks.data('left.answers'))
    checks.gives('of closed batches none stands still', "document.getElementById('still').hidden", True)


def check_comb(checks):
    """A press on a batch's lane shows that batch, whatever the entry there speaks of."""
    spot = checks.run("""(() => { const pane = page.panes.batches;
        pane.holder.scrollIntoView({ block: 'center' });
        const box = pane.canvas.getBoundingClientRect(), lane = pane.lanes.findIndex(each => each.label === 'one');
        return [box.x + pane.x(50.5), box.y + pane.tops[lane] + 20]; })()""")
    checks.page.press(*spot)
    checks.gives('a press on a lane sets the cursor', 'page.state.view.cursor', 50)
    checks.gives('and shows the batch of that lane', "document.getElementById('which').value", 'one')


def stamped(checks, name, stamps):
    """A plant's journal with other stamps: from 1 on, or as a change of them says."""
    lines = map(json.loads, checks.example('blend.jsonl').read_text().splitlines())
    told = [dict(line, at=stamps(k + 1)) for k, line in enumerate(lines)]
    return checks.kept(name, ''.join(json.dumps(line) + '\n' for line in told))


def check_stamps(checks):
    """What is odd about the stamps stands in the reviewer's list, also where one batch alone is chosen."""
    told = """page.state.history.alarms.filter(each => each.key.startsWith('stamps'))
        .map(each => [each.key, each.at + 1])"""
    first = 1795932000000
    cases = (('counted', lambda k: k, []),
             ('all falling', lambda k: 100 - k, [['stampsFall', 34]]),
             ('one back', lambda k: 3 if k == 20 else k, [['stampsFall', 20]]),
             ('one ahead', lambda k: 90 if k == 20 else k, [['stampsFall', 21]]),
             ('swapped', lambda k: {20: 21, 21: 20}.get(k, k), [['stampsSwapped', 21]]),
             ('one left out', lambda k: k + (k > 20), [['stampsMissing', 21]]),
             ('ticks that repeat', lambda k: k // 2 * 3, []),
             ('each second, then a night', lambda k: first + 1000 * k + (k > 20) * 10 ** 7, [['stampsPause', 21]]),
             ('each second, then a minute', lambda k: first + 1000 * k + (k > 20) * 40000, []))
    for name, stamps, wanted in cases:
        checks.open(stamped(checks, 'stamps', stamps))
        checks.gives('stamps: ' + name, told, wanted)
    checks.open(stamped(checks, 'stamps', lambda k: 100 - k))
    checks.choose('chosenBatch', 'b1')
    checks.says('stamps that fall are told', 'alarms', 'stamps fall from entry 1 to entry 34: 99 to 66')
