"""What the jobs guard, find, keep and demo leave: drawn, or told what it is; and what is said where the files can't
tell."""
import json
import tempfile

import made
import told

ROWS = "[...document.querySelectorAll('%s tbody tr')].map(row => [...row.cells].map(cell => cell.innerText))"
# The cards that are seen, by their names.
SEEN = """[...document.querySelectorAll('main > section, main > aside')]
    .filter(each => each.offsetParent !== null).map(each => each.id)"""
PAPER = "dispatchEvent(new Event('%sprint'))"
PRINTED = """[...document.querySelectorAll('#paper [aria-label="%s"] tbody tr')]
    .map(row => [...row.cells].map(cell => cell.textContent))"""
# Each rule that refused in the worked policy, by whom it was met, and what stands there of it.
DENIED = (('denied policy', '2', 'No rule of the policy allows it', 'asked by dan, eve'),
          ('no-abort-by-hand policy', '2', 'in the policy: Who: everybody · Command: Abort', 'asked by ann, dan'),
          ('shift-never-drains policy', '1', 'in the policy: Who: shift · Service: drain', 'asked by cat'),
          ('StateForbids 31', '1', 'wait for another state', 'asked by ben'))
# Entries are counted as an audit counts them; what is none has its line's number.
ASKED = (('6', 'ann asked dose of DOS1 for Start: permitted'),
         ('line 8', "cat asked drain of MIX1 for Start: denied by the policy's rule shift-never-drains"),
         ('line 10', 'dan asked dose of DOS1 for Start: denied, no rule of the policy allows it'),
         ('8', 'ben asked dose of DOS1 for Hold: refused, StateForbids'),
         ('line 15', 'an operator asked stir of MIX1 for Start, in a line at fault'))


def check(checks):
    check_guard(checks)
    check_policy_beside(checks)
    check_answers_alone(checks)
    check_policy_replayed(checks)
    check_operated(checks)
    check_finder(checks)
    check_kept(checks)
    check_operated_file(checks)
    check_entries(checks)
    check_nothing(checks)


def check_guard(checks):
    """A denied command stands among what was refused, by the policy's rule and with who asked."""
    checks.open(checks.example('policy.jsonl'), checks.data('policy.answers'))
    rows = checks.run(ROWS % '#refused')
    for rule, times, remedy, who in DENIED:
        row = next((row for row in rows if row[0] == rule), ['', '', ''])
        is_told = row[1] == times and remedy in row[2] and who in row[2]
        checks.that('guard: %s is told, and who asked' % rule, is_told, rows)
    checks.says('guard: a denied command is no entry', 'counts', '8 entries', '5 denied', '1 line at fault')
    alarms = checks.run(ROWS % '#alarms')
    for entry, text in ASKED:
        checks.that('guard: the reviewer sees who asked: %s' % entry, [entry, text] in alarms, alarms)
    checks.run('page.go(6)')
    checks.says('guard: a denial at the cursor', 'here', 'answered line 7 of 14', 'cat asks drain of MIX1 for Start',
                "denied by the policy's rule shift-never-drains", 'the plant never saw the command')
    checks.gives('guard: denied lines are no entries between two', 'page.state.history.entriesIn(5, 12)', 3)
    checks.run('page.go(11)')
    checks.says('guard: an entry behind denials at the cursor', 'here', 'entry 8 of 8', 'line 13')
    checks.choose('chosenRule', 'denied no-abort-by-hand')
    checks.gives('guard: a rule of the policy can be chosen', 'page.entries.count', 2)
    checks.same('guard: and its lines are no entries', checks.text('rows'), '2 lines that are no entries')
    checks.choose('chosenRule', '')
    marks = "page.state.history.modules.get('MIX1').services.get('stir').lane.mark"
    checks.gives('guard: a denial is marked in its lane', marks, ['refused'] * 3)
    checks.run(PAPER % 'before')
    printed = [[row[0], *row[2:4]] for row in checks.run(PRINTED % 'Commands of operators')]
    wanted = (['line 8', 'cat', 'Start: drain, MIX1'], ['8', 'ben', 'Hold: dose, DOS1'],
              ['line 15', 'not named', 'Start: stir, MIX1'])
    for row in wanted:
        checks.that('guard: who asked stands on paper: %s' % row, row in printed, printed)
    checks.says('guard: and the rule', 'paper', 'no-abort-by-hand', 'asked by ann, dan')
    checks.run(PAPER % 'after')
    checks.press('language')
    checks.says('guard: in German', 'alarms', 'cat verlangte Start von drain an MIX1: verweigert von der Regel')
    checks.says('guard: and the list', 'refused', 'Keine Regel der Richtlinie erlaubt es', 'verlangt von dan, eve')
    checks.press('language')


def check_policy_beside(checks):
    """The policy may lie in a file of its own, as it may be given to the program in front of a journal."""
    policy, *journal = checks.example('policy.jsonl').read_text().splitlines(keepends=True)
    files = [checks.kept('own', policy), checks.kept('behind', ''.join(journal)), checks.data('policy.answers')]
    checks.open(*files)
    checks.says('a policy in a file of its own', 'counts', '8 entries', '5 denied')
    checks.gives('has no answer', "document.getElementById('faults').innerText", '')


def check_operated(checks):
    """A question to an operated plant is no event: what it was told is left out with it."""
    checks.open(checks.example('operated.jsonl'), checks.data('operated.answers'))
    checks.says('operate: questions are no entries', 'counts', '6 entries', '3 denied', '2 lines at fault')
    checks.gives('operate: its own lines are no faults', "document.getElementById('faults').innerText", '')
    checks.run('page.go(7)')
    checks.says('operate: each answer is that of its line', 'here', 'ann asks dose of M for Stop', 'ModeForbids')


def check_answers_alone(checks):
    """Without the journal the refusals are told, and of modules and batches that nobody knows."""
    checks.open(checks.data('policy.answers'))
    checks.says('answers alone: denials are told', 'refused', 'no-abort-by-hand', 'StateForbids')
    checks.that('answers alone: nobody is named', 'asked by' not in checks.text('refused'))
    checks.says('answers alone: the journal is asked for', 'faults', 'Put the journal along')
    for part in ('none', 'outcomes', 'alarms'):
        checks.says('answers alone: %s claims nothing' % part, part, "the journal, which isn't among the files")
    checks.visit(14)
    checks.says('answers alone: each answer can be read', 'here', "its line isn't among the files")
    checks.open(checks.example('policy.jsonl'))
    checks.says('a journal alone: nothing is said to be refused', 'refused', 'no answer in the files')
    checks.that('a journal alone: nor counted', 'refused' not in checks.text('counts'))
    checks.open(checks.data('find'))
    for part in ('alarms', 'waits'):
        checks.says('a journal alone: nothing is known of its %s' % part, part, 'no answer in the files')


def check_policy_replayed(checks):
    """A replay answers the policy as a line at fault: then it is an entry like the others."""
    answers = checks.data('policy.answers').read_text()
    replayed = checks.kept('replayed', '{"bad":"Missing","path":"ev"}\n' + answers)
    checks.open(checks.example('policy.jsonl'), replayed)
    checks.gives('a policy that was replayed has an answer', "document.getElementById('faults').innerText", '')
    checks.gives('and stands first', 'page.state.found.raw(0)[0].startsWith(\'{"groups"\')', True)
    checks.gives('the others behind it', "page.state.history.people.get(6)", 'ann')


def finder(checks):
    return [checks.data('find'), checks.data('find.answers')]


def check_finder(checks):
    """What the job find says stands in a table, with its journal or without."""
    wanted = [['one', 'acid = DOS1'], ['two', 'too few modules for acid, base: only DOS1 left'],
              ['three', 'too few modules for tank: none left']]
    for name, files in (('alone', finder(checks)[1:]), ('with its journal', finder(checks))):
        checks.open(*files)
        checks.gives('find %s: each recipe' % name, ROWS % '#finder', wanted)
        checks.says('find %s: lines at fault are told' % name, 'finder', 'at fault: 1')
        checks.says('find %s: who says so' % name, 'finder', 'As the job find says', 'this page checks nothing')
        checks.run(PAPER % 'before')
        checks.gives('find %s: on paper' % name, PRINTED % 'Which modules are left for a recipe', wanted)
        checks.run(PAPER % 'after')
    checks.says('find with its journal: the events are drawn', 'counts', '2 modules')
    checks.open(finder(checks)[1])
    checks.gives('find alone: nothing else is claimed', SEEN, ['finder'])
    checks.run(PAPER % 'before')
    checks.that('find alone: nor on paper', 'No batch' not in checks.text('paper'))
    checks.run(PAPER % 'after')
    checks.press('language')
    checks.says('find in German', 'finder', 'für acid, base: nur noch DOS1', 'für tank: keines mehr', 'Laut find')
    checks.press('language')
    cut = finder(checks)[1].read_text().splitlines(keepends=True)[:2]
    checks.open(checks.kept('find-cut', ''.join(cut)))
    checks.says('find cut off is told', 'finder', 'end line is missing')
    run = told.program_of(checks)
    if run:
        checks.that("find: the stored output is the program's",
                    run('find', finder(checks)[0].read_bytes()) == finder(checks)[1].read_bytes())


def kept_file(checks, name, *parts):
    path = checks.folder / name
    path.write_bytes(b''.join(parts))
    return path


def check_kept(checks):
    """The file of a kept plant is drawn as the journal that it is."""
    journal, answers = checks.data('holding'), checks.data('holding.answers')
    stored = checks.repository / 'viewer' / 'checks' / 'data' / 'pol.journal'
    whole, count = stored.read_bytes(), len(journal.read_text().splitlines())
    checks.open(stored)
    checks.gives('a kept file: its events', 'page.state.found.events.length', count)
    checks.says('a kept file: what it is', 'faults', 'pol.journal is the file of a kept plant, with %d events' % count,
                'The job export makes a journal of it', 'as if each had been accepted')
    checks.says('a kept file: its modules', 'counts', '1 module')
    checks.open(stored, answers)
    checks.gives('a kept file and the answers of its replay', 'page.state.history.counts.wait',
                 sum('"wait"' in line for line in answers.read_text().splitlines()))
    half = len(whole) - 40
    checks.open(kept_file(checks, 'half.journal', whole[:half]))
    place = whole[:half].rindex(b'}\x01') + 1
    checks.says('a kept file that is cut is told', 'faults', 'from byte %d on' % place, 'behind event %d' % (count - 1))
    checks.gives('and the events before it', 'page.state.found.events.length', count - 1)
    checks.open(kept_file(checks, 'pol.journal', b'\0'))
    checks.says('a kept file without events', 'faults', 'pol.journal is the file of a kept plant, without events')
    run = told.program_of(checks)
    if run:
        with tempfile.TemporaryDirectory() as folder:
            run('keep', journal.read_bytes(), folder)
            made_now = (checks.folder.__class__(folder) / 'pol.journal').read_bytes()
        checks.that("a kept file: the stored one is the program's", made_now == whole)


def check_operated_file(checks):
    """The file of an operated plant is drawn as the journal that it is, with who gave each event."""
    stored = checks.repository / 'viewer' / 'checks' / 'data' / 'pol.plant'
    whole = stored.read_bytes()
    checks.open(stored)
    checks.gives('an operated file: its events', 'page.state.found.events.length', 6)
    checks.gives('an operated file: no line is at fault', 'page.state.found.faults.length', 0)
    checks.says('an operated file: what it is, and lacks', 'faults', 'pol.plant is the file of an operated plant',
                'with 6 events, begun by pol 1.0.0', 'no answers and none of the lines that the policy denied',
                "doesn't check its sums", 'as if each had been accepted')
    checks.gives('an operated file: who gave them', '[...page.state.history.people]', [[3, 'ann'], [5, 'ann']])
    checks.press('language')
    checks.says('an operated file in German', 'faults', 'die Datei einer bedienten Anlage', 'prüft ihre Summen nicht')
    checks.press('language')
    checks.open(kept_file(checks, 'half.plant', whole[:-40]))
    checks.says('an operated file that is cut is told', 'faults', 'behind event 5, from byte %d on' % cut_at(whole, 6))
    checks.gives('and the events before it', 'page.state.found.events.length', 5)
    checks.open(kept_file(checks, 'header.plant', whole[:cut_at(whole, 1)] + b'\0'))
    checks.says('an operated file without events', 'faults', 'with 0 events', 'begun by pol 1.0.0')
    run = told.program_of(checks)
    if run:
        with tempfile.TemporaryDirectory() as folder:
            run('operate', checks.example('operated.jsonl').read_bytes(), folder)
            made_now = (checks.folder.__class__(folder) / 'pol.plant').read_bytes()
        checks.that("an operated file: the stored one is the program's", made_now == whole)


def cut_at(whole, count):
    """Where the record behind so many records begins."""
    at = 0
    for _ in range(count):
        at += 9 + int.from_bytes(whole[at + 1:at + 9], 'big')
    return at


ENTRIES = ({'answer': {'done': True}, 'event': {'ev': 'plug', 'at': 1, 'tag': 'M', 'desc': {
    'type': 'Doser', 'version': '1.0.0', 'services': [{'name': 'do"se]}'}]}}},
           {'answer': {'refused': 30, 'rule': 'ModeForbids'}, 'by': 'mia', 'event': {
               'ev': 'desk', 'at': 2, 'tag': 'M', 'service': 'do"se]}', 'CommandOp': 8}})


def check_entries(checks):
    """Entries as an operated plant is asked for them: a line each, or all in the line of the answer; with who gave
    them."""
    line = json.dumps({'entries': ENTRIES}) + '\n'
    output = '{"kept":2,"sum":"00"}\n' + line + '{"end":true,"sum":"00"}\n'
    question = '{"groups":[],"rules":[],"lines":[]}\n{"ask":"entries","from":0}\n'
    alone = checks.kept('entries', made.text(ENTRIES))
    for name, files in (('a line each', [alone]), ('in one line', [checks.kept('entries', line)]),
                        ('in an output', [checks.kept('output', output)]),
                        ('beside the question', [checks.kept('asked', question), checks.kept('output', output)])):
        checks.open(*files)
        checks.gives('entries %s: all are drawn' % name, 'page.state.found.length', 2)
        checks.says('entries %s: who gave one' % name, 'alarms', 'mia asked do"se]} of M for Stop: refused')
        faults = checks.text('faults')
        checks.that('entries %s: what they are is told' % name, faults.startswith('These are entries that an operated')
                    and 'end line' not in faults, faults)
    checks.open(checks.example('operated.jsonl'), checks.data('operated.answers'))
    checks.gives('beside their events they are drawn once', 'page.state.found.length', 11)


def check_nothing(checks):
    """Where the files have no history, none of what it would be is claimed."""
    checks.open(checks.kept('demo', '{"answers":1028,"closed":1,"refused":0}\n'))
    checks.says('the counts of a demo are told to be so', 'faults', 'the counts of a demo journal')
    checks.gives('and nothing is claimed', SEEN, ['faults'])
    for key in ('ArrowRight', 'End', 'n', '+', '0', 'Home'):
        checks.page.key(key)
    checks.gives('nor by any key', SEEN, ['faults'])
    checks.open(checks.example('site.json'))
    checks.gives('a site alone: nothing is claimed', SEEN, [])
    full = '{"refused":38,"rule":"HistoryFull"}\n'
    checks.open(checks.kept('full', '{"done":true}\n' + full * 3 + '{"end":true}\n'))
    checks.says('what a full history refuses is no entry', 'counts', '1 entry', '3 refused')
