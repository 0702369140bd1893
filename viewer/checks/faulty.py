"""Verdicts, files at fault, forged lines and hostile texts: each is told, and what could be read is drawn."""
import hashlib

import made

SEAL = "document.getElementById('seal').className"
TOLD = "document.getElementById('faults').innerText"


def check(checks):
    check_verdicts(checks)
    check_faults(checks)
    check_answers(checks)
    check_hostile(checks)
    check_forged_jobs(checks)


def site_lines(checks):
    return checks.data('site').read_text().splitlines(keepends=True)


def check_verdicts(checks):
    checks.open(checks.data('site'))
    checks.gives('a good verdict is a good seal', SEAL, 'good')
    lines = site_lines(checks)[:-1]
    lines[10] = lines[10].replace('"refused":30,"rule":"ModeForbids"', '"done":true')
    verdict = '{"audit":"bad","place":10,"says":{"refused":30,"rule":"ModeForbids"},"why":"Answer"}\n'
    checks.open(checks.kept('wrong', ''.join(lines) + verdict))
    checks.gives('a bad verdict is a red seal', SEAL, 'bad')
    checks.says('which says where and what', 'seal', 'entry 11 of 113', 'refused: ModeForbids')
    doubts = "page.state.history.alarms.filter(each => each.key.startsWith('audit')).map(each => each.at)"
    checks.gives('its place is in the list', doubts, [10])
    checks.says('in plain words', 'alarms', 'the audit finds this answer wrong; it should be: refused: ModeForbids')
    check_batch_line(checks)
    check_other_verdicts(checks)
    check_named(checks)


def check_batch_line(checks):
    """A wrong line of a batch is told by its number and its batch, and is a deviation of that batch."""
    lines = site_lines(checks)[:-1]
    row = next(k for k, line in enumerate(lines) if '"batch":"evening"' in line and '"outcome"' in line)
    lines[row] = lines[row].replace('Completed', 'Broken')
    checks.open(checks.kept('wrong', ''.join(lines) + '{"audit":"bad","place":%d,"why":"Tail"}\n' % row))
    checks.says('a wrong batch line is told', 'seal', 'audit: wrong · line %d' % (row + 1), 'the line of batch evening')
    for batch, wanted in (('evening', True), ('morning', False)):
        checks.choose('chosenBatch', batch)
        checks.run("dispatchEvent(new Event('beforeprint'))")
        rows = checks.run("document.querySelector('#paper table.deviations')?.textContent ?? ''")
        is_there = 'the audit finds line %d wrong: the line of batch evening' % (row + 1) in rows
        checks.same('and is a deviation of its batch: ' + batch, is_there, wanted)
        checks.run("dispatchEvent(new Event('afterprint'))")


def check_named(checks):
    """What the job attest writes tells its file, and is shown for that file alone."""
    history = checks.example('site.history.jsonl').read_bytes()
    other, good = history.replace(b'"at":', b'"at": ', 1), '{"audit":"good","entries":113}\n'
    bad = '{"audit":"bad","place":113,"why":"Tail"}\n'
    for data, verdict, style in ((history, good, 'good'), (history, bad, 'bad'), (other, good, 'none')):
        read = '{"bytes":%d,"sha256":"%s"}\n' % (len(data), hashlib.sha256(data).hexdigest())
        checks.open(checks.example('site.history.jsonl'), checks.kept('attest', verdict + read))
        checks.gives('a verdict that names its file is %s' % style, SEAL, style)
        if style == 'none':
            checks.says('and one of another file is told', 'faults', hashlib.sha256(other).hexdigest(),
                        "that isn't here", "isn't shown")
            checks.that('not by its size', str(len(other)) not in checks.text('faults'), checks.text('faults'))
            checks.run("dispatchEvent(new Event('beforeprint'))")
            checks.that('nor as a line at fault', 'Lines at fault' not in checks.text('paper'))
            checks.run("dispatchEvent(new Event('afterprint'))")
        else:
            checks.says('and the seal says of which', 'seal', 'of site.history.jsonl, whose size and SHA-256')
    checks.open(checks.example('site.history.jsonl'), checks.data('blend.answers'), checks.example('blend.jsonl'),
                checks.kept('attest', good + '{"bytes":%d,"sha256":"%s"}\n'
                            % (len(history), hashlib.sha256(history).hexdigest())))
    checks.gives('nor is it shown where more came along than its file', SEAL, 'none')
    swapped = history[:-20] + bytes(reversed(history[-20:]))
    read = '{"bytes":%d,"sha256":"%s"}\n' % (len(swapped), hashlib.sha256(swapped).hexdigest())
    checks.open(checks.example('site.history.jsonl'), checks.kept('attest', good + read))
    checks.says('two files of one size are told by their sums', 'faults', hashlib.sha256(swapped).hexdigest(),
                'site.history.jsonl, which is of that size, has the SHA-256 ' + hashlib.sha256(history).hexdigest())
    check_operated_verdict(checks)


def check_operated_verdict(checks):
    """What has a policy, a name, a question or a denial isn't the file that an audit took."""
    named = made.text([{'answer': {'done': True}, 'by': 'mia', 'event': {'ev': 'unplug', 'at': 1, 'tag': 'M'}}])
    for name, count, files in (('under a policy', 8, [checks.example('policy.jsonl'), checks.data('policy.answers')]),
                               ('operated', 6, [checks.example('operated.jsonl'), checks.data('operated.answers')]),
                               ('with names', 1, [checks.kept('named', named)])):
        verdict = checks.kept('verdict', '{"audit":"good","entries":%d}\n' % count)
        checks.open(verdict, *files)
        checks.gives('a verdict beside lines %s is no seal' % name, SEAL, 'none')
        checks.says('and is told to be of another file: ' + name, 'faults', "can't be of these lines", 'another file')


def check_other_verdicts(checks):
    """A verdict names no file: it is shown only where it can be of the history that came along, and says so."""
    history = ''.join(site_lines(checks)[:-1])
    checks.open(checks.data('site'))
    checks.says('a good verdict says that it names no file', 'seal', 'which names no file')
    answer = '{"audit":"bad","place":10,"says":{"rule":"ModeForbids","refused":30},"why":"Answer"}'
    cases = (('of fewer entries', '{"audit":"good","entries":112}', 'verdict of 112 entries', 'here are 113'),
             ('of more entries', '{"audit":"good","entries":1130}', 'verdict of 1130 entries', 'here are 113'),
             ('of a place behind the end', answer.replace('10', '113'), 'finds entry 114 wrong', 'here are 113'),
             ('of too many', '{"audit":"bad","place":20000,"why":"TooMany"}', 'entry 20', 'here are 113'),
             ('of what stands right here', answer, 'the answer of entry 11 wrong', 'here that answer is what'),
             ('of no form', '{"audit":"fine"}', "isn't of the form", "isn't shown"),
            ('of no number', '{"audit":"good"}', "isn't of the form", "isn't shown"))
    for name, verdict, *texts in cases:
        checks.open(checks.kept('other', history + verdict + '\n'))
        checks.gives('a verdict %s is no seal' % name, SEAL, 'none')
        checks.says('and is told: ' + name, 'faults', *texts)
        doubts = "page.state.history.alarms.some(each => each.key.startsWith('audit'))"
        checks.gives('and doubts no entry', doubts, False)
    checks.run("dispatchEvent(new Event('beforeprint'))")
    checks.is_true('nor on paper', "!document.getElementById('paper').innerText.includes('113 entries is good')")
    checks.run("dispatchEvent(new Event('afterprint'))")
    good = '{"audit":"good","entries":113}\n'
    checks.open(checks.kept('two', history + cases[0][1] + '\n' + good))
    checks.gives('of two verdicts the fitting one is shown', SEAL, 'good')
    checks.says('and the other is told', 'faults', 'verdict of 112 entries')
    blend, own = checks.example('blend.jsonl'), checks.kept('verdict', good.replace('113', '34'))
    answers, kind = checks.data('blend.answers'), 'but no history with its events and answers'
    for name, files, text in (('alone', [own], 'here are 0 entries'), ('beside a journal', [own, blend], kind),
                              ('beside answers', [own, answers], kind)):
        checks.open(*files)
        checks.gives('a verdict %s is no seal' % name, SEAL, 'none')
        checks.says('a verdict %s is told' % name, 'faults', text)
    checks.open(own, blend, answers)
    checks.gives('a verdict beside a journal and its answers is one', SEAL, 'good')


def check_faults(checks):
    lines = site_lines(checks)
    checks.open(checks.kept('cut', ''.join(lines[:40]) + '{"answer":{"done":tr\n[]\n' + ''.join(lines[40:60])))
    checks.says('lines at fault are told by line', 'faults', 'line 41', 'line 42', 'end line is missing')
    checks.gives('and what could be read is drawn', 'page.state.found.length', 60)
    checks.open(checks.kept('forged', made.text(made.forged()) + ''.join(lines)))
    checks.visit(20)
    checks.says('forged lines are told', 'faults', 'line 1:')
    checks.is_true('and the rest is drawn', "page.state.history.batches.has('evening')")
    checks.open(checks.kept('nothing', '\x00\x01 no such thing\n'))
    checks.says('a file of something else is told', 'faults', 'line 1')
    turned = ''.join(lines).replace('"outcome":"Completed"', '"outcome":"Broken"', 1)
    checks.open(checks.kept('turned', turned))
    checks.says('a batch line that says otherwise is told', 'faults', 'its line says Broken')


def check_answers(checks):
    """A journal's events and their answers, whole or not."""
    blend, answers = checks.example('blend.jsonl'), checks.data('blend.answers').read_text()
    checks.open(blend)
    checks.says('that there are no answers is told', 'faults', 'events without answers')
    checks.gives('and the events are drawn', 'page.state.history.modules.size', 2)
    checks.open(blend, checks.kept('fewer', ''.join(answers.splitlines(keepends=True)[:20])))
    checks.says('answers that are too few are told', 'faults', '34 events and 20 answers')
    wrong = answers.splitlines(keepends=True)
    wrong.insert(5, wrong.pop(20))
    checks.open(blend, checks.kept('moved', ''.join(wrong)))
    checks.says('answers that can\'t be of their events are told', 'faults', "answers that can't be of their events")
    checks.open(checks.data('site'), checks.kept('twice', ''.join(site_lines(checks)[:-1])))
    checks.says('two outputs at once are told', 'faults', '2 end lines')
    checks.open(checks.kept('joined', blend.read_text() + answers))
    checks.gives('a journal and its output in one file', TOLD, '')
    checks.gives('give the same', 'page.state.history.counts.refused', 4)


def check_hostile(checks):
    checks.open(checks.data('hostile'), checks.data('hostile.answers'))
    checks.visit(17)
    checks.is_true('hostile texts stay texts',
                   "!document.body.dataset.hit && !document.querySelector('main img, main script, main textarea')")
    seen = ((2, 'markup is seen whole', '<img src=x onerror'), (3, '254 bytes of faces too', '😀' * 63 + 'é'),
            (4, 'signs that turn the writing are shown', '\\u202e'),
            (8, 'the greatest value to its last digit', '9223372036854775.807'),
            (0, 'the greatest stamp too', '18446744073709551615'))
    for entry, name, text in seen:
        checks.run('page.go(%d)' % entry)
        checks.says(name, 'here', text)
    checks.is_true('no name is taken for something of the language',
                   "page.state.history.batches.get('constructor').outcome === null")


def check_forged_jobs(checks):
    """Lines of guard and find that nobody writes: what is in them stays text, and nothing is thrown."""
    image = '<img src=x onerror=document.body.dataset.hit=1>'
    desk = {'ev': 'desk', 'tag': 'M', 'service': 'x', 'CommandOp': 4}
    events = [{'groups': [], 'rules': []}, *(dict(desk, at=1, by=by) for by in (image, 7, '__proto__', image))]
    answers = [{'denied': True, 'policy': image}, {'denied': True, 'policy': {'a': 1}}, {'denied': False},
               {'denied': True, 'policy': '__proto__'}, {'end': True}]
    rows = [{'recipe': {'x': 1}, 'bind': {'A': 7, image: image}}, {'recipe': image, 'short': [1], 'tags': None},
            {'recipe': 'r', 'short': [], 'tags': 'M'}, {'bad': image, 'end': True}]
    checks.open(*(checks.kept(name, made.text(lines)) for name, lines in
                  (('forged-guard', events), ('forged-guard.answers', answers), ('forged-find', rows))))
    checks.visit(4)
    checks.says('forged rules of a policy stay text', 'refused', image, '__proto__')
    checks.says('forged rows of find stay text', 'finder', image)
    checks.run("dispatchEvent(new Event('beforeprint')); dispatchEvent(new Event('afterprint'))")
    checks.is_true('and nothing of them runs',
                   "!document.body.dataset.hit && !document.querySelector('main img, #paper img:not([src^=data])')")
