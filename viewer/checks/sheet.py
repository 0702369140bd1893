"""The sheet to sign of one batch: its words, as they are stored, of two batches that went well and of one with
deviations of each kind; whose lines they were; and how its pages break. The stored words were read beside the files."""
import hashlib
import json
import pathlib
import re

# The words of the sheet: a line for each heading, row and paragraph, in their order; cells apart.
WORDS = """(() => { const parts = each => [...each.childNodes].flatMap(node =>
      (node.nodeType === 3 ? [node.textContent]
      : node.matches('.block, .under, .part, br') ? ['/', ...parts(node), '/']
      : node.matches('.blank') ? ['____'] : parts(node)));
    const cell = each => parts(each).join(' ').replace(/[\\s/]*\\/[\\s/]*/g, ' / ').replace(/\\s+/g, ' ')
      .replace(/^[ /]+|[ /]+$/g, '');
    return [...document.querySelectorAll('#paper .sign :is(h1, h2, tr, p, .whole:not(section))')]
      .filter(each => !each.parentElement.closest('tr'))
      .map(each => (each.matches('tr') ? [...each.children] : [each]).map(cell).join(' | ') + '\\n').join(''); })()"""
# What isn't stored: when it was printed, and sizes and checksums of files, which are compared by themselves.
CHANGING = ((re.compile(r"(Printed, by this machine's clock: ).*? UTC"), r'\1..'),
            (re.compile(r'^(\S+\.(jsonl|txt)) \| .*', re.M), r'\1 | .. | ..'))
HERE = pathlib.Path(__file__).resolve().parent
BUILD = 'commit   46e7fc26\nkit      1\nprogram  proved and built of these texts\n'
# How the pages break, once they are printed.
BREAKS = {'#paper h2': ('breakAfter', 'avoid'), '#paper tr': ('breakInside', 'avoid'),
          '#paper thead': ('display', 'table-header-group'), '#paper .whole': ('breakInside', 'avoid')}


def check(checks):
    check_stored(checks)
    check_kinds(checks)
    check_by_hand(checks)
    check_warnings(checks)
    check_build(checks)
    check_recipe(checks)
    check_names(checks)
    check_faults(checks)
    check_paper(checks)
    check_german(checks)


def signed(checks):
    return [checks.data('signed'), checks.data('signed.answers')]


def words_of(checks, batch=None):
    """The words of the sheet of a batch."""
    if batch:
        checks.choose('chosenBatch', batch)
    checks.run("dispatchEvent(new Event('beforeprint'))")
    told = checks.run(WORDS)
    checks.run("dispatchEvent(new Event('afterprint'))")
    return told


def lasting(told):
    """The same without what isn't stored."""
    for pattern, text in CHANGING:
        told = pattern.sub(text, told)
    return told.splitlines()


def check_stored(checks):
    """Of a history with its verdict and a program that is known, two batches; and the one batch of a journal."""
    build = checks.folder / 'version.txt'
    build.write_text(BUILD)
    site = [checks.data('site'), build]
    for name, batch, files in (('morning', 'morning', site), ('evening', 'evening', site),
                               ('blue', '', signed(checks))):
        checks.open(*files)
        checks.gives('sheet of %s: no line is at fault' % name, 'page.state.found.faults.length', 0)
        told = words_of(checks, batch)
        stored = (HERE / 'data' / ('sheet.%s.txt' % name)).read_text().splitlines()
        other = [pair for pair in zip(lasting(told), stored) if pair[0] != pair[1]][:2]
        checks.that('sheet of %s: each word as stored' % name, lasting(told) == stored, other or 'another length')
        checks.that('sheet of %s: its files' % name, all(row_of(file) in told for file in files), told)


def check_kinds(checks):
    """What the stored words lack: a batch that broke, was abandoned or is still open, and what a service did alone."""
    broken = [checks.data('broken'), checks.data('broken.answers')]
    for batch, files, texts in (
            ('red', broken, ['batch red broke: step stir found its service in Aborted / Stop is asked for: heat of K11',
                             'broke in Aborted / entry 43', 'an operator asked stir of K11 for Abort: permitted']),
            ('blue', broken, ['batch blue was frozen / batch blue is to go on / entry 74']),
            ('green', broken, ['left in Paused: go and look / entry 99', 'batch green was closed as Abandoned',
                       'Abandoned / ! heat of K13 left in Paused', 'heat of K13 was left in Paused: go and look | ',
                               'heat of K13 was reported in Pausing / heat of K13 was reported in Paused / entry 97']),
            ('', [checks.data('holding'), checks.data('holding.answers')],
             ['Closed | not closed at the end of the files', 'entry 4 · stamp 4 · line given by: not named',
              'batch b is still running at the end'])):
        checks.open(*files)
        told = words_of(checks, batch)
        checks.same('sheet of %s: what the stored ones lack' % (batch or 'b'), [t for t in texts if t not in told], [])


def check_by_hand(checks):
    """What an operator held stands with that command, not with a freeze that didn't reach it."""
    journal, answers = (file.read_text().splitlines() for file in signed(checks))
    row = answers.index('{"wait":"Frozen"}', 50)
    report = json.loads(next(line for line in journal if '"Mode":"Operator"' in line))
    heat = [json.dumps(dict(report, StateCur=code)) for code in (1024, 2048)]
    desk = '{"ev":"desk","at":1795932246000,"by":"ann","tag":"K11","service":"heat","CommandOp":16}'
    asked = '{"did":{"command":16,"do":"asked","service":"heat","tag":"K11"}}'
    checks.open(checks.kept('hand', '\n'.join(journal[:row + 2] + [desk, *heat])),
                checks.kept('hand.answers', '\n'.join(answers[:row + 1] + [asked] + ['{"done":true}'] * 2)))
    rows = [line for line in words_of(checks).splitlines() if 'reported in Held' in line]
    by_hand = 'ann asked heat of K11 for Hold: permitted / heat of K11 was reported in Holding / entry 56'
    checks.that('held by hand: with the command', by_hand in rows[-1] and 'in Held / entry 57' in rows[-1], rows)
    checks.that('and the freeze has its own', 'stir of K11' in rows[0] and 'heat' not in rows[0], rows)


def row_of(file):
    """A file's name, size and checksum, as its row tells them."""
    text = file.read_bytes()
    size = re.sub(r'(?<=\d)(?=\d{3}$)', ' ', str(len(text))) if len(text) > 9999 else len(text)
    return '%s | %s | %s' % (file.name, size, re.sub(r'(.{8})(?=.)', r'\1 ', hashlib.sha256(text).hexdigest()))


def check_warnings(checks):
    """Above the signatures stands that an audit found the answers wrong; and without answers nothing is claimed."""
    lines = checks.data('site').read_text().splitlines(keepends=True)[:-1]
    lines[10] = lines[10].replace('"refused":30,"rule":"ModeForbids"', '"done":true')
    verdict = '{"audit":"bad","place":10,"says":{"refused":30,"rule":"ModeForbids"},"why":"Answer"}\n'
    checks.open(checks.kept('wrong', ''.join(lines) + verdict))
    told = words_of(checks, 'morning').partition('\nSignatures\n')[2]
    checks.that('a wrong verdict stands above the signatures', told.startswith('audit: wrong, entry 11 of 113'), told)
    checks.open(signed(checks)[0])
    told = words_of(checks)
    for text in ('Outcome | unknown', 'Closed | unknown', 'Steps, with their settings\nno answer in the files',
                 'Commands and decisions, in order\nno answer in the files'):
        checks.that('without answers the sheet says so: ' + text[:20], text in told, told)


def check_build(checks):
    """The program is what its own word says, also as a package has it, beside a journal with its output in one file."""
    build = checks.folder / 'version.txt'
    build.write_text('version  0.1+46e7fc26\n' + BUILD + '\n0123  usr/bin/pol\n')
    whole = checks.kept('whole', ''.join(file.read_text() for file in (checks.data('holding'),
                                                                       checks.data('holding.answers'))))
    checks.open(whole, build)
    told = words_of(checks)
    checks.that('the program of a package', '(pol --version): version 0.1+46e7fc26 · commit 46e7fc26 · kit 1 ·' in told)
    checks.that('and the file beside it is read as it is', '5 | 5 | not named | Start is asked for' in told, told)


def check_recipe(checks):
    """The recipe's checksum is that of its line in compact form, by jq's rules, with and without what is left out."""
    lines = map(json.loads, signed(checks)[0].read_text().splitlines())
    recipe = next(line for line in lines if line.get('ev') == 'recipe')
    whole = {key: recipe[key] for key in ('chart', 'recipe', 'roles')}
    for step in (whole['chart']['seq'][0]['loop'], *whole['chart']['seq'][1]['par']):
        step.setdefault('settings', [])
    text = json.dumps(whole, sort_keys=True, separators=(',', ':'))
    wanted = hashlib.sha256(text.encode()).hexdigest()
    checks.open(*signed(checks))
    checks.that('the checksum of the recipe', '| ' + wanted in words_of(checks), wanted)


def check_names(checks):
    """Each line may say whose it is: then so does the sheet, and the page wherever it speaks of the line."""
    journal, answers = signed(checks)
    lines = [json.loads(line) for line in journal.read_text().splitlines()]
    people = {'start': 'cleo', 'advance': 'dan', 'freeze': 'eva', 'thaw': 'eva', 'stop': 'finn',
              'exchange_begin': 'gus', 'recipe': 'hal'}
    named = [dict(line, by=people[line['ev']]) if line.get('ev') in people else line for line in lines]
    checks.open(checks.kept('named', ''.join(json.dumps(line) + '\n' for line in named)), answers)
    told = words_of(checks)
    for text in ('Started | entry 11 · 2026-11-29 06:00:36.500 UTC · line given by: cleo',
                 'Recipe made known | entry 1 · 2026-11-29 06:00:04.000 UTC · line given by: hal',
                 '12 | 2026-11-29 06:00:38.000 UTC | dan | Start is asked for: dose of T1',
                 '68 | 2026-11-29 06:06:03.500 UTC | finn | batch blue is to stop',
                 'entry 36 / 2026-11-29 06:01:40.500 UTC / gus | T1 was exchanged',
                 'entry 55 · 2026-11-29 06:05:05.500 UTC · eva'):
        checks.that('whose line it was: ' + text[-40:], text in told, told)
    checks.that('and who was asked twice', told.count('cleo') == 3, told.count('cleo'))
    checks.says('the reviewer is told too', 'alarms', 'batch blue was asked to stop (by finn)',
                'its services are to hold (by eva)')
    checks.run('page.go(69)')
    checks.says('and who is at the cursor', 'here', 'batch blue is to stop (by finn)')


def check_faults(checks):
    """Lines at fault that name the batch are deviations, whatever their form; forged ones break nothing."""
    journal, answers = signed(checks)
    bad, lines = '{"ev":"stop","batch":"blue"', journal.read_text().splitlines(keepends=True)
    told = answers.read_text().splitlines(keepends=True)
    lines.insert(14, bad + '\n')
    told.insert(13, '{"bad":"NotJson","path":""}\n')
    told.insert(-1, '{"of":"blue"}\n')
    checks.open(checks.kept('bad', ''.join(lines)), checks.kept('bad.answers', ''.join(told)))
    whole = words_of(checks)
    checks.that('a line that is no event and names the batch', 'line at fault names the batch: ' + bad in whole, whole)
    checks.that('and one of no form', 'the batch: bad.answers.jsonl, line 75: {"of":"blue"}' in whole, whole)
    many = ['{"ev":"unplug","at":1,"tag":"T1"}\n'] * 40
    held = ['{"batch":"blue","refused":4,"rule":"Held"}\n'] * 40
    checks.open(checks.kept('again', ''.join(lines[:12] + many)),
                checks.kept('again.answers', ''.join(told[:11] + held)))
    whole = words_of(checks)
    checks.that('the same refusal again and again has one place',
                whole.count('refused: Held') == 1 and '40 times in all' in whole, whole)
    forged = [each for did in ('7', 'null', '{}', '{"do":"start","step":null}', '{"do":"left","step":"fill"}',
                               '{"do":"chose","node":99,"values":[1]}', '{"do":"turn","values":7}')
              for each in ('{"ev":"advance","at":1,"batch":"blue"}\n', '{"did":%s}\n' % did)]
    checks.open(checks.kept('forged', ''.join(lines[:12] + forged[::2])),
                checks.kept('forged.answers', ''.join(told[:11] + forged[1::2])))
    checks.that('a forged log has its sheet', 'Signatures' in words_of(checks))
    checks.open(checks.data('hostile'), checks.data('hostile.answers'))
    for batch in checks.run('[...page.state.history.batches.keys()]'):
        checks.that('a hostile batch has its sheet', 'Signatures' in words_of(checks, batch))


def check_paper(checks):
    checks.open(*signed(checks))
    checks.run("dispatchEvent(new Event('beforeprint'))")
    heads = "document.adoptedStyleSheets.map(each => each.cssRules[0].cssText).join('')"
    sums = [hashlib.sha256(file.read_bytes()).hexdigest()[:8] for file in signed(checks)]
    told = checks.run(heads)
    checks.that('each page names the batch and the files', all(text in told for text in ('record: blue', *sums)), told)
    checks.page.send('Emulation.setEmulatedMedia', media='print')
    for element, (style, wanted) in BREAKS.items():
        code = "getComputedStyle(document.querySelector('%s')).%s" % (element, style)
        checks.gives('paper: %s of %s' % (style, element), code, wanted)
    checks.gives('paper: nothing is wider than its page', """(() => { const paper = document.getElementById('paper');
        paper.style.width = '182mm';
        const wide = [...paper.querySelectorAll('.sign *')].filter(each => each.scrollWidth > paper.clientWidth + 1);
        paper.style.width = '';
        return wide.map(each => each.className); })()""", [])
    checks.page.send('Emulation.setEmulatedMedia', media='')
    checks.run("dispatchEvent(new Event('afterprint'))")
    checks.gives('and the screen has no head', 'document.adoptedStyleSheets.length', 0)


def check_german(checks):
    checks.open(*signed(checks))
    checks.press('language')
    told = words_of(checks)
    for text in ('Chargenprotokoll: blue', 'Abweichungen', 'nicht genannt', 'Durchgeführt', 'Bemerkung, Kürzel'):
        checks.that('the sheet in German: ' + text, text in told, told)
    checks.press('language')
