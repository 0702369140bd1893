"""The page that is signed, and what is printed behind it."""
import hashlib
import re

# What has to stand on paper of the journal in which a batch breaks.
WANTED = ('101 entries', '2026-11-29 06:00:04.000 UTC', '2026-11-29 06:05:57.500 UTC', 'Broken', 'Stopped', 'Abandoned',
          'never started', 'InExchange', 'Abort: stir, K11', 'Stop: heat, K11', 'Kettle 2.0.0', 'Kettle 2.1.0',
          'no verdict', 'Signature', 'Performed', 'Reviewed', 'Approved', 'not named', 'Its start was refused once')


def check(checks):
    files = [checks.data('broken'), checks.data('broken.answers')]
    checks.open(*files)
    to_paper(checks, 'before')
    for file in files:
        digest = hashlib.sha256(file.read_bytes()).hexdigest()
        grouped = re.sub(r'(.{8})(?=.)', r'\1 ', digest)
        checks.says('paper: %s and its checksum' % file.name, 'paper', file.name, grouped)
    whole = checks.text('paper')
    checks.same('paper: all that is signed', [each for each in WANTED if each not in whole], [])
    checks.is_true('paper: lanes in pictures', "document.querySelectorAll('#paper .sheet').length >= 3")
    checks.gives('paper: a chart and a log for each batch', "document.querySelectorAll('#paper figure svg').length", 3)
    to_paper(checks, 'after')
    checks.gives('and the screen is as before', "document.getElementById('paper').children.length", 0)
    check_one_batch(checks)
    check_verdict(checks)
    checks.page.paper(checks.folder / 'signed.pdf')
    checks.that('paper is made', (checks.folder / 'signed.pdf').read_bytes().startswith(b'%PDF'))


def to_paper(checks, when):
    checks.run("dispatchEvent(new Event('%sprint'))" % when)


def check_one_batch(checks):
    checks.choose('chosenTag', 'K12')
    to_paper(checks, 'before')
    checks.says('paper of one module says so', 'paper', 'only what was chosen: Module K12', 'In the files: 101 entries')
    outcomes = "document.querySelector('#paper [aria-label=\"Batches and their outcome\"] tbody').textContent"
    checks.is_true('and has no other', outcomes + ".includes('blue') && !%s.includes('red')" % outcomes)
    to_paper(checks, 'after')
    checks.choose('chosenTag', '')
    checks.choose('chosenBatch', 'blue')
    checks.says('and the button says so', 'print', 'Print the sheet to sign')
    to_paper(checks, 'before')
    checks.says('paper of one batch is its sheet', 'paper', 'Batch record: blue', 'In the files: 101 entries')
    checks.gives('and has a chart and no other log', """['#paper figure svg', '#paper .log li']
        .map(each => document.querySelectorAll(each).length)""", [1, 0])
    to_paper(checks, 'after')


def check_verdict(checks):
    checks.open(checks.data('site'))
    to_paper(checks, 'before')
    checks.says('paper: the verdict in words', 'paper', 'The audit of 113 entries is good',
                'follows from the events given', "doesn't check stamps, names, recipes with their settings",
                'The verdict names no file')
    to_paper(checks, 'after')
