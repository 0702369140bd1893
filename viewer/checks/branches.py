"""Every branch of a batch that waits: what the chart has there and what was reported last, at the end and in the chart
at the cursor. What is wanted was written down from docs/RULES.md and the journal's lines."""
import json

PAPER = "dispatchEvent(new Event('%sprint'))"
LISTED = """Object.fromEntries([...document.querySelectorAll('#still li')].map(each => {
    const branches = [...each.querySelectorAll('.branch')].map(part => part.textContent.replaceAll('\u00a0', ' '));
    return [each.querySelector('button').textContent, branches]; }))"""
# By batch: what was answered last, and a line for each branch.
WARM = 'in the chart: kettle.temperature ≥ 60'
WANTED = {
    'both': ('waits: the service of step stir is in Execute', [
        'stir: asked to complete · stir of K11 was reported last in Execute',
        'heat: runs · heat of K11 was reported last in Execute, Operator, Internal · ' + WARM
        + ' · kettle.temperature was reported last as 61']),
    'arms': ('waits: no arm of node 1 is true', [
        'no arm of node 1 is chosen yet · in the chart: 0: kettle.torque ≥ 30; 1: kettle.torque < 0'
        + ' · kettle.torque was reported last as 5',
        'all in loop 4 is through: it turns or is left · ' + WARM
        + " · kettle.temperature wasn't reported since it was docked"]),
    'idle': ('waits: step stir may not command (NotEnabled)', [
        "stir: not begun · stir of K13 was reported last in Idle · that report doesn't enable Start",
        'heat: not begun · heat of K13 was reported last in Idle, Off, External']),
    'ice': ('waits: frozen', [
        'stir: asked to hold · stir of K14 was reported last in Held',
        'heat: runs · heat of K14 was reported last in Execute, Operator, Internal · ' + WARM
        + " · kettle.temperature was reported last as 20.5 · the hold doesn't reach it: go and look"]),
    'again': ('waits: step mix may not command (ModeForbids)', [
        'mix: not begun · stir of K15 was reported last in Idle, Operator, Internal']),
    'off': ('last: from now on each advance asks a step for Stop, or leaves it', []),
    'snow': ('waits: frozen', []),
}
GERMAN = ('heat: läuft · heat von K11 wurde zuletzt in Execute, Operator, Internal gemeldet · im Plan: '
          'kettle.temperature ≥ 60 · kettle.temperature wurde zuletzt mit 61 gemeldet')
AWAITED = "[...document.querySelectorAll('#chart .step.waits')].map(each => each.dataset.step)"


def check(checks):
    files = [checks.data('branches'), checks.data('branches.answers')]
    checks.open(*files)
    listed = checks.run(LISTED)
    checks.same('each open batch stands there', list(listed), list(WANTED))
    for batch, (answer, branches) in WANTED.items():
        checks.same('branches of %s' % batch, listed.get(batch), branches)
        checks.says('and what %s waits for' % batch, 'still', answer)
    check_chart(checks)
    checks.run(PAPER % 'before')
    paper = checks.text('paper').replace('\u00a0', ' ')
    for batch, (_, branches) in WANTED.items():
        checks.that('branches on paper: %s' % batch, all(text in paper for text in branches), paper)
    checks.run(PAPER % 'after')
    checks.press('language')
    checks.that('branches in German', GERMAN in checks.run(LISTED)['both'], checks.run(LISTED)['both'])
    checks.press('language')
    check_time(checks)


def check_chart(checks):
    """In the chart each branch that waits is marked, and what isn't frozen or asked to stop alone."""
    for batch, steps in (('both', ['stir', 'heat']), ('idle', ['stir', 'heat']), ('again', ['mix']), ('ice', []),
                         ('off', [])):
        checks.choose('which', batch)
        checks.gives('the chart marks what waits: %s' % batch, AWAITED, steps)


def check_time(checks):
    """At an earlier entry it is what stood there then: batch both waited for nothing before its last advance."""
    lines = list(map(json.loads, checks.data('branches').read_text().splitlines()))
    asked = [k for k, line in enumerate(lines) if line['ev'] == 'advance' and line['batch'] == 'both']
    for entry, wanted in ((asked[-1], ['stir', 'heat']), (asked[-1] - 1, [])):
        checks.run('page.go(%d)' % entry)
        checks.choose('which', 'both')
        checks.run('page.go(%d)' % entry)
        checks.gives('the chart at entry %d' % (entry + 1), AWAITED, wanted)
