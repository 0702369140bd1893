"""What the page counts and draws, compared with what the files say themselves: answers by kind, refusals by rule,
outcomes and logs of batches. Written without a look at the page's code."""
import json
import os
import subprocess

import made
import rows

# In this order: a refusal may have the field ticket too.
KINDS = ('refused', 'bad', 'denied', 'wait', 'did', 'closed', 'ticket', 'done')


def kind_of(line):
    """The kind of the answer that a line is or has, if it has one."""
    answer = line.get('answer', line)
    return next((kind for kind in KINDS if kind in answer), None)


def rule_of(kind, answer):
    """The rule by which an answer refused, as the page names it."""
    if kind == 'refused':
        return answer['rule']
    return ' '.join([kind] + [answer[key] for key in ('bad', 'policy') if key in answer])


def counts_of(lines):
    """Answers by kind, refusals by rule, and each batch's outcome and length of log."""
    kinds, rules, batches = dict.fromkeys(KINDS, 0), {}, {}
    for line in map(json.loads, lines):
        kind = kind_of(line)
        if 'outcome' in line:
            batches[line['batch']] = [line['outcome'], len(line['log'])]
        elif kind:
            answer = line.get('answer', line)
            kinds[kind] += 1
            if kind in ('refused', 'bad', 'denied'):
                rule = rule_of(kind, answer)
                rules[rule] = rules.get(rule, 0) + 1
    return {'kinds': kinds, 'rules': rules, 'batches': batches}


DRAWN = """(() => { const { history } = page.state; return {
    kinds: Object.fromEntries(%s.map(kind => [kind, history.counts[kind]])),
    rules: Object.fromEntries([...history.refusals].map(([rule, places]) => [rule, places.length])),
    batches: Object.fromEntries([...history.batches.values()]
      .map(each => [each.name, [each.outcome ?? 'Running', each.log.at.length]])),
  }; })()""" % json.dumps(KINDS)


# Of each advance: the step or node that it did or waited for is one at which the page says that the batch stood; of a
# wait the first such, but where something is to be unheld first.
TURNS = """(() => { const { history, found } = page.state, wrong = [];
    for (let k = 0; k < found.length; k += 1) {
      const [event, answer] = found.entry(k), batch = history.batches.get(event?.batch);
      if (event?.ev !== 'advance' || !answer || !batch?.known) continue;
      const keys = awaited.at(batch, k - 1).map(node => node.step ?? batch.known.numbers.get(node));
      const { did } = answer, isDone = did && %s.includes(did.do), key = isDone ? did.step ?? did.node
        : 'wait' in answer ? answer.step ?? answer.node : undefined;
      const isHeld = [...batch.standing(k - 1).steps.values()].some(({ phase }) => phase === 'held');
      const isRight = isDone || isHeld ? keys.includes(key) : keys[0] === key;
      if (key !== undefined && !isRight) wrong.push([k + 1, key, keys]);
    }
    return wrong; })()""" % json.dumps(['start', 'finish', 'reset', 'end', 'unhold', 'chose', 'turn', 'leave'])


def compare(checks, name, *files):
    """Opens files, the last of which has the output."""
    checks.open(*files)
    lines = files[-1].read_text().splitlines()
    checks.same(name + ': what is drawn is what the output says', checks.run(DRAWN), counts_of(lines))
    if len(lines) < 2000:
        checks.gives(name + ': each branch stands where the answers say', TURNS, [])


def seal_of(checks):
    return checks.run("document.getElementById('seal').className")


def sets(checks):
    """The files of each example: a history, or a journal and its output."""
    names = ('broken', 'hostile', 'watched', 'holding', 'left', 'still', 'branches', 'signed')
    pair = {name: [checks.data(name), checks.data(name + '.answers')] for name in names}
    example = {name: [checks.example(name + '.jsonl'), checks.data(name + '.answers')] for name in ('blend', 'policy')}
    return {'site': [checks.data('site')], **example, **pair}


def check(checks):
    for name, files in sets(checks).items():
        compare(checks, name, *files)
        checks.same(name + ': no fault is told', checks.run("document.getElementById('faults').innerText"), '')
    check_journals(checks)
    check_program(checks)
    check_long(checks)


def check_journals(checks):
    """The worked journals of crates/pol_examples."""
    found = rows.journals(checks.repository)
    checks.that('the worked journals are found', len(found) > 40, len(found))
    for k, (file, title, given, output) in enumerate(found):
        journal, answers = checks.kept('row-%d' % k, given), checks.kept('row-%d.answers' % k, output)
        if file == 'audits':
            checks.open(journal, answers)
            good = json.loads(output.splitlines()[0])['audit'] == 'good'
            checks.same('%s: the seal' % title, seal_of(checks), 'good' if good else 'bad')
        elif file == 'finding':
            compare_found(checks, title, journal, answers)
        else:
            compare(checks, title, journal, answers)


def compare_found(checks, title, journal, output):
    """Opens a journal with what the job find says of it: each recipe stands in the table as its line says."""
    checks.open(journal, output)
    lines = [line for line in map(json.loads, output.read_text().splitlines()) if 'recipe' in line]
    wanted = [[line['recipe'], *(f'{role} = {tag}' for role, tag in line.get('bind', {}).items()),
               *line.get('short', []), *line.get('tags', [])] for line in lines]
    rows = checks.run("[...document.querySelectorAll('#finder tbody tr')].map(each => each.textContent)")
    is_told = len(rows) == len(wanted) and all(part in row for row, parts in zip(rows, wanted) for part in parts)
    checks.that(title + ': each recipe is told', is_told, rows)
    events = [line for line in journal.read_text().splitlines() if 'ev' in json.loads(line)]
    checks.same(title + ': and the events are drawn', checks.run('page.state.found.events.length'), len(events))


def program_of(checks):
    """Runs a job of the built program in a folder; None where it isn't built."""
    program = checks.repository / 'crates' / 'pol' / 'out' / 'pol'

    def run(job, given=b'', folder=None):
        words = [program, '--job', job]
        return subprocess.run(words, input=given, capture_output=True, check=True, cwd=folder).stdout
    return run if program.exists() else None


def check_program(checks):
    """Where the program is built: its answers are those that are stored, and a run of the site is drawn as it says."""
    run = program_of(checks)
    if not run:
        print('      the program is not built: stored output is taken as it is')
        return
    for name, files in sets(checks).items():
        if len(files) == 1:
            continue
        journal, answers = files
        made_now = run('guard' if name in ('policy', 'signed') else 'replay', journal.read_bytes())
        checks.that(name + ': the stored output is the program\'s', made_now == answers.read_bytes())
    plant = run('plant', checks.example('site.json').read_bytes())
    history = checks.kept('run', (plant + run('audit', plant)).decode())
    compare(checks, 'a run of the site', history)
    checks.same('a run of the site: the seal', seal_of(checks), 'good')


# A frame, in milliseconds, that is still smooth; and how long the page itself may have the processor for it.
SMOOTH, WORK = 60, 40
MOVES = """(async () => {
    const frame = () => new Promise(requestAnimationFrame), { view } = page.state, took = [];
    const began = performance.now();
    for (let k = 0; k < 120; k += 1) {
      if (k < 40) view.zoom(0.8, 100000); else if (k < 80) view.move(view.size / 20); else view.zoom(1.25, 120000);
      page.panes.modules.holder.scrollTop = k * 9;
      page.go(100000 + k * 500);
      await frame();
      took.push(page.panes.modules.took + page.panes.batches.took);
    }
    took.sort((one, two) => one - two);
    const all = performance.now() - began;
    return { half: Math.round(took[60]), most: Math.round(took[119]), frame: Math.round(all / 120) }; })()"""
SCROLLS = """(async () => {
    const box = document.getElementById('entries'), began = performance.now();
    for (let k = 0; k < 60; k += 1) { box.scrollTop = k * 80000; await new Promise(requestAnimationFrame); }
    return { frame: Math.round((performance.now() - began) / 60) }; })()"""


def check_smooth(checks, name, code, frames):
    """One of five tries is smooth: other work on the machine may delay the frames of some. Where it has more of it than
    processors, the page's own work counts."""
    for _ in range(5):
        before = checks.page.worked()
        seen = checks.run(code)
        seen['work'] = round((checks.page.worked() - before) / frames)
        is_busy = os.getloadavg()[0] > os.cpu_count()
        is_smooth = seen['frame'] < SMOOTH or (is_busy and seen['work'] < WORK)
        if is_smooth:
            break
    checks.that('%s, ms: %s' % (name, seen), is_smooth, seen)


def check_long(checks):
    """A history of 200,000 entries: opened in seconds, and smooth while zooming, moving, scrolling and stepping."""
    long = checks.kept('long', made.text(made.history()))
    compare(checks, '200,000 entries', long)
    took = checks.run('page.state.took')
    checks.that('200,000 entries open in seconds %s' % took, sum(took.values()) < 15000, took)
    check_smooth(checks, '200,000 entries move smoothly', MOVES, 120)
    check_smooth(checks, 'the list of 200,000 scrolls', SCROLLS, 60)
    checks.same('only seen rows exist', checks.run("document.querySelectorAll('.row').length < 40"), True)
