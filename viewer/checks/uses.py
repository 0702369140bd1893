"""A reader's ways: a drop, the keyboard, a press, two fingers, the choice, the other language and a screen reader; and
what is said of values, versions, waits and batches that never started."""
import json

import rows


def check(checks):
    for part in (check_drop_and_keys, check_language, check_alarms, check_hands, check_chart, check_choice,
                 check_reader, check_values, check_units, check_holding_and_watching, check_waits,
                 check_never_started, check_before_start):
        part(checks)


def at_cursor(checks, name, entry):
    checks.gives(name, 'page.state.view.cursor', entry)


def entries_of(checks):
    lines = map(json.loads, checks.data('site').read_text().splitlines())
    return [line for line in lines if 'event' in line]


def check_drop_and_keys(checks):
    checks.page.drop(checks.url, [checks.data('site')])
    checks.gives('a dropped file is read', 'page.state.found.length', 113)
    for key in ('Home', 'ArrowRight'):
        checks.page.key(key)
    checks.page.key('ArrowRight', modifiers=8)
    at_cursor(checks, 'arrows move the cursor by one and by ten', 11)
    checks.page.key('n')
    at_cursor(checks, 'n goes to the next to look at', 32)
    checks.page.key('p')
    at_cursor(checks, 'p goes to the one before', 10)
    checks.page.key('+')
    checks.is_true('+ zooms', 'page.state.view.size < page.state.view.count')
    checks.page.key('0')
    checks.is_true('0 shows the whole', 'page.state.view.size === page.state.view.count')
    checks.run("document.getElementById('entries').focus(); page.go(50)")
    checks.page.key('ArrowDown')
    at_cursor(checks, 'the list moves the cursor', 51)
    checks.press('stamp')
    checks.is_true('stamps can be the axis', 'page.state.view.byStamp')


def check_language(checks):
    checks.open(checks.data('site'))
    checks.press('language')
    checks.gives('German', "document.querySelector('h1').textContent", 'Was in der Anlage geschah')
    checks.says('German remedies', 'refused', 'bevor er von Hand befohlen wird')
    checks.press('language')


def check_alarms(checks):
    checks.open(checks.data('broken'), checks.data('broken.answers'))
    checks.page.key('Home')
    met = []
    for _ in range(checks.run('page.state.history.alarms.length')):
        checks.page.key('n')
        met.append(checks.run('page.state.alarm'))
    checks.same('n meets each to look at, one after another', met, list(range(len(met))))


def place(checks, entry, down):
    return checks.run("""(() => { const pane = page.panes.modules;
        pane.holder.scrollIntoView({ block: 'center' });
        const box = pane.canvas.getBoundingClientRect();
        return [box.x + pane.x(%d + 0.5), box.y + %d]; })()""" % (entry, down))


def check_hands(checks):
    checks.open(checks.data('site'))
    checks.page.press(*place(checks, 50, 40))
    at_cursor(checks, 'a press on a lane sets the cursor', 50)
    (x, y), (right, _) = place(checks, 40, 40), place(checks, 80, 40)
    checks.page.touch([(x, y), (right, y)], [(x - 60, y), (right + 60, y)], [(x - 120, y), (right + 120, y)])
    checks.is_true('two fingers zoom', 'page.state.view.size < 80')
    before = checks.run('page.state.view.low')
    checks.page.touch([(x, y)], [(x - 50, y)], [(x - 100, y)])
    checks.is_true('one finger moves', 'page.state.view.low > %f' % before)
    at_cursor(checks, 'and sets no cursor', 50)


def check_chart(checks):
    checks.open(checks.data('site'))
    checks.choose('which', 'noon')
    start = next(k for k, each in enumerate(entries_of(checks)) if each['answer'].get('did', {}).get('step') == 'vent')
    spot = """(() => { const step = document.querySelector('[data-step=vent]');
        step.scrollIntoView({ block: 'center' });
        const box = step.getBoundingClientRect();
        return [box.x + box.width / 2, box.y + 20]; })()"""
    checks.page.press(*checks.run(spot))
    at_cursor(checks, 'a press on a step goes to its start', start)
    checks.open(checks.example('blend.jsonl'), checks.data('blend.answers'))
    checks.run('page.go(7)')
    checks.says('a start is said with its settings', 'here', 'Start is asked for: dose of M1', 'amount = 1500')


def check_choice(checks):
    entries = entries_of(checks)
    checks.open(checks.data('site'))
    checks.choose('chosenTag', 'D101')
    checks.gives('a module chosen: its lanes', 'page.panes.modules.lanes.map(lane => lane.label)', ['D101', 'dose'])
    takers = {'morning', 'evening', 'night'}
    wanted = sum(each['event'].get('tag') == 'D101' or each['event'].get('batch') in takers for each in entries)
    checks.gives('a module chosen: its entries', 'page.entries.count', wanted)
    checks.choose('chosenTag', '')
    checks.choose('chosenRule', 'ModeForbids')
    wanted = sum('refused' in each['answer'] for each in entries)
    checks.gives('a rule chosen: what it refused', 'page.entries.count', wanted)
    checks.page.key('Home')
    at_cursor(checks, 'the keyboard goes along what is chosen', 10)
    checks.choose('chosenRule', '')
    checks.choose('chosenBatch', 'noon')
    checks.gives('a batch chosen: its modules', 'page.state.chosen.modules().map(each => each.tag)', ['X201', 'R301'])
    checks.press('clear')
    checks.gives('all is shown again', 'page.entries.count', len(entries))


def check_reader(checks):
    """What a screen reader finds."""
    checks.open(checks.data('site'))
    checks.run('page.go(61)')
    checks.page.settle()
    nodes = [node for node in checks.page.send('Accessibility.getFullAXTree')['nodes'] if not node.get('ignored')]
    names, selected = {}, []
    for node in nodes:
        name = node.get('name', {}).get('value', '')
        names.setdefault(node['role']['value'], []).append(name)
        if any(each['name'] == 'selected' and each['value'].get('value') for each in node.get('properties', [])):
            selected.append(name)
    checks.same('a screen reader finds the list of entries', names.get('listbox'), ['Entries'])
    whole = [name for name in selected if name.startswith('62')]
    checks.that('and the selected row, whole', whole and 'R301 reports heat: Resetting' in whole[0], selected)
    for title in ('Batches and their outcome', 'For the reviewer', 'What was refused'):
        checks.that('a screen reader finds the table: ' + title, title in names.get('table', []), names.get('table'))
    checks.that('each button has a name', all(names.get('button', [''])), names.get('button'))
    images = names.get('image', []) + names.get('img', [])
    checks.that('each drawing says what it is', len(images) >= 4 and all(images), images)


def check_values(checks):
    entries = entries_of(checks)
    checks.open(checks.data('site'))
    at = next(k for k, each in enumerate(entries) if each['event'].get('value') == 1250000)
    checks.run('page.go(%d)' % at)
    checks.says('thousandths are said as what they stand for', 'here', 'weight = 1250')
    told = "document.querySelector('#here .event').textContent"
    checks.is_true('and not as they are written', "!%s.includes('1250000')" % told)
    leave = next(k for k, each in enumerate(entries) if each['answer'].get('did', {}).get('do') == 'leave')
    checks.run('page.go(%d)' % leave)
    checks.says('so are the values of a decision', 'here', 'source.weight = 1250')
    trends = checks.run("""page.panes.batches.lanes.filter(lane => lane.kind === 'trend')
        .map(lane => `${lane.label} ${lane.limits(60)}`)""")
    wanted = ['mixer.viscosity ≥ 30', 'kettle.temperature ≥ 65', 'source.weight ≥ 1000', 'kettle.pressure > 1.2']
    checks.that('trends have their limits', all(each in trends for each in wanted), trends)
    exchange = next(k for k, each in enumerate(entries) if each['event']['ev'] == 'exchange_end')
    for entry, version in ((exchange - 1, 'Mixer 2.1.3'), (exchange, 'Mixer 2.2.0')):
        code = "page.state.history.modules.get('X201').lane.more.textAt(%d)" % entry
        checks.gives('the version at the cursor', code, version)


def check_units(checks):
    """Thousandths are said as what they stand for also before a batch began, and in a recipe that none has."""
    checks.open(checks.data('branches'), checks.data('branches.answers'))
    limits = """page.panes.batches.lanes.filter(lane => lane.label === 'kettle.temperature')
        .map(lane => lane.limits(10))"""
    checks.gives('limits before a batch began', limits, ['≥ 60', '≥ 60', '≥ 60'])
    plain = checks.data('branches').read_text().splitlines(keepends=True)[:8]
    checks.open(checks.kept('recipes', ''.join(plain)))
    checks.says('limits of a recipe without a batch', 'chart', 'temperature ≥\u00a060')
    checks.that('and not as they are written', '60000' not in checks.text('chart'))
    start = '{"ev":"start","at":1795940000000,"batch":"x","recipe":"ghost","bind":{"kettle":"K11"}}\n'
    answers = '{"done":true}\n' * 8 + '{"refused":13,"rule":"NoRecipe"}\n{"end":true}\n'
    checks.open(checks.kept('ghost', ''.join(plain) + start), checks.kept('ghost.answers', answers))
    checks.choose('which', 'x')
    checks.says('of a recipe that isn\'t known no chart is drawn', 'chart', 'No recipe is known')


def check_before_start(checks):
    """That another batch held a module is told where a batch was to start by then: in a journal, by a start refused."""
    title = 'an abandoned batch frees its modules'
    given, output = next(each[2:] for each in rows.journals(checks.repository) if each[1] == title)
    told = 'Before its start N was held by r1, entries 7 to 9'
    for name, journal, wanted in (('first', given, False), ('second', given.replace('"r2"', '"r3"'), True)):
        checks.open(checks.kept('before', journal), checks.kept('before.answers', output))
        checks.choose('which', 'r3')
        checks.same('what was before a start: the %s try' % name, told in checks.text('waits'), wanted)


def check_holding_and_watching(checks):
    checks.open(checks.data('holding'), checks.data('holding.answers'))
    phase = "page.state.history.batches.get('b').standing(%d).steps.get('s1').phase"
    for entry, wanted in ((7, 'on'), (9, 'held'), (14, 'on'), (20, 'ending')):
        checks.gives('a step that is held and goes on: entry %d' % (entry + 1), phase % entry, wanted)
    checks.run('page.go(8)')
    checks.says('a hold is said', 'here', 'Hold is asked for: dose of M')
    checks.says('a freeze that holds is told', 'alarms', 'its services are to hold')
    checks.open(checks.data('watched'), checks.data('watched.answers'))
    checks.run('page.go(5)')
    checks.says('who watches is said', 'here', 'watched by b')
    checks.says('and an exchange meanwhile', 'alarms', 'W was exchanged while batch b watched it')


def check_waits(checks):
    checks.open(checks.data('broken'), checks.data('broken.answers'))
    checks.run('page.go(75)')
    checks.says('what a batch waited for, and how long', 'waits', 'the module K12 is being exchanged', '36 s', 'frozen')


def check_never_started(checks):
    checks.choose('which', 'grey')
    checks.says('why a batch never started', 'waits', 'NotIdle', 'NoModule', 'stir of K13 is in Completed')
    cut = checks.data('site').read_text().splitlines(keepends=True)[:60]
    checks.open(checks.kept('begun', ''.join(cut)), checks.example('site.json'))
    never = 'page.state.history.never.map(each => each.name)'
    checks.gives('a listed batch that never started is told', never, ['morning', 'evening'])
    checks.choose('which', 'evening')
    checks.says('and what stood in its way', 'waits', 'D101 is still held by batch night')
