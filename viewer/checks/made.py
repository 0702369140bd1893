"""Made inputs: a history of 200,000 entries as the job plant writes it, and lines that nobody writes."""
import json

STATES = {'Idle': 16, 'Starting': 8, 'Execute': 64, 'Completing': 65536, 'Completed': 131072, 'Resetting': 32768,
          'Holding': 1024, 'Held': 2048, 'Unholding': 4096}
FIRST_STAMP = 1795849862968
DONE = {'done': True}


def text(lines):
    return ''.join(json.dumps(line, ensure_ascii=False, separators=(',', ':')) + '\n' for line in lines)


def report(tag, state):
    return {'ev': 'report', 'tag': tag, 'service': 'dose', 'StateCur': STATES[state], 'CommandEn': 2047,
            'Mode': 'Automatic', 'Src': 'External', 'ProcedureCur': 1}


def reports(tag, *states):
    return [(report(tag, state), DONE) for state in states]


class Turns:
    """One module and its batch, whose loop turns again and again. Now and then a report skips a state and is refused,
    and now and then the service is held. Each entry is an event and its answer."""

    def __init__(self, number):
        self.number, self.tag, self.batch, self.log = number, 'U%02d' % number, 'run-U%02d' % number, []

    def advance(self, do, **more):
        entry = {'do': do, **more}
        self.log.append(entry)
        return {'ev': 'advance', 'batch': self.batch}, {'did': entry}

    def value(self, turn):
        return {'ev': 'variable', 'tag': self.tag, 'name': 'level', 'value': turn}, DONE

    def entries(self):
        of_step = {'service': 'dose', 'step': 'fill', 'tag': self.tag}
        turn = 0
        while True:
            yield self.advance('start', procedure=1, **of_step)
            yield from reports(self.tag, 'Starting', 'Execute')
            for _ in range(3 + (turn // 60 + self.number) % 20):
                yield self.value(turn)
            if (turn * 7 + self.number) % 40 == 0:
                yield report(self.tag, 'Idle'), {'from': 64, 'refused': 9, 'rule': 'NotAnEdge', 'to': 16}
            if (turn + 3 * self.number) % 211 == 0:
                yield from reports(self.tag, 'Holding', 'Held', 'Unholding', 'Execute')
            yield {'ev': 'advance', 'batch': self.batch}, {'state': 64, 'step': 'fill', 'wait': 'InState'}
            yield from reports(self.tag, 'Completing', 'Completed')
            yield self.advance('reset', **of_step)
            yield from reports(self.tag, 'Resetting', 'Idle')
            yield self.advance('end', step='fill')
            yield self.advance('turn', node=0, values=[turn])
            turn += 1


def history(count=200000, modules=20):
    """The lines of a history: its entries, the batch lines and the end line."""
    procedures = [{'number': 1, 'default': True, 'self_completing': True}]
    description = {'type': 'Doser', 'version': '1.0.0', 'services': [{'name': 'dose', 'procedures': procedures}],
                   'variables': [{'name': 'level', 'kind': 'DIntView'}]}
    until = {'test': 'level', 'role': 'A', 'op': 'ge', 'value': 10 ** 9}
    step = {'step': 'fill', 'role': 'A', 'service': 'dose', 'procedure': 1}
    made = [({'ev': 'recipe', 'recipe': 'endless', 'roles': [{'role': 'A', 'type': 'Doser', 'version': '^1'}],
              'chart': {'loop': step, 'until': until}}, DONE)]
    turns = [Turns(number) for number in range(modules)]
    for each in turns:
        start = {'ev': 'start', 'batch': each.batch, 'recipe': 'endless', 'bind': {'A': each.tag}}
        made += [({'ev': 'plug', 'tag': each.tag, 'desc': description}, DONE), *reports(each.tag, 'Idle'),
                 each.value(0), (start, DONE)]
    running = [each.entries() for each in turns]
    for k in range(count - len(made)):
        made.append(next(running[k % modules]))
    lines = [{'answer': answer, 'event': {'at': FIRST_STAMP + 250 * k, **event}}
             for k, (event, answer) in enumerate(made)]
    for each in turns:
        lines.append({'batch': each.batch, 'bind': {'A': each.tag}, 'log': each.log, 'outcome': 'Running',
                      'recipe': 'endless'})
    return lines + [{'end': True}]


def forged():
    """Entry lines that pol never writes, each of which says done."""
    recipe = {'ev': 'recipe', 'recipe': 'r', 'roles': []}
    events = [{'ev': 'plug', 'tag': 'M'}, {'ev': 'plug', 'tag': {}, 'desc': []},
              {'ev': 'plug', 'tag': 'Z', 'desc': {'type': 1, 'version': 2, 'services': [{}]}},
              {'ev': 'start', 'batch': 'b', 'bind': None}, {'ev': 'start', 'batch': ['x'], 'bind': {'A': 7}},
              {'ev': 'start', 'batch': 'y', 'bind': {'A': 7}, 'recipe': 'r'},
              {'ev': 'start', 'batch': 'z', 'bind': {'A': 'Z'}, 'recipe': 's', 'watch': 4},
              dict(recipe, chart={'seq': []}), dict(recipe, chart=7), dict(recipe, chart={'seq': 3}),
              {'ev': 'report', 'tag': 'M', 'service': 'x', 'StateCur': 'y'}, {'ev': 'exchange_end', 'tag': 'Q'},
              {'ev': '__proto__'}, {'ev': 5}]
    made = [{'answer': DONE, 'event': dict(event, at='soon')} for event in events]
    return made + [{'answer': {'did': {'do': 'start', 'step': None}}, 'event': {'ev': 'advance', 'batch': 'b'}},
                   {'answer': {'did': 7}, 'event': {'ev': 'advance', 'batch': ['x']}},
                   {'answer': {'wait': '__proto__'}, 'event': {'ev': 'advance', 'batch': 'y'}}]
