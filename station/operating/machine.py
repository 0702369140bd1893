"""What a driver has to know of the state machine: by which states a service may have gone, and whether a command had
its effect. What a command may do when, `pol` says."""
from adapters.codes import COMMAND_NAMES, STATE_NAMES, STATES
from simulation.machine import BY_COMMAND, BY_ITSELF

LOUD = ("Stop", "Abort")


def by_itself(state, is_self_completing=True):
    """The states to which a service goes by itself from here, in their order. Of a procedure that doesn't complete by
    itself Execute is the last."""
    found = []
    while state in BY_ITSELF and (state != "Execute" or is_self_completing):
        state = BY_ITSELF[state]
        if state in found:
            break
        found.append(state)
    return found


def had_effect(code, before, state):
    """Whether a service that was in `before` when it was given this command, and now is in `state`, took it."""
    before, state = STATE_NAMES.get(before), STATE_NAMES[state]
    aim = BY_COMMAND.get((before, COMMAND_NAMES[code]))
    if aim is None or state in (aim, *by_itself(aim)):
        return state != before
    return state != before and state not in by_itself(before)


def only_way(start, end, code, is_self_completing):
    """The states between two, where there is one way alone: by the command that was given last (None where none is
    open), and else by itself. None where that leads nowhere."""
    start, end = STATE_NAMES[start], STATE_NAMES[end]
    first = BY_COMMAND.get((start, COMMAND_NAMES.get(code)))
    ways = [[first, *by_itself(first, is_self_completing)]] if first else []
    for way in [*ways, by_itself(start, is_self_completing)]:
        if end in way:
            return [STATES[state] for state in way[:way.index(end)]]
    return None


def shortest_way(start, end):
    """The states between two by which a service may have gone: the fewest, by Stop and Abort only where nothing else
    leads there."""
    start, end = STATE_NAMES[start], STATE_NAMES[end]
    return search(start, end, ()) or search(start, end, LOUD) or []


def search(start, end, loud):
    ways, seen = [[start]], {start}
    while ways:
        way = ways.pop(0)
        for state in steps_from(way[-1], loud):
            if state == end:
                return [STATES[each] for each in way[1:]]
            if state not in seen:
                seen.add(state)
                ways.append([*way, state])
    return None


def steps_from(state, loud):
    """The states to which a service may go in one step, first by itself."""
    ends = [end for (start, command), end in BY_COMMAND.items()
            if start == state and (command in loud or command not in LOUD)]
    return [*filter(None, [BY_ITSELF.get(state)]), *ends]
