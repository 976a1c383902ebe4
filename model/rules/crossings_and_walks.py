"""Crossings and walks: the entries of each, one after another, for whatever their faults are."""
from collections import namedtuple

from rules import registrations
from rules.journals_and_seats import DOWN, UP, fold, kept
from rules.keys_and_entries import Entry, fault

OPPOSITE = {UP: DOWN, DOWN: UP}


def crossing(cpu, state, instances, direction):
    """To cross a state is to make the entry of each of its keys, in list order. Where one faults, the keys before it get the
    opposite entry, in list order, and the crossing has failed. It is asked what each entry's fault was, and returns its own."""
    for at, inst in enumerate(instances):
        code = yield Entry(cpu, state, inst, direction, "walk", at == 0, at == len(instances) - 1)
        if code:
            for earlier in instances[:at]:
                yield Entry(cpu, state, earlier, OPPOSITE[direction], "never")
            return code
    return 0


def walk(cpu, start, end, plan):
    """A walk crosses the states of its plan. Where a crossing fails, those before it are crossed back, last first; where one of
    these fails too, nothing follows."""
    direction = UP if start < end else DOWN
    for at, (state, instances) in enumerate(plan):
        first = yield from crossing(cpu, state, instances, direction)
        if first:
            break
    else:
        return ("ok",)
    for state, instances in reversed(plan[:at]):
        second = yield from crossing(cpu, state, instances, OPPOSITE[direction])
        if second:
            return ("stuck", first, second, state if direction == UP else state - 1)
    return ("fault", first)


def what_follows(shape, faults):
    """The entry that follows these entries, of which only the faults matter; or the answer, where none does."""
    try:
        entry = next(shape)
        for code in faults:
            entry = shape.send(code)
        return entry, None
    except StopIteration as ended:
        return None, ended.value


def plan(journal, start, end):
    """The registered states that have a key, with their keys: up, those above the start and up to the end, rising; down, those
    above the end and up to the start, falling."""
    low, high = min(start, end), max(start, end)
    states = [state for state in registrations.registered(journal) if low < state <= high]
    found = [(state, registrations.instances(journal, state)) for state in sorted(states, reverse=end < start)]
    return [(state, instances) for state, instances in found if instances]


# A walk in flight: its plan is what was registered as it began, and of its entries so far each has its fault.
Walk = namedtuple("Walk", "seat cpu start end plan made")


@fold(lambda head: {})
def walks(walks, journal, event):
    """The walk in flight of each processor that walks."""
    if event.kind == "walk":
        planned = tuple(plan(journal, event.start, event.end))
        return {**walks, event.cpu: Walk(event.seat, event.cpu, event.start, event.end, planned, ())}
    if event.kind == "call" and event.cpu in walks:
        entry, _ = follows(journal, event.cpu)
        walk = walks[event.cpu]
        return {**walks, event.cpu: walk._replace(made=walk.made + ((entry, fault(event.how)),))}
    if event.kind == "walked":
        return {cpu: walk for cpu, walk in walks.items() if cpu != event.cpu}
    return walks


@kept
def follows(journal, cpu):
    """Of a walk in flight the entry that comes next, or else the answer with which it ends."""
    this = walks(journal)[cpu]
    return what_follows(walk(cpu, this.start, this.end, this.plan), [code for _, code in this.made])


@fold(lambda head: (200,) + (0,) * (head.possible - 1))
def settled(states, journal, event):
    """Where the last walk of each processor left it: at its end, or where it got stuck, or where it was."""
    if event.kind != "walked" or event.answer[0] == "fault":
        return states
    state = walks(journal)[event.cpu].end if event.answer[0] == "ok" else event.answer[3]
    return states[:event.cpu] + (state,) + states[event.cpu + 1:]
