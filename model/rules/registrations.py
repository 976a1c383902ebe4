"""Registrations: a setup gives a state a subsystem, a remove takes it away; an add puts an instance at the head of a multi
state's list, a del takes it out."""
from collections import namedtuple

from rules import crossings_and_walks, states
from rules.journals_and_seats import DOWN, UP, fold, kept
from rules.keys_and_entries import Entry, fault


# What stands at a state: the number of a subsystem, and the instances, newest first.
Registered = namedtuple("Registered", "sub instances")
# A registration in flight: its resolved state, and the faults of its entries so far.
Registration = namedtuple("Registration", "seat op state made")


@fold(lambda head: None)
def underway(registration, journal, event):
    """The registration in flight, or None."""
    if event.kind == "reg":
        return Registration(event.seat, event.op, event.state, ())
    if event.kind == "call" and registration:
        return registration._replace(made=registration.made + (fault(event.how),))
    return None if event.kind == "regged" else registration


@fold(lambda head: {})
def registered(registered, journal, event):
    """What is registered, by state. The answer ok is what changes it."""
    if event.kind != "regged" or event.answer[0] != "ok":
        return registered
    _, op, state, _ = underway(journal)
    if op.word == "remove":
        return {other: what for other, what in registered.items() if other != state}
    if op.word == "setup":
        return {**registered, state: Registered(op.sub, ())}
    sub, instances = registered[state]
    if op.word == "add":
        return {**registered, state: Registered(sub, (op.inst,) + instances)}
    return {**registered, state: Registered(sub, tuple(inst for inst in instances if inst != op.inst))}


def is_named(journal, state):
    """A state is named where it is built in or registered."""
    return state in states.BUILT_IN or state in registered(journal)


def is_multi(journal, state):
    return state in registered(journal) and journal.head.subs[registered(journal)[state].sub - 1].multi


def instances(journal, state):
    """The instances of a registered state's keys: a single state has one key, with instance 0."""
    return registered(journal)[state].instances if is_multi(journal, state) else (0,)


def resolved(journal, op):
    """The state of a registration: of a dynamic setup the lowest of its range without a name, or None, else the one asked for."""
    if op.word != "setup" or op.state not in states.DYNAMIC:
        return op.state
    return next((state for state in states.DYNAMIC[op.state] if not is_named(journal, state)), None)


def registration(cpus, state, inst, adding):
    """Adding makes the upward entry of the key on each of the processors, in rising number. Where one faults, those before it
    get the downward entry, in rising number. Removing makes the downward entries, and never fails."""
    for at, cpu in enumerate(cpus):
        code = yield Entry(cpu, state, inst, UP if adding else DOWN, "adding" if adding else "never")
        if code:
            for earlier in cpus[:at]:
                yield Entry(earlier, state, inst, DOWN, "never")
            return ("fault", code)
    return ("ok",)


@kept
def follows(journal):
    """Of the registration in flight the entry that comes next, or else the answer with which it ends."""
    _, op, state, faults = underway(journal)
    cpus = [cpu for cpu in journal.present if crossings_and_walks.settled(journal)[cpu] >= state]
    if op.word in ("setup", "remove") and subsystem(journal, op, state).multi:
        cpus = []
    shape = registration(cpus, state, op.inst or 0, op.word in ("setup", "add"))
    entry, answer = crossings_and_walks.what_follows(shape, faults)
    if answer == ("ok",):
        return entry, ("ok", state if op.word == "setup" and op.state in states.DYNAMIC else 0)
    return entry, answer


def subsystem(journal, op, state):
    """The subsystem that a registration is of."""
    return journal.head.subs[(op.sub if op.word == "setup" else registered(journal)[state].sub) - 1]
