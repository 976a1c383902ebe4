"""Operations: what each is refused, what it waits for, and which walks follow its Enter."""
from collections import namedtuple

from rules import batches, registrations, states
from rules.crossings_and_walks import settled, walks
from rules.journals_and_seats import fold, kept
from rules.registrations import is_multi, is_named, registered, underway
from rules.shown_state import shown

EPERM, EBUSY, EINVAL, ENOSPC, EDEADLK = 1, 16, 22, 28, 35
MAP = ("up", "down", "target", "boot", "upmany", "disable", "enable", "freeze", "thaw")
REGISTRATIONS = ("setup", "remove", "add", "del")


# The operation that holds the map lock: where the processors stood at its Enter, the processors whose walks it has begun, and
# those whose walks ended, with the answers, in their order.
Holder = namedtuple("Holder", "seat op at_enter begun ended")


def failed(holder):
    """How many walks weren't ok."""
    return sum(answer != ("ok",) for _, answer in holder.ended)


@fold(lambda head: None)
def holder(holder, journal, event):
    """Who holds the map lock, from Enter to OpEnd, or None."""
    if event.kind == "enter":
        return Holder(event.seat, event.op, settled(journal), (), ())
    if event.kind == "walk":
        return holder._replace(begun=holder.begun + (event.cpu,))
    if event.kind == "walked":
        return holder._replace(ended=holder.ended + ((event.cpu, event.answer),))
    return None if event.kind == "done" else holder


def writer(journal):
    """Who holds the write side, or None: from WalkBegin to WalkEnd, in an upmany from its first WalkBegin to its OpEnd."""
    has = holder(journal)
    return has.seat if has and (walks(journal) or has.op.word == "upmany" and has.begun) else None


@fold(lambda head: frozenset())
def readers(readers, journal, event):
    """The seats in a read section, from ReadLock to ReadUnlock."""
    return readers | {event.seat} if event.kind == "lock" else readers - {event.seat} if event.kind == "unlock" else readers


@fold(lambda head: 0)
def disabled(count, journal, event):
    """How often hotplug is disabled."""
    if event.kind == "enter":
        return count - (event.op.word == "thaw" and count > 0)
    word = holder(journal).op.word if event.kind == "done" else None
    return count + (word in ("disable", "freeze")) - (word == "enable")


@fold(lambda head: frozenset())
def frozen(record, journal, event):
    """The processors that a freeze recorded: emptied as a freeze begins and as a thaw ends."""
    if event.kind == "enter" and event.op.word == "freeze" or event.kind == "done" and holder(journal).op.word == "thaw":
        return frozenset()
    if event.kind == "walked" and event.answer == ("ok",) and holder(journal).op.word == "freeze":
        return record | {event.cpu}
    return record


@fold(lambda head: False)
def wakeup(pending, journal, event):
    """Whether a wakeup is pending: the end of a freeze clears it."""
    return event.kind == "wakeup" or pending and not (event.kind == "done" and holder(journal).op.word == "freeze")


def online(journal):
    return [cpu for cpu, state in enumerate(settled(journal)) if states.is_online(state)]


def at_once(journal, seat, op):
    """The refusals at once, the first that holds deciding: each with its number and its condition."""
    reading = seat in readers(journal)
    if op.word in MAP or op.word == "lock":
        yield EDEADLK, "in an own read section", reading
    if op.word == "unlock":
        yield EPERM, "not in an own read section", not reading
    if op.word in REGISTRATIONS:
        yield EDEADLK, "in an own read section, in the form that isn't `locked`", reading and not op.locked
        yield EPERM, "outside an own read section, in the `locked` form", op.locked and not reading
    if op.cpu is not None:
        yield EINVAL, "the processor isn't possible", op.cpu >= journal.head.possible
    if op.word == "target":
        yield EINVAL, "the value isn't 0 to 200", not 0 <= op.value <= states.HIGHEST
    if op.word == "upmany":
        yield EINVAL, "a listed processor isn't possible", any(cpu >= journal.head.possible for cpu in op.cpus)
    if op.word == "setup":
        yield EINVAL, "the state is 0, or at least 200", not 0 < op.state < 200
        yield EINVAL, "the subsystem has no name", not journal.head.subs[op.sub - 1].name
    if op.word == "add":
        yield EINVAL, "the instance is 0", op.inst == 0


def after_waits(journal, op):
    """The refusals after the waits."""
    count = disabled(journal)
    absent = op.cpu in journal.head.absent
    if op.word in ("up", "down", "boot", "upmany"):
        yield EBUSY, "hotplug is disabled", count > 0
    if op.word == "down":
        yield EBUSY, "exactly one processor is online", len(online(journal)) == 1
    if op.word in ("up", "down"):
        yield EINVAL, "the processor isn't present", absent
    if op.word == "upmany":
        yield EINVAL, "a listed processor isn't present", any(cpu in journal.head.absent for cpu in op.cpus)
    if op.word == "enable":
        yield EINVAL, "hotplug isn't disabled", count == 0
    if op.word == "target":
        state = settled(journal)[op.cpu]
        yield EINVAL, "the value has no name", not is_named(journal, op.value)
        yield EINVAL, "the value is 62 to 102", states.is_between(op.value)
        yield EBUSY, "the value isn't the state, and hotplug is disabled", op.value != state and count > 0
        yield EINVAL, "the value is above the state, and the processor isn't present", op.value > state and absent
        yield EBUSY, "the value is below the state, and exactly one is online", op.value < state and len(online(journal)) == 1
    if op.word == "fail" and op.value != -1:
        yield EINVAL, "the value isn't 0 to 200", not 0 <= op.value <= states.HIGHEST
        yield EINVAL, "the value is 63 to 99", states.is_atomic(op.value)
        yield EINVAL, "the value is at most 62, and the shown state above", op.value <= 62 < shown(journal, op.cpu)
        yield EINVAL, "the value isn't registered", op.value not in registered(journal)
        sub = journal.head.subs[registered(journal)[op.value].sub - 1]
        yield EINVAL, "it has neither callback", not (sub.up or sub.down)
    if op.word == "setup":
        dynamic = op.state in states.DYNAMIC
        yield EBUSY, "the state isn't dynamic and has a name", not dynamic and is_named(journal, op.state)
        yield ENOSPC, "the state is dynamic and its range is full", registrations.resolved(journal, op) is None
    if op.word == "remove":
        yield EINVAL, "the state isn't registered", op.state not in registered(journal)
        yield EBUSY, "it has instances", bool(registered(journal)[op.state].instances)
    if op.word in ("add", "del"):
        yield EINVAL, "the state is no registered multi state", not is_multi(journal, op.state)
        there = registered(journal)[op.state].instances
        if op.word == "add":
            yield EBUSY, "the instance is there already", op.inst in there
            everywhere = sum(len(what.instances) for what in registered(journal).values())
            yield ENOSPC, "the state has 256 instances, or all states 4,096", len(there) >= 256 or everywhere >= 4096
        else:
            yield EINVAL, "the instance isn't there", op.inst not in there


@kept
def wait(journal, op):
    """What a new operation waits for, or None."""
    if op.word in MAP and holder(journal):
        return f"the map lock is held, by seat {holder(journal).seat}"
    if (op.word in REGISTRATIONS or op.word == "lock") and writer(journal) is not None:
        return f"the write side is held, by seat {writer(journal)}"
    asks = op.word in REGISTRATIONS or op.word == "target" or op.word == "fail" and op.value != -1 or op.file == "states"
    if asks and underway(journal):
        return f"a registration is in flight, of seat {underway(journal).seat}"
    return None


@kept
def refusal(journal, seat, op):
    """The number by which a new operation is refused and the condition, or None."""
    for errno, words, holds in at_once(journal, seat, op):
        if holds:
            return errno, words
    if wait(journal, op) is None:
        for errno, words, holds in after_waits(journal, op):
            if holds:
                return errno, words
    return None


def wait_of_walk(journal):
    """What a walk waits for before it begins, or None; those of an upmany after its first wait for nothing."""
    if walks(journal) or holder(journal).op.word == "upmany" and holder(journal).begun:
        return None
    if readers(journal):
        return f"readers are in, {len(readers(journal))}"
    return f"a registration is in flight, of seat {underway(journal).seat}" if underway(journal) else None


@kept
def step(journal):
    """What comes next of the operation that holds the map lock, where no walk of it has to go on before: ("walk", processor, to)
    or ("end", answer). Of an upmany it may be None."""
    has = holder(journal)
    op, state = has.op, settled(journal)
    walked = [cpu for cpu, _ in has.ended]
    if op.word in ("up", "down", "target"):
        to = {"up": states.HIGHEST, "down": 0, "target": op.value}[op.word]
        if has.ended:
            return "end", ("ok", 0) if has.ended[0][1] == ("ok",) else has.ended[0][1]
        return ("walk", op.cpu, to) if state[op.cpu] != to else ("end", ("ok", 0))
    if op.word == "freeze":
        if failed(has):
            return "end", has.ended[-1][1]
        were_online = [cpu for cpu, was in enumerate(has.at_enter) if states.is_online(was)]
        primary = op.value if op.value in were_online else were_online[0]
        for cpu in were_online:
            if cpu != primary and cpu not in walked:
                return ("end", ("refused", EBUSY)) if wakeup(journal) else ("walk", cpu, 0)
        return "end", ("ok", 0)
    if op.word == "thaw":
        for cpu in sorted(frozen(journal)):
            if state[cpu] < states.HIGHEST and cpu not in walked:
                return "walk", cpu, states.HIGHEST
    if op.word == "boot" and len(online(journal)) < op.value:
        for cpu in journal.present:
            if not states.is_online(state[cpu]) and cpu not in walked:
                return "walk", cpu, states.HIGHEST
    if op.word == "upmany":
        return batches.step(journal)
    return "end", ("ok", failed(has))
