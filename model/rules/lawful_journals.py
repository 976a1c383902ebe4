"""Lawful journals: each event stands after the events before it. A row of the table is a function that gives the conditions of
its kind one after another, each with whether it holds; what stands behind one that doesn't isn't looked at."""
from rules import batches, crossings_and_walks, operations, registrations, room, shown_state, what_comes_next, who_makes_an_entry
from rules.crossings_and_walks import settled, walks
from rules.journals_and_seats import Op, in_flight, is_client, is_free, roles, seats_in, threads

SEATS = 320


def is_lawful_head(head):
    """Whether a machine can be started with it; the forms of names and rules are those of the texts."""
    rises = list(head.absent) == sorted(set(head.absent)) and all(0 < cpu < head.possible for cpu in head.absent)
    return 1 <= head.possible <= 256 and rises and len(head.subs) <= 128 and all(len(sub.rules) <= 8 for sub in head.subs)


def free(journal, event):
    yield "the seat is a client's, and is in", is_client(journal, event.seat)
    yield "no operation of it is in flight", is_free(journal, event.seat)


def passes(journal, event, op):
    yield from free(journal, event)
    yield "a setup's subsystem is one of the head's", op.word != "setup" or 1 <= op.sub <= len(journal.head.subs)
    yield "the operation isn't refused", operations.refusal(journal, event.seat, op) is None
    yield "it isn't kept waiting", operations.wait(journal, op) is None


def admit(journal, event):
    yield "the seat is the next number, below 320", event.seat == len(roles(journal)) < SEATS
    if event.role is not None:
        yield "the processor is present", event.role in journal.present
        yield "no seat of its thread is in", event.role not in threads(journal)


def leave(journal, event):
    yield "the seat is in", event.seat in seats_in(journal)
    yield "it isn't reading", event.seat not in operations.readers(journal)
    yield "no operation of it is in flight", event.seat not in in_flight(journal)
    yield "no entry can come next from it", what_comes_next.due_entry(journal, event.seat) is None


def enter(journal, event):
    yield "the operation is one of the map lock", event.op.word in operations.MAP
    yield from passes(journal, event, event.op)


def refused(journal, event):
    yield from free(journal, event)
    yield "a setup's subsystem is one of the head's", event.op.word != "setup" or 1 <= event.op.sub <= len(journal.head.subs)
    refusal = operations.refusal(journal, event.seat, event.op)
    yield "that number is the operation's refusal", refusal is not None and refusal[0] == event.errno


def holds_map(journal, event):
    holder = operations.holder(journal)
    yield "the seat's operation holds the map lock", holder is not None and holder.seat == event.seat


def walk(journal, event):
    yield from holds_map(journal, event)
    yield "no walk is in flight, but of the same upmany", not walks(journal) or operations.holder(journal).op.word == "upmany"
    yield "this walk is its next", operations.step(journal) == ("walk", event.cpu, event.end)
    yield "it is from the settled state", event.start == settled(journal)[event.cpu]
    yield "no registration and no reader is in flight", operations.wait_of_walk(journal) is None


def call(journal, event):
    due = [call for call in who_makes_an_entry.next_calls(journal) if call.cpu == event.cpu]
    yield "an entry of the processor comes next", bool(due)
    key = event.state, event.inst, event.direction
    yield "it is of that state and instance, and in that direction", (due[0].state, due[0].inst, due[0].direction) == key
    yield "its how is the one that the rules give", due[0].how == event.how
    yield "its seat is who makes it", due[0].seat == event.seat
    if walks(journal) and not who_makes_an_entry.is_thread_s(event):
        yield from turn_in_batch(journal, event)


def turn_in_batch(journal, event):
    if operations.holder(journal).op.word == "upmany":
        yield "of an upmany it is the turn of this processor's walk", batches.step(journal) == ("go on", event.cpu)


def walked(journal, event):
    yield "a walk of the processor is in flight", event.cpu in walks(journal)
    yield "it is the seat's", walks(journal)[event.cpu].seat == event.seat
    yield "its entries are a whole walk with that answer", crossings_and_walks.follows(journal, event.cpu)[1] == event.answer
    yield from turn_in_batch(journal, event)


def done(journal, event):
    yield from holds_map(journal, event)
    yield "no walk is in flight", not walks(journal)
    step = operations.step(journal)
    if event.answer == ("full",) and step[0] == "walk":
        yield "its next walk could begin", operations.wait_of_walk(journal) is None
        _, next_event = what_comes_next.turn_of_sequence(journal, event.seat)
        yield "it has no room", next_event.kind == "done"
    else:
        yield "it has no walk left", step[0] == "end"
        yield "it ends with that answer", step[1] == event.answer


def reg(journal, event):
    yield "the operation is a registration", event.op.word in operations.REGISTRATIONS
    yield from passes(journal, event, event.op)
    yield "the state is the resolved one", event.state == registrations.resolved(journal, event.op)


def regged(journal, event):
    registration = registrations.underway(journal)
    yield "a registration of the seat is in flight", registration is not None and registration.seat == event.seat
    yield "its entries are a whole registration with that answer", registrations.follows(journal)[1] == event.answer


def lock(journal, event):
    yield from passes(journal, event, Op(event.kind))


def armed(journal, event):
    yield from passes(journal, event, Op("fail", cpu=event.cpu, value=event.value))


def shown(journal, event):
    states = event.file == "states"
    yield from passes(journal, event, Op("show", file=event.file, cpu=None if states else event.cpu))
    yield "the value is what the file shows", event.value == shown_state.value(journal, event.file, event.cpu)


ROWS = {
    "admit": admit, "leave": leave, "enter": enter, "refused": refused, "walk": walk, "call": call, "walked": walked,
    "done": done, "reg": reg, "regged": regged, "lock": lock, "unlock": lock, "armed": armed, "shown": shown, "wakeup": free,
}


def conditions(journal, event):
    yield from ROWS[event.kind](journal, event)
    yield "it has room", room.has_room(journal, event)


def stands(journal, event):
    return all(holds for _, holds in conditions(journal, event))
