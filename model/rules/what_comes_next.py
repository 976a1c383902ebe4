"""What comes next: of a thread's seat an entry, of a client's seat and its operation an event, an answer, or a wait."""
from rules import crossings_and_walks, operations, registrations, room, shown_state, who_makes_an_entry
from rules.journals_and_seats import Event, in_flight, kept


@kept
def due_entries(journal):
    """The entry that comes next from each seat of a processor's thread from which there is one."""
    calls = who_makes_an_entry.next_calls(journal)
    return {call.seat: call for call in calls if who_makes_an_entry.is_thread_s(call) and call.seat is not None}


def due_entry(journal, seat):
    """The entry that comes next from the seat of a processor's thread, or None."""
    return due_entries(journal).get(seat)


def turn(journal, seat, op):
    """What a turn of a client's seat finds for its operation, which isn't answered: ("event", event), ("full",) where it is
    answered without an event, ("wait", for what), or ("thread", processor) where the next entry is that thread's to make."""
    if seat not in in_flight(journal):
        return first_turn(journal, seat, op)
    if op.word in operations.REGISTRATIONS:
        return of_call(who_makes_an_entry.call_of_registration(journal)) or event("regged", seat, answer=registrations.follows(journal)[1])
    flying = crossings_and_walks.walks(journal)
    if op.word != "upmany" and flying:
        return of_walk(journal, seat, *flying)
    return turn_of_sequence(journal, seat)


def event(kind, seat, **more):
    return "event", Event(kind, seat, **more)


def first_turn(journal, seat, op):
    """Of an operation that hasn't begun: it is refused, waits, or begins, or has no room for that."""
    refused = operations.refusal(journal, seat, op)
    wait = operations.wait(journal, op)
    if refused:
        made = Event("refused", seat, errno=refused[0], op=op)
    elif wait:
        return "wait", wait
    else:
        made = first_event(journal, seat, op)
    return ("event", made) if room.has_room(journal, made) else ("full",)


def first_event(journal, seat, op):
    """The event by which an operation begins that is neither refused nor kept waiting."""
    if op.word in operations.MAP:
        return Event("enter", seat, op=op)
    if op.word in operations.REGISTRATIONS:
        return Event("reg", seat, state=registrations.resolved(journal, op), op=op)
    if op.word == "fail":
        return Event("armed", seat, cpu=op.cpu, value=op.value)
    if op.word == "show":
        return Event("shown", seat, file=op.file, cpu=op.cpu or 0, value=shown_state.value(journal, op.file, op.cpu))
    return Event(op.word, seat)  # lock, unlock, wakeup


def of_call(call):
    """Whose turn an entry is, if there is one."""
    if call is None:
        return None
    return ("thread", call.cpu) if who_makes_an_entry.is_thread_s(call) else ("event", call)


def of_walk(journal, seat, cpu):
    ends = crossings_and_walks.follows(journal, cpu)[1]
    return of_call(who_makes_an_entry.call_of_walk(journal, cpu)) or event("walked", seat, cpu=cpu, answer=ends)


def turn_of_sequence(journal, seat):
    """Of an operation that holds the map lock, between its walks, or of an upmany."""
    step = operations.step(journal)
    if step is None:
        return "thread", min(crossings_and_walks.walks(journal))
    if step[0] == "end":
        return event("done", seat, answer=step[1])
    if step[0] == "go on":
        return of_walk(journal, seat, step[1])
    wait = operations.wait_of_walk(journal)
    if wait:
        return "wait", wait
    _, cpu, to = step
    begins = Event("walk", seat, cpu=cpu, start=crossings_and_walks.settled(journal)[cpu], end=to)
    return ("event", begins) if room.has_room(journal, begins) else event("done", seat, answer=("full",))
