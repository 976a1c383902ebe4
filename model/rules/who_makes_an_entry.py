"""Who makes an entry: at an AP state the seat of the processor's thread, unless it is presumed; else the operation's seat."""
from rules import crossings_and_walks, keys_and_entries, registrations, states
from rules.journals_and_seats import Event, kept, threads


def is_thread_s(call):
    """Whether an entry is its processor's thread's to make, whether the thread is in or not."""
    return states.is_ap(call.state) and call.how != ("presumed",)


@kept
def call_of_walk(journal, cpu):
    """The Call that comes next in the walk of a processor, or None. Its seat is None where no thread of its processor is in."""
    entry, _ = crossings_and_walks.follows(journal, cpu)
    if entry is None:
        return None
    sub = journal.head.subs[registrations.registered(journal)[entry.state].sub - 1]
    return call(journal, entry, keys_and_entries.how(journal, entry, sub, False), crossings_and_walks.walks(journal)[cpu].seat)


@kept
def call_of_registration(journal):
    """The Call that comes next in the registration in flight, or None."""
    entry, _ = registrations.follows(journal)
    if entry is None:
        return None
    seat, op, state, _ = registrations.underway(journal)
    sub = registrations.subsystem(journal, op, state)
    return call(journal, entry, keys_and_entries.how(journal, entry, sub, op.nocalls), seat)


def call(journal, entry, how, seat):
    made = Event("call", seat, cpu=entry.cpu, state=entry.state, inst=entry.inst, direction=entry.direction, how=how)
    return made._replace(seat=threads(journal).get(entry.cpu)) if is_thread_s(made) else made


def next_calls(journal):
    """The entries that come next in what is in flight, one of each processor that walks."""
    if registrations.underway(journal):
        calls = [call_of_registration(journal)]
    else:
        calls = [call_of_walk(journal, cpu) for cpu in sorted(crossings_and_walks.walks(journal))]
    return [call for call in calls if call]
