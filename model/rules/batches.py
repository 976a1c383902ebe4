"""Batches: the walks of an upmany are in flight together."""
from rules import operations, states, who_makes_an_entry
from rules.crossings_and_walks import walks
from rules.journals_and_seats import fold


@fold(lambda head: ())
def order(order, journal, event):
    """The processors that walk, that whose walk's last event so far is the earliest coming first."""
    if event.kind in ("walk", "walked", "call"):
        rest = tuple(cpu for cpu in order if cpu != event.cpu)
        return rest + (event.cpu,) if event.kind == "walk" or event.kind == "call" and event.cpu in order else rest
    return order


def batch(holder):
    """The listed processors below 200."""
    return [cpu for cpu in holder.op.cpus if holder.at_enter[cpu] < states.HIGHEST]


def to_begin(holder):
    """Those of the batch whose walk hasn't begun."""
    return [cpu for cpu in batch(holder) if cpu not in holder.begun]


def step(journal):
    """What comes next of an upmany's own seat, by the numbers of the rule, but that the entry or the end of a walk is named by
    its processor: ("go on", processor). None where the seat has to wait for a thread."""
    holder = operations.holder(journal)
    if to_begin(holder):
        return "walk", to_begin(holder)[0], states.HIGHEST
    for cpu in order(journal):
        call = who_makes_an_entry.call_of_walk(journal, cpu)
        if call is None or not who_makes_an_entry.is_thread_s(call):
            return "go on", cpu
    return None if walks(journal) else ("end", ("ok", operations.failed(holder)))
