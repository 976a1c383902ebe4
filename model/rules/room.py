"""Room: what has to follow an event is promised with it, so that nothing which has begun is cut off by a full journal."""
from rules import batches, registrations
from rules.crossings_and_walks import plan, settled, walks
from rules.journals_and_seats import kept, seats_in
from rules.operations import holder, readers

LIMIT = 1_048_576


def of_walk(keys):
    return 3 * keys + 4


def of_registration(journal):
    return 2 * len(journal.present) + 2


def keys(planned):
    return sum(len(instances) for _, instances in planned)


def of_batch(journal, cpus):
    """What the walks of these processors need that an upmany is still to begin."""
    return sum(of_walk(keys(plan(journal, settled(journal)[cpu], 200))) for cpu in cpus)


def need(journal, event):
    """What an event reserves; 0 where it uses what was reserved for it."""
    if event.kind == "walk" and holder(journal).op.word == "upmany":
        return 0 if holder(journal).begun else of_batch(journal, batches.to_begin(holder(journal)))
    if event.kind == "walk":
        return of_walk(keys(plan(journal, event.start, event.end)))
    if event.kind == "reg":
        return of_registration(journal)
    return {"admit": 2, "enter": 2, "lock": 2, "refused": 1, "armed": 1, "shown": 1, "wakeup": 1}.get(event.kind, 0)


@kept
def promised(journal):
    """What is reserved and not used yet."""
    has, registration = holder(journal), registrations.underway(journal)
    total = len(seats_in(journal)) + (has is not None) + len(readers(journal))
    total += sum(of_walk(keys(walk.plan)) - 1 - len(walk.made) for walk in walks(journal).values())
    if has and has.op.word == "upmany" and has.begun:
        total += of_batch(journal, batches.to_begin(has))
    return total + (of_registration(journal) - 1 - len(registration.made) if registration else 0)


def has_room(journal, event):
    """An event has room where it needs none, or where the events, what is promised and its need fit into the limit."""
    needs = need(journal, event)
    return needs == 0 or journal.length + promised(journal) + needs <= LIMIT
