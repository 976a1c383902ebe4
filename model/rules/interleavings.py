"""Every interleaving of a script: the ends of all its runs, each with a shortest schedule that leads there."""
from collections import namedtuple

from rules import batches, callbacks, crossings_and_walks, keys_and_entries, operations, registrations, the_headline
from rules.journals_and_seats import in_flight
from rules.the_run_of_a_script import a_round, begin, is_over, turn

FOLDS = (in_flight, registrations.underway, registrations.registered, crossings_and_walks.walks, crossings_and_walks.settled, batches.order,
         keys_and_entries.armed, operations.holder, operations.readers, operations.disabled, operations.frozen, operations.wakeup,
         the_headline.surplus)


# Where a run ended: the answers, the states and what is left in force; and the turns of a shortest schedule that leads there.
End = namedtuple("End", "left turns")


def frozen(value):
    """A value of a fold as one that can be looked up."""
    if isinstance(value, dict):
        return frozenset((key, frozen(each)) for key, each in value.items())
    return value


def future(run):
    """All that decides how a run goes on, where the journal is far from full: what the folds are of its events, the counts of the
    hooks' rules, and the answers so far."""
    counts = {state: (hook.sub, hook.matched) for state, hook in callbacks.hooks(run.journal).items()}
    return tuple(frozen(fold(run.journal)) for fold in FOLDS) + (frozen(counts), run.answers)


def what_is_left(run):
    """The answers of each actor, where the processors stand, and the keys in force on each."""
    states = crossings_and_walks.settled(run.journal)
    return run.answers, states, tuple(tuple(the_headline.in_force(run.journal, cpu)) for cpu in range(len(states)))


def closed(script, run, known):
    """What is left where the closing rounds lead; of runs that go on alike it is found once."""
    way = []
    while future(run) not in known and not is_over(script, run):
        way.append(future(run))
        run = a_round(script, run)
    left = known.get(future(run)) or what_is_left(run)
    known.update((each, left) for each in way)
    return left


def ends(script, most):
    """The ends of all schedules, each with the turns of a shortest one; or None where there are more ways than so many to be on
    the way."""
    first = begin(script)
    runs, seen, found, known = [(first, ())], {future(first)}, {}, {}
    while runs and len(seen) <= most:
        later = []
        for run, turns in runs:
            found.setdefault(closed(script, run, known), turns)
            for seat in range(first.journal.length):
                after = turn(script, run, seat)
                if after != run and future(after) not in seen:
                    seen.add(future(after))
                    later.append((after, turns + (seat,)))
        runs = later
    return [End(left, turns) for left, turns in found.items()] if not runs else None
