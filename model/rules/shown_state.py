"""Shown state: what the files of a processor show."""
from rules import keys_and_entries, registrations, states
from rules.crossings_and_walks import settled, walks
from rules.journals_and_seats import UP


def shown(journal, cpu):
    """At rest the settled state; in a walk the state of the last done crossing, less 1 if that went down, and before any the
    walk's start."""
    if cpu in walks(journal):
        for entry, fault in reversed(walks(journal)[cpu].made):
            if entry.place == "walk" and entry.last and not fault:
                return entry.state if entry.direction == UP else entry.state - 1
    return settled(journal)[cpu]


def heading(journal, cpu):
    """At rest the settled state; in a walk its end, and from its first fault on its start."""
    if cpu not in walks(journal):
        return settled(journal)[cpu]
    walk = walks(journal)[cpu]
    return walk.start if any(fault for _, fault in walk.made) else walk.end


def value(journal, file, cpu):
    """What a file shows; of `states` the number of its lines."""
    if file == "states":
        return len(states.BUILT_IN.keys() | registrations.registered(journal).keys())
    if file == "fail":
        return keys_and_entries.armed(journal).get(cpu, -1)
    return (shown if file == "state" else heading)(journal, cpu)
