"""The states file: a line for each state that has a name."""
from rules import registrations, states


def text(journal):
    names = {**states.BUILT_IN, **{state: journal.head.subs[what.sub - 1].name for state, what in registrations.registered(journal).items()}}
    return "".join(f"{state:3}: {name}\n" for state, name in sorted(names.items()))
