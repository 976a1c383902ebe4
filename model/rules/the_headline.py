"""The headline: what is in force, and what holds of it after every lawful journal."""
from rules import registrations
from rules.crossings_and_walks import settled, walks
from rules.journals_and_seats import UP, fold
from rules.keys_and_entries import fault


@fold(lambda head: {})
def surplus(surplus, journal, event):
    """How many more upward than downward entries of each key are done, by processor and key; those of none are left out."""
    if event.kind != "call" or fault(event.how):
        return surplus
    of_cpu = dict(surplus.get(event.cpu, {}))
    key = event.state, event.inst
    of_cpu[key] = of_cpu.get(key, 0) + (1 if event.direction == UP else -1)
    if of_cpu[key] == 0:
        del of_cpu[key]
    return {**surplus, event.cpu: of_cpu}


def in_force(journal, cpu):
    """The keys in force on a processor, by state and instance."""
    return sorted(key for key, more in surplus(journal).get(cpu, {}).items() if more > 0)


def holds(journal):
    """Whether no key is in force twice, or taken down more often than brought up; and whether, on each processor at rest with no
    registration in flight, the keys in force are those registered at or below its state."""
    if any(more != 1 for of_cpu in surplus(journal).values() for more in of_cpu.values()):
        return False
    registered = sorted((state, inst) for state in registrations.registered(journal) for inst in registrations.instances(journal, state))
    return registrations.underway(journal) is not None or all(
        in_force(journal, cpu) == [key for key in registered if key[0] <= state]
        for cpu, state in enumerate(settled(journal)) if cpu not in walks(journal))
