"""Per-processor counters: they follow one state, and have a base and a part for each processor."""
from rules import the_headline
from rules.journals_and_seats import Journal


def fronts(journal):
    """The journals of the first event, of the first two, and so on."""
    front = Journal(journal.head)
    for event in journal.events():
        front = front.then(event)
        yield front


def open_processors(journal, state):
    """A processor is open while the state is in force on it."""
    return [cpu for cpu in range(journal.head.possible) if (state, 0) in the_headline.surplus(journal).get(cpu, {})]


def counters(journal, state, batch):
    """The base and the parts, where after each event 1 is added on each open processor, in rising number."""
    base, parts, were_open = 0, [0] * journal.head.possible, []
    for front in fronts(journal):
        now_open = open_processors(front, state)
        for cpu in were_open:
            if cpu not in now_open:  # as a processor goes down its part goes into the base
                base, parts[cpu] = base + parts[cpu], 0
        for cpu in now_open:
            parts[cpu] += 1
            if abs(parts[cpu]) >= batch:
                base, parts[cpu] = base + parts[cpu], 0
        were_open = now_open
    return base, parts


def line(journal, state, batch):
    base, parts = counters(journal, state, batch)
    return f"count total {base + sum(parts)} base {base} parts {' '.join(map(str, parts))}\n"
