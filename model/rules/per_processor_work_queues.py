"""Per-processor work queues: they follow one state, and have a queue for each processor, what ran, and an unbound list."""
from rules.per_processor_counters import fronts, open_processors
from texts.numbers_words_lines import listed

MOST = 4096


def queues(journal, state):
    """What ran, the queues and the unbound list, where after each event an item is put on each open processor, while fewer than
    4,096 were put, and after every third the front of each open processor's queue runs."""
    ran, queue, unbound, put, were_open = [], {cpu: [] for cpu in range(journal.head.possible)}, [], 0, []
    for count, front in enumerate(fronts(journal), 1):
        now_open = open_processors(front, state)
        for cpu in were_open:
            if cpu not in now_open:  # its queue moves behind that of the lowest open processor, or the unbound list
                (queue[now_open[0]] if now_open else unbound).extend(queue[cpu])
                queue[cpu] = []
        for cpu in now_open:
            if cpu not in were_open:  # the next that opens takes the unbound list
                queue[cpu], unbound = queue[cpu] + unbound, []
        for cpu in now_open:
            if put < MOST:
                queue[cpu].append(put)
                put += 1
        for cpu in now_open:
            if count % 3 == 0 and queue[cpu]:
                ran.append(queue[cpu].pop(0))
        were_open = now_open
    return ran, queue, unbound


def lines(journal, state):
    ran, queue, unbound = queues(journal, state)
    yield f"ran {listed(ran)}"
    yield from (f"drained {cpu} {listed(items)}" for cpu, items in queue.items() if items)
    yield f"unbound {listed(unbound)}"
