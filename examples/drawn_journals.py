"""What examples/compare draws of journals: lawful ones, full ones, and lines that may or may not stand next."""
from changes import alter_numbers, alter_words
from drawn import STYLES, Machine, draw_rule, draw_sizes, draw_subs
from rules import lawful_journals, what_comes_next
from rules.journals_and_seats import Event, Head, Journal, in_flight, roles, seats_in, threads
from rules.the_run_of_a_script import answer_of
from texts.the_journals_text import NUMBERED, event_line, head_lines
from texts.the_script import operation, rule, subsystem


def draw_journal(draw):
    """A lawful journal, mostly of operations in flight, in which seats come in and leave as they like."""
    cpus, subs, actors, size = draw_sizes(draw)
    cpus = cpus if cpus < 60 or draw.random() < 0.1 else 5
    absent = tuple(sorted(draw.sample(range(1, cpus), draw.choice([0, 0, min(1, cpus - 1)]))))
    named = list(draw_subs(draw, min(subs, 12)))
    heads = [subsystem(sub.split(" ")[1:]) for sub in named]
    heads = [sub._replace(rules=tuple(journal_rule(draw, cpus) for _ in range(draw.choice([0, 1, 1, 2])))) for sub in heads]
    journal, machine = Journal(Head(cpus, absent, tuple(heads))), Machine(draw, cpus, named, draw.choice(["mixed", "mixed", *STYLES]))
    for cpu in journal.present[:draw.choice([cpus, cpus, cpus // 2])]:
        journal = journal.then(Event("admit", journal.length, role=cpu))
    most = draw.choice([0] * 30 + [96, 96, 319, 320])  # the seats of a text of version 1, and of any journal
    for seat in range(journal.length, most - draw.choice([0, 0, 1, 2])):
        journal = journal.then(Event("admit", seat))
    if subs and draw.random() < 0.8 and seats_left(journal, most) > 0:
        journal = begun(journal, machine)
    for _ in range(draw.choice([20, 60, 60, 150])):
        event = draw_event(draw, journal, machine)
        if event and (event.kind, most) != ("admit", 96) and lawful_journals.stands(journal, event):
            journal = journal.then(event)
    return journal


def seats_left(journal, most):
    """How many seats more can come in, where so many are the most."""
    return (most or 320) - len(roles(journal))


def begun(journal, machine):
    """The journal after the first operations of a client that comes in, as far as they go."""
    client = len(roles(journal))
    journal = journal.then(Event("admit", client))
    for line in machine.first_setups():
        answer = None
        while answer is None:
            found, *more = what_comes_next.turn(journal, client, operation(line.split(" ")))
            due = more[0] if found == "event" else what_comes_next.due_entry(journal, threads(journal).get(more[0])) if found == "thread" else None
            if due is None:
                return journal
            journal, answer = journal.then(due), answer_of(due)
    return journal


def journal_rule(draw, cpus):
    """A rule that mostly matches."""
    mostly = f"rule {draw.choice(['up', 'down'])} * * {draw.choice('**123')} {draw.randint(1, 4095)}"
    return rule(draw.choice([mostly, mostly, draw_rule(draw, cpus)]).split(" ")[1:])


def draw_full_journal(draw):
    """A lawful journal that gets full by the limit that the model has, and events that could stand next if it had room."""
    head = Head(3, (), tuple(subsystem(sub.split(" ")[1:]) for sub in draw_subs(draw, 3)))
    journal, machine = Journal(head), Machine(draw, 3, list(draw_subs(draw, 3)), "walks")
    for role in (0, 1, 2, None, None):
        journal = journal.then(Event("admit", journal.length, role=role))
    left_out = {}
    for _ in range(600):
        event = draw_event(draw, journal, machine)
        if event and lawful_journals.stands(journal, event):
            journal, left_out = journal.then(event), {}
        elif event and all(holds for words, holds in lawful_journals.conditions(journal, event) if words != "it has room"):
            left_out[event] = True
    return journal, list(left_out)


def draw_tail(draw):
    """How many events are left where a journal gets full, and operations: in half of the cases the first just has the room it needs,
    besides what 257 seats have, or has one event less or more."""
    some = ["setup 150 3", "setup 160 2", "add 160 1", "add 160 2", "remove 150", "up 3", "down 3", "down 4", "up 4", "lock", "unlock", "freeze 0", "thaw",
            "upmany 3 4", "boot 256", "fail 3 104", "fail 3 -1", "show state 3", "wakeup", "disable", "enable", "target 3 104", "target 3 200"]
    tail = draw.choices(some, k=draw.randint(10, 40)) + ["show states"] * draw.randint(0, 40) + ["up 3", "lock", "wakeup", "unlock"]
    if draw.random() < 0.5:
        return draw.randint(20, 1100), tail
    first, need = draw.choice([("down 3", 2 + 3 * 30 + 4), ("freeze 0", 2 + 3 * 30 + 4), ("target 3 104", 2 + 3 * 28 + 4), ("setup 150 3", 514), ("lock", 2)])
    return 257 + need + draw.randint(-1, 1), [first, *tail]


def draw_event(draw, journal, machine):
    """An event that may come next: an entry of a thread, what comes next of a client, an admission, a leave."""
    kind, seats = draw.random(), sorted(seats_in(journal))
    if kind < 0.06 or not seats:
        return Event("admit", len(roles(journal)), role=draw.choice([None, None, draw.randrange(machine.cpus)]))
    if kind < 0.09:
        return Event("leave", draw.choice(seats))
    if kind < 0.4 and what_comes_next.due_entries(journal):
        return draw.choice(list(what_comes_next.due_entries(journal).values()))
    clients = [seat for seat, role in enumerate(roles(journal)) if role is None and seat in seats_in(journal)]
    if not clients:
        return Event("admit", len(roles(journal)))
    seat = draw.choice(draw.choice([clients, list(in_flight(journal)) or clients]))
    op = in_flight(journal).get(seat) or operation(machine.operation(draw.random() < 0.3).split(" "))
    found, *more = what_comes_next.turn(journal, seat, op)
    return more[0] if found == "event" else None


def draw_near(draw, journal):
    """The line of an event that may or may not stand next: it comes or goes, or goes on, perhaps with a word changed."""
    kind, seats = draw.random(), len(roles(journal))
    due, flying = what_comes_next.due_entries(journal), in_flight(journal)
    if kind < 0.2 or not seats:
        event = Event("admit", seats, role=draw.choice([None, draw.randrange(journal.head.possible)]))
    elif kind < 0.5 or not due and not flying:
        event = Event("leave", draw.choice([*due, *due, draw.randrange(seats)]))
    elif kind < 0.8 and due or not flying:
        event = draw.choice(list(due.values()))
    else:
        seat = draw.choice(list(flying))
        found, *more = what_comes_next.turn(journal, seat, flying[seat])
        event = more[0] if found == "event" else Event("leave", seat)
    line = event_line(journal, event)
    return line if draw.random() < 0.4 else draw.choice([alter_numbers, alter_numbers, alter_words])(draw, line)


def starts_of(journal):
    """The fronts of a journal, each with the number of its text's lines."""
    fronts = [journal]
    while fronts[-1].before:
        fronts.append(fronts[-1].before)
    head = len(list(head_lines(journal.head)))
    return [(front, head + front.length) for front in reversed(fronts)]


def draw_front(draw, starts):
    """A front of a journal, with its place: of what is in flight, each kind is taken as often as any other."""
    kinds = {}
    for start in starts:
        kinds.setdefault(frozenset(op.word for op in in_flight(start[0]).values()), []).append(start)
    return draw.choice(draw.choice(list(kinds.values())))


def of_version_1(line):
    """A line of version 2 without its OPNO."""
    words = line.split(" ")
    return " ".join(words[:2] + words[3:]) if words[0] in NUMBERED else line
