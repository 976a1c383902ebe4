"""Journals and seats. A journal is a head and its events, oldest first; all else is found by folding over the events."""
from collections import namedtuple

UP, DOWN = "up", "down"

# What a machine is started with: the possible processors are those below a number, and some of them are absent.
Head = namedtuple("Head", "possible absent subs")
# A subsystem: its name, or "" where it has none, which callbacks it has, whether its states have instances, its rules.
Sub = namedtuple("Sub", "name up down multi rules")
# A rule of a subsystem's callbacks; None stands for any.
Rule = namedtuple("Rule", "direction cpu inst nth code")
# An operation: its word, and those of the others that its line has.
Op = namedtuple("Op", "word cpu cpus value state sub inst nocalls locked file", defaults=(None,) * 6 + (False, False, None))
# An event: the word of its line, its seat, and those of the others that its kind has. The role of an admission is the processor
# whose thread comes in, or None for a client.
FIELDS = "kind seat role op errno cpu start end state inst direction how answer file value"
Event = namedtuple("Event", FIELDS, defaults=(None,) * 13)


class Journal:
    """A head and its events: the journal without the last event, and that event."""
    __slots__ = ("head", "present", "before", "event", "length", "kept")

    def __init__(self, head, before=None, event=None):
        self.head, self.before, self.event = head, before, event
        self.present = before.present if before else [cpu for cpu in range(head.possible) if cpu not in head.absent]
        self.length = before.length + 1 if before else 0
        self.kept = {}

    def then(self, event):
        return Journal(self.head, self, event)

    def events(self):
        found = []
        while self.before:
            found.append(self.event)
            self = self.before
        return found[::-1]


def fold(first):
    """A fold: what it is of a head alone, and, by the function below it, what one event more makes of it. What it is of a
    journal is kept with that journal, so that an event more is one step."""
    def over(step):
        def folded(journal):
            if step in journal.kept:
                return journal.kept[step]
            later = [journal]
            while later[-1].before and step not in later[-1].before.kept:
                later.append(later[-1].before)
            for front in reversed(later):
                front.kept[step] = step(front.before.kept[step], front.before, front.event) if front.before else first(front.head)
            return journal.kept[step]
        folded.__name__, folded.__doc__, folded.step = step.__name__, step.__doc__, step
        return folded
    return over


def kept(function):
    """A function of a journal, and perhaps of more, whose value is kept with the journal."""
    def remembered(journal, *more):
        place = (function, more) if more else function
        if place not in journal.kept:
            journal.kept[place] = function(journal, *more)
        return journal.kept[place]
    remembered.__name__, remembered.__doc__ = function.__name__, function.__doc__
    return remembered


@fold(lambda head: ())
def roles(roles, journal, event):
    """The role of each seat that was ever admitted: a processor for its thread, None for a client."""
    return roles + (event.role,) if event.kind == "admit" else roles


@fold(lambda head: frozenset())
def seats_in(seats, journal, event):
    """The seats that are in."""
    if event.kind == "admit":
        return seats | {event.seat}
    return seats - {event.seat} if event.kind == "leave" else seats


@fold(lambda head: {})
def threads(seats, journal, event):
    """The seat of each processor's thread that is in, by processor."""
    if event.kind == "admit" and event.role is not None:
        return {**seats, event.role: event.seat}
    if event.kind == "leave" and roles(journal)[event.seat] is not None:
        return {cpu: seat for cpu, seat in seats.items() if seat != event.seat}
    return seats


@fold(lambda head: {})
def in_flight(operations, journal, event):
    """The operation that each seat has in flight, by seat: begun by Enter or RegBegin, ended by OpEnd or RegEnd."""
    if event.kind in ("enter", "reg"):
        return {**operations, event.seat: event.op}
    if event.kind in ("done", "regged"):
        return {seat: op for seat, op in operations.items() if seat != event.seat}
    return operations


def is_client(journal, seat):
    return seat in seats_in(journal) and roles(journal)[seat] is None


def is_free(journal, seat):
    """A seat is free where it is a client's, is in, and has no operation in flight."""
    return is_client(journal, seat) and seat not in in_flight(journal)
