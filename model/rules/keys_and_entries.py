"""Keys and entries: an entry is a Call event of a processor, a key, a direction, and how it was made."""
from typing import NamedTuple

from rules import callbacks, states
from rules.journals_and_seats import DOWN, UP, fold

EAGAIN = 11  # the code of an injected fault


class Entry(NamedTuple):
    """An entry that a walk or a registration asks for. Its place is what it is made for: "walk", "adding", or "never", where
    part of a state or an adding is undone, or something removed. First and last say so of its crossing."""
    cpu: int
    state: int
    inst: int
    direction: str
    place: str
    first: bool = False
    last: bool = False


MAY_FAIL = {
    ("PREPARE", "walk"): (UP,), ("PREPARE", "adding"): (UP,),
    ("ONLINE", "walk"): (UP, DOWN), ("ONLINE", "adding"): (UP,),
}


def may_fail(entry):
    return entry.direction in MAY_FAIL.get((states.section(entry.state), entry.place), ())


@fold(lambda head: {})
def armed(armed, journal, event):
    """The state at which a processor is armed, by processor: where `fail` was written, and since then no fault was taken."""
    if event.kind == "armed" and event.value != -1:
        return {**armed, event.cpu: event.value}
    if event.kind == "armed" or event.kind == "call" and event.how == ("injected",):
        return {cpu: state for cpu, state in armed.items() if cpu != event.cpu}
    return armed


def how(journal, entry, sub, nocalls):
    """How an entry is made: the first of these that holds decides."""
    if nocalls:
        return ("presumed",)
    if not (sub.up if entry.direction == UP else sub.down):
        return ("empty",)
    if entry.place == "walk" and entry.first and may_fail(entry) and armed(journal).get(entry.cpu) == entry.state:
        return ("injected",)
    code = callbacks.answer(journal, entry)
    if code == 0:
        return ("ok",)
    return ("fault" if may_fail(entry) else "overruled", code)


def fault(how):
    """The code of an entry that isn't done, and 0 of one that is."""
    return EAGAIN if how[0] == "injected" else how[1] if how[0] == "fault" else 0
