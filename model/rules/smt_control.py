"""SMT control: a mode, a record of siblings, and at most one write in flight; and a script that is played under it."""
from collections import namedtuple

from rules import operations, the_run_of_a_script, what_comes_next
from rules.journals_and_seats import Op, in_flight
from rules.the_run_of_a_script import Run, answer_of, answered, is_over
from texts import the_journals_text, the_summary
from texts.numbers_words_lines import listed

DENIED = ("denied",)


# What SMT control is after some turns; and whether a write is in flight, and the mode that was before it.
Control = namedtuple("Control", "mode recorded writing was")


def is_denied(control, threads, op):
    """Whether an operation would bring a sibling up, or might, while the mode isn't on. The numbers alone decide."""
    brings = op.cpus or [op.cpu] if op.word in ("up", "upmany") or op.word == "target" and op.value >= 101 else []
    return control.mode != "on" and (op.word == "boot" or any(cpu % threads for cpu in brings))


def begin_write(control, mode):
    """The first turn of a write: it is answered at once, or goes on. No other seat's write is in flight in these runs."""
    if control.mode == "forceoff":
        return control, ("refused", operations.EPERM)
    if mode == control.mode and not (mode == "on" and control.recorded):
        return control, ("ok", 0)
    return control._replace(writing=True, was=control.mode, mode="on" if mode == "on" else "closing"), None


def next_of_write(control, journal, mode, threads):
    """What a write does where none of its operations is in flight: the operation that it asks for, or its answer, or None where
    it waits."""
    if mode == "on":
        return (Op("up", cpu=min(control.recorded)), None) if control.recorded else (None, ("ok", 0))
    siblings = [cpu for cpu in operations.online(journal) if cpu % threads]
    if siblings:
        return Op("down", cpu=siblings[0]), None
    if operations.holder(journal):
        return None, None
    refused = operations.disabled(journal) > 0 or operations.frozen(journal)
    return None, ("refused", operations.EBUSY) if refused else ("ok", 0)


def turn_of_write(control, journal, mode, threads, seat):
    """One turn of the seat that writes the mode: the control and the journal after it, and the write's answer or None."""
    if not control.writing:
        control, answer = begin_write(control, mode)
        if answer:
            return control, journal, answer
    op = in_flight(journal).get(seat)
    if op is None:
        op, answer = next_of_write(control, journal, mode, threads)
        if op is None:
            return (end_write(control, mode, answer) if answer else control), journal, answer
    found, *more = what_comes_next.turn(journal, seat, op)
    if found not in ("event", "full"):
        return control, journal, None
    journal = journal.then(more[0]) if found == "event" else journal
    answer = answer_of(more[0]) if found == "event" else ("full",)
    if answer == ("ok", 0):  # of its own `down` or `up`
        recorded = control.recorded - {op.cpu} if mode == "on" else control.recorded | {op.cpu}
        return control._replace(recorded=recorded), journal, None
    return (end_write(control, mode, answer) if answer else control), journal, answer


def end_write(control, mode, answer):
    return control._replace(writing=False, mode=mode if mode == "on" or answer == ("ok", 0) else control.was)


def run(script, threads, mode):
    """The run of a script under SMT control: the journal, each write's answer with the processors that are online then, and how
    many operations were denied. There are rounds alone, and the last seat writes the mode, and then `on`."""
    now, control = the_run_of_a_script.begin(script, 1), Control("on", frozenset(), False, "on")
    present, wanted, writes = len(now.journal.present), [mode, "on"], []
    last = present + len(script.actors)
    while not is_over(script, now) or len(writes) < 2:
        for seat in range(last):
            op = the_run_of_a_script.operation(script, now, seat - present) if seat >= present else None
            if op and seat not in in_flight(now.journal) and is_denied(control, threads, op):
                now = answered(now, seat - present, DENIED)
            else:
                now = the_run_of_a_script.turn(script, now, seat)
        if len(writes) < 2:
            control, journal, answer = turn_of_write(control, now.journal, wanted[len(writes)], threads, last)
            now = Run(journal, now.answers)
            if answer:
                writes.append((answer, operations.online(journal)))
    return now.journal, writes, sum(answer == DENIED for answers in now.answers for answer in answers)


def text(script, threads, mode):
    journal, writes, denied = run(script, threads, mode)
    lines = [f"smt {word} {' '.join(map(str, answer))} online {listed(online)}" for word, (answer, online) in zip((mode, "on"), writes)]
    return the_journals_text.text(journal) + the_summary.text(journal) + "".join(line + "\n" for line in lines) + f"denied {denied}\n"
