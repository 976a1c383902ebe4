"""The run of a script: the turns of its schedule, and then closing rounds, until every operation is answered."""
from typing import NamedTuple

from rules import what_comes_next
from rules.journals_and_seats import Event, Journal


class Run(NamedTuple):
    """How far a run is: its journal, and of each actor the answers of its operations so far."""
    journal: Journal
    answers: tuple


def begin(script, more=0):
    """The seats of the present processors are admitted in rising number, then one client for each actor; and so many more."""
    journal = Journal(script.head)
    for seat, role in enumerate(journal.present + [None] * (len(script.actors) + more)):
        journal = journal.then(Event("admit", seat, role=role))
    return Run(journal, ((),) * len(script.actors))


def answer_of(event):
    """The answer that an event gives to its operation, or None where it answers none."""
    if event.kind in ("done", "regged"):
        return event.answer
    if event.kind == "refused":
        return "refused", event.errno
    if event.kind == "shown":
        return "ok", event.value
    return ("ok", 0) if event.kind in ("lock", "unlock", "armed", "wakeup") else None


def operation(script, run, actor):
    """An actor's first operation that isn't answered, or None."""
    operations, answers = script.actors[actor], run.answers[actor]
    return operations[len(answers)] if len(answers) < len(operations) else None


def turn(script, run, seat):
    """The run after one turn of a seat: the same where the turn does nothing."""
    threads = len(run.journal.present)
    if seat < threads:
        due = what_comes_next.due_entry(run.journal, seat)
        return run._replace(journal=run.journal.then(due)) if due else run
    if not threads <= seat < threads + len(script.actors):
        return run
    op = operation(script, run, seat - threads)
    if op is None:
        return run
    found, *more = what_comes_next.turn(run.journal, seat, op)
    if found == "event":
        return answered(run._replace(journal=run.journal.then(more[0])), seat - threads, answer_of(more[0]))
    return answered(run, seat - threads, ("full",)) if found == "full" else run


def answered(run, actor, answer):
    answers = run.answers
    return run._replace(answers=answers[:actor] + (answers[actor] + (answer,),) + answers[actor + 1:]) if answer else run


def is_over(script, run):
    return all(len(answers) == len(operations) for answers, operations in zip(run.answers, script.actors))


def draws(seed):
    """The draws from a seed: each is asked below which number it is."""
    state, below = seed, (yield)
    while True:
        state = (state * 6364136223846793005 + 1442695040888963407) % 2 ** 64
        below = yield state // 2 ** 33 % below


def turns(script, seats):
    """The seats of the schedule's turns, before the closing rounds."""
    word, *numbers = script.schedule
    if word == "turns":
        return numbers
    if word == "mix":
        seed, count = numbers
        drawn = draws(seed)
        next(drawn)
        return [drawn.send(seats) for _ in range(count)]
    return []


def a_round(script, run):
    """One turn of every seat, in rising number."""
    for seat in range(len(run.journal.present) + len(script.actors)):
        run = turn(script, run, seat)
    return run


def run(script):
    """The whole run."""
    now = begin(script)
    for seat in turns(script, now.journal.length):
        now = turn(script, now, seat)
    while not is_over(script, now):
        now, before = a_round(script, now), now
        assert now != before, "some seat can move"
    return now
