"""The summary: what is so after a journal."""
from rules import callbacks, operations, registrations, the_headline
from rules.crossings_and_walks import settled
from rules.journals_and_seats import fold
from rules.the_run_of_a_script import answer_of
from texts.numbers_words_lines import listed

KINDS = ("ok", "refused", "fault", "stuck", "full")


@fold(lambda head: (0,) * 5)
def answers(counts, journal, event):
    """How many events answer an operation, by the kind of answer."""
    answer = answer_of(event)
    return tuple(n + (answer is not None and kind == answer[0]) for n, kind in zip(counts, KINDS))


def lines(journal):
    head = journal.head
    for cpu in range(head.possible):
        keys = listed(f"{state}.{inst}" for state, inst in the_headline.in_force(journal, cpu))
        yield f"cpu {cpu} {'absent' if cpu in head.absent else 'present'} state {settled(journal)[cpu]} keys {keys}"
    yield f"disabled {operations.disabled(journal)}"
    yield f"frozen {listed(sorted(operations.frozen(journal)))}"
    for state, (sub, instances) in sorted(registrations.registered(journal).items()):
        hook = callbacks.hooks(journal)[state]
        yield f"sub {state} {head.subs[sub - 1].name} made {hook.made} faults {hook.faults} instances {listed(instances)}"
    yield "ops " + " ".join(f"{kind} {count}" for kind, count in zip(KINDS, answers(journal)))
    yield f"events {journal.length}"


def text(journal):
    return "".join(line + "\n" for line in lines(journal))
