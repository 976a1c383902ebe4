"""The journal's text: its lines in both versions, and its refusals."""
import re

from rules import lawful_journals
from rules.journals_and_seats import Event, Head, Journal, fold
from texts import the_summary
from texts.numbers_words_lines import I32, U32, BadForm, BadNumber, Refused, form, listed, numbers, rising
from texts.the_script import CALLS, operation, operation_words, rule, subsystem

LONGEST = 134_217_728
END = re.compile(r"end (0|[1-9][0-9]*)\n\Z")
BEGINNINGS = ("enter", "refused", "reg", "lock", "unlock", "armed", "shown", "wakeup")
NUMBERED = BEGINNINGS + ("done", "regged")


@fold(lambda head: {})
def counted(counts, journal, event):
    """How many operations of each seat have an event."""
    return {**counts, event.seat: counts.get(event.seat, 0) + 1} if event.kind in BEGINNINGS else counts


def opno(journal, event):
    """The number of the operation that an event is of: the line in which it ends has that in which it began."""
    return counted(journal).get(event.seat, 0) + (event.kind in BEGINNINGS)


def event_words(event):
    """The words of an event's line behind its seat, and behind OPNO where the line has it."""
    kind = event.kind
    if kind == "admit":
        return ["client"] if event.role is None else ["ap", event.role]
    if kind in ("enter", "refused", "reg"):
        return [value for value in (event.errno, event.state) if value is not None] + operation_words(event.op)
    if kind == "walk":
        return [event.cpu, event.start, event.end]
    if kind == "call":
        return [event.cpu, event.state, event.inst, event.direction, *event.how]
    if kind == "walked":
        return [event.cpu, *event.answer]
    if kind in ("done", "regged"):
        return event.answer
    if kind == "armed":
        return [event.cpu, event.value]
    if kind == "shown":
        return [event.file] + ([] if event.file == "states" else [event.cpu]) + [event.value]
    return []  # leave, lock, unlock, wakeup


def event_line(journal, event, version=2):
    """The line of an event that stands behind a journal."""
    number = [opno(journal, event)] if version == 2 and event.kind in NUMBERED else []
    return " ".join(map(str, [event.kind, event.seat, *number, *event_words(event)]))


def head_lines(head, version=2):
    yield f"cpuhp journal {version}"
    yield f"cpus {head.possible}"
    yield f"absent {listed(head.absent)}"
    spelled = {calls: word for word, calls in CALLS.items()}
    for sub in head.subs:
        yield f"sub {sub.name or '-'} {spelled[sub.up, sub.down]} {'multi' if sub.multi else 'single'}"
        for rule in sub.rules:
            places = " ".join("*" if place is None else str(place) for place in rule[1:])
            yield f"rule {rule.direction} {places}"
    yield "events"


def text(journal, version=2):
    lines, front = [], journal
    while front.before:
        lines.append(event_line(front.before, front.event, version))
        front = front.before
    lines = [*head_lines(journal.head, version), *reversed(lines), f"end {journal.length}"]
    return "".join(line + "\n" for line in lines)


def answer(words, kinds):
    """An answer of these kinds, or how an entry was made."""
    ranges = {"ok": [I32], "refused": [U32], "fault": [U32], "stuck": [U32] * 3, "overruled": [U32]}
    form(words and words[0] in kinds)
    bare = words[0] == "ok" and "refused" not in kinds
    return (words[0], *numbers(words[1:], *([] if bare else ranges.get(words[0], []))))


ANSWERS = ("ok", "refused", "fault", "stuck", "full")
WANSWERS = ("ok", "fault", "stuck")
HOWS = ("ok", "fault", "injected", "empty", "presumed", "overruled")


def read_event(line, version):
    """The event that a line says, and its OPNO or None. Numbers range over their types alone, of 32 bits."""
    kind, *words = line.split(" ")
    form(kind in lawful_journals.ROWS and words)
    seat, = numbers(words[:1], U32)
    number, = numbers(words[1:2], U32) if version == 2 and kind in NUMBERED else [None]
    return Event(kind, seat, **fields(kind, words[1:] if number is None else words[2:])), number


def named(words, **ranges):
    """The numbers that words are, by the names of their fields."""
    return dict(zip(ranges, numbers(words, *ranges.values())))


def fields(kind, words):
    """What the words say that stand behind the seat, and behind OPNO."""
    if kind == "admit":
        form(words == ["client"] or words[:1] == ["ap"])
        return {} if words == ["client"] else named(words[1:], role=U32)
    if kind in ("enter", "refused", "reg"):
        name = {"refused": "errno", "reg": "state"}.get(kind)
        form(len(words) > (name is not None))
        number, words = (named(words[:1], **{name: U32}), words[1:]) if name else ({}, words)
        return {**number, "op": operation(words, in_script=False)}
    if kind == "walk":
        return named(words, cpu=U32, start=U32, end=U32)
    if kind == "call":
        form(len(words) > 4 and words[3] in ("up", "down"))
        return {**named(words[:3], cpu=U32, state=U32, inst=U32), "direction": words[3], "how": answer(words[4:], HOWS)}
    if kind == "walked":
        return {**named(words[:1], cpu=U32), "answer": answer(words[1:], WANSWERS)}
    if kind in ("done", "regged"):
        return {"answer": answer(words, ANSWERS)}
    if kind == "armed":
        return named(words, cpu=U32, value=I32)
    if kind == "shown":
        form(words and words[0] in ("state", "target", "fail", "states"))
        places = {"value": I32} if words[0] == "states" else {"cpu": U32, "value": I32}
        return {"file": words[0], "cpu": 0, **named(words[1:], **places)}
    form(not words)
    return {}


def read_head(lines, version):
    """The head that lines say, and how many they are; or Refused."""
    possible, absent, subs = 0, (), []
    for place, line in enumerate(lines, 1):
        word, *rest = line[:-1].split(" ")
        try:
            form(line.endswith("\n"))
            if place == 1:
                form(line == f"cpuhp journal {version}\n")
            elif place == 2:
                form(word == "cpus")
                possible, = numbers(rest, (1, 256 if version == 2 else 64))
            elif place == 3:
                form(word == "absent")
                absent = () if rest == ["-"] else rising(rest, 1, possible - 1)
            elif line == "events\n":
                return Head(possible, absent, tuple(subs)), place
            elif word == "sub":
                subs.append(subsystem(rest))
                form(len(subs) <= 128)
            else:
                form(word == "rule" and subs and len(subs[-1].rules) < 8)
                subs[-1] = subs[-1]._replace(rules=subs[-1].rules + (rule(rest),))
        except (BadForm, BadNumber):
            raise Refused(place, "header") from None
    raise Refused(len(lines) + 1, "missing")


def next_event(journal, line, version):
    """The event of a line behind a journal; or Refused, with line 0."""
    try:
        form(line.endswith("\n"))
        event, number = read_event(line[:-1], version)
    except (BadForm, BadNumber):
        raise Refused(0, "syntax") from None
    too_high = version == 1 and event.kind == "admit" and event.seat >= 96
    if too_high or number not in (None, opno(journal, event)) or not lawful_journals.stands(journal, event):
        raise Refused(0, "unlawful")
    return event


def read(text, version=2, started=None):
    """The journal that a text is of, with or without its summary; or Refused. A caller may hand in the journal of the first
    lines, with their number, where it has read them."""
    if len(text) > LONGEST:
        raise Refused(0, "too long")
    lines = text.split("\n")
    lines = [line + "\n" for line in lines[:-1]] + [line for line in lines[-1:] if line]
    if started is None:
        head, place = read_head(lines, version)
        started = Journal(head), place
    journal, at = started
    for place in range(at, len(lines)):
        if END.match(lines[place]):
            if lines[place] != f"end {journal.length}\n":
                raise Refused(place + 1, "count")
            read_summary(journal, lines, place + 1)
            return journal
        try:
            journal = journal.then(next_event(journal, lines[place], version))
        except Refused as refused:
            raise Refused(place + 1, refused.kind) from None
    raise Refused(len(lines) + 1, "missing")


def read_summary(journal, lines, at):
    """The lines behind the end: none, or those of the summary."""
    expected = the_summary.text(journal).splitlines(keepends=True)
    for place, line in enumerate(lines[at:]):
        if place >= len(expected) or line != expected[place]:
            raise Refused(at + place + 1, "trailing")
    if 0 < len(lines) - at < len(expected):
        raise Refused(len(lines) + 1, "missing")
