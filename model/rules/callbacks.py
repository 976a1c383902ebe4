"""Callbacks: the hook of a state answers its calls by the rules of the subsystem, and by how many calls each has matched."""
from collections import namedtuple

from rules import registrations
from rules.journals_and_seats import fold


# The hook of a state: the calls since the setup that registered the state began, those that were answered by a code, and how
# many of them each rule has matched.
Hook = namedtuple("Hook", "sub made faults matched")


def matches(rule, site):
    """A rule matches a call by its direction, and by processor and instance where it names them."""
    return (rule.direction == site.direction and rule.cpu in (None, site.cpu) and rule.inst in (None, site.inst))


def count(hook, site):
    """How many calls each rule has matched, this one counted."""
    return tuple(n + matches(rule, site) for n, rule in zip(hook.matched, hook.sub.rules))


@fold(lambda head: {})
def hooks(hooks, journal, event):
    """The hook of each state that is registered, or is being set up. What counts are the calls since the setup began."""
    if event.kind == "reg" and event.op.word == "setup":
        sub = journal.head.subs[event.op.sub - 1]
        return {**hooks, event.state: Hook(sub, 0, 0, (0,) * len(sub.rules))}
    if event.kind == "call" and event.how[0] in ("ok", "fault", "overruled"):
        hook = hooks[event.state]
        faults = hook.faults + (event.how[0] != "ok")
        return {**hooks, event.state: Hook(hook.sub, hook.made + 1, faults, count(hook, event))}
    if event.kind == "regged":
        ended = registrations.underway(journal)
        gone = "remove" if event.answer[0] == "ok" else "setup"
        return {state: hook for state, hook in hooks.items() if not (state == ended.state and ended.op.word == gone)}
    return hooks


def answer(journal, site):
    """The code of the first matching rule whose `nth` is absent or is the number of calls that it has matched; else 0."""
    hook = hooks(journal)[site.state]
    for rule, nth in zip(hook.sub.rules, count(hook, site)):
        if matches(rule, site) and rule.nth in (None, nth):
            return rule.code
    return 0
