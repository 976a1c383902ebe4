"""The script: its lines, and its refusals. The form of an operation is that of the journal's lines too."""
from collections import namedtuple

from rules.journals_and_seats import Head, Op, Rule, Sub
from texts.numbers_words_lines import I32, NAME, U32, BadForm, BadNumber, Refused, form, number, numbers, rising

LONGEST = 1_048_576
HOOKS = 128


# A script: its head, the operations of each actor, and its schedule, as a word and numbers.
Script = namedtuple("Script", "head actors schedule")


CPU, STATE = ("cpu", 0, 4095), ("state", 0, 65535)
OPERATIONS = {  # of each word the fields behind it, with the range of a script
    "up": [CPU], "down": [CPU], "target": [CPU, ("value", *I32)], "fail": [CPU, ("value", *I32)],
    "setup": [STATE, ("sub", 1, 128)], "remove": [STATE], "add": [STATE, ("inst", 0, 65535)], "del": [STATE, ("inst", 0, 65535)],
    "lock": [], "unlock": [], "boot": [("value", 0, 4095)], "disable": [], "enable": [], "thaw": [], "wakeup": [],
    "freeze": [("value", -1, 4095)], "upmany": None, "show": None,
}
FLAGS = {(): {}, ("nocalls",): {"nocalls": True}, ("locked",): {"locked": True}, ("nocalls", "locked"): {"nocalls": True, "locked": True}}
LINES = ("cpus", "absent", "sub", "rule", "schedule", "actor")
CALLS = {"both": (True, True), "up": (True, False), "down": (False, True), "none": (False, False)}


def operation(words, in_script=True):
    """The operation that words say; elsewhere than in a script, numbers range over their types alone."""
    word, *rest = words
    form(word in OPERATIONS)
    if word == "upmany":
        return Op(word, cpus=rising(rest, 0, 255))
    if word == "show" and rest == ["states"]:
        return Op(word, file="states")
    if word == "show":
        form(rest and rest[0] in ("state", "target", "fail"))
        return Op(word, file=rest[0], cpu=numbers(rest[1:], CPU[1:] if in_script else U32)[0])
    fields, flags = OPERATIONS[word], {}
    if word in ("setup", "remove", "add", "del"):
        form(tuple(rest[len(fields):]) in FLAGS)
        rest, flags = rest[:len(fields)], FLAGS[tuple(rest[len(fields):])]
    ranges = [(low, high) if in_script else I32 if low < 0 else U32 for _, low, high in fields]
    return Op(word, **dict(zip([name for name, *_ in fields], numbers(rest, *ranges))), **flags)


def operation_words(op):
    """The words of an operation's line."""
    if op.word == "upmany":
        return [op.word, *op.cpus]
    if op.word == "show":
        return [op.word, op.file] + ([] if op.file == "states" else [op.cpu])
    flags = ["nocalls"] * op.nocalls + ["locked"] * op.locked
    return [op.word] + [getattr(op, name) for name, *_ in OPERATIONS[op.word]] + flags


def subsystem(words):
    form(len(words) == 3 and NAME.match(words[0]) and words[1] in CALLS and words[2] in ("single", "multi"))
    return Sub("" if words[0] == "-" else words[0], *CALLS[words[1]], words[2] == "multi", ())


def rule(words):
    form(len(words) == 5 and words[0] in ("up", "down"))
    limits = [(0, 255), (0, 65535), (1, 1048576), (1, 4095)]
    found = [(None, True) if word == "*" and high != 4095 else number(word, low, high) for word, (low, high) in zip(words[1:], limits)]
    if not all(inside for _, inside in found):
        raise BadNumber
    return Rule(words[0], *[value for value, _ in found])


def schedule(words):
    form(words)
    if words[0] == "turns":
        form(len(words) > 1)
        return ("turns", *numbers(words[1:], *[(0, 319)] * (len(words) - 1)))
    if words[0] == "mix":
        return ("mix", *numbers(words[1:], (0, 2 ** 64 - 1), (0, 1_000_000)))
    form(words == ["rounds"])
    return ("rounds",)


def is_locked(operations):
    """Whether the last `lock` or `unlock` of an actor is a `lock`."""
    return [op.word for op in operations if op.word in ("lock", "unlock")][-1:] == ["lock"]


class Reader:
    """The lines of a script that were read so far, those passed over left out."""

    def __init__(self, hooks):
        self.hooks, self.possible, self.absent, self.subs, self.schedule, self.actors, self.last = hooks, None, (), [], None, [], None

    def out_of_order(self, word):
        """Whether a line of that first word can't stand behind the last one."""
        if word == "cpus":
            return self.last is not None
        if word == "absent":
            return self.last != "cpus"
        if word == "sub":
            return self.schedule is not None or self.actors
        if word == "rule":
            return self.last not in ("sub", "rule")
        if word == "schedule":
            return self.schedule is not None or self.actors
        return word != "actor" and not self.actors

    def refusal(self, words):
        """Takes a line, or gives the kind by which it is refused: the first that holds."""
        word, *rest = words
        if self.last is None and word != "cpus":
            return "no cpus"
        if word not in LINES and word not in OPERATIONS:
            return "bad word"
        if self.out_of_order(word):
            return "bad order"
        if word == "actor" and self.actors and is_locked(self.actors[-1]):
            return "still locked"
        try:
            self.last, too_many = word, self.take(word, rest)
        except BadForm:
            return "bad form"
        except BadNumber:
            return "bad number"
        if word == "setup" and self.actors[-1][-1].sub > len(self.subs):
            return "no sub"
        return "too many" if too_many else None

    def take(self, word, rest):
        """Takes a line, and says whether it is one too many."""
        if word == "cpus":
            self.possible, = numbers(rest, (1, 256))
        elif word == "absent":
            self.absent = rising(rest, 1, self.possible - 1)
        elif word == "sub":
            self.subs.append(subsystem(rest))
            return len(self.subs) > 128
        elif word == "rule":
            self.subs[-1] = self.subs[-1]._replace(rules=self.subs[-1].rules + (rule(rest),))
            return len(self.subs[-1].rules) > 8
        elif word == "schedule":
            self.schedule = schedule(rest)
        elif word == "actor":
            form(len(rest) == 1 and NAME.match(rest[0]))
            self.actors.append([])
            return len(self.actors) > 32
        else:
            self.actors[-1].append(operation([word] + rest))
            setups = sum(op.word == "setup" for operations in self.actors for op in operations) if word == "setup" else 0
            return len(self.actors[-1]) > 4096 or setups > self.hooks

    def script(self):
        head = Head(self.possible, self.absent, tuple(self.subs))
        return Script(head, tuple(map(tuple, self.actors)), self.schedule or ("rounds",))


def read(text, hooks=HOOKS):
    """The script that a text is, or Refused."""
    if len(text) > LONGEST:
        raise Refused(0, "too long")
    reader = Reader(hooks)
    lines = text.split("\n")
    lines = lines[:-1] if lines[-1] == "" else lines
    for place, line in enumerate(lines, 1):
        if any(not " " <= byte <= "~" for byte in line):
            raise Refused(place, "bad byte")
        words = [word for word in line.split(" ") if word]
        kind = reader.refusal(words) if words and not words[0].startswith("#") else None
        if kind:
            raise Refused(place, kind)
    if reader.last is None:
        raise Refused(len(lines) + 1, "no cpus")
    if not reader.actors:
        raise Refused(len(lines) + 1, "no actor")
    if is_locked(reader.actors[-1]):
        raise Refused(len(lines) + 1, "still locked")
    return reader.script()
