"""Scenarios: hp scripts that a guest with a real kernel plays too. Used by kernel/play and kernel/compare.

A scenario is a script of kernel/scenarios. Its first operation is `boot N`, which is the guest's own boot. What else the guest is
told is made from the script and from the journal that hp writes of it (kernel/words.py), and so is the text that the kernel's calls
are compared with (kernel/calls.py).

Lines `# KEY: VALUE` in a scenario are its settings: `differs` names the rows of docs/KERNEL.md that it differs by, `file: online`
has up and down written to that file, `played by: smt 2 off` has hp play it so, and `kernel: own` asks for a kernel that takes any
state for a target, as a target other than 0 and 200 does by itself.
"""
import itertools, os, re, subprocess

HERE = os.path.dirname(os.path.abspath(__file__))
ONLINE = 200
# A setup of one of these takes a slot of its range.
DYNAMIC = ("41", "141")
# These four operations in a row are a suspend.
SUSPEND = ["disable", "freeze", "thaw", "enable"]
# The events that end an operation.
ENDS = ("done", "regged", "refused", "lock", "unlock", "armed", "shown", "wakeup")
# Where an operation names a state that may be a slot.
NAMES_STATE = {"target": 2, "fail": 2, "remove": 1, "add": 1, "del": 1}


def read(path):
    with open(path) as file:
        return file.read()


class States:
    """The table kernel/states, both ways."""

    def __init__(self):
        self.kernels, self.machines = {}, {}
        for line in read(f"{HERE}/states").splitlines():
            if not line.startswith("#"):
                machine, kernel, count = map(int, line.split())
                for i in range(count):
                    self.kernels[machine + i], self.machines[kernel + i] = kernel + i, machine + i

    def machine(self, state):
        """The machine's number of one of the kernel's."""
        if state not in self.machines:
            raise SystemExit(f"kernel/states has no place for the kernel's state {state}")
        return self.machines[state]

    def kernel(self, state):
        """The kernel's number of one of the machine's. One that has none stands beside the nearer one that has."""
        for off in (0, 1, -1):
            if state + off in self.kernels:
                return self.kernels[state + off] - off
        return state if state < 0 else 300 + state


STATES = States()


class Operation:
    """An operation of an actor, or the four of a suspend."""

    def __init__(self, actor, words):
        self.actor, self.words, self.lines = actor, words, [words]
        # Its number in the order of asking; the place of its setup among the script's.
        self.number = self.slot = None
        # How many events stand before it is first asked, and the places of its first event and of its last.
        self.asked = self.begun = self.ended = None
        # The events that answered its lines.
        self.answers = []

    def text(self):
        return " ".join(self.words)

    def take(self, at, event):
        """Takes an event of this operation; says whether it is over."""
        self.begun = at if self.begun is None else self.begun
        if event[0] in ENDS:
            self.ended = at
            self.answers.append(event)
        return len(self.answers) == len(self.lines)


class Scenario:
    """A script of kernel/scenarios, read."""

    def __init__(self, name, script):
        self.name, self.script = name, script
        self.settings, self.subs, self.actors, self.turns = {}, [], [], []
        for line in self.script.splitlines():
            setting, words = re.fullmatch(r"# ([a-z ]+): (.*)", line), line.split()
            if setting:
                self.settings[setting[1]] = setting[2]
            elif words and words[0] == "cpus":
                self.cpus = int(words[1])
            elif words and not line.startswith("#"):
                self.take(words)
        self.operations = [it for _, queue in self.actors for it in queue]
        for slot, it in enumerate(it for it in self.operations if it.words[0] == "setup"):
            it.slot = slot
        # Each row of docs/KERNEL.md that it differs by.
        self.rows = self.settings.get("differs", "").split()
        self.play_words = self.settings.get("played by", "play").split()
        self.alone = len(self.actors) == 1 and self.play_words == ["play"]

    def take(self, words):
        if words[0] == "sub":
            self.subs.append((words[1:], []))
        elif words[0] == "rule":
            self.subs[-1][1].append(words[1:])
        elif words[0] == "schedule":
            self.turns = [int(it) for it in words[2:]]
        elif words[0] == "actor":
            self.actors.append((words[1], []))
        else:
            queue = self.actors[-1][1]
            queue.append(Operation(len(self.actors) - 1, words))
            if [it.words[0] for it in queue[-4:]] == SUSPEND:
                queue[-4].lines += [it.words for it in queue[-3:]]
                queue[-4].words = ["suspend"]
                del queue[-3:]

    def needs_own(self):
        """Whether a stock kernel can't play it."""
        targets = [it.words[2] for it in self.operations if it.words[0] == "target"]
        return self.settings.get("kernel") == "own" or any(it not in ("0", str(ONLINE)) for it in targets)

    def sub(self, operation):
        """The words and the rules of the subsystem that a setup names."""
        return self.subs[int(operation.words[2]) - 1]

    def is_multi(self, slot):
        return next(self.sub(it)[0][2] == "multi" for it in self.operations if it.slot == slot)

    def actor(self, operation):
        return self.actors[operation.actor][0]


def events_of(journal):
    """The words of each event behind the admissions."""
    lines = journal.splitlines()
    events = lines[lines.index("events") + 1 : next(i for i, line in enumerate(lines) if line.startswith("end "))]
    return [line.split() for line in events if not line.startswith("admit ")]


def is_denied(operation, event):
    """Whether an operation was denied, by the next event of its seat: that begins another one. What is denied has no event."""
    begins = {"enter": 3, "reg": 4, "refused": 4}.get(event[0])
    return operation.begun is None and operation.words[0] == "up" and begins is not None and event[begins:] != operation.words


def place(scenario, operations, events):
    """Says of each operation when it is first asked, and where its events stand.

    A turn of a seat makes the next event exactly where that event is the seat's: what a turn doesn't make it can't make before
    somebody else made another.
    """
    queues = {scenario.cpus + actor: [it for it in operations if it.actor == actor] for actor in range(len(scenario.actors))}
    turns = itertools.chain(scenario.turns, itertools.cycle(range(scenario.cpus + len(queues) + 1)))
    for at, event in enumerate(events):
        for seat in turns:
            queue = queues.get(seat, [])
            if queue and queue[0].asked is None:
                queue[0].asked = at
            if seat == int(event[1]):
                break
        while queue and is_denied(queue[0], event):
            queue.pop(0)
        if queue and event[0] in (*ENDS, "enter", "reg") and queue[0].take(at, event):
            queue.pop(0)
    for it in operations:
        it.asked = len(events) if it.asked is None else it.asked
    renumber(operations)


def renumber(operations):
    for number, it in enumerate(sorted(operations, key=lambda it: (it.asked, it.actor)), 1):
        it.number = number


def place_control(scenario, journal, events):
    """The two writes of SMT control that hp makes beside the actors, as operations; what they deny is asked before the second."""
    seat = scenario.cpus + len(scenario.actors)
    scenario.actors.append(("control", []))
    walks = [at for at, event in enumerate(events) if event[0] == "walk" and int(event[1]) == seat]
    ends = [at for at, event in enumerate(events) if event[0] == "done" and int(event[1]) == seat]
    answers = [line.split() for line in journal.splitlines() if line.startswith("smt ")]
    downs = [at for at in walks if events[at][4] == "0"]
    ups = [at for at in walks if events[at][4] == str(ONLINE)]
    for answer, mine in zip(answers, (downs, ups)):
        it = Operation(len(scenario.actors) - 1, answer[:2])
        it.begun = it.asked = min(mine, default=len(events))
        it.ended = min((at for at in ends if mine and at > mine[-1]), default=it.begun)
        it.answers = [["done", str(seat), "0", *answer[2:4]] if answer[2] != "refused" else ["refused", str(seat), "0", answer[3]]]
        scenario.operations.append(it)
    for it in scenario.operations:
        if it.begun is None:
            # It was denied before the second write began.
            it.asked = min(it.asked, scenario.operations[-1].asked - 0.5)
    renumber(scenario.operations)


def slots_of(operations):
    """Of each slot that a dynamic setup was given, the setup that was given it."""
    given = {}
    for it in operations:
        if it.words[0] == "setup" and it.words[1] in DYNAMIC and it.answers and it.answers[0][3] == "ok":
            given.setdefault(it.answers[0][4], []).append(it)
    return given


def slot_at(given, operation):
    """The setup that gave the slot that an operation names, or none where it names a state."""
    name = NAMES_STATE.get(operation.words[0])
    before = [it for it in given.get(operation.words[name], []) if it.number < operation.number] if name else []
    return before[-1] if before else None


class Player:
    """A program hp."""

    def __init__(self, program):
        self.program = program

    def journal(self, script, words=("play",)):
        run = subprocess.run([self.program, *words], input=script.encode(), stdout=subprocess.PIPE, stderr=subprocess.PIPE)
        if run.returncode:
            raise SystemExit(f"hp {' '.join(words)}: status {run.returncode}: {run.stdout.decode()}{run.stderr.decode()}{script}")
        return run.stdout.decode()


def played(player, scenario):
    """The scenario's operations, with their events in the run of the script itself, and the events of that run."""
    journal = player.journal(scenario.script, scenario.play_words)
    events = events_of(journal)
    place(scenario, scenario.operations, events)
    if scenario.play_words[0] == "smt":
        place_control(scenario, journal, events)
    return scenario.operations, events


def with_built_in(player, scenario, built_in, answers):
    """The same of a run with the kernel's own states in it, and with the files shown behind each operation. `answers` are what the
    kernel answered the operations: slots that it gave are named so."""
    given = slots_of(scenario.operations)
    shows = [f"show {file} {cpu}" for cpu in range(scenario.cpus) for file in ("state", "target", "fail")]
    subs = [f"sub {name} {calls} {kind}" for _, calls, kind, _, name in built_in]
    before = []
    for sub, (state, _, kind, count, _) in enumerate(built_in, len(scenario.subs) + 1):
        state = STATES.machine(state)
        before += [f"setup {state} {sub} nocalls"] + [f"add {state} {1000 + i} nocalls" for i in range(count)]
    lines, behind = [], []
    for it in scenario.operations:
        setup = slot_at(given, it)
        for words in it.lines:
            words = list(words)
            if setup and len(answers) >= setup.number - 1:
                words[NAMES_STATE[words[0]]] = str(STATES.machine(int(answers[setup.number - 2])))
            behind.append(" ".join(words))
        behind += shows if it.words[0] != "boot" else []
    head = scenario.script[: scenario.script.index("actor ")]
    script = "\n".join([head, *subs, f"actor {scenario.actors[0][0]}", *before, *behind]) + "\n"
    full = Scenario(scenario.name, script)
    events = events_of(player.journal(script))
    place(full, full.operations, events)
    rest = iter(full.operations[len(before) :])
    for it in scenario.operations:
        same = next(rest)
        it.asked, it.begun, it.ended, it.answers = same.asked, same.begun, same.ended, same.answers
        it.shows = [next(rest) for _ in shows] if it.words[0] != "boot" else []
    return events
