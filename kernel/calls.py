"""The calls text of a run: what a kernel's console says, and what hp's journal says, in one form.

    ask OPERATION                   as the script has it; behind the actor, where there are several
    CPU DIR STATE STATE ..          callbacks called, in order; STATE.INST at a state with instances, STATE=-5 one that answered -5
    waits OPERATION                 it isn't answered yet, while what it waits for is held
    answer CODE                     0, below 0 an error's number, or the slot that a dynamic setup was given
    files STATE/TARGET/FAIL ..      the files of each processor; of the boot one, until it has walked, without a target

    # by TASK: CALLBACK, ..          which tasks called the scenario's own callbacks; lines of # are not compared
    # log: ..                       what the kernel wrote to its log

Numbers of states are the kernel's. With several actors `answer` names the operation too, and answers stand behind the calls that
were made since the last `ask`.
"""
import re

from scenario import ONLINE, STATES

# What brings a processor up or takes it down as a whole, and no callback of a state.
WHOLE = ("cpuhp_kick_ap_work", "takedown_cpu", "bringup_cpu", "finish_cpu")
ENTER = re.compile(r"\[\d+\]\s+\S+\s+[\d.]+: cpuhp_(multi_)?enter:\s+cpu: (\d+)\s+target:\s*(-?\d+)\s+step:\s*(\d+) \((\S+?)( \[(\w+)\])?\)")
EXIT = re.compile(r"\[\d+\]\s+\S+\s+[\d.]+: cpuhp_exit:\s+cpu: (\d+)\s+state:\s*(-?\d+)\s+step:\s*(\d+) ret: (-?\d+)")
OURS = re.compile(r"^\s*(\S.*?)-\d+\s+\[\d+\]\s+\S+\s+[\d.]+: \w+: hp_guest: (.*)")
LOG = re.compile(r"(WARNING|kernel BUG)\D*?(?:CPU: \d+ PID: \d+ )?at (?:[a-z/]*/)?(\w+/\w+\.[ch]):(\d+)!?(?: (\w+))?|(DEAD callback error for CPU\d+|CPU \d+ (?:UP|DOWN) state .* failed \(-?\d+\)|Error: Removing state.*|No more dynamic.*|Unbalanced.*)")


class Calls:
    """The lines of a calls text as they come."""

    def __init__(self, scenario, operations):
        self.scenario = scenario
        self.named = {it.number: it for it in operations}
        self.lines, self.behind, self.run = [], [], None

    def label(self, number):
        it = self.named[number]
        return it.text() if self.scenario.alone else f"{self.scenario.actor(it)}: {it.text()}"

    def close(self):
        """Ends what stands behind the last `ask`: the answers come last, in the order of asking."""
        self.lines += [line for _, line in sorted(self.behind)]
        self.behind, self.run = [], None

    def note(self, text):
        """A comment."""
        self.lines.append(f"# {text}")
        self.run = None

    def ask(self, number):
        self.close()
        self.lines.append(f"ask {self.label(number)}")

    def call(self, cpu, dir, state, inst, code):
        word = f"{state}" + (f".{inst}" if inst is not None else "") + (f"={code}" if code else "")
        if self.run == (cpu, dir):
            self.lines[-1] += f" {word}"
        else:
            self.lines.append(f"{cpu} {dir} {word}")
        self.run = (cpu, dir)

    def waits(self, number):
        self.behind.append(((number, 0), f"waits {self.label(number)}"))

    def answer(self, number, code):
        if self.named[number].words == ["show", "states"] and str(code).isdigit():
            code = "lines"
        whose = "" if self.scenario.alone else f" {self.label(number)}"
        self.behind.append(((number, 1), f"answer{whose} {code}"))

    def files(self, values):
        self.close()
        self.lines.append("files " + " ".join(values))

    def text(self):
        self.close()
        return "\n".join(self.lines) + "\n"


def built_in_of(head, console):
    """What a run of the plain scenario shows of the kernel's own states: number, calls, kind, instances, name."""
    names = {}
    for line in head.splitlines():
        found = re.match(r"\s*(\d+): (.*)", line)
        if found:
            names[int(found[1])] = re.sub(r"[^A-Za-z0-9:_/.-]", "_", found[2])[:32]
    seen, multi, counts, walk = {}, set(), {}, 0
    for line in console.splitlines():
        ours, enter = OURS.search(line), ENTER.search(line)
        walk += bool(ours and ours[2].startswith("ask"))
        if enter and enter[5] not in WHOLE:
            state = int(enter[4])
            seen.setdefault(state, set()).add("down" if walk % 2 else "up")
            counts[state, walk] = counts.get((state, walk), 0) + 1
            if enter[1]:
                multi.add(state)
    words = {("down", "up"): "both", ("up",): "up", ("down",): "down", (): "none"}
    anchors = [STATES.kernel(it) for it in (0, 62, 63, 64, 100, 101, 102, ONLINE)]
    for state in sorted(set(names) - set(anchors)):
        count = max([n for (it, _), n in counts.items() if it == state], default=0)
        kind = "multi" if state in multi else "single"
        yield state, words[tuple(sorted(seen.get(state, ())))], kind, count if kind == "multi" else 0, names[state]


class Console:
    """Reads the console of a guest's run, line by line."""

    def __init__(self, scenario, operations, text):
        self.scenario, self.text, self.calls = scenario, text, Calls(scenario, operations)
        # Of each processor the callbacks that are being called: state, name, module.
        self.open = {}
        # Which task called what, of the scenario's own callbacks.
        self.by = {}
        # The operation that was asked last, and those that were answered; the first one is the boot.
        self.asked, self.answered = 1, {1}
        # The state of each slot. A dynamic one is known from its calls.
        self.states = {str(it.slot): STATES.kernel(int(it.words[1])) for it in operations if it.slot is not None}
        for enter in filter(None, map(ENTER.search, text.splitlines())):
            if enter[7]:
                self.states[re.search(r"\d+$", enter[5])[0]] = int(enter[4])

    def read(self):
        for line in self.text.splitlines():
            ours, enter, exited = OURS.search(line), ENTER.search(line), EXIT.search(line)
            if ours:
                self.mark(ours[1], ours[2].split())
            elif enter and self.scenario.alone:
                self.open.setdefault(enter[2], []).append((enter[4], enter[5], enter[7]))
            elif exited and self.scenario.alone:
                self.exit(*exited.groups())
        if "kernel BUG" in self.text:
            self.died()
        self.calls.close()
        for task, what in sorted(self.by.items()):
            self.calls.note(f"by {task}: {', '.join(what)}")
        if not re.search("^== (over|end)", self.text, re.M):
            self.calls.note("the machine ended here")
        for found in filter(None, map(LOG.search, self.text.splitlines())):
            where = f"{found[1]} at {found[2]}:{found[3]} {found[4] or ''}".rstrip()
            self.calls.note(f"log: {found[5] or where}")
        return self.calls.text()

    def died(self):
        """After a BUG the kernel traces nothing more: the operation that it came in has no answer, or wasn't even seen asked."""
        if self.asked in self.answered:
            self.asked += 1
            self.calls.ask(self.asked)
        self.calls.answer(self.asked, "none")

    def exit(self, cpu, after, state, code):
        """The end of a callback; one of the kernel's own is a line, and those of the scenario have said so themselves."""
        entered, name, module = self.open[cpu].pop() if self.open.get(cpu) else (None, None, None)
        if entered != state:
            self.calls.note(f"an exit of {state} on processor {cpu} that nothing entered")
        elif not module and name not in WHOLE:
            self.calls.call(str(int(cpu)), "up" if after == state else "down", state, None, int(code))

    def mark(self, task, words):
        """A line of the guest's init or of its module."""
        if words[0] == "ask":
            self.asked = int(words[1])
            self.calls.ask(self.asked)
        elif words[0] == "answer":
            self.answered.add(int(words[1]))
            self.calls.answer(int(words[1]), words[2] if words[2:] else "none")
        elif words[0] == "waits" or words[0] == "meanwhile" and words[2] == "waits":
            self.calls.waits(int(words[1]))
        elif words[0] == "files" and self.scenario.alone:
            state, target, fail = words[1].split("/")
            self.calls.files([f"{state}/-/{fail}" if (state, target) == (str(STATES.kernel(ONLINE)), "0") else words[1], *words[2:]])
        elif words[0] == "module":
            self.calls.note(" ".join(words))
        elif words[0].isdigit():
            slot, dir, cpu, inst, code = words
            state = self.states[slot]
            # A task that is gone by the time the trace is read has no name there.
            name = re.sub(r"[^a-z_]*(/.*)?$", "", task.strip("<>")) or "one that is gone"
            self.by.setdefault(name, {})[f"{dir} {state}"] = None
            self.calls.call(cpu, dir, state, inst if self.scenario.is_multi(int(slot)) else None, int(code))


def of_console(scenario, operations, console):
    """The calls text of a run of the guest."""
    return Console(scenario, operations, console).read()


def code_of(operation):
    """The answer of an operation, by hp's journal."""
    if not operation.answers:
        # Denied under SMT control.
        return -1
    event = operation.answers[1 if operation.words[0] == "suspend" else 0]
    if event[0] == "refused":
        return -int(event[3])
    if event[0] == "shown":
        return "lines" if event[3] == "states" else STATES.kernel(int(event[5]))
    if event[0] not in ("done", "regged"):
        return 0
    if event[3] == "ok":
        return STATES.kernel(int(event[4])) if event[0] == "regged" and event[4] != "0" else 0
    return f"-{event[4]}" + (f" stuck {event[5]} at {STATES.kernel(int(event[6]))}" if event[3] == "stuck" else "")


class Journal:
    """Writes what hp's journal says. What is asked and answered stands in the order of the guest's words."""

    def __init__(self, scenario, operations, events):
        self.scenario, self.events, self.calls = scenario, events, Calls(scenario, operations)
        self.named = {str(it.number): it for it in operations}
        self.at, self.last, self.boot_walked = 0, None, False
        # Of each state that was set up, whether it is one of the scenario's own that has instances.
        self.multi = {}

    def up_to(self, end):
        """The calls of the events before a place."""
        for event in self.events[self.at : end]:
            # A target that the boot processor has already is written down too, and so its file shows it from then on.
            self.boot_walked |= event[0] == "walk" and event[2] == "0" or event[0] == "enter" and event[3:5] == ["target", "0"]
            if event[0] == "reg" and event[4] == "setup":
                sub = int(event[6])
                self.multi[event[3]] = sub <= len(self.scenario.subs) and self.scenario.subs[sub - 1][0][2] == "multi"
            elif event[0] == "call" and event[6] in ("ok", "fault", "overruled"):
                _, _, cpu, state, inst, dir, _, *code = event
                inst = inst if self.multi[state] else None
                self.calls.call(cpu, dir, STATES.kernel(int(state)), inst, -int(code[0]) if code else 0)
        self.at = max(self.at, end)

    def read(self, words):
        self.up_to(min(int(it.asked) for it in self.named.values() if it.words[0] != "boot"))
        self.calls.lines, self.calls.run = [], None
        lines = [line.split() + ["", ""] for line in words.splitlines()]
        for place, (word, number, how, *_) in enumerate(lines):
            # What is asked of a kernel thread stands before the suspend in which it is made.
            asks = lines[place + 1][1] if word == "meanwhile" else number
            if word in ("go", "show", "suspend", "meanwhile"):
                self.up_to(int(self.named[asks].asked))
                self.last = self.named[number]
                self.calls.ask(int(number))
            elif word in ("answered", "joined"):
                self.calls.answer(int(number), code_of(self.named[number]))
            if word == "waits" or how == "waits":
                self.calls.waits(int(number))
            if word == "files":
                self.files()
        self.up_to(len(self.events))
        return self.calls.text()

    def files(self):
        """The files as hp shows them behind the last operation."""
        self.up_to(self.last.ended + 1)
        values = [str(STATES.kernel(int(it.answers[0][5]))) for it in self.last.shows]
        files = ["/".join(values[3 * cpu : 3 * cpu + 3]) for cpu in range(self.scenario.cpus)]
        self.calls.files(files if self.boot_walked else [f"{values[0]}/-/{values[2]}", *files[1:]])


def of_journal(scenario, operations, words, events):
    """The calls text of hp's journal."""
    return Journal(scenario, operations, events).read(words)
