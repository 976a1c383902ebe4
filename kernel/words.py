"""The guest's words for a scenario: what kernel/guest/init sources. They are made from the script and the journal of its run alone.

Operations are asked in the order in which hp first asks them. Where one is asked while another is in flight, that one is held in the
callback that it comes to next, so that the kernel is where the journal is.
"""
from scenario import ONLINE, STATES, slot_at, slots_of

CALLED = ("ok", "fault", "overruled")


class Guest:
    """The guest's words as they are made."""

    def __init__(self, scenario, operations, events):
        self.scenario, self.events = scenario, events
        self.operations = sorted(operations, key=lambda it: it.number)
        self.given = slots_of(operations)
        self.lines, self.held, self.answered = [], None, set()

    def say(self, line):
        self.lines.append(line)

    def state(self, operation):
        """How an operation's state is said: a number, or the slot that a setup was given."""
        name = {"setup": 1, "target": 2, "fail": 2}.get(operation.words[0], 1)
        setup = slot_at(self.given, operation)
        return f"$slot{setup.number}" if setup else str(STATES.kernel(int(operation.words[name])))

    def command(self, operation):
        """What the module is told."""
        words = operation.words
        form = "-".join(it for it in ("locked", "nocalls") if it in words) or "calls"
        if words[0] == "setup":
            (name, calls, kind), rules = self.scenario.sub(operation)
            return f"setup {operation.slot} {self.state(operation)} {calls} {kind} {form}"
        if words[0] == "remove":
            return f"remove {self.state(operation)} {form}"
        if words[0] in ("add", "del"):
            return f"{words[0]} {self.state(operation)} {words[2]} {form}"
        return operation.text()

    def ask(self, operation):
        """Asks an operation."""
        words, n = operation.words, operation.number
        online = self.scenario.settings.get("file") == "online"
        if words[0] == "suspend":
            return f"suspend {n}"
        if words[0] in ("up", "down"):
            up = words[0] == "up"
            file, text = ("online", int(up)) if online else ("hotplug/target", STATES.kernel(ONLINE) if up else 0)
            return f'go {n} $cpus/cpu{words[1]}/{file} "{text}"'
        if words[0] in ("target", "fail"):
            return f'go {n} $cpus/cpu{words[1]}/hotplug/{words[0]} "{self.state(operation)}"'
        if words[0] == "smt":
            return f'go {n} $cpus/smt/control "{words[1]}"'
        if words[0] == "show":
            return f"show {n} $cpus/" + ("hotplug/states" if words[1] == "states" else f"cpu{words[2]}/hotplug/{words[1]}")
        return f'go {n} /proc/hp_guest "{self.command(operation)}"'

    def next_call(self, operation, since):
        """The place of the callback that an operation calls next, from an event on."""
        seat, mine = self.scenario.cpus + operation.actor, False
        for at in range(operation.begun, operation.ended):
            event = self.events[at]
            if event[0] in ("walk", "reg"):
                mine = int(event[1]) == seat
            if at >= since and mine and event[0] == "call" and event[6] in CALLED:
                return at
        return None

    def slot_of_call(self, at):
        """The slot of the setup whose callback an event called."""
        state, slot = self.events[at][3], None
        for it in sorted((it for it in self.operations if it.words[0] == "setup" and it.begun is not None), key=lambda it: it.begun):
            resolved = self.events[it.begun][3] if self.events[it.begun][0] == "reg" else None
            slot = it.slot if resolved == state and it.begun < at else slot
        return slot

    def hold(self, at, since):
        """Has the guest hold the call of an event, which is found by counting such calls from an event on."""
        _, _, cpu, _, inst, dir, *_ = call = self.events[at]
        same = [it for it in self.events[since : at + 1] if it[0] == "call" and it[2:6] == call[2:6] and it[6] in CALLED]
        self.say(f"module hold {self.slot_of_call(at)} {dir} {cpu} {inst} {len(same)}")

    def play(self):
        """All words, but for those of the boot."""
        asked = [it for it in self.operations if it.words[0] != "boot"]
        self.say(f"scenario {self.scenario.name}")
        if self.scenario.alone:
            self.say("alone=yes")
        for it in sorted((it for it in asked if it.slot is not None), key=lambda it: it.slot):
            for dir, *numbers in self.scenario.sub(it)[1]:
                self.say("module rule %d %s %s" % (it.slot, dir, " ".join("-1" if it == "*" else it for it in numbers)))
        for it, following in zip(asked, asked[1:] + [None]):
            self.turn(it, following)
            if self.scenario.alone:
                self.say("files")
            if self.scenario.rows:
                # The next operation may end the machine.
                self.say("flush")
        self.say("over")
        return "\n".join(self.lines) + "\n"

    def turn(self, it, following):
        """One operation, up to where the following one is asked."""
        until = following.asked if following else len(self.events) + 1
        hold = None
        if it.begun is not None and it.begun < until <= it.ended:
            hold = self.next_call(it, until)
            if hold is None or self.held is not None:
                raise SystemExit(f"{self.scenario.name}: {it.text()} can't be held where {following.text()} is asked")
            self.hold(hold, it.asked)
        if it.words[0] == "suspend" and hold is not None:
            self.lines += [f"meanwhile {following.number} {self.command(following)}", self.ask(it)]
            waits = "done" if following.ended < hold else "waits"
            self.lines += [f"answered {it.number}", f"joined {following.number} {waits}"]
            self.answered |= {it.number, following.number}
        elif it.number not in self.answered:
            self.say(self.ask(it))
            if hold is not None:
                self.held = hold
                self.say("module held")
            elif it.begun is None or it.ended < (until if self.held is None else self.held):
                self.say(f"answered {it.number}")
                self.answered.add(it.number)
            else:
                self.say(f"waits {it.number}")
        if self.held is not None and until > self.held:
            self.say("module release")
            self.held = None
        if self.held is None:
            for done in self.operations:
                if done.number not in self.answered and done.ended is not None and done.begun is not None and done.ended < until:
                    if done.words[0] != "boot":
                        self.say(f"answered {done.number}")
                    self.answered.add(done.number)
        if self.lines[-1] == "module release":
            # Nothing is waited for: the call that was held goes on meanwhile.
            self.say("sleep 1")
