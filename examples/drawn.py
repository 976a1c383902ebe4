"""What examples/compare draws of scripts and of words of the command line."""
from changes import NUMBERS
from texts.the_script import LONGEST

STATES = [1, 10, 30, 40, 41, 42, 55, 61, 65, 70, 90, 99, 103, 110, 120, 140, 141, 142, 150, 160, 171, 172, 180, 198]
ONLINE = [104, 105, 115, 130, 145, 155, 165, 170, 173, 175, 185, 190]
BORDERS = [1, 2, 40, 41, 60, 61, 65, 98, 99, 103, 104, 140, 141, 171, 172, 198]
EDGES = [0, 62, 63, 64, 100, 101, 102, 199, 200, 201, 65535]


class Machine:
    """What a drawn script is about: processors, subsystems, states and instances that its operations mostly name."""

    def __init__(self, draw, cpus, subs, style="mixed"):
        self.draw, self.cpus, self.subs = draw, cpus, subs
        self.weights, states, least = STYLES[style]
        edges = draw.sample(EDGES, draw.choice([0, 0, 0, 1, 1, 2]) if style == "mixed" else 0)
        self.states = draw.sample(states, draw.randint(least, 6)) + edges
        self.multis = [number for number, sub in enumerate(subs, 1) if sub.split(" ")[-1] == "multi"]
        self.few = draw.choice([2, 4, 9, 300])

    def cpu(self):
        beyond = self.draw.random() < 0.03
        return self.draw.choice([self.cpus, self.cpus + 1, 255, 256, 4095]) if beyond else self.draw.randrange(self.cpus)

    def state(self):
        return self.draw.choice(self.states) if self.draw.random() < 0.95 else self.draw.choice(STATES + EDGES)

    def inst(self):
        return self.draw.choice([0, 65535]) if self.draw.random() < 0.03 else self.draw.randint(1, self.few)

    def flags(self, reading):
        locked = reading if self.draw.random() < 0.95 else not reading
        return " nocalls" * (self.draw.random() < 0.15) + " locked" * locked

    def some(self):
        return sorted(self.draw.sample(range(self.cpus), self.draw.randint(1, min(self.cpus, 12))))

    def operation(self, reading):
        """One operation, and whether the actor reads after it."""
        draw = self.draw
        word = draw.choices(*zip(*self.weights.items()))[0]
        if word in ("up", "down"):
            return f"{word} {self.cpu()}"
        if word == "target":
            return f"target {self.cpu()} {draw.choice([self.state(), self.state(), self.state(), 0, 200, 199, draw.choice(NEAR)])}"
        if word == "fail":
            return f"fail {self.cpu()} {draw.choice([self.state()] * 12 + [-1, -1, 201, -2147483648])}"
        if word == "show":
            return draw.choice([f"show {draw.choice(['state', 'target', 'fail'])} {self.cpu()}"] * 3 + ["show states"])
        if word == "setup":
            return f"setup {self.state()} {draw.randint(1, len(self.subs))}{self.flags(reading)}" if self.subs else "show states"
        if word == "remove":
            return f"remove {self.state()}{self.flags(reading)}"
        if word in ("add", "del"):
            return f"{word} {self.state()} {self.inst()}{self.flags(reading)}"
        if word == "boot":
            return f"boot {draw.choice([draw.randint(0, self.cpus), self.cpus, 4095])}"
        if word == "freeze":
            return f"freeze {draw.choice([-1, 0, self.cpu()])}"
        if word == "upmany":
            return "upmany " + " ".join(map(str, self.some() + [255] * (draw.random() < 0.03 and self.cpus < 255)))
        return word

    def actor(self, size, setups):
        """The operations of an actor, which mostly ends unlocked."""
        lines, reading = list(setups), False
        for _ in range(size):
            word = self.operation(reading)
            if word == "lock" and self.draw.random() < 0.9:
                word = "unlock" if reading else "lock"
            reading = word == "lock" or reading and word != "unlock"
            lines.append(word)
        return lines + ["unlock"] * (reading and self.draw.random() < 0.99)

    def first_setups(self):
        """Setups of the first actor, some with instances, before or behind a boot."""
        early = self.draw.random()
        if early < 0.4:
            yield f"boot {self.cpus}"
        for state in self.states[:self.draw.choice([0, 1, 2, 3, 4, 6, 6])] if self.subs else []:
            number = self.draw.randint(1, len(self.subs))
            yield f"setup {state} {number}{self.draw.choice(['', '', ' nocalls'])}"
            if number in self.multis:
                yield from (f"add {state} {self.inst()}" for _ in range(self.draw.randint(0, 3)))
        if early > 0.7:
            yield f"boot {self.cpus}"


NEAR = [-1, 61, 62, 63, 100, 101, 102, 103, 198, 199, 201]  # values of a target at which a rule ends
WEIGHTS = {"up": 12, "down": 12, "target": 8, "fail": 7, "show": 5, "setup": 6, "remove": 4, "add": 6, "del": 3, "lock": 4, "boot": 3,
           "disable": 1, "enable": 1, "freeze": 3, "thaw": 3, "wakeup": 1, "upmany": 4, "unlock": 0.3}
WATCHES = {"show": 20, "fail": 3, "lock": 1, "wakeup": 1}
ARMS = {"show": 20, "fail": 20, "wakeup": 1}
WALKS = {"up": 20, "down": 25, "target": 12, "fail": 12, "boot": 3, "freeze": 5, "thaw": 5, "upmany": 8, "add": 5, "setup": 2, "show": 4}
STANDS = {"target": 25, "fail": 15, "show": 6, "up": 4, "down": 4, "upmany": 2, "add": 2, "lock": 1}
TWICE = {"up": 20, "down": 14, "target": 6, "boot": 8, "upmany": 12, "freeze": 3, "thaw": 3, "show": 3, "add": 2, "del": 1}
SUSPENDS = {"freeze": 8, "enable": 8, "disable": 3, "thaw": 6, "boot": 5, "up": 8, "down": 6, "target": 4, "upmany": 4, "wakeup": 2, "show": 2, "lock": 1}
STYLES = {  # what scripts of a style mostly do, at which states, and the fewest of these
    "mixed": (WEIGHTS, STATES, 1), "walks": (WALKS, STATES + ONLINE, 3), "stands": (STANDS, BORDERS, 3), "suspends": (SUSPENDS, STATES, 1),
    "twice": (TWICE, ONLINE, 3),
}


def draw_rule(draw, cpus):
    cpu = draw.choice(["*", "*", "*", "0", "255"] + [str(draw.randrange(cpus)) for _ in range(7)])
    inst = draw.choice(["*"] * 6 + ["0", "1", "2", "65535"])
    nth = draw.choice(["*"] * 4 + ["1", "1", "2", "2", "3", "4", str(draw.randint(1, 12)), "1048576"])
    return f"rule {draw.choice(['up', 'down'])} {cpu} {inst} {nth} {draw.choice([1, 5, 11, draw.randint(1, 4095)])}"


def draw_subs(draw, count):
    for number in range(1, count + 1):
        name = draw.choice([f"net:{number}"] * 8 + ["a", "-", "x" * 32, "A/b_c.d-9", "--"])
        yield f"sub {name} {draw.choice(['both'] * 5 + ['up', 'down', 'none'])} {draw.choice(['single', 'single', 'multi'])}"


def draw_schedule(draw, seats):
    kind = draw.randrange(5)
    if kind == 0:
        return ["schedule rounds"]
    if kind == 1:
        return ["schedule turns " + " ".join(str(draw.choice([draw.randrange(seats)] * 20 + [319, seats % 320])) for _ in range(draw.randint(1, 150)))]
    return [f"schedule mix {draw.choice([draw.randrange(100), 2 ** 64 - 1, draw.getrandbits(64)])} {draw.choice([0, 50, 200, 500, 1000])}"] if kind < 4 else []


def draw_sizes(draw):
    """How many processors, subsystems, actors, and operations of each."""
    kind = draw.random()
    if kind < 0.9:
        return draw.randint(1, 6), draw.randint(0, 6), draw.choice([1, 1, 2, 2, 3, 4]), draw.choice([3, 6, 10, 15])
    if kind < 0.95:
        return draw.randint(7, 40), draw.randint(1, 12), draw.randint(1, 6), draw.choice([5, 20])
    if kind < 0.97:
        return draw.choice([63, 64, 65, 100, 255, 256]), draw.randint(0, 4), draw.randint(1, 3), 3
    if kind < 0.99:
        return draw.randint(1, 4), draw.choice([3, 127, 128, 129]), draw.choice([20, 31, 32, 33]), 3
    return draw.randint(1, 4), 4, 1, 300


def draw_script(draw):
    """A script of the whole language, which is refused now and then."""
    if draw.random() < 0.006:
        return draw.choices([full_of_instances, full_of_slots, full_of_setups, full_of_operations, full_of_bytes], [4, 2, 2, 1, 2])[0](draw)
    cpus, subs, actors, size = draw_sizes(draw)
    style = draw.choices(list(STYLES), [36, 32, 8, 10, 14])[0]
    if style == "twice":
        return draw_twice(draw)
    walks = style == "walks"
    if style != "mixed":  # mostly walks that fault, or get stuck; or what stands at the borders of states; or freezes
        cpus, subs, actors, size = draw.randint(2, 4), draw.randint(2, 6), draw.choice([1, 1, 2, 3]), draw.choice([6, 10, 15])
    lines = [f"cpus {cpus}"]
    absent = sorted(draw.sample(range(1, cpus), draw.choice([0, 0, 0, min(1, cpus - 1), (cpus - 1) // 2])))
    lines += ["absent " + " ".join(map(str, absent))] * bool(absent)
    named = list(draw_subs(draw, subs))
    rules = [1, 1, 2, 3] if walks else draw.choice([[0], [0, 0, 0, 1], [0, 1, 1, 2, 3], [0, 1, 2, 3, 8], [2, 3]] * 9 + [[0, 8, 9]])
    for sub in named:
        lines.append(sub)
        lines += [draw_rule(draw, cpus) for _ in range(draw.choice(rules))]
    watches = walks and draw.random() < 0.4
    lines += draw_schedule(draw, cpus - len(absent) + actors + watches)
    machine = Machine(draw, cpus, named, style)
    for actor in range(actors):
        lines.append(f"actor {draw.choice('abc')}{actor}")
        lines += machine.actor(draw.randint(0, size), machine.first_setups() if actor == 0 else [])
    if watches:
        machine.weights = WATCHES
        lines += ["actor watch", *machine.actor(draw.choice([10, 30]), [])]
    if draw.random() < 0.1:
        lines = dressed(draw, lines)
    return "\n".join(lines) + "\n" * (draw.random() < 0.98)


def draw_twice(draw):
    """A script whose walks fault at one state and, where that is undone, at another; whose boots, batches and thaws have walks
    behind one that got stuck; and in which another actor watches, or arms faults within walks."""
    cpus, states = draw.randint(2, 5), sorted(draw.sample(STATES + ONLINE * 2, draw.randint(2, 5)))
    subs, setups, rules = [], [], []
    for number, state in enumerate(states, 1):
        multi, quiet = draw.random() < 0.6, " nocalls" * (draw.random() < 0.6)
        subs.append(f"sub net:{number} both {'multi' if multi else 'single'}")
        setups += [f"setup {state} {number}{quiet}", *(f"add {state} {inst}{quiet}" for inst in range(1, draw.randint(2, 4) * multi))]
        ways = draw.choice([["down"], ["down"], ["up", "down"], []]) if number < len(states) else draw.choice([["up"], ["up", "down"]])
        rules.append([twice_rule(draw, way, cpus, multi) for way in ways])
    machine, watches = Machine(draw, cpus, subs, "twice"), draw.random() < 0.7
    machine.states = states
    begin = draw.choice([[f"boot {cpus}"], ["upmany " + " ".join(map(str, range(1, cpus)))], []])
    lines = [f"cpus {cpus}", *(line for sub, some in zip(subs, rules) for line in [sub, *some]), *draw_schedule(draw, cpus + 1 + watches)]
    lines += ["actor a", *machine.actor(draw.choice([4, 8, 12]), setups + begin)]
    if watches:
        machine.weights = draw.choice([WATCHES, ARMS])
        lines += ["actor watch", *machine.actor(draw.choice([15, 30]), [])]
    return "\n".join(lines) + "\n"


def twice_rule(draw, direction, cpus, multi):
    cpu = draw.choice(["*", "*", "1", str(draw.randrange(cpus))])
    inst = draw.choice(["*", "1", "1", "2"]) if multi else "*"
    return f"rule {direction} {cpu} {inst} {draw.choice('**1123')} {draw.randint(1, 4095)}"


def dressed(draw, lines):
    """The same with comments, empty lines, and more spaces."""
    for line in lines:
        yield from draw.choice([[], [], [], [], ["# net"], [""], ["  "], ["#"], ["   #x y"]])
        yield draw.choice([line, line, line.replace(" ", "  "), f" {line} "])


def full_of_instances(draw):
    """A state with 256 instances, or with one more; or 4,096 in all and one more."""
    states = [103 + at for at in range(draw.choice([1, 1, 17]))]
    adds = [f"add {state} {inst}" for state in states for inst in range(1, (258 if len(states) == 1 else 242))]
    lines = ["cpus 2", "sub net:q both multi", "actor a", *(f"setup {state} 1" for state in states), *adds[:4000]]
    again = [f"add {state} {draw.choice([1, 256, 257, 300])}" for state in states[-1:] * 2]
    return "\n".join(lines + ["actor b", *["show states"] * 50, *adds[4000:], *again, "up 1", "down 1"]) + "\n"


def full_of_slots(draw):
    """More dynamic setups than a range has slots, with removes between."""
    first, slots = draw.choice([(41, 21), (141, 31)])
    lines = [f"setup {first} 1"] * (slots + 1) + [f"remove {first + draw.randrange(slots)}" for _ in range(3)] + [f"setup {first} 1"] * 3
    return "\n".join(["cpus 2", "sub net:a both single", "actor a", f"setup {first + draw.randrange(slots)} 1", *lines, "up 1"]) + "\n"


def full_of_setups(draw):
    lines = [f"setup {state} {draw.randint(1, 128)}" for state in draw.sample(range(1, 199), draw.choice([127, 128, 129]))]
    return "\n".join(["cpus 3", *(f"sub s{at} both single" for at in range(1, 129)), "actor a", *lines, "up 1", "down 1", "boot 3"]) + "\n"


def full_of_operations(draw):
    lines = ["up 1", "down 1"] * 2047 + ["show state 1"] * draw.choice([1, 2, 3])
    return "\n".join(["cpus 2", "sub net:a both single", "actor a", "setup 120 1", *lines]) + "\n"


def full_of_bytes(draw):
    """A script of the most bytes, or of one more or less, the last of which are a comment."""
    text = draw_small_script(draw)
    return text + "#" * (LONGEST - len(text) + draw.choice([-1, 0, 0, 1]))


def draw_small_script(draw):
    """A script with few interleavings."""
    cpus = draw.choice([1, 2, 2, 2, 3])
    subs = list(draw_subs(draw, draw.randint(1, 2)))
    lines = [f"cpus {cpus}"]
    for sub in subs:
        lines += [sub] + [draw_rule(draw, cpus)] * draw.choice([0, 0, 1])
    machine = Machine(draw, cpus, subs, draw.choice(list(STYLES)))
    for actor in range(draw.choice([1, 2, 2, 2, 3])):
        setups = list(machine.first_setups())[:2] if actor == 0 else []
        lines += [f"actor a{actor}", *machine.actor(draw.randint(1, 4), setups)]
    lines += ["unlock"] * (sum(line in ("lock", "unlock") for line in lines) > 0 and [line for line in lines if line in ("lock", "unlock")][-1] == "lock")
    return "\n".join(lines) + "\n"


def draw_words(draw):
    """Words of the command line, mostly near those of a command."""
    number = lambda high: draw.choice([str(draw.randint(0, high)), str(draw.randint(0, high)), *draw.sample(NUMBERS, 1)])
    options = [["--size", str(draw.randint(1, 4))], [f"--size={draw.randint(1, 4)}"], ["--seed", number(9)], [f"--seed={number(9)}"],
               ["--size", draw.choice(["0", "1001", "01", ""])], ["--seed"], ["--"], ["--help"], ["-s", "1"], ["--see=1"], [""]]
    words = draw.choice([["play"], ["states"], ["report"], ["replay"], ["migrate"], ["gen"], ["gen"], ["bench", "--size=2"], ["bench", "--size", "1"],
                         ["count", number(199), number(1000001)], ["smt", number(9), draw.choice(["off", "forceoff", "on", "", "Off"])],
                         ["count"], ["smt", "2"], ["--help"], ["help"], [""], [], ["play", "play"], ["\xff"], ["play\0x"[:4] + "\xc3"]])
    if draw.random() < 0.03:
        return ["gen", "--size", draw.choice(["999", "1000", "1001"]), "--seed", draw.choice(NUMBERS)]
    if words[:1] in (["gen"], ["bench"]):
        words = words + sum(draw.sample(options, draw.choice([0, 1, 1, 2])), [])
    if draw.random() < 0.2:
        words.insert(draw.randint(0, len(words)), draw.choice(["--", "", "1", "--seed", "off", "\xff\xfe", "é"]))
    return words
