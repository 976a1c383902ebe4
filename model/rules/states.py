"""States: the numbers 0 to 200."""
BUILT_IN = {
    0: "offline", 62: "cpu:bringup", 63: "idle:dead", 64: "ap:offline", 100: "ap:online",
    101: "cpu:teardown", 102: "online:idle", 199: "sched:active", 200: "online",
}
HIGHEST = 200
DYNAMIC = {41: range(41, 62), 141: range(141, 172)}  # a setup of the first of a range takes the lowest without a name


def section(state):
    return "PREPARE" if state <= 62 else "STARTING" if state <= 100 else "ONLINE"


def is_online(state):
    """A processor is online where its state is 101 or above."""
    return state >= 101


def is_ap(state):
    """An AP state is above 62 and isn't 101."""
    return state > 62 and state != 101


def is_atomic(state):
    return 63 <= state <= 99


def is_between(state):
    """A walk can't be aimed at the states 62 to 102."""
    return 62 <= state <= 102
