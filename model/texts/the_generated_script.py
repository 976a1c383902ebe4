"""The generated script."""
from rules.the_run_of_a_script import draws

STATES = (10, 30, 41, 42, 70, 80, 110, 120, 141, 150, 160, 180)


def operations(draw, size):
    for _ in range(size):
        drawn = draw(8)
        if drawn < 4:
            yield f"{'up' if drawn < 2 else 'down'} {draw(8)}"
        elif drawn == 4:
            yield "lock"
            yield "unlock"
        elif drawn < 7:
            yield f"{'add' if drawn == 5 else 'del'} {(42, 120, 180)[draw(3)]} {1 + draw(4)}"
        else:
            yield f"show state {draw(8)}"


def lines(seed, size):
    drawn = draws(seed)
    next(drawn)
    yield "cpus 8"
    for i in range(1, 13):
        yield f"sub gen:{i} both {'multi' if i % 4 == 0 else 'single'}"
        if i % 3 == 0:
            yield f"rule up * * {20 + drawn.send(20)} 5"
    yield f"schedule mix {seed} 10000"
    for actor in range(1, 7):
        yield f"actor g{actor}"
        if actor == 1:
            for i, state in enumerate(STATES, 1):
                yield f"setup {state} {i}"
        yield from operations(drawn.send, size)


def text(seed, size):
    return "".join(line + "\n" for line in lines(seed, size))
