"""Changes of texts, as examples/compare makes them: of lines, words, numbers and bytes."""
NUMBERS = ["0", "1", "2", "3", "7", "8", "9", "31", "32", "40", "41", "62", "63", "64", "65", "95", "96", "99", "100", "101", "128", "129",
           "141", "198", "199", "200", "201", "255", "256", "257", "319", "320", "4095", "4096", "65535", "65536", "1000000", "1000001",
           "1048576", "1048577", "2147483647", "2147483648", "4294967295", "4294967296", "18446744073709551615", "18446744073709551616",
           "9" * 30, "-1", "-2", "-0", "-2147483648", "-2147483649", "00", "01", "007", "+1", "1e3", "*", "-", ""]
VOCABULARY = """cpus absent sub rule schedule rounds turns mix actor up down both none single multi upmany target fail show state states
    setup remove add del nocalls locked lock unlock boot disable enable thaw wakeup freeze # net:a admit client ap leave enter refused
    walk call walked done reg regged armed shown ok fault injected empty presumed overruled stuck full end events cpuhp journal cpu
    present keys disabled frozen made faults instances ops""".split() + ["x" * 32, "x" * 33, "net:a!"]


def alter_text(draw, text):
    """A text with some lines, words or bytes changed."""
    for _ in range(draw.choice([1, 1, 1, 2, 3])):
        text = draw.choice([alter_lines, alter_words, alter_words, alter_numbers, alter_bytes])(draw, text)
    return text


def alter_lines(draw, text):
    lines = text.split("\n")
    at, to = draw.randrange(len(lines)), draw.randrange(len(lines))
    kind = draw.randrange(6)
    if kind == 0:
        del lines[at]
    elif kind == 1:
        lines.insert(to, lines[at])
    elif kind == 2:
        lines[at], lines[to] = lines[to], lines[at]
    elif kind == 3:
        lines.insert(to, lines.pop(at))
    elif kind == 4:
        del lines[at:at + draw.randint(1, 5)]
    else:
        lines = lines[:at]
    return "\n".join(lines)


def alter_words(draw, text):
    lines = text.split("\n")
    at = draw.randrange(len(lines))
    words = lines[at].split(" ")
    place = draw.randrange(len(words))
    kind = draw.randrange(5)
    if kind == 0:
        del words[place]
    elif kind == 1:
        words.insert(place, draw.choice(VOCABULARY + NUMBERS))
    elif kind == 2:
        words[place] = draw.choice(VOCABULARY)
    elif kind == 3:
        words[place] = draw.choice(NUMBERS)
    else:
        words.insert(place, words[draw.randrange(len(words))])
    lines[at] = " ".join(words)
    return "\n".join(lines)


def alter_numbers(draw, text):
    """One number of a line becomes another, mostly a near one."""
    lines = text.split("\n")
    places = [(at, place) for at, line in enumerate(lines) for place, word in enumerate(line.split(" ")) if word.isdigit()]
    if not places:
        return text
    at, place = draw.choice(places)
    words = lines[at].split(" ")
    near = int(words[place]) + draw.choice([-1, 1, 1, 2])
    words[place] = draw.choice([str(near), str(near), str(draw.randrange(6)), draw.choice(NUMBERS)])
    lines[at] = " ".join(words)
    return "\n".join(lines)


def alter_bytes(draw, text):
    at = draw.randint(0, len(text))
    byte = draw.choice([chr(draw.randrange(256)), chr(draw.randrange(32, 127)), " ", "\n", "\r", "\t", "\0", "0", "-"])
    return draw.choice([text[:at] + byte + text[at + 1:], text[:at] + byte + text[at:], text[:at] + text[at + 1:], text[:at]])


def alter_event(draw, text):
    """One word of a line becomes another: of the kinds of lines, by their words, each is taken as often as any other."""
    lines, kinds = text.split("\n"), {}
    for at, line in enumerate(lines):
        kinds.setdefault(tuple(word for word in line.split(" ") if word.isalpha()), []).append(at)
    at = draw.choice(draw.choice(list(kinds.values())))
    lines[at] = draw.choice([alter_numbers, alter_numbers, alter_words])(draw, lines[at])
    return "\n".join(lines)


def smaller(text):
    """Texts that are a little smaller: without some lines, a subsystem, or a word; with a lower number."""
    lines = text.splitlines()
    size = len(lines) // 2
    subs = [place for place, line in enumerate(lines) if line.startswith("sub ")]
    yield from ("\n".join(without_sub(lines, place, number)) + "\n" for number, place in enumerate(subs, 1))
    while size:
        yield from ("\n".join(lines[:at] + lines[at + size:]) + "\n" for at in range(0, len(lines), size))
        size //= 2
    for place, line in enumerate(lines):
        words = line.split(" ")
        for at, word in enumerate(words):
            without = [words[:at] + words[at + 1:]]
            lower = [words[:at] + [str(low)] + words[at + 1:] for low in lower_than(word)]
            yield from ("\n".join(lines[:place] + [" ".join(some)] + lines[place + 1:]) + "\n" for some in without + lower)


def without_sub(lines, place, number):
    """The lines without that of a subsystem; the setups of those behind it name a number less."""
    for line in lines[:place] + lines[place + 1:]:
        words = line.split(" ")
        if words[0] == "setup" and words[2:3] and words[2].isdigit() and int(words[2]) > number:
            words[2] = str(int(words[2]) - 1)
        yield " ".join(words)


def lower_than(word):
    if not word.isascii() or not word.isdigit() or int(word) == 0:
        return []
    return sorted({0, 1, int(word) // 2, int(word) - 1} - {int(word)})
