"""The program: what `hp` writes, and its status, by its words and its input."""
import re

from rules import per_processor_counters, smt_control, the_run_of_a_script
from texts import the_generated_script, the_journals_text, the_report, the_script, the_states_file, the_summary
from texts.numbers_words_lines import BadForm, BadNumber, Refused, numbers

USAGE = "usage: hp play|replay|states|report|gen|bench|migrate|smt|count [--seed N] [--size N] [T MODE] [STATE BATCH]\n"
LIMITS = {"seed": (0, 2 ** 64 - 1), "size": (1, 1000)}


def options(words):
    """The seed and the size that words say, or 1 and 100; each at most once."""
    found, words = {}, list(words)
    while words:
        option = re.fullmatch(r"--(seed|size)(=(.*))?", words.pop(0), re.DOTALL)
        if not option or option[1] in found or option[2] is None and not words:
            raise BadForm
        found[option[1]], = numbers([words.pop(0) if option[2] is None else option[3]], LIMITS[option[1]])
    return found.get("seed", 1), found.get("size", 100)


def command(words):
    """The command that words are: its word and its numbers; or BadForm or BadNumber."""
    word, *rest = words or [""]
    if word in ("play", "states", "report", "replay", "migrate") and not rest:
        return (word,)
    if word in ("gen", "bench"):
        return (word, *options(rest))
    if word == "count":
        return (word, *numbers(rest, (1, 198), (1, 1_000_000)))
    if word == "smt" and len(rest) == 2 and rest[1] in ("off", "forceoff"):
        return (word, *numbers(rest[:1], (2, 8)), rest[1])
    raise BadForm


def played(text):
    return the_run_of_a_script.run(the_script.read(text)).journal


def written(word, values, text):
    """What a command writes under status 0, or Refused."""
    if word == "gen":
        return the_generated_script.text(*values)
    if word == "smt":
        return smt_control.text(the_script.read(text), *values)
    if word in ("replay", "migrate"):
        journal = the_journals_text.read(text, 2 if word == "replay" else 1)
    else:
        journal = played(the_generated_script.text(*values) if word == "bench" else text)
    if word == "count":
        return per_processor_counters.line(journal, *values)
    if word == "states":
        return the_states_file.text(journal)
    if word == "report":
        return the_report.text(journal)
    return (the_journals_text.text(journal) if word in ("play", "migrate") else "") + the_summary.text(journal)


def program(words, text):
    """What is written, and the status, where no read or write fails and memory isn't wanting."""
    try:
        word, *values = command(words)
    except (BadForm, BadNumber):
        return USAGE, 1
    try:
        return written(word, values, text), 0
    except Refused as refused:
        return f"error: line {refused.line}: {refused.kind}\n", 6 if word in ("replay", "migrate") else 2
