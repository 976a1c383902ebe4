"""The report: what the summary says, but for how operations were answered, as JSON."""
import json

from rules import callbacks, operations, registrations, states, the_headline
from rules.crossings_and_walks import settled


def text(journal):
    head = journal.head
    cpus = [{"cpu": cpu, "keys": the_headline.in_force(journal, cpu), "online": states.is_online(state),
             "present": cpu not in head.absent, "state": state} for cpu, state in enumerate(settled(journal))]
    subs = []
    for state, (sub, instances) in sorted(registrations.registered(journal).items()):
        hook = callbacks.hooks(journal)[state]
        subs.append({"faults": hook.faults, "instances": instances, "made": hook.made, "name": head.subs[sub - 1].name, "state": state})
    value = {"cpus": cpus, "disabled": operations.disabled(journal), "events": journal.length,
             "frozen": sorted(operations.frozen(journal)), "subs": subs}
    return json.dumps(value, separators=(",", ":"), sort_keys=True) + "\n"
