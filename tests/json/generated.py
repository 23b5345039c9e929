"""200 sites from fixed seeds, by the makers of tests/safety: 80 that are accepted, half of them with spare actions and half
with inner queues that wait, 84 that one change of tests/safety gets refused (kinds 1 to 6), and 36 with a change of this
file: kinds 7 to 10, and faults."""

import os
import random
import sys

HERE = os.path.dirname(os.path.realpath(__file__))
sys.path.insert(0, f"{os.path.dirname(HERE)}/safety")
import waiting
from sites import CHANGES, Action, Condition, Maker, Ruleset, add_spares, change_call_to_post


# ---- Changes to a list that protected messages come to

def forward_to_nowhere(site, spot, chosen):
    relay = spot.inputs[0].relay
    spot.ruleset.body.insert(0, ("do", Action("nowhere", -1, (relay.name, 1, None))))


def forward_in_a_circle(site, spot, chosen):
    at = spot.inputs[0]
    spot.ruleset.body.insert(0, ("do", Action("back", -1, (at.relay.name, at.port, at))))


def stop_some(site, spot, chosen):
    spot.ruleset.body.insert(0, ("if", Condition('$msg contains "x"', None), [("stop",)], []))


def post_in_a_circle(site, spot, chosen):
    round_about = Ruleset("round", [], waiting.safe_queue(site, chosen))
    round_about.body.append(("call", round_about))
    spot.inputs[0].relay.rulesets.append(round_about)
    spot.ruleset.body.insert(0, ("call", round_about))


def fault_of_the_script(site, spot, chosen):
    spot.ruleset.body.append(("call", Ruleset("nothing", [])))


def fault_of_the_site(site, spot, chosen):
    site.protects.append(("*.*", spot.inputs[0].relay, Action("nothing", -1)))


OWN = [(it, ("severity", "off", "marks")) for it in [
    forward_to_nowhere, forward_in_a_circle, stop_some, post_in_a_circle, fault_of_the_script, fault_of_the_site]]


# ---- Sites

def accepted(number):
    for has_spares in (False, True):
        for has_waiting in (False, True):
            site = Maker(f"json {number}").make()
            if has_waiting:
                waiting.add_waiting(site, random.Random(f"waiting {number}"))
            if has_spares:
                add_spares(site, random.Random(f"spares {number}"))
            yield f"accepted{'-spare' * has_spares}{'-waiting' * has_waiting}-{number}", site


def changed(number, change, ways):
    """An accepted site in which the change can be made, with that change."""
    name = f"{change.__name__}-{number}"
    for attempt in range(1000):
        site = Maker(f"json {name} {attempt}").make(ways)
        spots = [it for it in site.spots if it.actions and (it.part or change is not change_call_to_post)]
        if spots:
            chosen = random.Random(name)
            change(site, chosen.choice(spots), chosen)
            return name, site
    raise ValueError("no site for this change")


def sites():
    """The names of the cases, and the files of each."""
    changes = [it[1:] for it in CHANGES + waiting.CHANGES]
    made = [it for number in range(20) for it in accepted(number)]
    made += [changed(number, *it) for number in range(7) for it in changes]
    made += [changed(number, *it) for number in range(6) for it in OWN]
    for name, site in made:
        yield name, {"site": site.text()} | {f"{it.name}.conf": it.text() for it in site.relays}
