"""Inner queues that wait, put into random sites that are accepted, and what of them loses messages."""

from sites import Queue


def safe_queue(site, chosen):
    """One in which posts wait, and that discards no protected message."""
    size = chosen.randint(2, 6)
    worst = max(severity for _, severity in site.protected)
    way = chosen.choice(["severity", "off", "marks"])
    full = chosen.randint(1, size if way != "marks" else size - 1)
    severity = chosen.randint(worst + 1, 8) if way == "severity" else chosen.randint(0, worst)
    least, most = {"severity": (1, full), "off": (0, 0), "marks": (full + 1, size)}[way]
    return Queue(size, chosen.randint(1, 4), full, chosen.randint(least, most), severity, chosen.randint(1, 3), waits=True)


def add_waiting(site, chosen):
    """Gives actions that protected messages come to, and rulesets that are called on their way, queues that wait."""
    for number, spot in enumerate(site.spots):
        for place, it in enumerate([*spot.actions, *([spot.part] if spot.part else [])]):
            if not number and not place or chosen.random() < 0.5:
                it.queue = safe_queue(site, chosen)


# ---- Changes that bring in one kind of finding

def change_to_waiting_without_mark(site, spot, chosen):
    """An action gets a queue whose posts would wait, but for a mark."""
    size = chosen.randint(1, 3)
    chosen.choice(spot.actions).queue = Queue(size, chosen.randint(1, 3), 0, 0, 8, waits=True)


def change_to_waiting_above_size(site, spot, chosen):
    """One that is full before any post waits."""
    size = chosen.randint(1, 3)
    chosen.choice(spot.actions).queue = Queue(size, chosen.randint(1, 3), size + chosen.randint(1, 3), 0, 8, waits=True)


def change_to_waiting_that_discards(site, spot, chosen):
    """One that discards every severity at a length that posts fill it to."""
    full = chosen.randint(1, 3)
    chosen.choice(spot.actions).queue = Queue(full, chosen.randint(1, 3), full, chosen.randint(1, full), 0, waits=True)


def change_retries_behind_a_post(site, spot, chosen):
    """An action behind a queue that waits gives up."""
    action = chosen.choice(spot.actions)
    action.queue, action.retries = safe_queue(site, chosen), chosen.randint(0, 3)


ALL = ["severity", "off", "marks"]
CHANGES = [
    ("5 InnerQueue", change_to_waiting_without_mark, ALL),
    ("5 InnerQueue", change_to_waiting_above_size, ALL),
    ("5 InnerQueue", change_to_waiting_that_discards, ALL),
    ("6 GivesUp", change_retries_behind_a_post, ALL),
]
