"""Random sites that are accepted, and changes that bring in one kind of finding."""

import random

FACILITIES = ["kern", "user", "mail", "daemon", "auth", "syslog", "lpr", "news", "uucp", "cron", "authpriv", "ftp",
              "12", "13", "14", "15", "local0", "local1", "local2", "local3", "local4", "local5", "local6", "local7"]
SEVERITIES = ["emerg", "alert", "crit", "err", "warning", "notice", "info", "debug"]
EVERY_CLASS = [(facility, severity) for facility in range(24) for severity in range(8)]


def class_name(kind):
    return f"{FACILITIES[kind[0]]}.{SEVERITIES[kind[1]]}"


# ---- Sites

class Queue:
    """A queue; whether posts into it wait at its full-delay mark."""

    def __init__(self, size, batch, full, discard, severity, workers=1, waits=False):
        self.size, self.batch, self.workers = size, batch, workers
        self.full, self.discard, self.severity, self.waits = full, discard, severity, waits

    def text(self):
        return (f'queue.type="LinkedList" queue.size="{self.size}" queue.dequeueBatchSize="{self.batch}" '
                f'queue.fullDelayMark="{self.full}" queue.discardMark="{self.discard}" '
                f'queue.discardSeverity="{self.severity}" queue.workerThreads="{self.workers}"'
                + ' queue.workerFlow="full"' * self.waits)


class Action:
    """Writes an archive or, where it has a target (a relay's name, a port, and the input there or None), forwards."""

    def __init__(self, name, retries, target=None, queue=None):
        self.name, self.retries, self.target, self.queue = name, retries, target, queue

    def text(self):
        what = f'type="omfile" file="{self.name}.log"'
        if self.target:
            what = (f'type="omfwd" target="{self.target[0]}" port="{self.target[1]}" protocol="tcp" '
                    'TCP_Framing="octet-counted"')
        queue = " " + self.queue.text() if self.queue else ""
        return f'action(name="{self.name}" {what} action.resumeRetryCount="{self.retries}"{queue})\n'


class Condition:
    def __init__(self, text, holds):
        self.text, self.holds = text, holds


class Ruleset:
    """Its statements are ("do", action), ("call", ruleset), ("stop",) and ("if", condition, statements, statements)."""

    def __init__(self, name, body, queue=None):
        self.name, self.body, self.queue = name, body, queue


class Input:
    def __init__(self, relay, port, flow, ruleset):
        self.relay, self.port, self.flow, self.ruleset = relay, port, flow, ruleset

    def queue(self):
        """An input puts into the queue of its ruleset or, where that has none, into the main queue."""
        return self.ruleset.queue or self.relay.main

    def text(self):
        bound = f' ruleset="{self.ruleset.name}"' if self.ruleset is not self.relay.default else ""
        return f'input(type="imtcp" port="{self.port}" flowControl="{self.flow}"{bound})\n'


class Relay:
    def __init__(self, name, main):
        self.name, self.main = name, main
        self.inputs, self.rulesets = [], []
        self.default = Ruleset("RSYSLOG_DefaultRuleset", [])

    def text(self):
        parts = ['module(load="imtcp")\n', f"main_queue({self.main.text()})\n"]
        parts += [it.text() for it in self.inputs]
        for it in self.rulesets:
            queue = " " + it.queue.text() if it.queue else ""
            parts.append(f'ruleset(name="{it.name}"{queue}) {{\n{body_text(it.body)}}}\n')
        return "".join(parts) + body_text(self.default.body)

    def actions(self):
        """In the order of the text, by which they are numbered; the default ruleset's statements stand last."""
        return [it for ruleset in [*self.rulesets, self.default] for it in actions_in(ruleset.body)]

    def queues(self):
        """The main queue, then those of rulesets and actions in the order of the text: workers are numbered by them."""
        found = [self.main]
        for ruleset in [*self.rulesets, self.default]:
            found += [it.queue for it in [ruleset, *actions_in(ruleset.body)] if it.queue]
        return found


class Spot:
    """A list that protected messages come to, with inputs that are bound to it, its queue, the actions that all of them
    come to, and perhaps a ruleset that it calls with one of these in it. The queue keeps them in the given way: by
    "severity", "off" (its discard mark) or "marks"."""

    def __init__(self, ruleset, queue, way):
        self.ruleset, self.queue, self.way = ruleset, queue, way
        self.inputs, self.actions, self.part = [], [], None


class Site:
    def __init__(self):
        self.relays, self.entries, self.protects, self.spots, self.spares = [], [], [], [], []
        self.protected, self.selectors = set(), []

    def archives(self, kind):
        """Those of all protect lines that match the class."""
        return {action for selector, _, action in self.protects if kind in dict(self.selectors)[selector]}

    def text(self):
        lines = ["policy 2\n"] if self.spares else []
        lines += [f"relay {it.name} {it.name}.conf\n" for it in self.relays]
        lines += [f"entry {it.relay.name} {it.port}\n" for it in self.entries]
        lines += [f"protect {selector} {relay.name} {action.name}\n" for selector, relay, action in self.protects]
        lines += [f"spare {relay.name} {action.name}\n" for relay, action in self.spares]
        return "".join(lines)


def body_text(body):
    return "".join(statement_text(it) for it in body)


def statement_text(it):
    if it[0] == "do":
        return it[1].text()
    if it[0] == "call":
        return f"call {it[1].name}\n"
    if it[0] == "stop":
        return "stop\n"
    otherwise = f"else {{\n{body_text(it[3])}}}\n" if it[3] else ""
    return f"if {it[1].text} then {{\n{body_text(it[2])}}} {otherwise}\n"


def actions_in(body):
    for it in body:
        if it[0] == "do":
            yield it[1]
        elif it[0] == "if":
            yield from actions_in(it[2])
            yield from actions_in(it[3])


# ---- Random sites that are accepted

class Maker:
    """Makes sites in which nothing of an unprotected class is safe, and all of the protected ones is."""

    def __init__(self, seed):
        self.random = random.Random(seed)
        self.site = Site()
        self.names = 0

    def chance(self, part):
        return self.random.random() < part

    def selector(self):
        """One or two parts, from left to right: a level adds its severity and all that are more urgent, '=level' adds
        its own alone, '*' adds all, and 'none' takes all of the facility away."""
        named = [it for it in range(24) if not FACILITIES[it].isdigit()]
        parts, classes = [], set()
        for number in range(self.random.randint(1, 2)):
            some = range(24) if self.chance(0.15) else self.random.sample(named, self.random.randint(1, 2))
            level = self.random.randrange(7)
            form = self.random.choice(["", "", "", "=", "=", "*"] + ["none"] * 2 * number)
            parts.append(("*" if len(some) == 24 else ",".join(FACILITIES[it] for it in some)) + "."
                         + (form if form in ("*", "none") else form + SEVERITIES[level]))
            levels = {"": range(level + 1), "=": [level]}.get(form, range(8))
            those = {(facility, severity) for facility in some for severity in levels}
            classes = classes - those if form == "none" else classes | those
        if not classes or len(classes) > 150:
            return self.selector()
        return ";".join(parts), classes

    def name(self, letter):
        self.names += 1
        return f"{letter}{self.names}"

    def any_queue(self, most=6):
        """One that may lose: small, with any marks."""
        size = self.random.randint(1, most)
        return Queue(size, self.random.randint(1, 4), self.random.randint(0, size + 1), self.random.randint(0, size + 1),
                     self.random.randint(0, 8), self.random.randint(1, 2))

    def safe_queue(self, way):
        """One that discards no protected message: none is of its discard severity or more, or its discard mark is 0, or
        only full-delay inputs feed it and wait before it is as long as its discard mark."""
        size = self.random.randint(2, 6)
        full = self.random.randint(1, size if way != "marks" else size - 1)
        worst = max(severity for _, severity in self.site.protected)
        severity = self.random.randint(worst + 1, 8) if way == "severity" else self.random.randint(0, worst)
        least, most = {"severity": (1, full), "off": (0, 0), "marks": (full + 1, size)}[way]
        discard = self.random.randint(least, most)
        return Queue(size, self.random.randint(1, 4), full, discard, severity, self.random.randint(1, 3))

    def of_protected(self, holds=True):
        """The condition that a message is of a protected class, or that it isn't."""
        texts = sorted({selector for selector, _ in self.site.selectors})
        text, protected = " or ".join(f'prifilt("{it}")' for it in texts), self.site.protected
        if holds:
            return Condition(text, lambda message: message.kind in protected)
        return Condition(f"not ({text})", lambda message: message.kind not in protected)

    def free(self):
        """A condition that the class doesn't decide."""
        word = self.random.choice(["x", "y", "xy"])
        return Condition(f'$msg contains "{word}"', lambda message: word in message.text)

    def by_class(self):
        text, classes = self.selector()
        return Condition(f'prifilt("{text}")', lambda message: message.kind in classes)

    def careless(self, relay, depth=0):
        """Statements that may lose what comes to them."""
        body = []
        for _ in range(self.random.randint(1, 3)):
            form = self.random.randrange(6)
            if form == 0 and depth < 2:
                condition = self.random.choice([self.free, self.by_class])()
                body.append(("if", condition, self.careless(relay, depth + 1),
                             self.careless(relay, depth + 1) if self.chance(0.4) else []))
            elif form == 1 and relay.inner:
                body.append(("call", self.random.choice(relay.inner)))
            elif form == 2 and depth and self.chance(0.4):
                body.append(("stop",))
            else:
                queue = self.any_queue(4) if self.chance(0.4) else None
                target = self.random.choice([None, None, (relay.name, 1, None)] + relay.targets)
                body.append(("do", Action(self.name("c"), self.random.randint(-1, 2), target, queue)))
        return body

    def spot(self, relay, way, targets, archives):
        """Makes the list of this relay that protected messages come to."""
        queue = self.safe_queue(way)
        has_own = self.chance(0.7)
        spot = Spot(Ruleset("safe", [], queue if has_own else None), queue, way)
        if not has_own:
            relay.main = queue
        spot.actions = [Action(self.name("f"), -1, it) for it in targets] + archives
        pieces = []
        for action in spot.actions:
            is_wrapped = self.chance(0.3)
            pieces.append(("if", self.of_protected(), [("do", action)], self.careless(relay)) if is_wrapped
                          else ("do", action))
        if pieces and self.chance(0.4):
            spot.part = Ruleset("part", [pieces.pop()])
            relay.rulesets.append(spot.part)
            pieces.append(("call", spot.part))
        if self.chance(0.3):
            pieces.append(("if", self.free(), [("do", Action(self.name("s"), -1))], []))
        self.random.shuffle(pieces)
        if self.chance(0.6):
            stop = [("stop",)] if self.chance(0.3) else []
            pieces.insert(self.random.randint(0, len(pieces)),
                          ("if", self.of_protected(False), self.careless(relay) + stop, []))
        spot.ruleset.body = pieces + ([("stop",)] if self.chance(0.2) else [])
        relay.rulesets.append(spot.ruleset)
        return spot

    def input(self, relay, flow, ruleset):
        made = Input(relay, 6514 + len(relay.inputs), flow, ruleset)
        relay.inputs.append(made)
        return made

    def relay(self, number, way, targets, archives):
        relay = Relay(f"r{number}", self.any_queue())
        relay.targets = targets
        relay.inner = []
        relay.inner = [Ruleset("inner", self.careless(relay), self.any_queue(4))] if self.chance(0.6) else []
        relay.rulesets += relay.inner
        spot = self.spot(relay, way, targets, archives)
        spot.inputs = [self.input(relay, "full", spot.ruleset)]
        relay.default.body = self.careless(relay)
        # Where the marks alone keep the queue from discarding, every input that feeds it has to wait at the full one.
        flows = ["full"] if way == "marks" else ["on", "off", "full"]
        if self.chance(0.5):
            self.input(relay, self.random.choice(flows), spot.ruleset)
        if self.chance(0.7):
            some = flows if relay.main is spot.queue else ["on", "off", "full"]
            self.input(relay, self.random.choice(some), relay.default)
        if spot.ruleset.queue and way != "marks" and self.chance(0.3):
            relay.default.body.append(("call", spot.ruleset))
        self.site.relays.insert(0, relay)
        self.site.spots.insert(0, spot)

    def make(self, ways=("severity", "off", "marks")):
        """Each relay forwards to the next one and perhaps to the one after; the archives stand on the relay that every
        entry's messages come to."""
        self.site.selectors = [self.selector() for _ in range(self.random.randint(1, 3))]
        self.site.protected = set().union(*(classes for _, classes in self.site.selectors))
        if len(self.site.protected) > 170:
            return self.make(ways)
        count = self.random.randint(1, 4)
        home = self.random.randint(max(0, count - 2), count - 1)
        named = [Action(self.name("a"), -1) for _ in range(self.random.randint(1, 2))]
        for number in reversed(range(count)):
            later = list(zip(self.site.relays, self.site.spots))[:2 if self.chance(0.4) else 1]
            targets = [(relay.name, spot.inputs[0].port, spot.inputs[0]) for relay, spot in later]
            self.relay(number, self.random.choice(ways), targets, list(named) if number == home else [])
        for selector, _ in self.site.selectors:
            action = self.random.choice(named)
            if all(it[0] != selector or it[2] is not action for it in self.site.protects):
                self.site.protects.append((selector, self.site.relays[home], action))
        for number in range(home + 1):
            spot = self.site.spots[number]
            if number == 0 or self.chance(0.4):
                self.site.entries.append(spot.inputs[0])
            if self.chance(0.2):
                self.site.entries.append(self.input(self.site.relays[number], "full", spot.ruleset))
        return self.site


# ---- Spare actions

def add_spares(site, chosen):
    """Puts spare actions into lists that protected messages come to: archives, forwards to nowhere and to any input of a relay
    behind, some with queues of their own that may lose."""
    for number, spot in enumerate(site.spots):
        relay = spot.inputs[0].relay
        behind = [(it.name, place.port, place) for it in site.relays[number + 1:] for place in it.inputs]
        for _ in range(chosen.randint(number == 0, 2)):
            queue = None
            if chosen.random() < 0.5:
                queue = Queue(chosen.randint(1, 4), chosen.randint(1, 3), chosen.randint(0, 4), chosen.randint(0, 4), chosen.randint(0, 8))
            target = chosen.choice([None, (relay.name, 1, None), *behind])
            action = Action(f"p{len(site.spares)}", chosen.randint(-1, 2), target, queue)
            spot.ruleset.body.insert(chosen.randint(0, len(spot.ruleset.body)), ("do", action))
            site.spares.append((relay, action))


# ---- Changes that bring in one kind of finding

def change_flow(site, spot, chosen):
    """The input doesn't wait for the full-delay mark."""
    spot.inputs[0].flow = chosen.choice(["on", "off"])


def change_mark_to_none(site, spot, chosen):
    """A mark of 0 is off."""
    spot.queue.full = 0


def change_mark_above_size(site, spot, chosen):
    """The queue is full before anyone waits for the mark."""
    spot.queue.full = spot.queue.size + chosen.randint(1, 3)


def change_discard(site, spot, chosen):
    """A protected severity is discarded at a length that full-delay inputs fill the queue to."""
    if spot.way == "severity":
        spot.queue.severity = chosen.randint(0, max(severity for _, severity in site.protected))
    else:
        spot.queue.discard = chosen.randint(1, spot.queue.full)


def change_feeder(site, spot, chosen):
    """An input that doesn't wait fills the queue up to where it discards."""
    relay = spot.inputs[0].relay
    relay.inputs.append(Input(relay, 7000, chosen.choice(["on", "off"]), spot.ruleset))


def change_action_to_post(site, spot, chosen):
    """An action gets a queue of its own."""
    chosen.choice(spot.actions).queue = inner_queue(chosen)


def change_call_to_post(site, spot, chosen):
    """A ruleset that is called gets a queue of its own."""
    spot.part.queue = inner_queue(chosen)


def change_retries(site, spot, chosen):
    chosen.choice(spot.actions).retries = chosen.randint(0, 3)


def inner_queue(chosen):
    return Queue(chosen.randint(1, 3), chosen.randint(1, 3), 1, chosen.randint(0, 3), chosen.randint(0, 8))


# The kind, the change, and the ways in which a queue kept protected messages before it.
CHANGES = [
    ("1 NotFull", change_flow, ["severity", "off"]),
    ("2 MarkOff", change_mark_to_none, ["severity", "off", "marks"]),
    ("3 MarkAboveSize", change_mark_above_size, ["severity", "off", "marks"]),
    ("4 Discards", change_discard, ["severity", "off", "marks"]),
    ("4 Discards", change_feeder, ["marks"]),
    ("5 InnerQueue", change_action_to_post, ["severity", "off", "marks"]),
    ("5 InnerQueue", change_call_to_post, ["severity", "off", "marks"]),
    ("6 GivesUp", change_retries, ["severity", "off", "marks"]),
]
