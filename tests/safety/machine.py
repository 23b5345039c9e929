"""A model of the relays of a site, step by step, and random schedules of lawful events."""

from sites import EVERY_CLASS, Action, class_name

TRIES = 100  # schedules that are tried until one loses what is looked for
HANDS = [0, 1, 2, 63]  # those that most messages come to
EVERY_HAND = range(64)


class Message:
    def __init__(self, number, kind, text, is_protected):
        self.number, self.kind, self.text, self.is_protected = number, kind, text, is_protected


class Entry:
    """A message and what is left to do with it, in order: ("run", action) or ("post", ruleset or action with a queue); and
    whether a spare action made this copy."""

    def __init__(self, message, work, is_spared):
        self.message, self.work, self.is_spared = message, work, is_spared


class Worker:
    def __init__(self, relay, number, queue):
        self.relay, self.number, self.queue = relay, number, queue
        self.entries, self.failures = [], 0


def add_work(body, message, work):
    """Adds what the statements do with the message; true where a stop ended it, which ends the caller's list too."""
    for it in body:
        if it[0] == "stop":
            return True
        if it[0] == "do":
            work.append(("post" if it[1].queue else "run", it[1]))
        elif it[0] == "call" and it[1].queue:
            work.append(("post", it[1]))
        elif it[0] == "call" and add_work(it[1].body, message, work):
            return True
        elif it[0] == "if" and add_work(it[2] if it[1].holds(message) else it[3], message, work):
            return True
    return False


def work_of(ruleset, message):
    work = []
    add_work(ruleset.body, message, work)
    return work


def is_discarded(queue, length, message):
    return 1 <= queue.discard <= length and message.kind[1] >= queue.severity


class Machine:
    """The state of all relays. Each step is made where it is lawful, and then its method answers true: its line is in
    lines, and what it loses in losses, as the program prints it."""

    def __init__(self, site):
        self.lines, self.losses, self.lost, self.spared = [], [], [], []
        self.spares = {action for _, action in site.spares}
        self.messages = 0
        self.entries, self.protected = set(site.entries), site.protected
        self.hands, self.queues, self.workers, self.links, self.numbers = {}, {}, [], {}, {}
        self.taken, self.forwarded, self.written = {}, set(), set()
        for relay in site.relays:
            for queue in relay.queues():
                self.queues[queue] = []
                first = sum(it.relay is relay for it in self.workers)
                self.workers += [Worker(relay, first + it, queue) for it in range(queue.workers)]
            for number, action in enumerate(relay.actions()):
                self.numbers[action] = (relay, number)
                if action.target:
                    self.links[action] = []

    def lose(self, relay, message, cause, is_spared):
        (self.spared if is_spared else self.lost).append(message)
        self.losses.append(f"loss line {len(self.lines)} message {message.number} at {relay.name} "
                           f"{class_name(message.kind)} {cause}{' spare' * is_spared}\n")

    def arrive(self, place, hand, message, is_spared):
        """Into the hand, where it isn't discarded at the present length of the input's queue."""
        queue = place.queue()
        if is_discarded(queue, len(self.queues[queue]), message):
            self.lose(place.relay, message, "take", is_spared)
        else:
            self.hands[place, hand] = Entry(message, work_of(place.ruleset, message), is_spared)
        return True

    def take_new(self, place, hand, kind, text):
        if (place, hand) in self.hands:
            return False
        message = Message(self.messages, kind, text, place in self.entries and kind in self.protected)
        self.messages += 1
        if message.is_protected:
            self.taken[message.number] = message
        self.lines.append(f"take {place.relay.name} {place.port} {hand} new <{kind[0] * 8 + kind[1]}>1 - - - - - - {text}\n")
        return self.arrive(place, hand, message, False)

    def take_link(self, hand, action, at):
        """From any place of a forward's link that leads to an input."""
        place = action.target[2]
        if place is None or (place, hand) in self.hands or at >= len(self.links[action]):
            return False
        relay, number = self.numbers[action]
        self.lines.append(f"take {place.relay.name} {place.port} {hand} link {relay.name} {number} {at}\n")
        return self.arrive(place, hand, *self.links[action].pop(at))

    def enter(self, place, hand):
        """A full-delay input whose queue has a full-delay mark needs a length below it; each input one below the size."""
        queue = place.queue()
        length = len(self.queues[queue])
        is_held = place.flow == "full" and 0 < queue.full <= length
        if (place, hand) not in self.hands or is_held or length >= queue.size:
            return False
        self.lines.append(f"enter {place.relay.name} {place.port} {hand}\n")
        self.queues[queue].append(self.hands.pop((place, hand)))
        return True

    def expire(self, place, hand):
        """The queue is full, and it isn't the full-delay mark for which the hand waits."""
        queue = place.queue()
        length = len(self.queues[queue])
        is_held = place.flow == "full" and 0 < queue.full <= length
        if (place, hand) not in self.hands or is_held or length < queue.size:
            return False
        self.lines.append(f"expire {place.relay.name} {place.port} {hand}\n")
        entry = self.hands.pop((place, hand))
        self.lose(place.relay, entry.message, "expire", entry.is_spared)
        return True

    def grab(self, worker):
        """Up to a batch from the front, one after the other. What would be discarded at the length that remains is lost,
        and what has no work is finished."""
        queue, waiting = worker.queue, self.queues[worker.queue]
        if worker.entries or not waiting:
            return False
        self.lines.append(f"grab {worker.relay.name} {worker.number}\n")
        for _ in range(min(queue.batch, len(waiting))):
            entry = waiting.pop(0)
            if is_discarded(queue, len(waiting), entry.message):
                self.lose(worker.relay, entry.message, "grab", entry.is_spared)
            elif entry.work:
                worker.entries.append(entry)
        return True

    def first(self, worker, form):
        """What the worker has to do first, where it is a run or a post as is asked."""
        if worker.entries and worker.entries[0].work[0][0] == form:
            return worker.entries[0].work[0][1]
        return None

    def end_first(self, worker):
        worker.failures = 0
        worker.entries[0].work.pop(0)
        if not worker.entries[0].work:
            worker.entries.pop(0)

    def is_spared(self, worker, doing):
        """Whether what this copy comes to by a run or a post, or the loss of that, is a spare action's."""
        return worker.entries[0].is_spared or doing in self.spares

    def hand_over(self, action, worker):
        """The file or the link takes the message."""
        message, is_spared = worker.entries[0].message, self.is_spared(worker, action)
        if action.target:
            self.links[action].append((message, is_spared))
        if message.is_protected and not is_spared:
            (self.forwarded if action.target else self.written).add((message.number, action))

    def done(self, worker):
        action = self.first(worker, "run")
        if not action:
            return False
        self.lines.append(f"done {worker.relay.name} {worker.number}\n")
        self.hand_over(action, worker)
        self.end_first(worker)
        return True

    def fail(self, worker, was_taken):
        """Without a retry count, or with more than the failures so far."""
        action = self.first(worker, "run")
        if not action or 0 <= action.retries <= worker.failures:
            return False
        self.lines.append(f"fail {worker.relay.name} {worker.number} {'yes' if was_taken else 'no'}\n")
        worker.failures += action.retries >= 0
        if was_taken:
            self.hand_over(action, worker)
        return True

    def giveup(self, worker, was_taken):
        """After as many failures as the retry count."""
        action = self.first(worker, "run")
        if not action or action.retries != worker.failures:
            return False
        self.lines.append(f"giveup {worker.relay.name} {worker.number} {'yes' if was_taken else 'no'}\n")
        if was_taken:
            self.hand_over(action, worker)
        self.lose(worker.relay, worker.entries[0].message, "giveup", self.is_spared(worker, action))
        self.end_first(worker)
        return True

    def is_post_held(self, queue):
        """Whether posts wait there, and its full-delay mark is reached."""
        return queue.waits and 0 < queue.full <= len(self.queues[queue])

    def post(self, worker):
        """What is discarded at the present length is lost; else the full-delay mark must not hold it, and there must be room."""
        target = self.first(worker, "post")
        if not target:
            return False
        message, waiting = worker.entries[0].message, self.queues[target.queue]
        is_lost = is_discarded(target.queue, len(waiting), message)
        if not is_lost and (self.is_post_held(target.queue) or len(waiting) >= target.queue.size):
            return False
        self.lines.append(f"post {worker.relay.name} {worker.number}\n")
        if is_lost:
            self.lose(worker.relay, message, "post", self.is_spared(worker, target))
        else:
            work = [("run", target)] if isinstance(target, Action) else work_of(target, message)
            waiting.append(Entry(message, work, self.is_spared(worker, target)))
        self.end_first(worker)
        return True

    def post_lost(self, worker, cause):
        """The target's queue is full, and its full-delay mark doesn't hold the post; or there is no memory for the entry, which
        may be at any time, but where posts wait."""
        target = self.first(worker, "post")
        if not target:
            return False
        is_full = len(self.queues[target.queue]) >= target.queue.size and not self.is_post_held(target.queue)
        if target.queue.waits if cause == "memory" else not is_full:
            return False
        self.lines.append(f"postlost {worker.relay.name} {worker.number} {cause}\n")
        self.lose(worker.relay, worker.entries[0].message, "postlost", self.is_spared(worker, target))
        self.end_first(worker)
        return True

    def held(self):
        """All pairs of a message's number and an archive that the work which is held for it leads to, without spare actions."""
        pairs, works = set(), []
        for entries in [self.hands.values(), *self.queues.values(), *(it.entries for it in self.workers)]:
            works += [(it.message, it.work) for it in entries if not it.is_spared]
        for action, link in self.links.items():
            works += [(it, [("arrive", action.target[2])]) for it, is_spared in link if not is_spared]
        while works:
            message, work = works.pop()
            for form, it in work:
                if it in self.spares:
                    continue
                if form == "arrive":
                    works.append((message, work_of(it.ruleset, message) if it else []))
                elif form == "post":
                    works.append((message, [("run", it)] if isinstance(it, Action) else work_of(it, message)))
                elif it.target:
                    works.append((message, [("arrive", it.target[2])]))
                else:
                    pairs.add((message.number, it))
        return pairs

    def missing(self, site):
        """The protected messages that aren't written to each archive named for them, nor held on their way to it."""
        there = self.written | self.held()
        return [it for it in self.taken.values()
                if any((it.number, action) not in there for action in site.archives(it.kind))]

    def output(self):
        """What the program has to print."""
        return "".join(self.losses) + f"events {len(self.lines)} messages {self.messages} losses {len(self.losses)}\n"


# ---- Random schedules

# How often each step is tried, in four moods of which each lasts for some events.
STEPS = ["new", "link", "enter", "expire", "grab", "done", "fail", "giveup", "post", "postlost"]
MOODS = {
    "even": [4, 4, 8, 2, 8, 8, 2, 2, 4, 1],
    "flood": [12, 8, 24, 4, 2, 2, 1, 1, 2, 1],
    "outage": [4, 2, 8, 2, 8, 1, 12, 6, 4, 2],
    "calm": [1, 8, 8, 0, 16, 24, 0, 0, 12, 0],
}
BAGS = {mood: [step for step, often in zip(STEPS, MOODS[mood]) for _ in range(often)] for mood in MOODS}


class Schedule:
    """Random lawful events. New messages come to entries, which get that part of them, and to doors, and most are of the
    classes given; workers of an idle queue do nothing, and devices fail on troubled relays alone."""

    def __init__(self, site, chosen, classes):
        self.machine, self.random, self.classes = Machine(site), chosen, classes
        self.inputs = [it for relay in site.relays for it in relay.inputs]
        self.entries, self.doors, self.entering = site.entries, self.inputs, 0.6
        self.links = [it for it in self.machine.links if it.target[2]]
        self.idle, self.causes, self.troubled = None, ["full", "full", "full", "memory"], site.relays

    def pick(self, those):
        return those[int(self.random.random() * len(those))]

    def step(self, form):
        """Tries a step of the form with whatever it may be made; true where it was lawful, and so made."""
        machine, pick = self.machine, self.pick
        hand = pick(HANDS if self.random.random() < 0.9 else EVERY_HAND)
        if form == "new":
            place = pick(self.entries if self.random.random() < self.entering else self.doors)
            kind = pick(self.classes if self.random.random() < 0.7 else EVERY_CLASS)
            return machine.take_new(place, hand, kind, pick(["", "x", "y", "xy", "z"]))
        if form == "link":
            return bool(self.links) and machine.take_link(hand, pick(self.links), pick([0, 0, 0, 1, 2]))
        if form in ("enter", "expire"):
            return bool(machine.hands) and getattr(machine, form)(*pick(list(machine.hands)))
        worker = pick(machine.workers)
        if worker.queue is self.idle:
            return False
        if form in ("grab", "done", "post"):
            return getattr(machine, form)(worker)
        if form == "postlost":
            return machine.post_lost(worker, pick(self.causes))
        return worker.relay in self.troubled and getattr(machine, form)(worker, pick([True, False]))

    def play(self, count, mood):
        """Makes this many events, or fewer where after many tries none was lawful; gives the machine after each."""
        for _ in range(40 * count):
            if self.step(self.pick(BAGS[mood])):
                yield self.machine
                count -= 1
                if not count:
                    return

    def play_moods(self, count):
        made = 0
        while made < count:
            mood = self.pick(list(MOODS))
            made += sum(1 for _ in self.play(min(self.random.randint(20, 100), count - made), mood))


def losing_schedule(site, spot, chosen, kind):
    """A machine after events of which the last one lost a protected message of this class, or None. In some schedules
    the workers of the inner queue or, where there is none, of the list's queue stand still, always or now and then.
    Messages that aren't at an entry come to the relay of the change alone, only there devices fail, and no post wants
    for memory."""
    inner = [it.queue for it in [spot.part, *spot.actions] if it and it.queue]
    queues = [*(inner or [spot.queue]), None]
    for _ in range(TRIES):
        schedule, seen = Schedule(site, chosen, [kind]), 0
        schedule.causes, schedule.troubled = ["full"], [spot.inputs[0].relay]
        schedule.doors, schedule.entering = spot.inputs[0].relay.inputs, chosen.choice([0.6, 0.9])
        schedule.idle, is_steady = chosen.choice(queues), chosen.random() < 0.5
        for _ in range(15):
            schedule.idle = schedule.idle if is_steady else chosen.choice(queues)
            for machine in schedule.play(chosen.randint(20, 60), chosen.choice(list(MOODS))):
                if any(it.is_protected and it.kind == kind for it in machine.lost[seen:]):
                    return machine
                seen = len(machine.lost)
    return None
