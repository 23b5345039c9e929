"""What goes over sessions of RELP between sy_relp and rsyslogd."""

import signal

from parties import ENDLESS, Receiver, Sender, receives, rest, sends
from peers import messages, send_all
from room import Failure, same, test, until

MANY = 30_000
CUT = 8096  # bytes that imrelp keeps of a message at its defaults, of 8 KiB


def of_size(size):
    return b"<34>1 - - - - - - ".ljust(size, b"a")


def came(room, name):
    """The lines of a file, but for one that was torn as its writer was killed."""
    if not room.size(name):
        return []
    return room.read(name).split(b"\n")[:-1]


def doubled(lines, sent):
    """How many messages came once more; each has to be there, and in order but for those that were sent again."""
    places, there = {it: place for place, it in enumerate(sent)}, set(lines)
    same("lines that nobody sent", sorted(there - set(sent)), [])
    same("messages that are missing", [it for it in sent if it not in there], [])
    next_one = 0
    for it in lines:
        if places[it] > next_one:
            raise Failure(f"message {places[it]} came before message {next_one}")
        next_one = max(next_one, places[it] + 1)
    return len(lines) - len(sent)


# ---- omrelp and our receiver

def goes_to_us(room, window, most):
    """So many messages come at most, and all others once they are acknowledged."""
    port = room.port()
    receiver = Receiver(room, port, 0)
    daemon = sends(room, port, window)
    sent = messages(most + 1000)
    send_all(daemon.port, sent)
    room.has("receiver.out", most)
    rest(daemon, receiver)
    same("messages at the window", room.lines("receiver.out"), sent[:most])
    receiver.may(ENDLESS)
    room.has("receiver.out", len(sent))
    daemon.end()
    receiver.has_had("closing", "closed")
    same("messages", room.lines("receiver.out"), sent)


@test
def omrelp_with_a_window_of_1_takes_128(room):
    goes_to_us(room, 1, 128)


@test
def omrelp_with_a_window_of_2(room):
    goes_to_us(room, 2, 2)


@test
def omrelp_with_a_window_of_128(room):
    goes_to_us(room, 128, 128)


@test
def omrelp_with_a_window_of_1024(room):
    goes_to_us(room, 1024, 1024)


@test
def omrelp_goes_on_with_each_answer(room):
    port = room.port()
    receiver = Receiver(room, port, 0)
    daemon = sends(room, port, 16)
    sent = messages(100)
    send_all(daemon.port, sent)
    for count, more in (16, 1), (17, 30), (47, ENDLESS):
        room.has("receiver.out", count)
        rest(daemon, receiver)
        same("messages so far", room.lines("receiver.out"), sent[:count])
        receiver.may(more)
    room.has("receiver.out", len(sent))
    same("messages", room.lines("receiver.out"), sent)


@test
def omrelp_sends_the_unanswered_again_after_a_break(room):
    port = room.port()
    receiver = Receiver(room, port, 5)
    daemon = sends(room, port, 16)
    sent = messages(100)
    send_all(daemon.port, sent)
    room.has("receiver.out", 21)
    rest(daemon, receiver)
    receiver.end(signal.SIGKILL)
    Receiver(room, port)
    room.has("receiver.out", 116)
    same("messages", room.lines("receiver.out"), sent[:21] + sent[5:])


def ends_unanswered(room, timeout):
    """Five messages to a receiver that has acknowledged two of them as rsyslogd is told to end."""
    port = room.port()
    receiver = Receiver(room, port, 2)
    daemon = sends(room, port, timeout=timeout)
    send_all(daemon.port, messages(5))
    room.has("receiver.out", 5)
    rest(daemon, receiver)
    daemon.process.terminate()
    receiver.has_had("closing")
    return port, receiver, daemon


@test
def omrelp_waits_for_answers_at_its_end(room):
    _, receiver, daemon = ends_unanswered(room, 90)
    rest(daemon, receiver)
    same("rsyslogd goes on", daemon.process.poll(), None)
    receiver.may(3)
    same("status", daemon.ends(), 0)
    receiver.has_had("closing", "closed")


@test
def omrelp_forgets_what_has_no_answer_in_time(room):
    port, receiver, daemon = ends_unanswered(room, 1)
    same("status", daemon.ends(), 0)
    receiver.has_had("closing", "closed")
    send_all(sends(room, port).port, messages(3, 5))
    room.has("receiver.out", 8)
    same("messages", room.lines("receiver.out"), messages(8))


@test
def our_receiver_is_killed_under_load(room):
    port = room.port()
    daemon, sent = sends(room, port), messages(MANY)
    receiver = Receiver(room, port)
    send_all(daemon.port, sent)
    for count in 2000, 10_000, 20_000:
        room.has("receiver.out", count)
        receiver.end(signal.SIGKILL)
        receiver = Receiver(room, port)
    until("all came", lambda: len(set(came(room, "receiver.out"))) >= MANY)
    return f"{doubled(came(room, 'receiver.out'), sent)} of {MANY} doubled"


@test
def omrelp_with_what_is_not_rfc_5424(room):
    port = room.port()
    Receiver(room, port)
    sent = [b"<34>Oct 11 22:14:15 mymachine su: 'su root' failed", b"no header", b"<34>1 - - - - - -  \xff\x01 bytes", b"x"]
    send_all(sends(room, port).port, sent)
    room.has("receiver.out", len(sent))
    same("messages", room.lines("receiver.out"), sent)


@test
def omrelp_with_64_kib(room):
    port = room.port()
    Receiver(room, port)
    sent = [of_size(65_535), of_size(65_536)]
    send_all(sends(room, port).port, sent)
    room.has("receiver.out", len(sent))
    same("messages", room.lines("receiver.out"), sent)


@test
def omrelp_comes_again_with_more_than_64_kib(room):
    port = room.port()
    receiver, daemon = Receiver(room, port), sends(room, port)
    send_all(daemon.port, [of_size(20), of_size(65_537)])
    receiver.has_had("refused")
    # (a break shows to omrelp only as it sends what comes next)
    send_all(daemon.port, [of_size(21)])
    receiver.has_had("refused", "refused")
    same("messages", room.lines("receiver.out"), [of_size(20)])


# ---- Our sender and imrelp

def goes_to_rsyslogd(room, window, count):
    port = room.port()
    receives(room, port)
    sent = messages(count)
    sender = Sender(room, port, window, sent)
    same("status", sender.ends(), 0)
    same("acknowledged", room.read("sender.out"), b"%d\n" % count)
    room.has("received", count)
    same("messages", room.lines("received"), sent)
    sender.has_had()


@test
def imrelp_with_a_window_of_1(room):
    goes_to_rsyslogd(room, 1, 500)


@test
def imrelp_with_a_window_of_128(room):
    goes_to_rsyslogd(room, 128, 1000)


@test
def imrelp_with_a_window_of_1024(room):
    goes_to_rsyslogd(room, 1024, 5000)


@test
def imrelp_is_stopped_under_load(room):
    port = room.port()
    daemon, sent = receives(room, port), messages(MANY)
    sender = Sender(room, port, 1024, sent)
    for count in 500, 5000, 10_000:
        room.has("received", count)
        daemon.end()
        daemon = receives(room, port)
    same("status", sender.ends(), 0)
    until("all came", lambda: len(set(came(room, "received"))) >= MANY)
    breaks = sum(it.startswith("Unanswered") for it in sender.sessions())
    return f"{doubled(came(room, 'received'), sent)} of {MANY} doubled at {breaks} breaks"


@test
def imrelp_is_stopped_while_idle(room):
    port = room.port()
    daemon, sent = receives(room, port), messages(20)
    sender = Sender(room, port, 10)
    sender.give(sent[:10])
    room.has("received", 10)
    rest(sender)
    daemon.end()
    receives(room, port)
    sender.give(sent[10:])
    sender.process.stdin.close()
    same("status", sender.ends(), 0)
    room.has("received", 20)
    same("messages", room.lines("received"), sent)
    sender.has_had("Unanswered after 10", "renewed")


@test
def imrelp_answers_for_what_is_in_memory_alone(room):
    port, sent = room.port(), messages(100)
    daemon = receives(room, port, blocked=f'action(type="omfwd" target="127.0.0.1" port="{room.port()}" protocol="tcp" '
                                          'action.resumeRetryCount="-1")')
    sender = Sender(room, port, 128, sent)
    same("status", sender.ends(), 0)
    same("acknowledged", room.read("sender.out"), b"100\n")
    daemon.end(signal.SIGKILL)
    receives(room, port)
    same("status", Sender(room, port, 128, messages(1, 100)).ends(), 0)
    until("the last one came", lambda: messages(1, 100)[0] in came(room, "received"))
    return f"{len(set(sent) - set(came(room, 'received')))} of 100 acknowledged messages are lost as rsyslogd is killed"


@test
def imrelp_cuts_what_is_too_long(room):
    port = room.port()
    receives(room, port)
    sent = [of_size(it) for it in (CUT, CUT + 1, 8192, 8193, 65_536)]
    sender = Sender(room, port, 128, sent)
    same("status", sender.ends(), 0)
    same("acknowledged", room.read("sender.out"), b"5\n")
    room.has("received", 5)
    same("messages", room.lines("received"), [it[:CUT] for it in sent])


@test
def imrelp_with_room_for_64_kib(room):
    port = room.port()
    receives(room, port, more=' maxMessageSize="64k"')
    sent = [of_size(it) for it in (CUT, 8193, 65_536)]
    sender = Sender(room, port, 128, sent)
    same("status", sender.ends(), 0)
    room.has("received", 3)
    same("messages", room.lines("received"), sent)


@test
def imrelp_that_aborts_at_what_is_too_long(room):
    port = room.port()
    receives(room, port, how=' oversizeMode="abort"')
    sender = Sender(room, port, 128, [of_size(20), of_size(65_536), of_size(21)])
    until("it comes again", lambda: sender.sessions().count("Unanswered after 1") >= 3, came=sender.errors)
    same("messages", set(room.lines("received")), {of_size(20)})
