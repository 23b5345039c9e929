"""Texts changed at random: bytes, pieces, words of the grammars, and numbers at their ends."""

import os
import re

HERE = os.path.dirname(os.path.realpath(__file__))
MOST = 65_535  # bytes of a text that is fuzzed
NUMBERS = [b"0", b"1", b"2", b"3", b"8", b"17", b"63", b"64", b"65", b"100", b"255", b"256", b"257", b"65535", b"65536", b"65537",
           b"1000000", b"1000001", b"2147483647", b"2147483648", b"4294967295", b"4294967296", b"9999999999", b"18446744073709551616",
           b"-1", b"-2", b"00", b"007", b""]


def words_of_grammars():
    """The words of the dictionary that the guided fuzzer has too."""
    with open(f"{HERE}/dictionary", "rb") as it:
        rows = re.findall(rb'(?m)^"(.*)"$', it.read())
    return [re.sub(rb"\\x([0-9a-f]{2})|\\(.)", lambda m: bytes([int(m[1], 16)]) if m[1] else m[2], it) for it in rows]


WORDS = words_of_grammars()


def piece(random, text):
    """Where a piece of the text begins and ends: a few bytes, a line, or any."""
    if not text:
        return 0, 0
    at = random.randrange(len(text))
    how = random.randrange(4)
    if how == 0:
        return at, min(len(text), at + random.randint(1, 8))
    if how == 1:
        begin = text.rfind(b"\n", 0, at) + 1
        end = text.find(b"\n", at)
        return begin, len(text) if end < 0 else end + 1
    if how == 2:
        begin = max(text.rfind(b" ", 0, at), text.rfind(b"(", 0, at), text.rfind(b'"', 0, at)) + 1
        return begin, min(len(text), begin + random.randint(1, 30))
    return at, random.randint(at, len(text))


def changed(random, text, others):
    """The text with one change; `others` are texts that pieces are taken from."""
    begin, end = piece(random, text)
    some = text[begin:end]
    how = random.randrange(12)
    if how == 0:
        return text[:begin] + text[end:]
    if how == 1:
        return text[:end] + some + text[end:]
    if how == 2:
        times = random.choice([2, 3, 8, 16, 17, 31, 32, 33, 64, 65, 100, 256, 1000])
        return text[:end] + some * min(times, MOST // max(1, len(some))) + text[end:]
    if how == 3 and text:
        at = random.randrange(len(text))
        return text[:at] + bytes([text[at] ^ (1 << random.randrange(8))]) + text[at + 1 :]
    if how == 4 and text:
        at = random.randrange(len(text))
        return text[:at] + bytes([random.choice(b'\0\t\n\r "#$\'()*,./;<=>[\\]{}!-_019\x7f\x80\xff')]) + text[at + 1 :]
    if how == 5:
        return text[:begin] + random.choice(WORDS) + text[begin:]
    if how == 6:
        return text[:begin] + random.choice(WORDS) + text[end:]
    if how in (7, 8):
        numbers = list(re.finditer(rb"\d+", text))
        if numbers:
            it = random.choice(numbers)
            near = [b"%d" % max(0, int(it[0][:30]) + random.choice([-1, 1]))]
            return text[: it.start()] + random.choice(NUMBERS + near * 8) + text[it.end() :]
    if how == 9:
        other = random.choice(others)
        first, last = piece(random, other)
        return text[:begin] + other[first:last] + text[end:]
    if how == 10:
        return text[:begin] + some.swapcase() + text[end:]
    # two pieces exchanged
    first, last = piece(random, text)
    if first >= end:
        return text[:begin] + text[first:last] + text[end:first] + some + text[last:]
    return text[:begin] + bytes(reversed(some)) + text[end:]


def gently(random, text, others):
    """The text with a change that often leaves it in its grammar: a number, a quoted value, a word, a line, a statement."""
    how = random.randrange(8)
    if how < 3:
        found = list(re.finditer(rb"\d+", text))
        if found:
            it = random.choice(found)
            near = b"%d" % max(0, int(it[0][:30]) + random.choice([-2, -1, 1, 2]))
            return text[: it.start()] + random.choice([near, near, random.choice(found)[0], random.choice(NUMBERS)]) + text[it.end() :]
    if how == 3:
        own = list(re.finditer(rb'"[^"\n]*"', text))
        values = re.findall(rb'"[^"\n]*"', random.choice(others)) if random.random() < 0.3 else [it[0] for it in own]
        if own and values:
            it = random.choice(own)
            return text[: it.start()] + random.choice(values) + text[it.end() :]
    if how == 4:
        own = list(re.finditer(rb"[A-Za-z][A-Za-z0-9._-]*", text))
        if own:
            it = random.choice(own)
            return text[: it.start()] + random.choice(own)[0] + text[it.end() :]
    parts = re.findall(rb"[^\n]*\n|[^\n]+", text) if how < 7 else re.findall(rb"[^()]*\([^()]*\)|[^()]+|[()]", text)
    if not parts:
        return text
    at, to = random.randrange(len(parts)), random.randrange(len(parts))
    some = parts[at]
    if random.random() < 0.6:
        del parts[at]
    if random.random() < 0.6:
        parts.insert(min(to, len(parts)), some)
    return b"".join(parts)


def mutant(random, text, others):
    """The text with one change, or some."""
    if random.random() < 0.5:
        for _ in range(random.choice([1, 1, 1, 2, 3])):
            text = gently(random, text, others)[:MOST]
        return text
    for _ in range(random.choice([1, 1, 1, 2, 2, 3, 5, 8])):
        text = changed(random, text, others)[:MOST]
    return text


def cuttings(random, text):
    """The text in pieces: of one byte, of a few, or at some places alone."""
    how = random.randrange(3)
    if how == 0 and len(text) <= 2000:
        return [text[at : at + 1] for at in range(len(text))]
    if how == 1 and len(text) <= 20_000:
        pieces, at = [], 0
        while at < len(text):
            size = random.randint(1, 40)
            pieces.append(text[at : at + size])
            at += size
        return pieces
    places = sorted({0, len(text), *(random.randint(0, len(text)) for _ in range(random.randint(1, 5)))})
    return [text[begin:end] for begin, end in zip(places, places[1:])]
