"""The session file: questions 12 to 15, in their order.

Written from document 01 ("Questions before anything is done", session file,
and "Sessions in brackets") and change requests 12 and 13 of document 02, alone.
Each question is asked of the whole file before the next one.
"""

import re
from typing import NamedTuple

MOST_BYTES = 65536
MOST_DEPTH = 8
MOST_NUMBER = 4294967295
MOST_ACTIONS = 65535


class Bad(Exception):
    """A refusal 12 to 15."""

    def __init__(self, number):
        super().__init__(number)
        self.number = number


# ------------------------------------------------- question 13: the brackets

# "An item is a bracketed list or a run of bytes other than brackets, space
# and byte 10."
RUN = re.compile(rb"[^() \n]+")


def take_lines(data):
    """"each line, the last included, just one bracketed form ended by byte
    10": the lists of the file's lines."""
    *lines, rest = data.split(b"\n")
    if rest:
        raise Bad(13)
    lists = []
    for line in lines:
        items, end = take_list(line, 0, MOST_DEPTH)
        if end != len(line):
            raise Bad(13)
        lists.append(items)
    return lists


def take_list(line, at, depth_left):
    """The bracketed list that starts at this byte, and the byte after it.
    "brackets balanced and at most 8 deep"."""
    if line[at:at + 1] != b"(" or depth_left == 0:
        raise Bad(13)
    at += 1
    items = []
    if line[at:at + 1] == b")":
        return items, at + 1
    while True:
        item, at = take_item(line, at, depth_left - 1)
        items.append(item)
        # "the items of a list parted by exactly one space with no other
        # space"
        byte = line[at:at + 1]
        if byte == b")":
            return items, at + 1
        if byte != b" ":
            raise Bad(13)
        at += 1


def take_item(line, at, depth_left):
    if line[at:at + 1] == b"(":
        return take_list(line, at, depth_left)
    run = RUN.match(line, at)
    if run is None:
        raise Bad(13)
    return run.group(), run.end()


# ---------------------------------------------------- question 14: the forms

class Open(NamedTuple):
    n: int
    v: int
    b: int
    values: tuple


# The actions, each with the word of its form.

class Read(NamedTuple):
    task: int
    cell: int
    word = "read"


class Swap(NamedTuple):
    task: int
    cell: int
    expected: int
    new: int
    word = "swap"


class Add(NamedTuple):
    """"In sessions it is `(add T K d r)`" (change request 13)."""

    task: int
    cell: int
    amount: int
    tries: int
    word = "add"


class Step(NamedTuple):
    task: int
    word = "step"


class Drop(NamedTuple):
    """"Add `(drop T)`" (change request 12)."""

    task: int
    word = "drop"


# The actions that begin a call.
BEGINS = (Read, Swap, Add)


class Again(NamedTuple):
    count: int
    forms: tuple


NUMBER = re.compile(rb"0|[1-9][0-9]{0,9}")


def number(item):
    """"numbers of at most 4,294,967,295 and no leading zeros"."""
    if not isinstance(item, bytes) or NUMBER.fullmatch(item) is None:
        raise Bad(14)
    value = int(item)
    if value > MOST_NUMBER:
        raise Bad(14)
    return value


def numbers(items, how_many):
    """"exactly its items"."""
    if len(items) != how_many:
        raise Bad(14)
    return [number(item) for item in items]


def open_form(items):
    """`(open N V B (values))`"""
    if not items or items[0] != b"open":
        raise Bad(14)
    if len(items) != 5 or not isinstance(items[4], list):
        raise Bad(14)
    return Open(*numbers(items[1:4], 3), tuple(map(number, items[4])))


def repeatable_form(items):
    """"Any form but open may be repeated, also another again; its forms may
    be none."  """
    if not isinstance(items, list) or not items:
        raise Bad(14)
    word, rest = items[0], items[1:]
    if word == b"read":
        return Read(*numbers(rest, 2))
    if word == b"swap":
        return Swap(*numbers(rest, 4))
    if word == b"add":
        return Add(*numbers(rest, 4))
    if word == b"step":
        return Step(*numbers(rest, 1))
    if word == b"drop":
        return Drop(*numbers(rest, 1))
    if word == b"again":
        count, = numbers(rest[:1], 1)
        return Again(count, tuple(map(repeatable_form, rest[1:])))
    raise Bad(14)


# ------------------------------------------------ question 15: the repeating

def count_actions(form):
    """The actions of a form after repeating.  An again is none itself: "Its
    actions are begins of a read, begins of a swap and steps", and "Demand 3's
    list now holds drops too" (change request 12) and "begins of an add too"
    (change request 13)."""
    if isinstance(form, Again):
        return form.count * sum(map(count_actions, form.forms))
    return 1


def repeat(forms):
    """The actions in order.  Forms without actions are dropped before they
    are repeated, so the time is in the number of actions, not the counts."""
    actions = []
    for form in forms:
        if not isinstance(form, Again):
            actions.append(form)
        elif count_actions(form):
            actions.extend(repeat(form.forms) * form.count)
    return actions


# -------------------------------------------------------------- all of them

def read_session(data):
    """The open and the actions of a session file, or Bad."""
    if len(data) > MOST_BYTES:
        raise Bad(12)
    lists = take_lines(data)
    # "open first and only there": a file without lines has no open.
    if not lists:
        raise Bad(14)
    opening = open_form(lists[0])
    forms = [repeatable_form(items) for items in lists[1:]]
    if sum(map(count_actions, forms)) > MOST_ACTIONS:
        raise Bad(15)
    return opening, repeat(forms)
