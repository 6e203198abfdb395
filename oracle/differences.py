"""The differences between the crate and document 01, and the verdict on two answers.

The port follows document 01. Each difference says where it applies, and what both
sides answer there; docs/DIFFERENCES.md has it in words. Elsewhere the answers are equal.
"""

from muenglavot_reference.document import COM, DAC, EMPTY, ENDS, NUMBER

# The driver's numbers for what the crate does not read, and for what it cannot be asked.
UNREAD = 255
NOT_ASKED = 254
ZERO = ENDS.pack(-0.0, 0.0)


def unread(length, place):
    return bytes((UNREAD, place)) + bytes(length - 2)


# Where a difference applies: said of a request of some form, and of document 01's number
# and place for it.

def unknown_operation(form, request, number, place):
    return number == 3


def refused_operand(form, request, number, place):
    return number in (4, 5, 6)


def refused_ill_pair(form, request, number, place):
    return number == 6 and form.nai_to_the_crate_at(request, place)


def refused_other_nans(form, request, number, place):
    return number == 5 and form.nai_to_the_crate_at(request, place)


def trunc_to_zero(form, request, number, place):
    """A Com operand with an end that is 0, and of which nothing but 0 is left."""
    if number or form.decorated_operation(request) != NUMBER['trunc']:
        return False
    a, b = ENDS.unpack_from(request, 1)
    return request[17] == COM and -1 < a <= b < 1 and 0 in (a, b)


def try_from_empty_ends(form, request, number, place):
    return (not number and form.name(request) in ('Interval::try_from', 'DecInterval::try_from')
            and request[1:17] == EMPTY)


def not_in_the_crate(form, request, number, place):
    return not number and form.name(request) in NOT_IN_THE_CRATE


# The crate's classify is private, and its constants cannot be had.
NOT_IN_THE_CRATE = frozenset((
    'Interval::classify', 'Interval::EMPTY', 'Interval::ENTIRE', 'DecInterval::EMPTY',
    'DecInterval::NAI'))


def reports_exact_ends(form, request, number, place):
    return not number and form.name(request) in EXACT


EXACT = frozenset(('neg_exact', 'add_exact', 'sub_exact', 'mul_exact', 'div_exact'))


# What is answered there. That our number and place are right is known by then.

def crate_has_no_number(form, request, ours, theirs):
    return theirs == unread(len(ours), ours[1])


def crate_takes_it_for_nai(form, request, ours, theirs):
    read = form.answer(form.with_nai(request))
    return theirs == (unread(len(ours), read[1]) if read[0] else read)


def ours_dac_theirs_com(form, request, ours, theirs):
    point = bytes(2) + ZERO
    return ours == point + bytes([DAC]) and theirs == point + bytes([COM])


def ours_empty_theirs_unread(form, request, ours, theirs):
    return ours == form.answer(request) and theirs == unread(len(ours), 1)


def ours_by_the_document(form, request, ours, theirs):
    return ours == form.answer(request) and theirs == bytes((NOT_ASKED, 0)) + bytes(len(ours) - 2)


def crate_says_the_interval(form, request, ours, theirs):
    return ours == form.answer(request) and theirs == ours[:-1] + bytes(1)


# The first that applies decides: where one does, equal answers are wrong too.
DIFFERENCES = {
    'operation number': (unknown_operation, crate_has_no_number),
    'Ill on a proper pair': (refused_ill_pair, crate_takes_it_for_nai),
    'another spelling of NaI': (refused_other_nans, crate_takes_it_for_nai),
    'refusal number': (refused_operand, crate_has_no_number),
    'trunc at a zero end': (trunc_to_zero, ours_dac_theirs_com),
    "try_from of EMPTY's ends": (try_from_empty_ends, ours_empty_theirs_unread),
    'not in the crate': (not_in_the_crate, ours_by_the_document),
    'exact ends': (reports_exact_ends, crate_says_the_interval),
}


def judge(form, request, ours, theirs):
    """'equal', the name of the difference that explains the answers, or None."""
    number, place = form.refusal(request)
    if ours[:2] != bytes((number, place)) or number and any(ours[2:]):
        return None
    for name, (applies, explains) in DIFFERENCES.items():
        if applies(form, request, number, place):
            return name if explains(form, request, ours, theirs) else None
    return 'equal' if ours == theirs else None
