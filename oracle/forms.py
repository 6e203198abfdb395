"""The two forms that are compared: requests, and records of calls by value.

For both: what document 01 refuses and answers, and what the differences ask about.
"""

from muenglavot_reference import answers, values
from muenglavot_reference.document import (
    ANSWER, ENDS, ILL, NAI, OPERAND, OPERATIONS, REQUEST, operands, proper, refusal)


def nai_to_the_crate(operand, by_value=False):
    """Whether the crate takes an operand for NaI: a proper pair or any two NaNs, with Ill."""
    if len(operand) != OPERAND['decorated'] or operand[16] != ILL:
        return False
    a, b = ENDS.unpack_from(operand)
    return proper(a, b, by_value) or a != a and b != b


class Requests:
    names = OPERATIONS
    refusal = staticmethod(refusal)
    answer = staticmethod(answers.answer)

    def __init__(self, kind):
        self.length = REQUEST[kind]
        self.answer_length = ANSWER[kind]

    @staticmethod
    def name(request):
        return OPERATIONS[request[0] - 1] if 1 <= request[0] <= len(OPERATIONS) else None

    @staticmethod
    def nai_to_the_crate_at(request, place):
        return nai_to_the_crate(operands(request)[place - 1])

    @staticmethod
    def with_nai(request):
        """The request with NaI in place of each operand that the crate takes for it."""
        return request[:1] + b''.join(
            NAI if nai_to_the_crate(operand) else operand for operand in operands(request))

    def decorated_operation(self, request):
        """The number of the operation on decorated intervals, or 0."""
        return request[0] if self.length == REQUEST['decorated'] and self.name(request) else 0


class Records:
    names = tuple(function.name for function in values.FUNCTIONS.values())
    length = values.RECORD
    answer_length = ANSWER['decorated']
    refusal = staticmethod(values.refusal)
    answer = staticmethod(values.answer)

    @staticmethod
    def name(record):
        function = values.FUNCTIONS.get(record[0])
        return function and function.name

    @staticmethod
    def nai_to_the_crate_at(record, place):
        _, way, operand = values.taken(record)[place - 1]
        return nai_to_the_crate(way.judged(operand), way.by_value)

    @classmethod
    def with_nai(cls, record):
        """The record with NaI in place of each operand that the crate takes for it."""
        changed = list(operands(record))
        for place, way, _ in values.taken(record):
            if cls.nai_to_the_crate_at(record, place):
                changed[place - 1] = way.in_order(NAI)
        return record[:1] + b''.join(changed)

    @staticmethod
    def decorated_operation(record):
        """The number of the operation on decorated intervals, or 0."""
        function = values.FUNCTIONS.get(record[0])
        return function.operation if function and values.DECORATED in function.takes else 0


FORMS = {'bare': Requests('bare'), 'decorated': Requests('decorated'), 'values': Records()}
