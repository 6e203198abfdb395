"""Document 01 in Python: what is refused, and what is answered, in exact fractions.

Written from document 01 and IEEE 1788-2015 alone, and not from the crate's code nor the
port's. The oracle, the cases for the roundings, and the tests of the bench program and of
exact ends stand on it.
"""
