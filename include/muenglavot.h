/* Interval arithmetic for the tool controller: requests and codecs on bytes.
 *
 * AN INTERVAL IN BYTES
 *   Bare, 16 bytes: the lower end, then the upper end, each an IEEE 754 double in eight bytes.
 *   Decorated, 17 bytes: the same, then one byte for the decoration: 0 Ill, 4 Trv, 8 Def, 12 Dac, 16 Com.
 *   A zero lower end is -0.0 and a zero upper end +0.0. An infinite end says that there is no bound.
 *   EMPTY is (+inf, -inf), decorated with Trv. NaI, which is no interval, is 7FF8000000000000 in both ends with byte 0; any
 *   other NaN is refused.
 *   Two of these that are accepted, of one length and in one byte order, are the same value (the same set and the same
 *   decoration, or both NaI) exactly if their bytes are equal, so that archives can be compared byte by byte.
 *
 * A REQUEST
 *   One byte for the operation, then two operands, big endian: 33 bytes bare (answer 16), 35 decorated (answer 17).
 *   1 neg, 2 add, 3 sub, 4 mul, 5 div, 6 convex_hull, 7 intersection, 8 max, 9 min, 10 abs, 11 ceil, 12 floor, 13 round,
 *   14 round_ties_even, 15 sign, 16 trunc, 17 overlap, 18 equal, 19 subset, 20 interior, 21 disjoint, 22 less, 23 strict_less,
 *   24 precedes, 25 strict_precedes.
 *   neg and 10 to 16 have one operand: the second is not read. overlap answers the number of its state, 0 BothEmpty to
 *   15 After (16 if an operand is NaI), and then zero bytes. 18 to 25 answer 1 for yes or 0 for no, and then zero bytes.
 *
 * COMPARISONS
 *   18 to 25 ask about the members a of the first operand and b of the second. The answer is yes exactly if, for
 *   equal            every a is a b, and every b is an a
 *   subset           every a is a b
 *   interior         every a has a b with a < b, and every a has a b with b < a
 *   disjoint         no a is a b
 *   less             every a has a b with a <= b, and every b has an a with a <= b
 *   strict_less      every a has a b with a < b, and every b has an a with a < b
 *   precedes         every a and every b: a <= b
 *   strict_precedes  every a and every b: a < b
 *   So EMPTY is a subset of every interval. Infinity is no member, so that an infinite end does not touch another one: ENTIRE
 *   is interior to itself. If an operand is NaI, the answer is no. Decorations make no difference.
 *
 * EXACT ENDS
 *   A bare request for one of the operations 1 to 5 can also be answered by 18 bytes: the answer's 16, then one byte for the
 *   lower end and one for the upper end, 1 if that end is exact and 0 if it is not.
 *   An end is exact if it is the true bound of all results, attained or not: the lower end 0 of [1, 1] / [1, +inf] is
 *   exact, and neither end of [1, 1] / [3, 3] is. An infinite end is exact only if the results are unbounded there, so that
 *   the +inf of a sum which is finite, and beyond all doubles, is not. Both ends of EMPTY are exact.
 *
 * WHAT A CALL RETURNS
 *   The number of the outcome plus 256 times the place of the operand that is wrong.
 *   0  accepted: the answer fills the output
 *   1  the input's length is not the one that the call has
 *   2  the output's length is not exactly that of the answer
 *   3  the operation number is not 1 to 25, or not 1 to 5 where exact ends are asked for
 *   4  the decoration's byte is not 0, 4, 8, 12 or 16
 *   5  the ends are those of no interval: not in order, a wrong infinity, a wrong zero, or a NaN, but for NaI's ends where a
 *      decoration follows
 *   6  the decoration does not go with the ends: Ill on an interval, Com with an infinite end, EMPTY without Trv, NaI's ends
 *      without Ill
 *   With 4, 5 and 6 comes the place, 1 or 2; a codec has place 1 only. Otherwise the place is 0. The numbers are tried in
 *   the order 1, 2, 3, then 4, 5, 6 on the first operand, then on the second.
 *   A call that is refused leaves the output as it was, byte for byte.
 *
 * Any bytes of any length get an answer, and every call returns. Nothing has to be checked before a call. The two buffers
 * must not overlap, and a length must not be greater than its buffer; a buffer of length 0 must still be no null pointer.
 */
#ifndef MUENGLAVOT_H
#define MUENGLAVOT_H

#include <stddef.h>
#include <stdint.h>

#ifdef __cplusplus
extern "C" {
#endif

/* The parts of what a call returns. */
#define MUENGLAVOT_NUMBER(reply) ((reply) % 256u)
#define MUENGLAVOT_PLACE(reply) ((reply) / 256u)

/* Lengths of an interval, of a bare one with its exact ends, and of a request, in bytes. */
#define MUENGLAVOT_BARE 16u
#define MUENGLAVOT_BARE_EXACT 18u
#define MUENGLAVOT_DECORATED 17u
#define MUENGLAVOT_BARE_REQUEST 33u
#define MUENGLAVOT_DECORATED_REQUEST 35u

/* Answers a bare request: 33 bytes in, 16 out. Numbers 0, 1, 2, 3 and 5. */
uint32_t muenglavot_request_bare(const uint8_t *in, size_t in_len, uint8_t *out, size_t out_len);

/* Answers a bare request for neg, add, sub, mul or div, and says which ends are exact: 33 bytes in, 18 out. Numbers 0, 1, 2,
 * 3 and 5, and 3 is for an operation other than 1 to 5. */
uint32_t muenglavot_request_bare_exact(const uint8_t *in, size_t in_len, uint8_t *out, size_t out_len);

/* Answers a decorated request: 35 bytes in, 17 out. Numbers 0 to 6. */
uint32_t muenglavot_request_decorated(const uint8_t *in, size_t in_len, uint8_t *out, size_t out_len);

/* Reads one bare interval in one byte order and writes it in the other: 16 bytes in, 16 out. Numbers 0, 1, 2 and 5. */
uint32_t muenglavot_bare_be_to_le(const uint8_t *in, size_t in_len, uint8_t *out, size_t out_len);
uint32_t muenglavot_bare_le_to_be(const uint8_t *in, size_t in_len, uint8_t *out, size_t out_len);

/* The same for one decorated interval: 17 bytes in, 17 out. Numbers 0, 1, 2, 4, 5 and 6. */
uint32_t muenglavot_decorated_be_to_le(const uint8_t *in, size_t in_len, uint8_t *out, size_t out_len);
uint32_t muenglavot_decorated_le_to_be(const uint8_t *in, size_t in_len, uint8_t *out, size_t out_len);

#ifdef __cplusplus
}
#endif

#endif
