/* Every call of the archive: every refusal, the untouched output, and input and output of many lengths. */
#define _DEFAULT_SOURCE

#include "muenglavot.h"

#include <float.h>
#include <stdio.h>
#include <stdlib.h>
#include <string.h>
#include <sys/mman.h>
#include <unistd.h>

typedef uint32_t (*Call)(const uint8_t *, size_t, uint8_t *, size_t);

/* Operations by their numbers. NEG to DIV are those whose exact ends can be asked for, EQUAL to STRICT_PRECEDES the comparisons. */
enum {
    NEG = 1, ADD, SUB, MUL, DIV,
    OVERLAP = 17, EQUAL, SUBSET, INTERIOR, DISJOINT, LESS, STRICT_LESS, PRECEDES, STRICT_PRECEDES,
    FIRST_OPERATION = NEG, LAST_OPERATION = STRICT_PRECEDES,
};

/* Bytes of decorations, and one that is none's. */
enum { ILL = 0, TRV = 4, NO_DECORATION = 5, COM = 16 };

static unsigned passed, failed;

static void expect(int right, const char *what, unsigned detail)
{
    if (right) {
        passed++;
    } else {
        failed++;
        printf("wrong: %s (%u)\n", what, detail);
    }
}

/* A buffer of exactly some length between two pages that nobody may touch: it ends at the second one, or starts at the first, so
 * that a step outside ends the program. */
typedef struct {
    uint8_t *pages, *bytes;
    size_t size;
} Lent;

static Lent lend(size_t len, int at_end)
{
    size_t page = (size_t)sysconf(_SC_PAGESIZE), inside = (len / page + 1) * page;
    Lent lent = {NULL, NULL, inside + 2 * page};

    lent.pages = mmap(NULL, lent.size, PROT_NONE, MAP_PRIVATE | MAP_ANONYMOUS, -1, 0);
    if (lent.pages == MAP_FAILED || mprotect(lent.pages + page, inside, PROT_READ | PROT_WRITE) != 0) {
        exit(1);
    }
    lent.bytes = lent.pages + page + (at_end ? inside - len : 0);
    return lent;
}

/* Runs a call on such buffers, and compares what is returned and the whole output: `after` if it is given, and else what was
 * there before. */
static void run_at(Call call, const uint8_t *input, size_t in_len, size_t out_len, uint32_t reply, const uint8_t *after,
                   const char *what, int at_end)
{
    Lent in = lend(in_len, at_end), out = lend(out_len, at_end), before = lend(out_len, at_end);

    for (size_t i = 0; i < in_len; i++) {
        in.bytes[i] = input ? input[i] : (uint8_t)(i * 37 + 11);
    }
    for (size_t i = 0; i < out_len; i++) {
        before.bytes[i] = (uint8_t)(i * 91 + 7);
        out.bytes[i] = before.bytes[i];
    }
    uint32_t got = call(in.bytes, in_len, out.bytes, out_len);
    expect(got == reply, what, got);
    expect(memcmp(out.bytes, after ? after : before.bytes, out_len) == 0, what, (unsigned)out_len);
    munmap(in.pages, in.size);
    munmap(out.pages, out.size);
    munmap(before.pages, before.size);
}

static void run(Call call, const uint8_t *input, size_t in_len, size_t out_len, uint32_t reply, const uint8_t *after,
                const char *what)
{
    run_at(call, input, in_len, out_len, reply, after, what, 0);
    run_at(call, input, in_len, out_len, reply, after, what, 1);
}

static void pattern(uint8_t *bytes, uint64_t bits)
{
    for (int i = 0; i < 8; i++) {
        bytes[i] = (uint8_t)(bits >> (56 - 8 * i));
    }
}

static void number(uint8_t *bytes, double value)
{
    uint64_t bits;

    memcpy(&bits, &value, sizeof bits);
    pattern(bytes, bits);
}

static void interval(uint8_t *bytes, double lower, double upper)
{
    number(bytes, lower);
    number(bytes + 8, upper);
}

static void decorated(uint8_t *bytes, double lower, double upper, uint8_t decoration)
{
    interval(bytes, lower, upper);
    bytes[MUENGLAVOT_BARE] = decoration;
}

static uint32_t refusal(uint32_t kind, uint32_t place)
{
    return kind + 256 * place;
}

/* Lengths 0 to 64 and a few large ones, on both sides: 1 before 2, and nothing is written. */
static void lengths(Call call, size_t in_size, size_t out_size, const uint8_t *good, const char *what)
{
    static const size_t large[] = {65, 127, 128, 255, 256, 1000, 4096, 65536, 1000003};

    for (size_t i = 0; i < 65 + sizeof large / sizeof large[0]; i++) {
        size_t len = i < 65 ? i : large[i - 65];
        if (len != in_size) {
            run(call, NULL, len, out_size, 1, NULL, what);
            run(call, NULL, len, 3, 1, NULL, what);
        }
        if (len != out_size) {
            run(call, good, in_size, len, 2, NULL, what);
        }
    }
}

static void bare_requests(void)
{
    const double inf = 1.0 / 0.0;
    uint8_t request[MUENGLAVOT_BARE_REQUEST], answer[MUENGLAVOT_BARE];

    request[0] = ADD;
    interval(request + 1, 1, 2);
    interval(request + 17, 3, 4);
    interval(answer, 4, 6);
    run(muenglavot_request_bare, request, sizeof request, sizeof answer, 0, answer, "bare sum");
    lengths(muenglavot_request_bare, sizeof request, sizeof answer, request, "bare lengths");
    for (int op = 0; op < 256; op++) {
        if (op < FIRST_OPERATION || op > LAST_OPERATION) {
            request[0] = (uint8_t)op;
            run(muenglavot_request_bare, request, sizeof request, sizeof answer, 3, NULL, "bare operation number");
        }
    }
    request[0] = ADD;
    interval(request + 1, 0.0, 1);
    run(muenglavot_request_bare, request, sizeof request, sizeof answer, refusal(5, 1), NULL, "wrong zero");
    interval(request + 1, 2, 1);
    run(muenglavot_request_bare, request, sizeof request, sizeof answer, refusal(5, 1), NULL, "first out of order");
    interval(request + 1, 1, 2);
    interval(request + 17, inf, inf);
    run(muenglavot_request_bare, request, sizeof request, sizeof answer, refusal(5, 2), NULL, "second at infinity");
    request[0] = NEG;
    interval(answer, -2, -1);
    run(muenglavot_request_bare, request, sizeof request, sizeof answer, 0, answer, "neg reads no second operand");
    request[0] = OVERLAP;
    interval(request + 17, 2, 3);
    memset(answer, 0, sizeof answer);
    answer[0] = 4;
    run(muenglavot_request_bare, request, sizeof request, sizeof answer, 0, answer, "overlap");
}

/* A request for an answer with its exact ends, and that answer: its ends, and which of them are exact. */
typedef struct {
    const char *what;
    uint8_t operation;
    double first[2], second[2], ends[2];
    uint8_t lower_exact, upper_exact;
} Exact;

static void exact_answers(void)
{
    const double inf = 1.0 / 0.0, third = 0x1.5555555555555p-2, above_third = 0x1.5555555555556p-2;
    const Exact cases[] = {
        {"exact negation, second not read", NEG, {1, 2}, {inf, inf}, {-2, -1}, 1, 1},
        {"exact sum", ADD, {1, 2}, {3, 4}, {4, 6}, 1, 1},
        {"a sum with more digits", ADD, {1, 2}, {0x1p-60, 0x1p-60}, {1, 2 + 0x1p-51}, 0, 0},
        {"a sum beyond all doubles", ADD, {DBL_MAX, DBL_MAX}, {DBL_MAX, DBL_MAX}, {DBL_MAX, inf}, 0, 0},
        {"a sum without a bound", ADD, {1, inf}, {1, 2}, {2, inf}, 1, 1},
        {"a sum with EMPTY", ADD, {inf, -inf}, {1, 2}, {inf, -inf}, 1, 1},
        {"exact difference", SUB, {1, 1}, {3, 4}, {-3, -2}, 1, 1},
        {"a difference beyond all doubles", SUB, {-DBL_MAX, -1}, {1, DBL_MAX}, {-inf, -2}, 0, 1},
        {"zero times ENTIRE", MUL, {-0.0, 0.0}, {-inf, inf}, {-0.0, 0.0}, 1, 1},
        {"a product below all doubles", MUL, {0x1p-1074, 0x1p-1074}, {0x1p-1074, 0x1p-1074}, {-0.0, 0x1p-1074}, 0, 0},
        {"an exact product above one that rounds to it", MUL, {-1, 1 + 0x1p-52}, {-2, 2 - 0x1p-51}, {-2 - 0x1p-51, 2}, 1, 1},
        {"an exact product below one that rounds to it", MUL, {-1, 1 + 0x1p-52}, {0x1p-51 - 2, 2}, {-2, 2 + 0x1p-51}, 1, 1},
        {"a quotient with more digits", DIV, {1, 1}, {3, 3}, {third, above_third}, 0, 0},
        {"a quotient whose upper end is exact", DIV, {1, 1}, {1, 3}, {third, 1}, 0, 1},
        {"a quotient whose lower end is exact", DIV, {1, 1}, {-3, -1}, {-1, -third}, 1, 0},
        {"a bound that is not attained", DIV, {1, 1}, {1, inf}, {-0.0, 1}, 1, 1},
        {"a quotient without a bound", DIV, {1, 2}, {-0.0, 4}, {0.25, inf}, 1, 1},
        {"a divisor of zero alone", DIV, {1, 2}, {-0.0, 0.0}, {inf, -inf}, 1, 1},
    };
    uint8_t request[MUENGLAVOT_BARE_REQUEST], answer[MUENGLAVOT_BARE_EXACT];

    for (size_t i = 0; i < sizeof cases / sizeof cases[0]; i++) {
        const Exact *one = &cases[i];

        request[0] = one->operation;
        interval(request + 1, one->first[0], one->first[1]);
        interval(request + 17, one->second[0], one->second[1]);
        interval(answer, one->ends[0], one->ends[1]);
        answer[MUENGLAVOT_BARE] = one->lower_exact;
        answer[MUENGLAVOT_BARE + 1] = one->upper_exact;
        run(muenglavot_request_bare_exact, request, sizeof request, sizeof answer, 0, answer, one->what);
    }
}

static void exact_refusals(void)
{
    const double inf = 1.0 / 0.0;
    const size_t out_len = MUENGLAVOT_BARE_EXACT;
    uint8_t request[MUENGLAVOT_BARE_REQUEST];

    request[0] = ADD;
    interval(request + 1, 1, 2);
    interval(request + 17, 3, 4);
    lengths(muenglavot_request_bare_exact, sizeof request, out_len, request, "exact lengths");
    for (int op = 0; op < 256; op++) {
        if (op < NEG || op > DIV) {
            request[0] = (uint8_t)op;
            run(muenglavot_request_bare_exact, request, sizeof request, out_len, 3, NULL, "exact operation number");
        }
    }
    interval(request + 1, 2, 1);
    run(muenglavot_request_bare_exact, request, sizeof request, out_len, 3, NULL, "exact, 3 before 5");
    for (uint8_t op = NEG; op <= DIV; op++) {
        request[0] = op;
        interval(request + 1, 2, 1);
        interval(request + 17, inf, inf);
        run(muenglavot_request_bare_exact, request, sizeof request, out_len, refusal(5, 1), NULL, "exact, first of two");
        interval(request + 1, 0.0, 1);
        run(muenglavot_request_bare_exact, request, sizeof request, out_len, refusal(5, 1), NULL, "exact, wrong zero");
        interval(request + 1, 1, 2);
        if (op != NEG) {
            run(muenglavot_request_bare_exact, request, sizeof request, out_len, refusal(5, 2), NULL, "exact, second");
        }
    }
}

static void decorated_requests(void)
{
    const double inf = 1.0 / 0.0, nan = __builtin_nan("");
    uint8_t request[MUENGLAVOT_DECORATED_REQUEST], answer[MUENGLAVOT_DECORATED];

    request[0] = SUB;
    interval(request + 1, 5, 6);
    request[17] = 16;
    interval(request + 18, 1, 2);
    request[34] = 12;
    interval(answer, 3, 5);
    answer[16] = 12;
    run(muenglavot_request_decorated, request, sizeof request, sizeof answer, 0, answer, "decorated difference");
    lengths(muenglavot_request_decorated, sizeof request, sizeof answer, request, "decorated lengths");
    for (unsigned byte = 0; byte < 256; byte++) {
        if (byte % 4 != 0 || byte > 16) {
            request[34] = (uint8_t)byte;
            run(muenglavot_request_decorated, request, sizeof request, sizeof answer, refusal(4, 2), NULL, "second byte");
        }
    }
    request[34] = 12;
    request[17] = 0;
    run(muenglavot_request_decorated, request, sizeof request, sizeof answer, refusal(6, 1), NULL, "Ill on an interval");
    interval(request + 1, 1, inf);
    request[17] = 16;
    run(muenglavot_request_decorated, request, sizeof request, sizeof answer, refusal(6, 1), NULL, "Com without a bound");
    interval(request + 1, nan, 1);
    request[17] = 4;
    run(muenglavot_request_decorated, request, sizeof request, sizeof answer, refusal(5, 1), NULL, "one NaN");
    interval(request + 1, nan, nan);
    run(muenglavot_request_decorated, request, sizeof request, sizeof answer, refusal(6, 1), NULL, "NaNs without Ill");
    request[17] = 5;
    run(muenglavot_request_decorated, request, sizeof request, sizeof answer, refusal(4, 1), NULL, "4 before 5");
    request[17] = 0;
    interval(answer, nan, nan);
    answer[16] = 0;
    run(muenglavot_request_decorated, request, sizeof request, sizeof answer, 0, answer, "NaI");
    interval(request + 1, inf, -inf);
    request[17] = 8;
    run(muenglavot_request_decorated, request, sizeof request, sizeof answer, refusal(6, 1), NULL, "EMPTY without Trv");
    request[0] = LAST_OPERATION + 1;
    run(muenglavot_request_decorated, request, sizeof request, sizeof answer, 3, NULL, "3 before 6");
    request[0] = FIRST_OPERATION - 1;
    run(muenglavot_request_decorated, request, sizeof request, sizeof answer, 3, NULL, "3 before 6");
}

/* Two operands, and what each comparison answers, in the order of their numbers. */
typedef struct {
    const char *what;
    double first[2], second[2];
    uint8_t yes[STRICT_PRECEDES - EQUAL + 1];
} Compared;

static void comparison_answers(void)
{
    const double inf = 1.0 / 0.0;
    const Compared cases[] = {
        {"compared with itself", {1, 2}, {1, 2}, {1, 1, 0, 0, 1, 0, 0, 0}},
        {"compared, apart", {1, 2}, {3, 4}, {0, 0, 0, 1, 1, 1, 1, 1}},
        {"compared, touching", {1, 2}, {2, 3}, {0, 0, 0, 0, 1, 1, 1, 0}},
        {"compared, inside", {1.25, 1.5}, {1, 2}, {0, 1, 1, 0, 0, 0, 0, 0}},
        {"compared, inside with a shared end", {1, 1.5}, {1, 2}, {0, 1, 0, 0, 1, 0, 0, 0}},
        {"compared, around", {1, 2}, {1.25, 1.5}, {0, 0, 0, 0, 0, 0, 0, 0}},
        {"compared, zero alone", {-0.0, 0.0}, {-0.0, 0.0}, {1, 1, 0, 0, 1, 0, 1, 0}},
        {"compared, no bound above", {1, inf}, {-1, inf}, {0, 1, 1, 0, 0, 0, 0, 0}},
        {"compared, no bounds", {-inf, inf}, {-inf, inf}, {1, 1, 1, 0, 1, 1, 0, 0}},
        {"compared, EMPTY twice", {inf, -inf}, {inf, -inf}, {1, 1, 1, 1, 1, 1, 1, 1}},
        {"compared, EMPTY first", {inf, -inf}, {1, 2}, {0, 1, 1, 1, 0, 0, 1, 1}},
        {"compared, EMPTY second", {1, 2}, {inf, -inf}, {0, 0, 0, 1, 0, 0, 1, 1}},
    };
    uint8_t bare[MUENGLAVOT_BARE_REQUEST], both[MUENGLAVOT_DECORATED_REQUEST], answer[MUENGLAVOT_DECORATED] = {0};

    for (size_t i = 0; i < sizeof cases / sizeof cases[0]; i++) {
        const Compared *one = &cases[i];

        interval(bare + 1, one->first[0], one->first[1]);
        interval(bare + 17, one->second[0], one->second[1]);
        decorated(both + 1, one->first[0], one->first[1], TRV);
        decorated(both + 18, one->second[0], one->second[1], TRV);
        for (uint8_t op = EQUAL; op <= STRICT_PRECEDES; op++) {
            bare[0] = op;
            both[0] = op;
            answer[0] = one->yes[op - EQUAL];
            run(muenglavot_request_bare, bare, sizeof bare, MUENGLAVOT_BARE, 0, answer, one->what);
            run(muenglavot_request_decorated, both, sizeof both, MUENGLAVOT_DECORATED, 0, answer, one->what);
        }
    }
}

static void comparison_operands(void)
{
    const double inf = 1.0 / 0.0, nan = __builtin_nan("");
    const size_t out_len = MUENGLAVOT_DECORATED;
    const uint8_t no[MUENGLAVOT_DECORATED] = {0};
    uint8_t bare[MUENGLAVOT_BARE_REQUEST], both[MUENGLAVOT_DECORATED_REQUEST];

    for (uint8_t op = EQUAL; op <= STRICT_PRECEDES; op++) {
        bare[0] = op;
        interval(bare + 1, 1, 2);
        interval(bare + 17, 2, 1);
        run(muenglavot_request_bare, bare, sizeof bare, MUENGLAVOT_BARE, refusal(5, 2), NULL, "compared, second");
        interval(bare + 1, 0.0, 1);
        run(muenglavot_request_bare, bare, sizeof bare, MUENGLAVOT_BARE, refusal(5, 1), NULL, "compared, first of two");
        both[0] = op;
        decorated(both + 1, 1, 2, COM);
        decorated(both + 18, nan, nan, ILL);
        run(muenglavot_request_decorated, both, sizeof both, out_len, 0, no, "compared with NaI");
        decorated(both + 1, nan, nan, ILL);
        run(muenglavot_request_decorated, both, sizeof both, out_len, 0, no, "NaI compared with itself");
        decorated(both + 18, 1, 2, COM);
        run(muenglavot_request_decorated, both, sizeof both, out_len, 0, no, "NaI compared");
        decorated(both + 18, 1, inf, COM);
        run(muenglavot_request_decorated, both, sizeof both, out_len, refusal(6, 2), NULL, "NaI compared, second");
    }
}

static void reversed(uint8_t *to, const uint8_t *from)
{
    for (int i = 0; i < 8; i++) {
        to[i] = from[7 - i];
        to[8 + i] = from[15 - i];
    }
    to[16] = from[16];
}

static void codecs(void)
{
    const double inf = 1.0 / 0.0;
    uint8_t big[MUENGLAVOT_DECORATED], little[MUENGLAVOT_DECORATED];

    interval(big, -0.0, 2.5);
    big[16] = 16;
    reversed(little, big);
    run(muenglavot_bare_be_to_le, big, 16, 16, 0, little, "bare to little");
    run(muenglavot_bare_le_to_be, little, 16, 16, 0, big, "bare to big");
    run(muenglavot_decorated_be_to_le, big, 17, 17, 0, little, "decorated to little");
    run(muenglavot_decorated_le_to_be, little, 17, 17, 0, big, "decorated to big");
    lengths(muenglavot_bare_be_to_le, 16, 16, big, "codec lengths");
    lengths(muenglavot_bare_le_to_be, 16, 16, little, "codec lengths");
    lengths(muenglavot_decorated_be_to_le, 17, 17, big, "codec lengths");
    lengths(muenglavot_decorated_le_to_be, 17, 17, little, "codec lengths");
    big[16] = 1;
    run(muenglavot_decorated_be_to_le, big, 17, 17, refusal(4, 1), NULL, "codec byte");
    interval(big, 3, 2);
    reversed(little, big);
    run(muenglavot_bare_be_to_le, big, 16, 16, refusal(5, 1), NULL, "codec order");
    run(muenglavot_bare_le_to_be, little, 16, 16, refusal(5, 1), NULL, "codec order");
    interval(big, 1, inf);
    big[16] = 16;
    reversed(little, big);
    run(muenglavot_decorated_le_to_be, little, 17, 17, refusal(6, 1), NULL, "codec Com");
}

/* Holds the bare calls to refuse ends, in either place, with 5. */
static void bare_refusals(const uint8_t *ends, const char *what)
{
    uint8_t request[MUENGLAVOT_BARE_REQUEST], little[MUENGLAVOT_DECORATED];

    request[0] = ADD;
    memcpy(request + 1, ends, MUENGLAVOT_BARE);
    interval(request + 17, 1, 2);
    run(muenglavot_request_bare, request, sizeof request, MUENGLAVOT_BARE, refusal(5, 1), NULL, what);
    run(muenglavot_request_bare_exact, request, sizeof request, MUENGLAVOT_BARE_EXACT, refusal(5, 1), NULL, what);
    interval(request + 1, 1, 2);
    memcpy(request + 17, ends, MUENGLAVOT_BARE);
    run(muenglavot_request_bare, request, sizeof request, MUENGLAVOT_BARE, refusal(5, 2), NULL, what);
    run(muenglavot_request_bare_exact, request, sizeof request, MUENGLAVOT_BARE_EXACT, refusal(5, 2), NULL, what);
    reversed(little, ends);
    run(muenglavot_bare_be_to_le, ends, 16, 16, refusal(5, 1), NULL, what);
    run(muenglavot_bare_le_to_be, little, 16, 16, refusal(5, 1), NULL, what);
}

/* Holds the decorated calls to refuse an operand, in either place and beside NaI, with a number. */
static void decorated_refusals(const uint8_t *bad, uint32_t kind, const char *what)
{
    const double nan = __builtin_nan("");
    uint8_t request[MUENGLAVOT_DECORATED_REQUEST], little[MUENGLAVOT_DECORATED];

    request[0] = ADD;
    memcpy(request + 1, bad, MUENGLAVOT_DECORATED);
    decorated(request + 18, nan, nan, ILL);
    run(muenglavot_request_decorated, request, sizeof request, MUENGLAVOT_DECORATED, refusal(kind, 1), NULL, what);
    decorated(request + 18, 1, 2, COM);
    run(muenglavot_request_decorated, request, sizeof request, MUENGLAVOT_DECORATED, refusal(kind, 1), NULL, what);
    decorated(request + 1, 1, 2, COM);
    memcpy(request + 18, bad, MUENGLAVOT_DECORATED);
    run(muenglavot_request_decorated, request, sizeof request, MUENGLAVOT_DECORATED, refusal(kind, 2), NULL, what);
    decorated(request + 1, nan, nan, ILL);
    run(muenglavot_request_decorated, request, sizeof request, MUENGLAVOT_DECORATED, refusal(kind, 2), NULL, what);
    reversed(little, bad);
    run(muenglavot_decorated_be_to_le, bad, 17, 17, refusal(kind, 1), NULL, what);
    run(muenglavot_decorated_le_to_be, little, 17, 17, refusal(kind, 1), NULL, what);
}

/* Ends of which one or both are NaNs, as patterns. */
typedef struct {
    const char *what;
    uint64_t lower, upper;
} Nans;

/* NaI has one spelling: its bytes come back, and any other NaN in either end is refused with 5, before 6 and after 4. */
static void one_spelling(void)
{
    const uint64_t one = 0x3FF0000000000000, quiet = 0x7FF8000000000000, payload = 0x7FF8000000000001, sign = 0xFFF8000000000000,
                   least = 0x7FF0000000000001;
    const Nans others[] = {
        {"another payload", payload, payload},
        {"another payload below", payload, quiet},
        {"another payload above", quiet, payload},
        {"sign set", sign, sign},
        {"sign set below", sign, quiet},
        {"sign set above", quiet, sign},
        {"the least NaN", least, least},
        {"a NaN below only", quiet, one},
        {"a NaN above only", one, quiet},
        {"another NaN below only", sign, one},
        {"another NaN above only", one, sign},
    };
    uint8_t big[MUENGLAVOT_DECORATED], little[MUENGLAVOT_DECORATED];

    pattern(big, quiet);
    pattern(big + 8, quiet);
    big[16] = TRV;
    bare_refusals(big, "NaI's ends, bare");
    decorated_refusals(big, 6, "NaI's ends without Ill");
    big[16] = ILL;
    reversed(little, big);
    run(muenglavot_decorated_be_to_le, big, 17, 17, 0, little, "NaI to little");
    run(muenglavot_decorated_le_to_be, little, 17, 17, 0, big, "NaI to big");
    for (size_t i = 0; i < sizeof others / sizeof others[0]; i++) {
        pattern(big, others[i].lower);
        pattern(big + 8, others[i].upper);
        bare_refusals(big, others[i].what);
        big[16] = ILL;
        decorated_refusals(big, 5, others[i].what);
        big[16] = TRV;
        decorated_refusals(big, 5, others[i].what);
        big[16] = NO_DECORATION;
        decorated_refusals(big, 4, others[i].what);
    }
}

int main(void)
{
    bare_requests();
    exact_answers();
    exact_refusals();
    decorated_requests();
    comparison_answers();
    comparison_operands();
    codecs();
    one_spelling();
    printf("%u passed, %u failed\n", passed, failed);
    return failed != 0;
}
