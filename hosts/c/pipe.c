/* Answers inputs of one kind from standard input: the number, the place, and the answer, or zero bytes where it is refused.
 * The kind is the last argument: bare, exact, decorated, bare-be-to-le, bare-le-to-be, decorated-be-to-le or
 * decorated-le-to-be. */
#include "muenglavot.h"

#include <stdio.h>
#include <string.h>

typedef struct {
    const char *name;
    uint32_t (*call)(const uint8_t *, size_t, uint8_t *, size_t);
    size_t in, out;
} Kind;

static const Kind kinds[] = {
    {"bare", muenglavot_request_bare, MUENGLAVOT_BARE_REQUEST, MUENGLAVOT_BARE},
    {"exact", muenglavot_request_bare_exact, MUENGLAVOT_BARE_REQUEST, MUENGLAVOT_BARE_EXACT},
    {"decorated", muenglavot_request_decorated, MUENGLAVOT_DECORATED_REQUEST, MUENGLAVOT_DECORATED},
    {"bare-be-to-le", muenglavot_bare_be_to_le, MUENGLAVOT_BARE, MUENGLAVOT_BARE},
    {"bare-le-to-be", muenglavot_bare_le_to_be, MUENGLAVOT_BARE, MUENGLAVOT_BARE},
    {"decorated-be-to-le", muenglavot_decorated_be_to_le, MUENGLAVOT_DECORATED, MUENGLAVOT_DECORATED},
    {"decorated-le-to-be", muenglavot_decorated_le_to_be, MUENGLAVOT_DECORATED, MUENGLAVOT_DECORATED},
};

/* Inputs that are read at once: a call of stdio for each would take as long as the answers. */
enum { BLOCK = 1024 };

/* The longest input and the longest answer of any kind. */
enum { LONGEST_IN = MUENGLAVOT_DECORATED_REQUEST, LONGEST_OUT = MUENGLAVOT_BARE_EXACT };

static int answer_all(const Kind *kind)
{
    static uint8_t in[BLOCK * LONGEST_IN], out[BLOCK * (2 + LONGEST_OUT)];
    const size_t reply = 2 + kind->out;
    size_t count;

    while ((count = fread(in, kind->in, BLOCK, stdin)) > 0) {
        memset(out, 0, count * reply);
        for (size_t i = 0; i < count; i++) {
            uint8_t *to = out + i * reply;
            uint32_t said = kind->call(in + i * kind->in, kind->in, to + 2, kind->out);

            to[0] = (uint8_t)MUENGLAVOT_NUMBER(said);
            to[1] = (uint8_t)MUENGLAVOT_PLACE(said);
        }
        if (fwrite(out, reply, count, stdout) != count) {
            return 1;
        }
    }
    return fflush(stdout) != 0;
}

int main(int argc, char **argv)
{
    for (size_t i = 0; argc > 1 && i < sizeof kinds / sizeof kinds[0]; i++) {
        if (strcmp(argv[argc - 1], kinds[i].name) == 0) {
            return answer_all(&kinds[i]);
        }
    }
    fprintf(stderr, "pipe: say which kind, as the head of this file lists them\n");
    return 2;
}
