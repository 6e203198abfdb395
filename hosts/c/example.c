/* An example host: divides [1, 1] by [3, 3] and shows the bytes of the answer. */
#include "muenglavot.h"

#include <stdio.h>

int main(void)
{
    static const uint8_t request[MUENGLAVOT_DECORATED_REQUEST] = {
        5,                                                           /* div */
        0x3F, 0xF0, 0, 0, 0, 0, 0, 0, 0x3F, 0xF0, 0, 0, 0, 0, 0, 0, 16, /* [1, 1], Com */
        0x40, 0x08, 0, 0, 0, 0, 0, 0, 0x40, 0x08, 0, 0, 0, 0, 0, 0, 16, /* [3, 3], Com */
    };
    uint8_t answer[MUENGLAVOT_DECORATED];
    uint32_t reply = muenglavot_request_decorated(request, sizeof request, answer, sizeof answer);

    if (MUENGLAVOT_NUMBER(reply) != 0) {
        printf("refused: number %u, place %u\n", MUENGLAVOT_NUMBER(reply), MUENGLAVOT_PLACE(reply));
        return 1;
    }
    for (size_t i = 0; i < sizeof answer; i++) {
        printf("%02X%s", answer[i], i == 7 || i == 15 ? " " : "");
    }
    printf("\n");
    return 0;
}
