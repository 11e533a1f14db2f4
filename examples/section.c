/* Builds a type section by rows and by steps, and prints it.
 *
 *   tools/staticlib
 *   gcc -Iinclude examples/section.c target/staticlib/libcabi.a -o target/section && target/section
 */
#include <inttypes.h>
#include <stdio.h>

#include "tbaunarith.h"

static int failed;

/* Prints what a call replied. */
static void show(const char *call, tb_reply reply) {
    if (reply.number == TB_OK) {
        printf("%s: ok, %" PRIu64 " bytes\n", call, reply.value);
    } else {
        printf("%s: refused %" PRIu32 ", value %" PRIu64 ", also %" PRIu32 "\n", call, reply.number, reply.value, reply.also);
        failed = 1;
    }
}

int main(void) {
    /* The names of the station's record of limits, and of the parameters of its function. */
    static const uint8_t pool[] = "min-barmax-barpressure";
    enum { POOL = sizeof pool - 1 };
    uint64_t state[5] = {7, 0, 0, 0, 0};
    uint8_t body[256], out[256];

    /* Type 0: a record of min-bar and max-bar, both u32 (primitive 6). */
    static const uint32_t limits[] = {1, 2, 0, 7, 0, 6, 7, 7, 0, 6};
    show("record of limits", tb_row(state, limits, 10, pool, POOL, body, sizeof body));

    /* Type 1: a list of type 0. */
    static const uint32_t list[] = {3, 1, 0};
    show("list of limits", tb_row(state, list, 3, pool, POOL, body, sizeof body));

    /* Type 2, in steps: an async function of pressure, u32, to bool (primitive 0). */
    static const uint32_t head[] = {1, 1, 14, 8, 0, 6};
    show("open", tb_open(state, body, sizeof body));
    show("head", tb_head(state, head, 6, pool, POOL, body, sizeof body));
    show("result", tb_result(state, 0, 0, body, sizeof body));

    tb_reply finished = tb_finish(state, body, sizeof body, out, sizeof out);
    show("finish", finished);
    if (finished.number == TB_OK) {
        for (uint64_t i = 0; i < finished.value; i++) {
            printf("%02x", out[i]);
        }
        printf("\n");
    }
    return failed;
}
