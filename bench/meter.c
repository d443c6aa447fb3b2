/* The benchmark's program once more, on the second program: plays a script of calls many times over. See crates/meter. */
#include <inttypes.h>
#include <stdio.h>
#include <string.h>

#include "../model/card.h"

static uint8_t store_bytes[STORE_BYTES];
static uint8_t work_bytes[WORK_BYTES];
static uint8_t response_bytes[LEAST_RESPONSE_BYTES];
static uint8_t script[65536];

static struct lent store = {store_bytes, sizeof store_bytes};
static struct lent work = {work_bytes, sizeof work_bytes};
static struct lent response = {response_bytes, sizeof response_bytes};
static struct session session;
static uint64_t sum;

static void play(const uint8_t *calls, size_t length)
{
    size_t at = 0;

    while (length - at >= 3) {
        size_t n = (size_t)calls[at + 1] << 8 | calls[at + 2];
        struct outcome o;
        if (length - at - 3 < n)
            return;
        if (calls[at] == 0)
            o = command(session, store, work, response, calls + at + 3, n);
        else
            o = job_result(session, store, work, response, false, calls + at + 3, n);
        session = o.session;
        sum = (sum * 257 + (uint64_t)(response_bytes[0] << 8 | response_bytes[1])) % UINT64_C(4294967291);
        at += 3 + n;
    }
}

int main(void)
{
    static const uint8_t keys[4] = {0x07, 0x11, 0x11, 0x07};
    size_t length = fread(script, 1, sizeof script, stdin);

    fixed_card(store_bytes);
    memcpy(store_bytes + 28, keys, sizeof keys);
    session = power_on(CONTACT, store, work).session;
    if (length >= 6) {
        uint32_t rounds = (uint32_t)script[1] << 16 | (uint32_t)script[2] << 8 | script[3];
        size_t once = (size_t)script[4] << 8 | script[5];
        if (once > length - 6)
            once = length - 6;
        play(script + 6, once);
        for (uint32_t i = 0; i < rounds; i++)
            play(script + 6 + once, length - 6 - once);
    }
    printf("%" PRIu64 "\n", sum);
    return 0;
}
