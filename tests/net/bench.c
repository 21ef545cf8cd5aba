/* What a call of net_position costs at 64 orders of 1, 8 and 64 clients and symbols, and what of it is the
   book's check: the best of nine rounds, in microseconds.
       tools/staticlib gateway
       cc -O2 -o target/net-bench tests/net/bench.c target/staticlib/libgateway.a && target/net-bench */
#include <stdint.h>
#include <stdio.h>
#include <string.h>
#include <time.h>

typedef struct { uint32_t refusal, number; } Counted;
uint32_t start(uint8_t *book, size_t book_len, uint32_t setting);
uint32_t event(uint8_t *book, size_t book_len, const uint8_t *record, size_t record_len, uint8_t *answer, size_t answer_len);
uint32_t check(const uint8_t *book, size_t book_len);
Counted net_position(const uint8_t *book, size_t book_len, uint64_t *scratch, size_t count, uint8_t *lines, size_t lines_len);

enum { ROUNDS = 9, CALLS = 3000 };

static uint8_t book[65536], answer[1024], lines[1728];
static uint64_t scratch[64];

static double now(void) {
    struct timespec t;
    clock_gettime(CLOCK_MONOTONIC, &t);
    return t.tv_sec * 1e6 + t.tv_nsec * 1e-3;
}

/* Order Nij with ClOrdID Cij of pair p: eight symbols to a client, sides 1 and 2 in turn. */
static uint32_t booking(int i, int p) {
    uint8_t a = 48 + i / 10, b = 48 + i % 10;
    uint8_t record[] = {1, 207, 7, 0, 0, (uint8_t)(1 + p / 8), 0, 1, 0, 3, 'N', a, b, 3, 'C', a, b,
                        8, 'S', 'Y', 'M', 'B', 'O', 'L', (uint8_t)(48 + p / 10), (uint8_t)(48 + p % 10), (uint8_t)(49 + i % 2), 50,
                        64, 66, 15, 0, 0, 0, 0, 0, 0, 202, 154, 59, 0, 0, 0, 0};
    return event(book, sizeof book, record, sizeof record, answer, sizeof answer);
}

int main(void) {
    const int pairs[] = {1, 8, 64};
    for (int k = 0; k < 3; k++) {
        start(book, sizeof book, 10000);
        for (int i = 0; i < 64; i++)
            if (booking(i, i % pairs[k])) return 1;
        double net = 1e9, rules = 1e9;
        uint32_t count = 0;
        for (int r = 0; r < ROUNDS; r++) {
            double t = now();
            for (int i = 0; i < CALLS; i++) {
                count = net_position(book, sizeof book, scratch, 64, lines, sizeof lines).number;
                __asm__ volatile("" ::: "memory");
            }
            double d = (now() - t) / CALLS;
            if (d < net) net = d;
            t = now();
            for (int i = 0; i < CALLS; i++) {
                check(book, sizeof book);
                __asm__ volatile("" ::: "memory");
            }
            d = (now() - t) / CALLS;
            if (d < rules) rules = d;
        }
        printf("64 orders of %2d pairs: %2u lines, %.2f us a call, %.2f of it the check\n", pairs[k], (unsigned)count, net, rules);
    }
    return 0;
}
