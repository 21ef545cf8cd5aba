/* A program that links the library beside somebody else's shared object: tests/prefix.rs builds it with either names. */
#include "gateway.h"

#include <stdio.h>

int doubled(int number);

static uint8_t book[JUBAFIYE_BOOK_BYTES];

int main(void) {
    uint32_t started = JUBAFIYE_FUNCTION(start)(book, sizeof book, 10000);
    printf("%u %u %d\n", started, JUBAFIYE_FUNCTION(check)(book, sizeof book), doubled(21));
    return 0;
}
