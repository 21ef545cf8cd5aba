/* All that the libraries need from outside: tests/host/run links each of them whole with this file, and with no C library and no
 * library of the compiler. */
#include <stddef.h>

void *memcpy(void *to, const void *from, size_t length) {
    unsigned char *t = to;
    const unsigned char *f = from;
    while (length--) *t++ = *f++;
    return to;
}

void *memset(void *to, int byte, size_t length) {
    unsigned char *t = to;
    while (length--) *t++ = (unsigned char)byte;
    return to;
}
