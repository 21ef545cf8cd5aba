/* A day of 150 orders through one book of 64: where an event finds no room, the done orders retire into an archive (docs/USING.md).
 * 0 if all is right. tests/host/run builds and runs it. */
#include "gateway.h"

#include <stdio.h>
#include <string.h>

#define SETTING 100
#define MOST 8 /* archives that this host keeps */

static uint8_t book[JUBAFIYE_BOOK_BYTES], answer[JUBAFIYE_ANSWER_BYTES], out[JUBAFIYE_PAGE_BYTES];
static uint8_t archives[MOST][JUBAFIYE_BOOK_BYTES];
static size_t archived; /* how many there are, oldest first */

/* The done orders go to the newest archive, or to a fresh one if that refuses them; gives how many they were. */
static uint32_t make_room(void) {
    if (archived > 0) {
        Counted moved = retire(book, sizeof book, archives[archived - 1], JUBAFIYE_BOOK_BYTES);
        if (moved.refusal != JUBAFIYE_REFUSED_IN_ARCHIVE && moved.refusal != JUBAFIYE_REFUSED_FULL_ARCHIVE) {
            return moved.number;
        }
    }
    if (archived == MOST || start(archives[archived], JUBAFIYE_BOOK_BYTES, SETTING) != JUBAFIYE_TAKEN) {
        return 0;
    }
    Counted moved = retire(book, sizeof book, archives[archived], JUBAFIYE_BOOK_BYTES);
    archived += moved.number > 0;
    return moved.number;
}

/* Takes an event; if an order or request finds no room, again after the done orders have retired. */
static uint32_t take(const uint8_t *record, size_t length) {
    uint32_t refusal = event(book, sizeof book, record, length, answer, sizeof answer);
    if (refusal == JUBAFIYE_REFUSED_FULL && make_room() > 0) {
        refusal = event(book, sizeof book, record, length, answer, sizeof answer);
    }
    return refusal;
}

int main(void) {
    /* Client 7 books 5 of W for venue 3 at the market as G001, ClOrdID C001; the venue fills it at 10.25. */
    uint8_t booking[] = "\1\xcf\3\0\0\7\0\3\0\4G001\4C001\1W11\x50\xc3\0\0\0\0\0";
    uint8_t fill[] = "\4\x22\xf0\3\0\3\0\4G001F2\x50\xc3\0\0\0\0\0\0\x40\x42\x18\x3d\0\0\0\0\x50\xc3\0\0\0\0\0\0\x40\x42\x18\x3d\0\0\0";
    int failed = start(book, sizeof book, SETTING) != JUBAFIYE_TAKEN;
    for (unsigned order = 0; order < 150; order++) {
        uint8_t digits[] = {(uint8_t)('0' + order / 100), (uint8_t)('0' + order / 10 % 10), (uint8_t)('0' + order % 10)};
        memcpy(booking + 11, digits, 3);
        memcpy(booking + 16, digits, 3);
        memcpy(fill + 9, digits, 3);
        failed |= take(booking, sizeof booking) != JUBAFIYE_TAKEN || take(fill, sizeof fill) != JUBAFIYE_TAKEN;
    }
    /* The archives' lines first, oldest first, and then the book's. */
    uint32_t lines = 0;
    for (size_t i = 0; i <= archived; i++) {
        Counted printed = page(i < archived ? archives[i] : book, JUBAFIYE_BOOK_BYTES, out, sizeof out);
        failed |= printed.refusal != JUBAFIYE_TAKEN || memcmp(out, "G", 1) != 0 || out[36] != '2';
        lines += printed.number / JUBAFIYE_PAGE_LINE;
    }
    failed |= lines != 150 || archived != 2;
    printf("retire: %u lines of %u archives and the book\n", (unsigned)lines, (unsigned)archived);
    return failed;
}
