/* Both libraries in one C program: an order is booked and filled, the report is cut out of the answer, written as a FIX message
 * and read back. 0 if all is right. tests/host/run builds and runs it. */
#include <stdio.h>
#include <string.h>

#include "../include/fix.h"
#include "../include/gateway.h"

static uint8_t book[JUBAFIYE_BOOK_BYTES], answer[JUBAFIYE_ANSWER_BYTES], out[1024];

/* Order G1 of client 7 for venue 3: C1, WHEAT, buy, market, 100. The closing zero of the C text is the record's last byte. */
static const char BOOKING[] = "\1\xcf\3\0\0\7\0\3\0\2G1\2C1\5WHEAT11\x40\x42\x0f\0\0\0\0";

/* Its fill of 40 at 10.25: F/1, LastQty, LastPx, CumQty, AvgPx. */
static const char FILL[] = "\4\x22\xf0\3\0\3\0\2G1F1\x80\x1a\6\0\0\0\0\0\x40\x42\x18\x3d\0\0\0\0"
                           "\x80\x1a\6\0\0\0\0\0\x40\x42\x18\x3d\0\0\0";

static uint32_t take(const char *record, size_t length) {
    return event(book, sizeof book, (const uint8_t *)record, length, answer, sizeof answer);
}

static const uint8_t *text(const char *text) { return (const uint8_t *)text; }

int main(void) {
    static const char told[] = "8=FIX.4.4\0019=170\00135=8\00149=US\00156=THEM\00134=7\00152=20261116-12:34:56\00137=G1\00111=C1\001"
                               "55=WHEAT\00154=1\00140=1\00138=100.0000\001150=F\00139=1\00132=40.0000\00114=40.0000\0016=10.25000000\001"
                               "151=60.0000\00117=G1.1\00131=10.25000000\00110=";
    Place place;
    Written written;
    FixFields fields;
    if (start(book, sizeof book, 10000) != 0) return 1;
    if (take(BOOKING, sizeof BOOKING) != 0) return 2;
    if (message_at(answer, sizeof answer, 0).length != 0) return 3;
    if (take(FILL, sizeof FILL) != 0) return 4;
    place = message_at(answer, sizeof answer, 0);
    if (place.refusal != 0 || place.at != 5 || message_at(answer, sizeof answer, 1).length != 0) return 5;
    written = fix_write(answer + place.at, place.length, text("US"), 2, text("THEM"), 4, 7, text("20261116-12:34:56"), 17, out,
                        sizeof out);
    if (written.refusal != 0 || memcmp(out, told, sizeof told - 1) != 0) {
        printf("%u %.*s\n", written.refusal, (int)written.length, (const char *)out);
        return 6;
    }
    fields = fix_read(out, written.length);
    if (fields.refusal != 0 || fields.count != 22 || fields.tag[7] != 37 || memcmp(out + fields.at[7], "G1", 2) != 0) return 7;
    out[fields.at[10]] = '9';
    if (fix_read(out, written.length).refusal != JUBAFIYE_FIX_REFUSED_RECORD) return 8;
    if (check(book, sizeof book) != 0) return 9;
    return 0;
}
