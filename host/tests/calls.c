/* Every function of gateway.h, called from C: what it returns and what it writes. tests/host/run compiles and runs it. */
#include "gateway.h"

#include <stdio.h>
#include <string.h>

static uint8_t book[JUBAFIYE_BOOK_BYTES];
static uint8_t archive[JUBAFIYE_BOOK_BYTES];
static uint8_t answer[JUBAFIYE_ANSWER_BYTES];
static uint8_t out[JUBAFIYE_PAGE_BYTES];
static uint8_t lines[JUBAFIYE_NET_BYTES];
static uint64_t scratch[JUBAFIYE_NET_SCRATCH];
static uint8_t places[JUBAFIYE_PLACE_BYTES];
static uint8_t list[JUBAFIYE_CHAIN_BYTES];
static uint8_t records[64];
static uint8_t answers[2 * JUBAFIYE_SAID_BYTES];

/* Client 0x0107 books 5 of W for venue 3 at the market, named A, ClOrdID C. */
static const uint8_t booking[] = {JUBAFIYE_EVENT_BOOK, 0xCF, 0x03, 0, 0, 0x07, 0x01, 3, 0, 1, 'A', 1, 'C', 1, 'W', '1', '1',
                                  0x50, 0xC3, 0, 0, 0, 0, 0, 0};

static int failed;

static void expect(const char *what, int holds) {
    if (!holds) {
        printf("calls: %s\n", what);
        failed = 1;
    }
}

int main(void) {
    expect("start", start(book, sizeof book, 10000) == JUBAFIYE_TAKEN);
    expect("start on another length", start(book, sizeof book - 1, 10000) == JUBAFIYE_REFUSED_BOOK);
    expect("check", check(book, sizeof book) == JUBAFIYE_TAKEN);
    Needs needed = needs(book, sizeof book, booking, sizeof booking);
    expect("needs", needed.refusal == JUBAFIYE_TAKEN && needed.messages == 0 && needed.requests == 1 &&
                        needed.fields_first == 0 && needed.fields_second == 0);
    expect("event", event(book, sizeof book, booking, sizeof booking, answer, sizeof answer) == JUBAFIYE_TAKEN);
    expect("the answer", answer[0] + 256u * answer[1] == needed.length && answer[2] == 0 && answer[3] == JUBAFIYE_ALARM_NONE);
    needed = needs(book, sizeof book, booking, sizeof booking);
    expect("needs, refused", needed.refusal == JUBAFIYE_REFUSED_IN_USE && needed.length == 0 && needed.requests == 0);
    expect("the same event again",
           event(book, sizeof book, booking, sizeof booking, answer, sizeof answer) == JUBAFIYE_REFUSED_IN_USE);

    Counted printed = page(book, sizeof book, out, sizeof out);
    expect("page", printed.refusal == JUBAFIYE_TAKEN && printed.number == JUBAFIYE_PAGE_LINE && out[0] == 'A');
    printed = page(book, sizeof book, out, JUBAFIYE_PAGE_LINE - 1);
    expect("page, short", printed.refusal == JUBAFIYE_REFUSED_PAGE_BUFFER && printed.number == 0);

    Opened opened = open_quantity(book, sizeof book, 0x0107);
    expect("open_quantity", opened.refusal == JUBAFIYE_TAKEN && opened.quantity == 50000);
    opened = open_quantity(book, sizeof book, 7);
    expect("open_quantity of no orders", opened.refusal == JUBAFIYE_TAKEN && opened.quantity == 0);
    opened = open_quantity(book, sizeof book - 1, 0x0107);
    expect("open_quantity, refused", opened.refusal == JUBAFIYE_REFUSED_BOOK && opened.quantity == 0);

    Counted netted = net_position(book, sizeof book, scratch, JUBAFIYE_NET_SCRATCH, lines, sizeof lines);
    expect("net_position", netted.refusal == JUBAFIYE_TAKEN && netted.number == 1);
    static const uint8_t line[JUBAFIYE_NET_LINE] = {0x07, 0x01, 1, 'W'};
    expect("its line", memcmp(lines, line, sizeof line) == 0);
    netted = net_position(book, sizeof book, scratch, JUBAFIYE_NET_SCRATCH - 1, lines, sizeof lines);
    expect("net_position, scratch short", netted.refusal == JUBAFIYE_REFUSED_NET_BUFFERS && netted.number == 0);
    netted = net_position(book, sizeof book, scratch, JUBAFIYE_NET_SCRATCH, lines, sizeof lines - 1);
    expect("net_position, lines short", netted.refusal == JUBAFIYE_REFUSED_NET_BUFFERS && netted.number == 0);
    netted = net_position(book, sizeof book - 1, scratch, 0, lines, 0);
    expect("net_position, refused", netted.refusal == JUBAFIYE_REFUSED_BOOK && netted.number == 0);

    static const uint8_t name[] = {'M'}, sign[] = {'-'}, other[] = {'N'};
    expect("set_mark", set_mark(book, sizeof book, name, 1, places, sizeof places) == JUBAFIYE_TAKEN);
    expect("its place", places[0] == 'M' && places[1] == 0 && memcmp(places + JUBAFIYE_MARK_NAME, book, sizeof book) == 0);
    expect("set_mark, no name", set_mark(book, sizeof book, sign, 1, places, sizeof places) == JUBAFIYE_REFUSED_MARK_NAME);
    expect("set_mark, no place", set_mark(book, sizeof book, other, 1, places, sizeof places) == JUBAFIYE_REFUSED_NO_PLACE);
    expect("start again", start(book, sizeof book, 7) == JUBAFIYE_TAKEN && page(book, sizeof book, out, 0).number == 0);
    expect("return_to_mark", return_to_mark(book, sizeof book, name, 1, places, sizeof places) == JUBAFIYE_TAKEN);
    expect("the book again", memcmp(places + JUBAFIYE_MARK_NAME, book, sizeof book) == 0);
    expect("return_to_mark, no mark",
           return_to_mark(book, sizeof book, other, 1, places, sizeof places) == JUBAFIYE_REFUSED_NO_MARK);
    expect("return_to_mark, refused",
           return_to_mark(book, sizeof book - 1, sign, 1, places, sizeof places) == JUBAFIYE_REFUSED_BOOK);

    static const uint8_t used[] = {'C'}, entry[JUBAFIYE_CHAIN_ENTRY] = {1, 'C'};
    list[JUBAFIYE_CHAIN_ENTRY] = 7;
    Counted linked = chain(book, sizeof book, 0x0107, used, 1, list, sizeof list);
    expect("chain", linked.refusal == JUBAFIYE_TAKEN && linked.number == 1);
    expect("its entry", memcmp(list, entry, sizeof entry) == 0 && entry[33] == JUBAFIYE_OUTCOME_OPEN &&
                            list[JUBAFIYE_CHAIN_ENTRY] == 7);
    linked = chain(book, sizeof book, 0x0107, used, 1, list, JUBAFIYE_CHAIN_ENTRY - 1);
    expect("chain, short", linked.refusal == JUBAFIYE_REFUSED_CHAIN_LIST && linked.number == 0);
    linked = chain(book, sizeof book, 7, used, 1, list, 0);
    expect("chain of another client", linked.refusal == JUBAFIYE_TAKEN && linked.number == 0);
    linked = chain(book, sizeof book, 0x0107, used, 0, list, 0);
    expect("chain of no name", linked.refusal == JUBAFIYE_TAKEN && linked.number == 0);
    linked = chain(book, sizeof book - 1, 0x0107, used, 1, list, 0);
    expect("chain, refused", linked.refusal == JUBAFIYE_REFUSED_BOOK && linked.number == 0);

    /* An empty book; the booking, the same again, a record of no byte, and the booking cut. */
    expect("start once more", start(book, sizeof book, 10000) == JUBAFIYE_TAKEN);
    size_t one = 2 + sizeof booking, whole = 2 * one + 2, cut = whole + 7;
    for (size_t at = 0; at < 2; at++) {
        records[at * one] = sizeof booking;
        memcpy(records + at * one + 2, booking, sizeof booking);
    }
    memcpy(records + whole, records, cut - whole);
    memset(answers, 7, sizeof answers);
    Ran ran = events(book, sizeof book, records, cut, answers, JUBAFIYE_SAID_BYTES - 1);
    expect("events, short", ran.refusal == JUBAFIYE_REFUSED_ANSWER_BUFFER && ran.events == 0 && ran.read == 0 && ran.written == 0);
    ran = events(book, sizeof book - 1, records, cut, answers, 0);
    expect("events, refused", ran.refusal == JUBAFIYE_REFUSED_BOOK && ran.events == 0 && ran.read == 0 && ran.written == 0);
    expect("nothing written", answers[0] == 7);
    ran = events(book, sizeof book, records, cut, answers, JUBAFIYE_SAID_BYTES);
    expect("events, room for one", ran.refusal == JUBAFIYE_TAKEN && ran.events == 1 && ran.read == one && ran.written == 6);
    ran = events(book, sizeof book, records + one, cut - one, answers + 6, sizeof answers - 6);
    expect("events, the rest", ran.refusal == JUBAFIYE_TAKEN && ran.events == 2 && ran.read == whole - one && ran.written == 2);
    static const uint8_t said[] = {0, 5, 0, 0, 0, 0, JUBAFIYE_REFUSED_IN_USE, JUBAFIYE_REFUSED_RECORD, 7};
    expect("what was said", memcmp(answers, said, sizeof said) == 0);

    /* Order A could not be sent, which ends it; it goes to the archive, and may not go there twice. */
    static const uint8_t unsent[] = {JUBAFIYE_EVENT_SEND_FAILED, 0x22, 0, 0x10, 0, 3, 0, 1, 'A', 1, 't'};
    expect("an archive", start(archive, sizeof archive, 7) == JUBAFIYE_TAKEN);
    Counted moved = retire(book, sizeof book, archive, sizeof archive);
    expect("retire, none done", moved.refusal == JUBAFIYE_TAKEN && moved.number == 0);
    expect("A ends", event(book, sizeof book, unsent, sizeof unsent, answer, sizeof answer) == JUBAFIYE_TAKEN);
    moved = retire(book, sizeof book - 1, archive, sizeof archive - 1);
    expect("retire, no book", moved.refusal == JUBAFIYE_REFUSED_BOOK && moved.number == 0);
    moved = retire(book, sizeof book, archive, sizeof archive - 1);
    expect("retire, no archive", moved.refusal == JUBAFIYE_REFUSED_BAD_ARCHIVE && moved.number == 0);
    moved = retire(book, sizeof book, archive, sizeof archive);
    expect("retire", moved.refusal == JUBAFIYE_TAKEN && moved.number == 1);
    expect("the book after it", page(book, sizeof book, out, 0).number == 0);
    expect("the archive after it", page(archive, sizeof archive, out, sizeof out).number == JUBAFIYE_PAGE_LINE && out[0] == 'A');
    expect("A again", event(book, sizeof book, booking, sizeof booking, answer, sizeof answer) == JUBAFIYE_TAKEN &&
                          event(book, sizeof book, unsent, sizeof unsent, answer, sizeof answer) == JUBAFIYE_TAKEN);
    moved = retire(book, sizeof book, archive, sizeof archive);
    expect("retire, in the archive", moved.refusal == JUBAFIYE_REFUSED_IN_ARCHIVE && moved.number == 0);

    if (!failed) {
        printf("calls: each function from C\n");
    }
    return failed;
}
