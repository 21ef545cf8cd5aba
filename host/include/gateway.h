/* The proved order book: twelve functions over lent slices, each a pointer and then a length. docs/SCOPE.md says what they do,
 * docs/LAYOUT.md has the book's bytes.
 *
 * Each pointer must be valid for its length, and the slices of one call must not overlap. Any bytes may be passed. A call
 * that returns a refusal other than 0 has written nothing. The library keeps nothing between calls and allocates nothing, so
 * that books may be used side by side, each by one thread at a time. It is for x86-64 Linux and needs memcpy and memset. */
#ifndef JUBAFIYE_GATEWAY_H
#define JUBAFIYE_GATEWAY_H

#include <stddef.h>
#include <stdint.h>

#ifdef __cplusplus
extern "C" {
#endif

/* The functions have the library's own names. Such names may be another shared object's too, and the linker would hand it ours:
 * host/prefix makes a copy of the library in which each begins with jubafiye_, and a program that links the copy defines
 * JUBAFIYE_PREFIXED before it includes this file. */
#ifndef JUBAFIYE_FUNCTION
#ifdef JUBAFIYE_PREFIXED
#define JUBAFIYE_FUNCTION(name) jubafiye_##name
#else
#define JUBAFIYE_FUNCTION(name) name
#endif
#endif

/* The version of library and header (CHANGELOG.md), and of the book's layout (docs/LAYOUT.md, Version): the bytes of a book do not
 * say theirs, so that whoever stores a book stores this number beside it. */
#define JUBAFIYE_VERSION "0.1.2"
#define JUBAFIYE_LAYOUT_VERSION 1

#define JUBAFIYE_BOOK_BYTES 65536
#define JUBAFIYE_ANSWER_BYTES 1024
#define JUBAFIYE_SAID_BYTES 1025 /* the most that one of many events says: its refusal and an answer */
#define JUBAFIYE_PAGE_LINE 81
#define JUBAFIYE_PAGE_BYTES 5184 /* the most that the page of any book has: 64 lines */
#define JUBAFIYE_NET_LINE 27
#define JUBAFIYE_NET_BYTES 1728 /* what the lines of the net position need, whatever the book: 64 */
#define JUBAFIYE_NET_SCRATCH 1  /* the numbers that its scratch needs */
#define JUBAFIYE_MARK_NAME 32   /* a place: a name, filled with zeros, and the image of a book */
#define JUBAFIYE_PLACE_BYTES 65568
#define JUBAFIYE_CHAIN_ENTRY 34
#define JUBAFIYE_CHAIN_BYTES 8704 /* the most that the chain of any ClOrdID has: 256 entries */

/* Makes an empty book. setting: the most ClOrdIDs that a client may use, the reserve included.
 * Returns 0, or 1 if the book has another length. */
uint32_t JUBAFIYE_FUNCTION(start)(uint8_t *book, size_t book_len, uint32_t setting);

/* Takes one event record and writes the answer to the front of the answer buffer; the bytes behind the answer stay as they
 * are. Returns 0, or the number of the first question that is answered with no, JUBAFIYE_REFUSED_BOOK to
 * JUBAFIYE_REFUSED_FULL. */
uint32_t JUBAFIYE_FUNCTION(event)(uint8_t *book, size_t book_len, const uint8_t *record, size_t record_len, uint8_t *answer,
               size_t answer_len);

/* A refusal, or 0 and what many events in one call came to. With a refusal the numbers are 0. */
typedef struct {
    uint32_t refusal;
    uint64_t events;  /* how many were run, refused ones too */
    uint64_t read;    /* the bytes of the records that they took */
    uint64_t written; /* the bytes of the answers that they wrote */
} Ran;

/* Runs records that stand one after the other, each after its length in 2 bytes (little-endian), as `event` runs each on the book
 * that the one before it left; but the book's rules are asked once. A length of 0 is a record too, which is refused with 3. For
 * each record the answers get a byte with its refusal, 0 or JUBAFIYE_REFUSED_RECORD to JUBAFIYE_REFUSED_FULL, and, if that is 0,
 * its answer, whose first two bytes are its length; a refused event does not end the list. The bytes behind `written` stay as
 * they are. Refused with JUBAFIYE_REFUSED_BOOK, then with JUBAFIYE_REFUSED_ANSWER_BUFFER if answers is shorter than
 * JUBAFIYE_SAID_BYTES, whatever the records.
 *
 * It goes on as long as a whole record is there and JUBAFIYE_SAID_BYTES of answers are left. It stopped for want of room exactly
 * if fewer than JUBAFIYE_SAID_BYTES of answers are left; otherwise what is left of the records, if anything, is one that is cut.
 * Either way the next call starts at `read`: with new room, and with the rest of a cut record behind it. A length may be any, up
 * to 65,535: a host whose own buffer is shorter than 65,537 bytes must treat a length that cannot fit as garbage, or it waits for
 * ever. */
Ran JUBAFIYE_FUNCTION(events)(uint8_t *book, size_t book_len, const uint8_t *records, size_t records_len, uint8_t *answers,
               size_t answers_len);

/* Returns 0 if the book has its length and keeps its rules, else 1. */
uint32_t JUBAFIYE_FUNCTION(check)(const uint8_t *book, size_t book_len);

/* A refusal, or 0 and the number that was asked for. With a refusal the number is 0. */
typedef struct {
    uint32_t refusal;
    uint32_t number;
} Counted;

/* Prints the evening page to the front of out; the bytes behind the page stay as they are. Each order, done or not, in booking
 * order, has a line of 80 columns and a line feed. Columns 1 to 20 have the name and 21 to 36 the symbol, from the left and
 * filled with blanks, a byte below 32 as a blank; 37 has the status; 38 to 79 have ordered, cumulative and leaves quantity,
 * each right-aligned in 14 columns with four decimals; 80 is a blank. The number is the page's length. Refused with
 * JUBAFIYE_REFUSED_BOOK, then with JUBAFIYE_REFUSED_PAGE_BUFFER if out is shorter than 81 bytes for each order. */
Counted JUBAFIYE_FUNCTION(page)(const uint8_t *book, size_t book_len, uint8_t *out, size_t out_len);

/* A refusal, or 0 and a client's open quantity. With a refusal the quantity is 0. */
typedef struct {
    uint32_t refusal;
    uint64_t quantity;
} Opened;

/* A client's open quantity, a count of 1/10,000: the sum of LeavesQty over its orders, 0 if it has none. Refused with
 * JUBAFIYE_REFUSED_BOOK alone. */
Opened JUBAFIYE_FUNCTION(open_quantity)(const uint8_t *book, size_t book_len, uint16_t client);

/* Writes the net position to the front of lines; the bytes behind it stay as they are. There is a line for each client and
 * symbol that has an order, by first booking: the client (2 bytes), the symbol as its length (1) and 16 bytes filled with zeros,
 * and the net (8), which is what was bought less what was sold, short sales as sales, over all orders, done ones included, as a
 * count of 1/10,000 in two's complement. The number is how many lines there are. What the scratch then holds is unspecified.
 * Refused with JUBAFIYE_REFUSED_BOOK, then with JUBAFIYE_REFUSED_NET_BUFFERS if count is below JUBAFIYE_NET_SCRATCH or lines_len
 * below JUBAFIYE_NET_BYTES, whatever the book; neither scratch nor lines has then changed. */
Counted JUBAFIYE_FUNCTION(net_position)(const uint8_t *book, size_t book_len, uint64_t *scratch, size_t count, uint8_t *lines,
                     size_t lines_len);

/* Sets a mark in a buffer of whole places of JUBAFIYE_PLACE_BYTES (a last part that is shorter is not used): the name, filled
 * with zeros, and the book's image go to the first place of that name, else to the first free one, whose name is all zero. No
 * other byte changes. A place whose name is malformed belongs to nobody. Refused with JUBAFIYE_REFUSED_BOOK, then with
 * JUBAFIYE_REFUSED_MARK_NAME if the name is not 1 to 16 letters or digits, then with JUBAFIYE_REFUSED_NO_PLACE if no place has
 * that name and none is free. */
uint32_t JUBAFIYE_FUNCTION(set_mark)(const uint8_t *book, size_t book_len, const uint8_t *name, size_t name_len, uint8_t *places,
                  size_t places_len);

/* Makes the book the image of a mark: the first place of that name whose image keeps the book's rules, byte for byte. The report
 * sequences are the image's again, so that ExecIDs that were sent before come again with other contents. Refused with
 * JUBAFIYE_REFUSED_BOOK, then with JUBAFIYE_REFUSED_MARK_NAME, then with JUBAFIYE_REFUSED_NO_MARK if there is no such place. */
uint32_t JUBAFIYE_FUNCTION(return_to_mark)(uint8_t *book, size_t book_len, const uint8_t *name, size_t name_len, const uint8_t *places,
                        size_t places_len);

/* A refusal, or 0 and what an event will need. With a refusal all else is 0. */
typedef struct {
    uint32_t refusal;
    uint32_t length;        /* the bytes of the answer, its head included */
    uint32_t messages;      /* the messages in it, 0 to 2 */
    uint32_t requests;      /* the request records that the event adds to the book, 0 or 1 */
    uint32_t fields_first;  /* the fields of the first message, 0 if there is none: the bits of its map */
    uint32_t fields_second; /* the fields of the second */
} Needs;

/* What the event in a record will need: the numbers of `event` on the same book and record with an answer buffer of
 * JUBAFIYE_ANSWER_BYTES. The refusal is the one that it would return, never JUBAFIYE_REFUSED_ANSWER_BUFFER. Nothing changes. */
Needs JUBAFIYE_FUNCTION(needs)(const uint8_t *book, size_t book_len, const uint8_t *record, size_t record_len);

/* Writes the chain of a client's ClOrdID to the front of list; the bytes behind it stay as they are. The chain is that name,
 * the one that its request's OrigClOrdID names, and so on back to the first. An entry has the name as its length (1 byte) and 32
 * bytes filled with zeros, and what its request came to (1), a JUBAFIYE_OUTCOME. The number is how many entries there are; it is
 * 0 for a name that the client never used, whatever its length. Refused with JUBAFIYE_REFUSED_BOOK, then with
 * JUBAFIYE_REFUSED_CHAIN_LIST if list cannot hold the whole chain. */
Counted JUBAFIYE_FUNCTION(chain)(const uint8_t *book, size_t book_len, uint16_t client, const uint8_t *name, size_t name_len, uint8_t *list,
              size_t list_len);

/* Moves every done order with all its requests from the book to the archive, which is a book too: any that keeps its rules, a
 * fresh one from `start` for instance. They go behind what it holds, orders in booking order and requests in the order of sending;
 * the live orders stay, in order, with theirs, and the records that become free are zeros. Both keep their settings. Page, net
 * position, chain and check serve an archive as any book. The number is how many orders were moved; with none done it is 0, and
 * nothing changes.
 *
 * Refused with JUBAFIYE_REFUSED_BOOK, then with JUBAFIYE_REFUSED_BAD_ARCHIVE if the archive has another length or does not keep
 * its rules, then with JUBAFIYE_REFUSED_IN_ARCHIVE if the name of a done order, or a ClOrdID of one for the same client, stands in
 * the archive, then with JUBAFIYE_REFUSED_FULL_ARCHIVE if the archive has no room for all of them. Either all done orders move or
 * none. A fresh archive gets neither of the last two, and so is the way out of both.
 *
 * The book does not know what it has retired: a name and a ClOrdID that were retired must not be used again, and a mark that was
 * set before must be returned to with the archive as it was then. Both are the host's to see to (host/README.md, A day of 50,000
 * orders). The call takes 64 KiB of stack beside what `event` takes. */
Counted JUBAFIYE_FUNCTION(retire)(uint8_t *book, size_t book_len, uint8_t *archive, size_t archive_len);

/* What a request came to: open until it is settled; from then on it stays what it became. */
enum {
    JUBAFIYE_OUTCOME_OPEN = 0,
    JUBAFIYE_OUTCOME_ACCEPTED = 1,
    JUBAFIYE_OUTCOME_REFUSED = 2,
    JUBAFIYE_OUTCOME_FAILED_TO_SEND = 3
};

/* What the functions return. */
enum {
    JUBAFIYE_TAKEN = 0,
    JUBAFIYE_REFUSED_BOOK = 1,          /* the book has another length or does not keep its rules */
    JUBAFIYE_REFUSED_ANSWER_BUFFER = 2, /* the answer buffer is shorter than JUBAFIYE_ANSWER_BYTES */
    JUBAFIYE_REFUSED_RECORD = 3,        /* the record does not read whole */
    JUBAFIYE_REFUSED_RANGE = 4,         /* a field is out of its range, or a code is not listed */
    JUBAFIYE_REFUSED_IN_USE = 5,        /* a booking's order name or ClOrdID is in use */
    JUBAFIYE_REFUSED_PRICE = 6,         /* a price without a limit, or a limit without a price */
    JUBAFIYE_REFUSED_FULL = 7,          /* no free order or request record */
    JUBAFIYE_REFUSED_PAGE_BUFFER = 8,   /* the page's buffer is shorter than JUBAFIYE_PAGE_LINE bytes for each order */
    JUBAFIYE_REFUSED_NET_BUFFERS = 11,  /* the net position's scratch or output is smaller than it must be */
    JUBAFIYE_REFUSED_CHAIN_LIST = 12,   /* the list cannot hold the whole chain of the ClOrdID */
    JUBAFIYE_REFUSED_MARK_NAME = 13,    /* a mark's name is not 1 to 16 letters or digits */
    JUBAFIYE_REFUSED_NO_MARK = 14,      /* no mark of that name has an image that keeps the book's rules */
    JUBAFIYE_REFUSED_NO_PLACE = 15,     /* no place is free for a mark of a new name */
    JUBAFIYE_REFUSED_BAD_ARCHIVE = 16,  /* the archive has another length or does not keep its rules */
    JUBAFIYE_REFUSED_IN_ARCHIVE = 17,   /* the name or a ClOrdID of a done order stands in the archive */
    JUBAFIYE_REFUSED_FULL_ARCHIVE = 18  /* the archive has no room for all done orders and their requests */
};

/* A record: a kind (1 byte), a map of 32 bits (4 bytes), then the fields whose bit is set, in bit order. All numbers are
 * little-endian; a text is a length byte and as many bytes. */

/* Kinds of events: the bits that the record must have; those that it may have. */
enum {
    JUBAFIYE_EVENT_BOOK = 1,             /* 0 1 2 3 6 7 8 9; 10 11 */
    JUBAFIYE_EVENT_CANCEL = 2,           /* 0 3 4 6 7; 21 */
    JUBAFIYE_EVENT_REPLACE = 3,          /* 0 3 4 6 7 9 23; 8 10 11 21 22 */
    JUBAFIYE_EVENT_VENUE_REPORT = 4,     /* 1 5 12 14 15 16 17; 13 18 19 20 */
    JUBAFIYE_EVENT_UNKNOWN_AT_VENUE = 5, /* 1 5 */
    JUBAFIYE_EVENT_CANCEL_REJECT = 6,    /* 1 5; 13 18 19 20 */
    JUBAFIYE_EVENT_SEND_FAILED = 7,      /* 1 5 20 */
    JUBAFIYE_EVENT_SEND_AGAIN = 8,       /* 1 5 */
    JUBAFIYE_EVENT_GATEWAY_CANCEL = 9    /* 2 */
};

/* Kinds of messages: the bits that the record has; those that it may have. */
enum {
    JUBAFIYE_MESSAGE_REPORT = 16,        /* 0 2 3 6 7 8 9 12 13 14 16 17 24 25 26 31; 4 10 11, 20 or 27, 19 with 28 */
    JUBAFIYE_MESSAGE_CANCEL_REJECT = 17, /* 0 3 4 13 19 28 29, 20 or 27; 2 */
    JUBAFIYE_MESSAGE_NEW_ORDER = 18,     /* 1 5 6 7 8 9; 10 11 */
    JUBAFIYE_MESSAGE_CANCEL = 19,        /* 1 5 6 7 8 9 30; 10 11 18 */
    JUBAFIYE_MESSAGE_REPLACE = 20        /* 1 5 6 7 8 9 30; 10 11 18 */
};

/* An answer: its length (2 bytes, these included), the count of messages (1 byte, 0 to 2), an alarm (1 byte), a second
 * alarm (1 byte), then the messages. Two alarms are FILLED_SHORT and STUCK_CANCEL, in this order. */
enum {
    JUBAFIYE_ALARM_NONE = 0,
    JUBAFIYE_ALARM_STUCK_CANCEL = 1,       /* the gateway has given up cancelling an order */
    JUBAFIYE_ALARM_OVERFILL = 2,           /* a venue reported more than was ordered; nothing was applied */
    JUBAFIYE_ALARM_UNKNOWN_ORDER = 3,      /* a venue named an order or request that is not known */
    JUBAFIYE_ALARM_UNKNOWN_AT_VENUE = 4,   /* a venue does not know an order that is live here */
    JUBAFIYE_ALARM_FILL_ON_DONE_ORDER = 5, /* a venue reported a fill on an order that is done; nothing was applied */
    JUBAFIYE_ALARM_FILLED_SHORT = 6        /* a venue called an order filled below its quantity; it stays live */
};

/* Fields by their bit: how many bytes, or a text with the lengths that it may have. A code is FIX 4.4's, in ASCII. */
enum {
    JUBAFIYE_CLIENT = 0,           /* 2 */
    JUBAFIYE_VENUE = 1,            /* 2 */
    JUBAFIYE_NAME = 2,             /* text 1 to 20: letters and digits, not NONE */
    JUBAFIYE_CL_ORD_ID = 3,        /* text 1 to 32 */
    JUBAFIYE_ORIG_CL_ORD_ID = 4,   /* text 1 to 32 */
    JUBAFIYE_DOWNSTREAM = 5,       /* text 1 to 32 */
    JUBAFIYE_SYMBOL = 6,           /* text 1 to 16 */
    JUBAFIYE_SIDE = 7,             /* 1: 1 2 5 */
    JUBAFIYE_ORD_TYPE = 8,         /* 1: 1 market, 2 limit */
    JUBAFIYE_QTY = 9,              /* 8: a count of 1/10,000, 0 to 10^12 */
    JUBAFIYE_PRICE = 10,           /* 8: a count of 10^-8, 0 to 10^14 */
    JUBAFIYE_TIME_IN_FORCE = 11,   /* 1: 0 1 3 4 */
    JUBAFIYE_EXEC_TYPE = 12,       /* 1: A 0 F 6 4 E 5 8 C D 3 I */
    JUBAFIYE_ORD_STATUS = 13,      /* 1: A 0 1 2 6 E 4 C 8, and 3 done for the day: live, LeavesQty 0 */
    JUBAFIYE_LAST_QTY = 14,        /* 8: as QTY */
    JUBAFIYE_LAST_PX = 15,         /* 8: as PRICE */
    JUBAFIYE_CUM_QTY = 16,         /* 8: as QTY */
    JUBAFIYE_AVG_PX = 17,          /* 8: as PRICE */
    JUBAFIYE_VENUE_ORDER_ID = 18,  /* text 0 to 32 */
    JUBAFIYE_REASON = 19,          /* 4 */
    JUBAFIYE_TEXT = 20,            /* text 1 to 64 */
    JUBAFIYE_REDELIVERED = 21,     /* no byte */
    JUBAFIYE_BLOCKED = 22,         /* no byte */
    JUBAFIYE_VERDICT = 23,         /* 1: 0 pass, or 1 to 7 */
    JUBAFIYE_LEAVES_QTY = 24,      /* 8: as QTY; this field and those below in messages alone */
    JUBAFIYE_EXEC_SEQ = 25,        /* 8: the number of the report among the order's */
    JUBAFIYE_FILL_PRICE = 26,      /* 16: a count of 10^-8 */
    JUBAFIYE_FIXED_TEXT = 27,      /* 1: 1 to 18 */
    JUBAFIYE_ORIGIN = 28,          /* 1: whose the reason is, 1 ours, 2 the venue's */
    JUBAFIYE_RESPONSE_TO = 29,     /* 1: 1 cancel, 2 replace */
    JUBAFIYE_ORIG_DOWNSTREAM = 30, /* text 1 to 32 */
    JUBAFIYE_PRICE_SOURCE = 31     /* 1: FILL_PRICE is 1 the venue's LastPx, 2 the implied quotient, 3 the average;
                                    * 0 if no venue's report set it */
};

#ifdef __cplusplus
}
#endif

#endif
