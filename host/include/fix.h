/* FIX 4.4 messages of the proved order book: a message of an answer written whole, as it is sent, and read back. docs/FIX.md
 * says what is written; records and answers are in docs/SCOPE.md and gateway.h.
 *
 * Each pointer must be valid for its length, and the slices of one call must not overlap. Any bytes may be passed. A call
 * that returns a refusal other than 0 has written nothing. The library, libfix.a, keeps nothing between calls and allocates
 * nothing; it links beside libgateway.a or alone. It is for x86-64 Linux and needs memcpy and memset. */
#ifndef JUBAFIYE_FIX_H
#define JUBAFIYE_FIX_H

#include <stddef.h>
#include <stdint.h>

#ifdef __cplusplus
extern "C" {
#endif

/* As in gateway.h: with JUBAFIYE_PREFIXED defined the functions are those of a copy that host/prefix made. */
#ifndef JUBAFIYE_FUNCTION
#ifdef JUBAFIYE_PREFIXED
#define JUBAFIYE_FUNCTION(name) jubafiye_##name
#else
#define JUBAFIYE_FUNCTION(name) name
#endif
#endif

/* The version of library and header, the same as in gateway.h. */
#define JUBAFIYE_VERSION "0.1.2"

/* A refusal, or 0 and the length of the message. With a refusal the length is 0. */
typedef struct {
    uint32_t refusal;
    uint64_t length;
} Written;

/* Writes a message of an answer, a record of kind 16 to 20, to the front of out; the bytes behind the message stay as they
 * are. sender and target are the session's comp IDs, sequence its number, time the text of SendingTime(52) and
 * TransactTime(60). A room of 512 bytes more than sender, target and twice time together holds any message. Refused, in this
 * order, with JUBAFIYE_FIX_REFUSED_RECORD, _RANGE, _TEXT, _ROOM. */
Written JUBAFIYE_FUNCTION(fix_write)(const uint8_t *record, size_t record_len, const uint8_t *sender, size_t sender_len,
                  const uint8_t *target, size_t target_len, uint64_t sequence, const uint8_t *time, size_t time_len,
                  uint8_t *out, size_t out_len);

/* More than the fields of any message: a report has up to 27. */
#define JUBAFIYE_FIX_FIELDS 32

/* A refusal, or 0 and the fields of a message as they come, header and trailer included: of each the tag, where its value
 * stands in the message, and the value's length. What is past the count, and all with a refusal, is 0. */
typedef struct {
    uint32_t refusal;
    uint32_t count;
    uint32_t tag[JUBAFIYE_FIX_FIELDS];
    uint64_t at[JUBAFIYE_FIX_FIELDS];
    uint64_t length[JUBAFIYE_FIX_FIELDS];
} FixFields;

/* Reads a message as fix_write writes it. Refused with JUBAFIYE_FIX_REFUSED_RECORD exactly if no record and no header are
 * written as these bytes. */
FixFields JUBAFIYE_FUNCTION(fix_read)(const uint8_t *message, size_t message_len);

/* A refusal, or 0 and where a message stands in an answer, and its length. With a refusal both are 0. */
typedef struct {
    uint32_t refusal;
    uint32_t at;
    uint32_t length;
} Place;

/* Where message number n of an answer stands, the first being 0: its record, as fix_write takes it. What is behind the
 * answer's length is not looked at, so that the whole answer buffer may be passed. Refused with JUBAFIYE_FIX_REFUSED_RECORD or
 * _RANGE if the bytes are no answer; if it has no such message, the length is 0, without a refusal. */
Place JUBAFIYE_FUNCTION(message_at)(const uint8_t *answer, size_t answer_len, uint32_t n);

/* What the functions return. */
enum {
    JUBAFIYE_FIX_TAKEN = 0,
    JUBAFIYE_FIX_REFUSED_RECORD = 3, /* the record is no message's, or the bytes are no message that fix_write writes */
    JUBAFIYE_FIX_REFUSED_RANGE = 4,  /* a field is out of its range, or a code is not listed */
    JUBAFIYE_FIX_REFUSED_TEXT = 9,   /* a text of the header or of the message is empty or has a byte below 32 */
    JUBAFIYE_FIX_REFUSED_ROOM = 10   /* out cannot hold the message */
};

#ifdef __cplusplus
}
#endif

#endif
