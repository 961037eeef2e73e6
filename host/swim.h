/* Gillhammock: one SWIM node, for C and C++. The caller owns every byte: the library keeps no state, allocates nothing, and calls nothing
   but memcpy, memmove and memset. No two pointers of one call may overlap; every pointer is aligned as a uint64_t. A row is a pointer and
   how many elements it has, of 64 bits on every machine.

   Every call answers a code. Its low eight bits, swim_number(code), are 0 where the call was kept, 1 to 16 for a refusal, 20 to 22 where
   there was nothing to do. A call that isn't kept touches nothing but its counts, which become zeros. Words that no value has are refused
   like any other: in a node by 2, in an input by 5, in settings by 1.

   What a call writes is exactly the node that the next one reads; keep it, and never change a word of it. */
#ifndef SWIM_H
#define SWIM_H
#include <stddef.h>
#include <stdint.h>
#ifdef __cplusplus
#define SWIM_SIZE(type, words) static_assert(sizeof(type) == 8 * (words), #type " is a row of words")
extern "C" {
#else
#define SWIM_SIZE(type, words) _Static_assert(sizeof(type) == 8 * (words), #type " is a row of words")
#endif

/* Codes. */
enum {
    SWIM_KEPT = 0,
    SWIM_SETTING = 1,        /* a setting is out of its range */
    SWIM_UNSOUND = 2,        /* the node isn't one that a call has written */
    SWIM_SHORT_ROW = 3,      /* a row lent for output is too short */
    SWIM_MANY_RECORDS = 4,   /* more than 64 records came in */
    SWIM_ADDRESS_RANGE = 5,  /* an address of no family, or of IPv4 with more than 32 bits */
    SWIM_NUMBER_END = 6,     /* a number would pass 2^64 - 1 */
    SWIM_LIST_FULL = 7,      /* 64 are listed */
    SWIM_DRAWS_SHORT = 8,    /* too few draws were lent */
    SWIM_ALIVE_FULL = 9,     /* the alive heap holds 128 */
    SWIM_TIMERS_FULL = 10,   /* 16 timers run */
    SWIM_MALFORMED = 11,     /* the bytes are no datagram; swim_place(code) counts the place from 1 */
    SWIM_NO_ROOM = 12,       /* the row lent for bytes is too short */
    SWIM_DECEASED_FULL = 13, /* the deceased heap holds 128 */
    SWIM_WRONG_MARK = 14,    /* the bytes are no saved list */
    SWIM_WRONG_LENGTH = 15,  /* a saved list of another length than it says */
    SWIM_OUT_OF_RULE = 16,   /* a saved list that no node has */
    SWIM_ALREADY = 20,       /* listed already */
    SWIM_NOT_DUE = 21,       /* nothing is due yet */
    SWIM_NOT_LISTED = 22     /* no such peer */
};
/* Where a message's rules stopped, swim_place(code): 0 nowhere, 1 to 64 at that record, SWIM_SENDER at the sender. */
enum { SWIM_SENDER = 65 };

static inline uint64_t swim_number(uint64_t code) { return code & 255; }
static inline uint64_t swim_place(uint64_t code) { return code >> 8; }

/* An address: family * 65536 + port, then its 128 bits; those of IPv4 stand in the last 32. All zeros: an unused place. */
typedef struct swim_address { uint64_t first, high, low; } swim_address;

static inline swim_address swim_ip4(uint32_t ip, uint16_t port) {
    swim_address a;
    a.first = 4 * 65536 + (uint64_t)port, a.high = 0, a.low = ip;
    return a;
}
static inline swim_address swim_ip6(uint64_t high, uint64_t low, uint16_t port) {
    swim_address a;
    a.first = 6 * 65536 + (uint64_t)port, a.high = high, a.low = low;
    return a;
}
/* In an action: there is no other address. */
static inline swim_address swim_absent(void) {
    swim_address a;
    a.first = UINT64_MAX, a.high = 0, a.low = 0;
    return a;
}
static inline int swim_is_absent(const swim_address *a) { return a->first == UINT64_MAX; }

/* Waits in ticks, below 2^31; group 0 to 4; constant 0 to 8; selected 1 to 64; size 111 to 1169; switches 0 or 1. */
typedef struct swim_settings {
    uint64_t ping_interval, ping_timeout, ping_req_timeout, suspect_timeout;
    uint64_t group, constant, selected, size;
    uint64_t collect, remember;
} swim_settings;

/* A record of gossip, and an event. All zeros: none. */
enum { SWIM_NOTHING = 0, SWIM_JOINED = 1, SWIM_RECOVERED = 2, SWIM_SUSPECTED = 3, SWIM_DECEASED = 4 };
typedef struct swim_record { uint64_t kind; swim_address from, subject; uint64_t number; } swim_record;
typedef struct swim_entry { swim_record record; uint64_t sends, size; } swim_entry;

enum { SWIM_IS_ALIVE = 0, SWIM_IS_PENDING = 1, SWIM_IS_SUSPECTED = 2 };
typedef struct swim_member { swim_address address; uint64_t state, number; } swim_member;
typedef struct swim_timer { swim_address address; uint64_t number, since; } swim_timer;
typedef struct swim_departed { swim_address address; uint64_t number; } swim_departed;
typedef struct swim_lamps { uint64_t alive, pending, suspected; } swim_lamps;

/* `other` is requested_by of a ping and forward_to of an ack, each may be absent, and the suspect of a request. */
enum { SWIM_PING = 1, SWIM_PING_REQ = 2, SWIM_ACK = 3 };
typedef struct swim_action { uint64_t kind; swim_address from, other; } swim_action;

/* A message to send: `count` records of the gossip row go with it, behind those of the letters before it. */
typedef struct swim_letter { swim_address target; swim_action action; uint64_t count; } swim_letter;

/* The detector's wait record. A fresh one is all zeros but for the tick, swim_fresh(tick). */
enum { SWIM_SENDING_PING = 0, SWIM_WAITING_ACK = 1, SWIM_SENDING_REQ = 2, SWIM_WAITING_REQ_ACK = 3, SWIM_DECLARING = 4 };
typedef struct swim_wait { uint64_t state; swim_address target; uint64_t number, since; } swim_wait;

static inline swim_wait swim_fresh(uint32_t tick) {
    swim_wait w;
    w.state = SWIM_SENDING_PING, w.target.first = 0, w.target.high = 0, w.target.low = 0, w.number = 0, w.since = tick;
    return w;
}

/* What a call did: draws used, letters sent, records written, events reported, old news collected; and of a timer that ended what became
   of its address. */
enum { SWIM_LEFT = 0, SWIM_REFUTED = 1, SWIM_GONE = 2 };
typedef struct swim_counts { uint64_t used, sent, written, reported, collected, fate; } swim_counts;

/* Why a record is decided as it is: the reason, then numbers, each 0 and 0 where there is none, else 1 and the number. */
enum { SWIM_BY_NONE = 0, SWIM_BY_OWN = 1, SWIM_BY_UNKNOWN = 2, SWIM_BY_EQUAL = 3, SWIM_BY_LOW = 4, SWIM_BY_RAISED = 5, SWIM_BY_ACCEPTED = 6 };
typedef struct swim_maybe { uint64_t there, number; } swim_maybe;
typedef struct swim_grounds { uint64_t reason; swim_maybe held, own, dead; } swim_grounds;

/* What a salvage gave: bytes written, the count as it stands in the image, places read; and what is said of a place. */
enum { SWIM_SAID_CUT = 0, SWIM_SAID_ADDRESS = 1, SWIM_SAID_STATE = 2, SWIM_SAID_REPEAT = 3, SWIM_SAID_KEPT = 4 };
typedef struct swim_salvaged { uint64_t written, count, places; } swim_salvaged;

/* A node. The lamps stand at a fixed place: a panel may read them there without a call. */
typedef struct swim_node {
    swim_settings settings;
    swim_address own;
    uint64_t listed, position;
    swim_lamps lamps;
    uint64_t alive_used, deceased_used, timers_used, departed_used;
    swim_address order[64];
    swim_member members[64];
    swim_entry alive[128], deceased[128];
    swim_timer timers[16];
    swim_departed departed[128];
} swim_node;

SWIM_SIZE(swim_address, 3);
SWIM_SIZE(swim_settings, 10);
SWIM_SIZE(swim_record, 8);
SWIM_SIZE(swim_entry, 10);
SWIM_SIZE(swim_member, 5);
SWIM_SIZE(swim_timer, 5);
SWIM_SIZE(swim_departed, 4);
SWIM_SIZE(swim_lamps, 3);
SWIM_SIZE(swim_action, 7);
SWIM_SIZE(swim_letter, 11);
SWIM_SIZE(swim_wait, 6);
SWIM_SIZE(swim_counts, 6);
SWIM_SIZE(swim_maybe, 2);
SWIM_SIZE(swim_grounds, 7);
SWIM_SIZE(swim_salvaged, 3);
SWIM_SIZE(swim_node, 22 + 64 * 3 + 64 * 5 + 2 * 128 * 10 + 16 * 5 + 128 * 4);

/* The rows that a call needs for its output. */
enum { SWIM_LETTERS = 4, SWIM_MESSAGE_GOSSIP = 64, SWIM_MESSAGE_EVENTS = 65, SWIM_STEP_GOSSIP = 256, SWIM_STEP_EVENTS = 1, SWIM_TIMER_EVENTS = 1 };
/* Bytes that are always enough: of a saved list, and of a datagram. */
enum { SWIM_IMAGE = 1818, SWIM_DATAGRAM = 1536 };

/* The exported functions, over words. */
#define SWIM_W uint64_t *head, uint64_t *order, uint64_t *members, uint64_t *alive, uint64_t *deceased, uint64_t *timers, uint64_t *departed
#define SWIM_R \
    const uint64_t *head, const uint64_t *order, const uint64_t *members, const uint64_t *alive, const uint64_t *deceased, \
        const uint64_t *timers, const uint64_t *departed
uint64_t swim_words_create(SWIM_W, const uint64_t *settings, const uint64_t *own, uint64_t number);
uint64_t swim_words_add_peer(SWIM_W, const uint64_t *peer, uint64_t number, const uint64_t *draws, uint64_t ndraws, uint64_t *counts);
uint64_t swim_words_receive(SWIM_W, const uint64_t *action, const uint64_t *records, uint64_t nrecords, const uint64_t *draws,
                            uint64_t ndraws, uint64_t *gossip, uint64_t ngossip, uint64_t *events, uint64_t nevents, uint64_t *letters,
                            uint64_t *counts);
uint64_t swim_words_step(SWIM_W, uint64_t *wait, uint32_t tick, const uint64_t *draws, uint64_t ndraws, uint64_t *gossip, uint64_t ngossip,
                         uint64_t *events, uint64_t nevents, uint64_t *letters, uint64_t *counts);
uint64_t swim_words_end_timer(SWIM_W, uint32_t tick, uint64_t *events, uint64_t nevents, uint64_t *counts);
uint64_t swim_words_look_up(SWIM_R, const uint64_t *peer, uint64_t *found);
uint64_t swim_words_member_at(SWIM_R, uint64_t place, uint64_t *found);
uint64_t swim_words_how_many(SWIM_R, uint64_t *count);
uint64_t swim_words_why(SWIM_R, const uint64_t *event, const uint64_t *draws, uint64_t ndraws, uint64_t *grounds);
void swim_words_lamps(const uint64_t *head, uint64_t *lamps);
uint64_t swim_words_save(SWIM_R, uint8_t *out, uint64_t room, uint64_t *count);
uint64_t swim_words_restore(SWIM_W, uint64_t *wait, const uint8_t *bytes, uint64_t nbytes, const uint64_t *settings, uint32_t tick);
uint64_t swim_words_salvage(const uint8_t *bytes, uint64_t nbytes, uint8_t *out, uint64_t room, uint64_t *said, uint64_t *counts);
uint64_t swim_words_read(const uint8_t *bytes, uint64_t nbytes, uint64_t *action, uint64_t *records, uint64_t nrecords, uint64_t *count);
uint64_t swim_words_write(const uint64_t *action, const uint64_t *records, uint64_t nrecords, uint8_t *out, uint64_t room, uint64_t *count);

#define SWIM_ROWS(to, n) \
    (to *)&(n)->settings, (to *)(n)->order, (to *)(n)->members, (to *)(n)->alive, (to *)(n)->deceased, (to *)(n)->timers, (to *)(n)->departed
typedef const uint64_t swim_word;

/* A node that lists itself, Alive at `number`. Refusals 5, 1. */
static inline uint64_t swim_create(swim_node *n, const swim_settings *settings, const swim_address *own, uint64_t number) {
    return swim_words_create(SWIM_ROWS(uint64_t, n), (swim_word *)settings, (swim_word *)own, number);
}
/* A peer comes into the list. Refusals 2, 5, SWIM_ALREADY, 7, 8. */
static inline uint64_t swim_add_peer(swim_node *n, const swim_address *peer, uint64_t number, const uint64_t *draws, uint64_t ndraws,
                                     swim_counts *counts) {
    return swim_words_add_peer(SWIM_ROWS(uint64_t, n), (swim_word *)peer, number, draws, ndraws, (uint64_t *)counts);
}
/* A message came in. Lend 64 places for gossip, 65 for events and 4 letters. Refusals 2, 3, 4, 5, then 6 to 9 or
   13, with swim_place. */
static inline uint64_t swim_receive(swim_node *n, const swim_action *action, const swim_record *records, uint64_t nrecords,
                                    const uint64_t *draws, uint64_t ndraws, swim_record *gossip, uint64_t ngossip, swim_record *events,
                                    uint64_t nevents, swim_letter *letters, swim_counts *counts) {
    return swim_words_receive(SWIM_ROWS(uint64_t, n), (swim_word *)action, (swim_word *)records, nrecords, draws, ndraws,
                              (uint64_t *)gossip, ngossip, (uint64_t *)events, nevents, (uint64_t *)letters, (uint64_t *)counts);
}
/* The detector's step. Lend 256 places for gossip, 1 for events and 4 letters. Refusals 2, 3, 5, SWIM_NOT_DUE, then 8, 9 or 10. Refused
   by 9 or 10 it would be refused from the same wait record again: lend swim_fresh(tick), from which it never is (docs/HOST.md). */
static inline uint64_t swim_step(swim_node *n, swim_wait *wait, uint32_t tick, const uint64_t *draws, uint64_t ndraws, swim_record *gossip,
                                 uint64_t ngossip, swim_record *events, uint64_t nevents, swim_letter *letters, swim_counts *counts) {
    return swim_words_step(SWIM_ROWS(uint64_t, n), (uint64_t *)wait, tick, draws, ndraws, (uint64_t *)gossip, ngossip, (uint64_t *)events,
                           nevents, (uint64_t *)letters, (uint64_t *)counts);
}
/* The earliest started timer that is over ends. Lend 1 place for events. Refusals 2, 3, SWIM_NOT_DUE, 13. */
static inline uint64_t swim_end_timer(swim_node *n, uint32_t tick, swim_record *events, uint64_t nevents, swim_counts *counts) {
    return swim_words_end_timer(SWIM_ROWS(uint64_t, n), tick, (uint64_t *)events, nevents, (uint64_t *)counts);
}
/* What the list holds of an address. Refusals 2, 5, SWIM_NOT_LISTED. */
static inline uint64_t swim_look_up(const swim_node *n, const swim_address *peer, swim_member *found) {
    return swim_words_look_up(SWIM_ROWS(swim_word, n), (swim_word *)peer, (uint64_t *)found);
}
/* Who is listed at a place, counted from 0. Refusals 2, SWIM_NOT_LISTED at or past the count. */
static inline uint64_t swim_member_at(const swim_node *n, uint64_t place, swim_member *found) {
    return swim_words_member_at(SWIM_ROWS(swim_word, n), place, (uint64_t *)found);
}
/* How many are listed. Refusal 2. */
static inline uint64_t swim_how_many(const swim_node *n, uint64_t *count) { return swim_words_how_many(SWIM_ROWS(swim_word, n), count); }
/* Which rule would decide a record. Refusals 2, 5, then what swim_receive would meet at this record. */
static inline uint64_t swim_why(const swim_node *n, const swim_record *record, const uint64_t *draws, uint64_t ndraws, swim_grounds *grounds) {
    return swim_words_why(SWIM_ROWS(swim_word, n), (swim_word *)record, draws, ndraws, (uint64_t *)grounds);
}
/* The lamps, as they stand in the node: no test and no refusal. */
static inline void swim_lamps_of(const swim_node *n, swim_lamps *lamps) { swim_words_lamps((swim_word *)&n->settings, (uint64_t *)lamps); }

/* The list, saved: at most SWIM_IMAGE bytes. `count` gets how many. Refusals 2, 12. */
static inline uint64_t swim_save(const swim_node *n, uint8_t *out, uint64_t room, uint64_t *count) {
    return swim_words_save(SWIM_ROWS(swim_word, n), out, room, count);
}
/* A node from a saved list, and a fresh wait record. Refusals 14, 15, 16, 1. */
static inline uint64_t swim_restore(swim_node *n, swim_wait *wait, const uint8_t *bytes, uint64_t nbytes, const swim_settings *settings,
                                    uint32_t tick) {
    return swim_words_restore(SWIM_ROWS(uint64_t, n), (uint64_t *)wait, bytes, nbytes, (swim_word *)settings, tick);
}
/* What can be kept of a damaged saved list, as a saved list, with a word for each place that was read. Refusals 14, 16, 12. */
static inline uint64_t swim_salvage(const uint8_t *bytes, uint64_t nbytes, uint8_t *out, uint64_t room, uint64_t said[64],
                                    swim_salvaged *counts) {
    return swim_words_salvage(bytes, nbytes, out, room, said, (uint64_t *)counts);
}
/* A datagram, read. Lend 64 places for its records; `count` gets how many there are. Refusals 3, 11 with swim_place, 4. */
static inline uint64_t swim_read(const uint8_t *bytes, uint64_t nbytes, swim_action *action, swim_record *records, uint64_t nrecords,
                                 uint64_t *count) {
    return swim_words_read(bytes, nbytes, (uint64_t *)action, (uint64_t *)records, nrecords, count);
}
/* A datagram, written: at most SWIM_DATAGRAM bytes of a message that a node sends. `count` gets how many. Refusals 4, 5, 12. */
static inline uint64_t swim_write(const swim_action *action, const swim_record *records, uint64_t nrecords, uint8_t *out, uint64_t room,
                                  uint64_t *count) {
    return swim_words_write((swim_word *)action, (swim_word *)records, nrecords, out, room, count);
}

#ifdef __cplusplus
}
#endif
#endif
