/* The replay text (docs/REPLAY.md) of answers and states. */
#ifndef SWIM_TEXT_H
#define SWIM_TEXT_H
#include "swim.h"
#include <inttypes.h>
#include <stdio.h>
#include <stdlib.h>
#include <string.h>
#define U PRIu64
#ifndef SWIM_OUT
#define SWIM_OUT stdout /* where the text goes */
#endif

static const char *const waits_[] = {"ping", "ack", "req", "reqack", "dead"};
static const char *const verbs_[] = {"?", "ping", "req", "ack"};
static const char *const reasons_[] = {"none", "own", "unknown", "equal", "low", "raised", "accepted"};

static inline void put_address(const swim_address *a) {
    uint64_t family = a->first >> 16, port = a->first & 65535;
    if (swim_is_absent(a)) fputs("-", SWIM_OUT);
    else if (family == 4 && a->high == 0 && a->low < ((uint64_t)1 << 48)) fprintf(SWIM_OUT, "%" U, a->low * 65536 + port);
    else if (family == 6) fprintf(SWIM_OUT, "%" U ".%" U ".%" U, a->high, a->low, port);
    else fprintf(SWIM_OUT, "%" U ".%" U ".%" U ".%" U, family, a->high, a->low, port);
}
static inline void put_record(const swim_record *r) {
    if (r->kind == SWIM_NOTHING) { fputs("n", SWIM_OUT); return; }
    fprintf(SWIM_OUT, "%c:", "njrsd"[r->kind]);
    put_address(&r->from);
    fputs(":", SWIM_OUT);
    put_address(&r->subject);
    fprintf(SWIM_OUT, ":%" U, r->number);
}
static inline void put_heap(const char *letter, const swim_entry *e, uint64_t used) {
    fputs(letter, SWIM_OUT);
    for (uint64_t i = 0; i < used; i++) {
        fputs(" ", SWIM_OUT);
        put_record(&e[i].record);
        fprintf(SWIM_OUT, "*%" U "/%" U, e[i].sends, e[i].size);
    }
    fputs("\n", SWIM_OUT);
}
/* By the calls, not by the words: what the lookups and the lamps answer is held to what replay shows. */
static inline void put_list(const swim_node *n) {
    uint64_t count = 0;
    swim_member found;
    swim_lamps lamps;
    swim_how_many(n, &count);
    fprintf(SWIM_OUT, "@ %" U, n->position);
    for (uint64_t i = 0; i < count; i++)
        if (swim_look_up(n, &n->order[i], &found) == SWIM_KEPT) {
            fputs(" ", SWIM_OUT);
            put_address(&found.address);
            fprintf(SWIM_OUT, ":%c:%" U, "aps"[found.state], found.number);
        }
    swim_lamps_of(n, &lamps);
    fprintf(SWIM_OUT, "\nl %" U " %" U " %" U "\n", lamps.alive, lamps.pending, lamps.suspected);
}
static inline void put_state(const swim_node *n, const swim_wait *w) {
    put_list(n);
    put_heap("+", n->alive, n->alive_used);
    put_heap("x", n->deceased, n->deceased_used);
    fputs("t", SWIM_OUT);
    for (uint64_t i = 0; i < n->timers_used; i++) {
        fputs(" ", SWIM_OUT);
        put_address(&n->timers[i].address);
        fprintf(SWIM_OUT, ":%" U ":%" U, n->timers[i].number, n->timers[i].since);
    }
    fprintf(SWIM_OUT, "\nw %s ", waits_[w->state]);
    if (w->state) {
        put_address(&w->target);
        fprintf(SWIM_OUT, " %" U " ", w->number);
    }
    fprintf(SWIM_OUT, "%" U "\nd", w->since);
    for (uint64_t i = 0; i < n->departed_used; i++) {
        fputs(" ", SWIM_OUT);
        put_address(&n->departed[i].address);
        fprintf(SWIM_OUT, ":%" U, n->departed[i].number);
    }
    fputs("\n", SWIM_OUT);
}
static inline void put_reply(uint64_t code, const swim_counts *c) {
    uint64_t number = swim_number(code), place = swim_place(code);
    if (number == SWIM_KEPT && c->fate == SWIM_REFUTED) fputs("= refuted\n", SWIM_OUT);
    else if (number == SWIM_KEPT && c->fate == SWIM_GONE) fputs("= gone\n", SWIM_OUT);
    else if (number == SWIM_KEPT) fprintf(SWIM_OUT, "= ok %" U "\n", c->used);
    else if (number == SWIM_ALREADY) fputs("= already\n", SWIM_OUT);
    else if (number == SWIM_NOT_DUE) fputs("= notdue\n", SWIM_OUT);
    else if (place == SWIM_SENDER) fprintf(SWIM_OUT, "= refused %" U " sender\n", number);
    else if (place) fprintf(SWIM_OUT, "= refused %" U " %" U "\n", number, place - 1);
    else fprintf(SWIM_OUT, "= refused %" U "\n", number);
}
static inline void put_letters(uint64_t sent, const swim_letter *l, const swim_record *gossip) {
    for (uint64_t i = 0; i < sent; i++) {
        fputs("> ", SWIM_OUT);
        put_address(&l[i].target);
        fprintf(SWIM_OUT, " %s ", verbs_[l[i].action.kind]);
        put_address(&l[i].action.from);
        fputs(" ", SWIM_OUT);
        put_address(&l[i].action.other);
        for (uint64_t j = 0; j < l[i].count; j++) {
            fputs(" ", SWIM_OUT);
            put_record(gossip++);
        }
        fputs("\n", SWIM_OUT);
    }
}
static inline void put_answer(uint64_t code, const swim_node *n, const swim_counts *c, const swim_letter *l, const swim_record *gossip,
                       const swim_record *events) {
    put_reply(code, c);
    put_letters(c->sent, l, gossip);
    for (uint64_t i = 0; i < c->reported; i++) {
        fputs("! ", SWIM_OUT);
        put_record(&events[i]);
        fputs("\n", SWIM_OUT);
    }
    if (n->settings.collect && code == SWIM_KEPT && !c->fate) fprintf(SWIM_OUT, "~ %" U "\n", c->collected);
}
static inline void put_maybe(const swim_maybe *m) {
    if (m->there) fprintf(SWIM_OUT, " %" U, m->number);
    else fputs(" -", SWIM_OUT);
}
static inline void put_grounds(const swim_grounds *g) {
    fprintf(SWIM_OUT, "= why %s", reasons_[g->reason]);
    put_maybe(&g->held);
    put_maybe(&g->own);
    put_maybe(&g->dead);
    fputs("\n", SWIM_OUT);
}
#endif
