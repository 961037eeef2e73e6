/* Five nodes in one process, of IPv4 and IPv6; messages go as datagrams, some are lost, and one node is away for a while. Each node's calls are
   written as a script, FOLDER/K.script, and its answers as `replay` writes them, FOLDER/K.answers.
   usage: cluster FOLDER TICKS LOSS_IN_PERCENT */
#include <stdio.h>
static FILE *out_;
#define SWIM_OUT out_
#include "text.h"
enum { NODES = 5, DRAWS = 40, QUEUE = 4096 };

typedef struct { swim_address to; uint64_t length; uint8_t bytes[SWIM_DATAGRAM]; } packet;
static swim_node node[NODES];
static swim_wait wait_[NODES];
static FILE *script[NODES], *answers[NODES];
static packet queue[QUEUE];
static unsigned first, last;
static uint64_t seed = 88172645463325252u, draws[DRAWS];
static swim_record gossip[SWIM_STEP_GOSSIP], events[SWIM_MESSAGE_EVENTS];
static swim_letter letters[SWIM_LETTERS];
static swim_counts counts;
static unsigned long calls, sent, reported, refused, freshened;

static uint64_t random_word(void) {
    seed ^= seed << 13, seed ^= seed >> 7, seed ^= seed << 17;
    return seed;
}
static swim_address address(int k) { return k % 2 ? swim_ip6(0xfe80000000000000u, (uint64_t)k, 7000) : swim_ip4(0x0a000001u + (uint32_t)k, 7000); }
static void draw(FILE *f) {
    fputs(" |", f);
    for (int i = 0; i < DRAWS; i++) fprintf(f, " %" U, draws[i] = random_word() >> 20);
    fputs("\n", f);
}
/* The answer is told, and what it sends becomes datagrams. */
static void answered(int k, uint64_t code) {
    const swim_record *at = gossip;
    out_ = answers[k];
    put_answer(code, &node[k], &counts, letters, gossip, events);
    put_state(&node[k], &wait_[k]);
    calls++, sent += counts.sent, reported += counts.reported, refused += code != SWIM_KEPT && swim_number(code) < SWIM_ALREADY;
    for (uint64_t i = 0; i < counts.sent; at += letters[i].count, i++) {
        packet *p = &queue[last++ % QUEUE];
        p->to = letters[i].target;
        if (swim_write(&letters[i].action, at, letters[i].count, p->bytes, sizeof p->bytes, &p->length)) abort();
    }
}
static void step(int k, uint32_t tick) {
    for (int again = 0; again < 6; again++) {
        fprintf(script[k], "step %" PRIu32, tick), draw(script[k]);
        uint64_t code = swim_step(&node[k], &wait_[k], tick, draws, DRAWS, gossip, SWIM_STEP_GOSSIP, events, SWIM_STEP_EVENTS, letters, &counts);
        answered(k, code);
        if (code == SWIM_ALIVE_FULL) { /* a full heap drains by pings alone: the host lends a fresh wait record */
            fprintf(script[k], "wait ping %" PRIu32 "\n", tick);
            wait_[k] = swim_fresh(tick), freshened++;
        }
        if (code) break;
    }
    fprintf(script[k], "timer %" PRIu32 "\n", tick);
    answered(k, swim_end_timer(&node[k], tick, events, SWIM_TIMER_EVENTS, &counts));
}
static void deliver(int k, const packet *p) {
    static swim_record records[64];
    swim_action a;
    uint64_t n;
    if (swim_read(p->bytes, p->length, &a, records, 64, &n)) abort();
    out_ = script[k];
    fprintf(script[k], "%s ", verbs_[a.kind]), put_address(&a.from), fputs(" ", script[k]), put_address(&a.other);
    for (uint64_t i = 0; i < n; i++) fputs(" ", script[k]), put_record(&records[i]);
    draw(script[k]);
    answered(k, swim_receive(&node[k], &a, records, n, draws, DRAWS, gossip, SWIM_MESSAGE_GOSSIP, events, SWIM_MESSAGE_EVENTS, letters, &counts));
}
static FILE *opened(const char *folder, int k, const char *what) {
    char name[512];
    snprintf(name, sizeof name, "%s/%d.%s", folder, k, what);
    FILE *f = fopen(name, "w");
    if (!f) perror(name), exit(2);
    return f;
}
static void begin(const char *folder, int k) {
    swim_settings s = {10, 3, 6, 30, 2, 3, 6, 1169, 1, 1};
    swim_address own = address(k), other = address(0);
    script[k] = opened(folder, k, "script"), answers[k] = opened(folder, k, "answers");
    out_ = script[k], fputs("new 10 3 6 30 2 3 6 1169 ", out_), put_address(&own), fputs(" 0 0 collect remember\n", out_);
    if (swim_create(&node[k], &s, &own, 0)) abort();
    wait_[k] = swim_fresh(0), memset(&counts, 0, sizeof counts);
    out_ = answers[k], put_reply(SWIM_KEPT, &counts), put_state(&node[k], &wait_[k]);
    if (k == 0) return;
    out_ = script[k], fputs("add ", out_), put_address(&other), fputs(" 0", out_), draw(script[k]);
    answered(k, swim_add_peer(&node[k], &other, 0, draws, DRAWS, &counts));
}
int main(int argc, char **argv) {
    if (argc != 4) return fputs("usage: cluster FOLDER TICKS LOSS_IN_PERCENT\n", stderr), 2;
    unsigned ticks = (unsigned)atoi(argv[2]), loss = (unsigned)atoi(argv[3]);
    for (int k = 0; k < NODES; k++) begin(argv[1], k);
    for (uint32_t tick = 1; tick <= ticks; tick++) {
        int away = tick / 400 % 3 == 2 ? NODES - 1 : -1;
        for (int k = 0; k < NODES; k++)
            if (k != away) step(k, tick);
        for (unsigned end = last; first != end; first++) {
            packet *p = &queue[first % QUEUE];
            for (int k = 0; k < NODES; k++) {
                swim_address a = address(k);
                if (!memcmp(&a, &p->to, sizeof a) && k != away && random_word() % 100 >= loss) {
                    packet copy = *p;
                    deliver(k, &copy);
                }
            }
        }
    }
    for (int k = 0; k < NODES; k++) fclose(script[k]), fclose(answers[k]);
    printf("%lu calls, %lu messages, %lu events, %lu refused, %lu fresh wait records\n", calls, sent, reported, refused, freshened);
    return 0;
}
