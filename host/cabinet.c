/* A cabinet in one process: controllers that speak over a network which loses, delays, repeats and reorders, all drawn from a seed.
   Every call is one of swim.h, and every message goes as the bytes that the writer made and the reader took.
   usage: cabinet FOLDER <SCRIPT     each controller's history goes to FOLDER/K.history, what happened and a summary to standard output */
#include "swim.h"
#include <inttypes.h>
#include <stdio.h>
#include <stdlib.h>
#include <string.h>
#define U PRIu64

enum { MOST = 64, LONGEST = 4096, NOBODY = -1 };

/* A removal: whose list, who left it, and by what: a timer of its own (from nobody), or a record that another one sent. */
typedef struct removal { int list, gone, from; uint64_t number; uint32_t tick; } removal;

typedef struct controller {
    swim_node node;
    swim_wait wait;
    FILE *history;
    uint32_t silent_from, silent_to, slow_from, slow_by;
    /* Of the one that is silent: when it was first suspected, declared, off a list, and on none; pings sent to it until it was declared. */
    uint32_t suspected, declared, first_gone, all_gone;
    uint64_t pings;
} controller;

typedef struct datagram { struct datagram *next; int from, to; uint64_t length; uint8_t bytes[SWIM_DATAGRAM]; } datagram;

static controller all[MOST];
static int many = 8;
static uint32_t ticks = 2000, soonest = 1, latest = 3, now;
static uint64_t seed = 1, lose, repeat, sent, lost, repeated, refused[17], wrong_removals, wrong_timers;
static removal *removals;
static size_t removed, places;
static swim_settings settings = {20, 8, 16, 100, 3, 3, 6, 1169, 0, 0};
static datagram *due[LONGEST];
static swim_record gossip[SWIM_STEP_GOSSIP], events[SWIM_MESSAGE_EVENTS], brought[SWIM_MESSAGE_GOSSIP];
static swim_letter letters[SWIM_LETTERS];
static swim_counts counts;
static uint64_t draws[64];

static uint64_t draw(void) {
    uint64_t z = seed += 0x9e3779b97f4a7c15u;
    z = (z ^ (z >> 30)) * 0xbf58476d1ce4e5b9u;
    z = (z ^ (z >> 27)) * 0x94d049bb133111ebu;
    return z ^ (z >> 31);
}
static int by_chance(uint64_t percent) { return draw() % 100 < percent; }
static void fresh_draws(void) { for (int i = 0; i < 64; i++) draws[i] = draw(); }

static swim_address address_of(int k) { return swim_ip4(0x0a000001u + (uint32_t)k, 7000); }
static int who(const swim_address *a) {
    int k = (int)(a->low - 0x0a000001u);
    return a->low > 0x0a000000u && k < many ? k : NOBODY;
}
static const char *named(int k) {
    static char text[4][32];
    static int turn;
    char *t = text[turn++ & 3];
    snprintf(t, sizeof text[0], "10.0.0.%d:7000", k + 1);
    return t;
}

/* The replay text of what a controller was asked: a call with its draws. */
static void put_address(FILE *f, const swim_address *a) {
    if (swim_is_absent(a)) fputs("-", f);
    else fprintf(f, "%" U, a->low * 65536 + (a->first & 65535));
}
static void put_draws(FILE *f, uint64_t code) {
    uint64_t n = swim_number(code) == SWIM_KEPT ? counts.used : 64;
    fputs(" |", f);
    for (uint64_t i = 0; i < n; i++) fprintf(f, " %" U, draws[i]);
    fputs("\n", f);
}
static void put_message(FILE *f, const swim_action *a, uint64_t n, uint64_t code) {
    static const char *const verbs[] = {"?", "ping", "req", "ack"};
    fprintf(f, "%s ", verbs[a->kind]);
    put_address(f, &a->from), fputs(" ", f), put_address(f, &a->other);
    for (uint64_t i = 0; i < n; i++) {
        fprintf(f, " %c", "njrsd"[brought[i].kind]);
        if (brought[i].kind == SWIM_NOTHING) continue;
        fputs(":", f), put_address(f, &brought[i].from), fputs(":", f), put_address(f, &brought[i].subject);
        fprintf(f, ":%" U, brought[i].number);
    }
    put_draws(f, code);
}

/* Read off the node's words, which anyone may. */
static int lists(const controller *c, int k) {
    for (uint64_t i = 0; i < c->node.listed; i++)
        if (who(&c->node.members[i].address) == k) return 1;
    return 0;
}
static int is_silent(int k) { return now >= all[k].silent_from && now < all[k].silent_to; }
static int on_lists(int x) {
    int n = 0;
    for (int j = 0; j < many; j++) n += j != x && !is_silent(j) && lists(&all[j], x);
    return n;
}
static void note_code(uint64_t code) { if (swim_number(code) > 0 && swim_number(code) <= 16) refused[swim_number(code)]++; }

/* The last removal of x at this number from this list, or by any timer where the list is nobody's, before a place. */
static const removal *find(int list, int x, uint64_t number, size_t before) {
    for (size_t i = before; i-- > 0;) {
        const removal *r = &removals[i];
        if (r->gone == x && r->number == number && (list == NOBODY ? r->from == NOBODY : r->list == list)) return r;
    }
    return NULL;
}
/* Back to the timer that said so; there is one before every removal, at its very number. */
static void put_chain(const removal *r) {
    const removal *root = find(NOBODY, r->gone, r->number, removed);
    while (r && r->from != NOBODY) printf(", heard from %s", named(r->from)), r = find(r->from, r->gone, r->number, (size_t)(r - removals));
    if (root == NULL) { puts("; NO TIMER: this cannot be"); exit(3); }
    printf("; timer of %s at tick %u", named(root->list), root->tick);
}
static void left(int list, int x, int from, uint64_t number) {
    controller *gone = &all[x];
    if (removed == places) {
        places = places ? 2 * places : 1024;
        removals = realloc(removals, places * sizeof *removals);
        if (removals == NULL) exit(2);
    }
    removals[removed++] = (removal){list, x, from, number, now};
    printf("tick %u: %s left the list of %s at number %" U, now, named(x), named(list), number);
    put_chain(&removals[removed - 1]);
    if (!is_silent(x)) {
        wrong_removals += list != x, wrong_timers += from == NOBODY;
        puts("; FALSE, it was not silent");
        return;
    }
    if (!gone->first_gone) gone->first_gone = now;
    if (!gone->all_gone && on_lists(x) == 0) gone->all_gone = now;
    printf("; silent since %u\n", gone->silent_from);
}
/* Everyone who was on the list before a call and isn't after it. */
static void note_departures(int j, const char *before, int from) {
    for (int x = 0; x < many; x++) {
        uint64_t number = 0;
        if (!before[x] || lists(&all[j], x)) continue;
        for (uint64_t i = 0; i < counts.reported; i++)
            if (events[i].kind == SWIM_DECEASED && who(&events[i].subject) == x) number = events[i].number;
        left(j, x, from, number);
    }
}
static void list_now(int j, char *before) {
    memset(before, 0, MOST);
    for (uint64_t i = 0; i < all[j].node.listed; i++)
        if (who(&all[j].node.members[i].address) != NOBODY) before[who(&all[j].node.members[i].address)] = 1;
}

static void put_on(int from, int to, const uint8_t *bytes, uint64_t length) {
    uint32_t delay = soonest + (uint32_t)(draw() % (latest - soonest + 1)) + (now >= all[from].slow_from ? all[from].slow_by : 0);
    datagram *d = malloc(sizeof *d), **last;
    if (d == NULL) exit(2);
    d->next = NULL, d->from = from, d->to = to, d->length = length;
    memcpy(d->bytes, bytes, length);
    for (last = &due[(now + delay) % LONGEST]; *last; last = &(*last)->next) {}
    *last = d;
}
static void send_letters(int j) {
    uint64_t at = 0;
    for (uint64_t i = 0; i < counts.sent; at += letters[i++].count) {
        uint8_t bytes[SWIM_DATAGRAM];
        uint64_t length;
        int to = who(&letters[i].target);
        if (swim_write(&letters[i].action, &gossip[at], letters[i].count, bytes, sizeof bytes, &length) != SWIM_KEPT) exit(3);
        sent++;
        if (to == NOBODY) continue;
        if (letters[i].action.kind == SWIM_PING && is_silent(to) && !all[to].declared) all[to].pings++;
        if (by_chance(lose)) { lost++; continue; }
        put_on(j, to, bytes, length);
        if (by_chance(repeat)) repeated++, put_on(j, to, bytes, length);
    }
}
static void hear(datagram *d) {
    controller *c = &all[d->to];
    swim_action action;
    uint64_t n, code;
    char before[MOST];
    if (is_silent(d->to)) return;
    if (swim_read(d->bytes, d->length, &action, brought, SWIM_MESSAGE_GOSSIP, &n) != SWIM_KEPT) exit(3);
    list_now(d->to, before), fresh_draws();
    code = swim_receive(&c->node, &action, brought, n, draws, 64, gossip, SWIM_MESSAGE_GOSSIP, events, SWIM_MESSAGE_EVENTS, letters, &counts);
    note_code(code), put_message(c->history, &action, n, code);
    if (code != SWIM_KEPT) return;
    note_departures(d->to, before, d->from), send_letters(d->to);
}
/* A step that is refused because a heap or the timers are full is made again from a fresh wait record (docs/HOST.md). */
static void step(int j) {
    controller *c = &all[j];
    uint64_t code, state = c->wait.state;
    int target = state ? who(&c->wait.target) : NOBODY;
    fresh_draws();
    code = swim_step(&c->node, &c->wait, now, draws, 64, gossip, SWIM_STEP_GOSSIP, events, SWIM_STEP_EVENTS, letters, &counts);
    if (swim_number(code) == SWIM_NOT_DUE) return;
    note_code(code), fprintf(c->history, "step %u", now), put_draws(c->history, code);
    if (code != SWIM_KEPT) {
        c->wait = swim_fresh(now), fprintf(c->history, "wait ping %u\n", now);
        return;
    }
    if (target != NOBODY && is_silent(target)) {
        if (state == SWIM_SENDING_REQ && !all[target].suspected) all[target].suspected = now;
        if (state == SWIM_DECLARING && !all[target].declared) all[target].declared = now;
    }
    send_letters(j);
}
static void end_timers(int j) {
    controller *c = &all[j];
    char before[MOST];
    uint64_t code;
    do {
        list_now(j, before);
        code = swim_end_timer(&c->node, now, events, SWIM_TIMER_EVENTS, &counts);
        if (swim_number(code) == SWIM_NOT_DUE) return;
        note_code(code), fprintf(c->history, "timer %u\n", now);
        note_departures(j, before, NOBODY);
    } while (code == SWIM_KEPT);
}

static void begin(int k, const char *folder) {
    controller *c = &all[k];
    char name[4096];
    swim_address own = address_of(k);
    snprintf(name, sizeof name, "%s/%d.history", folder, k + 1);
    c->history = fopen(name, "w");
    if (c->history == NULL) { perror(name); exit(2); }
    if (swim_create(&c->node, &settings, &own, 0) != SWIM_KEPT) { fputs("cabinet: the settings are refused\n", stderr); exit(1); }
    c->wait = swim_fresh(0);
    fprintf(c->history, "new %" U " %" U " %" U " %" U " %" U " %" U " %" U " %" U " ", settings.ping_interval, settings.ping_timeout,
            settings.ping_req_timeout, settings.suspect_timeout, settings.group, settings.constant, settings.selected, settings.size);
    put_address(c->history, &own);
    fprintf(c->history, " 0 0%s%s\n", settings.collect ? " collect" : "", settings.remember ? " remember" : "");
    for (int x = 0; x < many; x++) {
        swim_address peer = address_of(x);
        uint64_t code;
        if (x == k) continue;
        fresh_draws();
        code = swim_add_peer(&c->node, &peer, 0, draws, 64, &counts);
        fputs("add ", c->history), put_address(c->history, &peer), fputs(" 0", c->history), put_draws(c->history, code);
    }
}
static void run(void) {
    for (now = 1; now <= ticks; now++) {
        datagram *d = due[now % LONGEST], *next;
        due[now % LONGEST] = NULL;
        for (; d; d = next) next = d->next, hear(d), free(d);
        for (int k = 0; k < many; k++)
            if (!is_silent(k)) step(k), end_timers(k);
    }
}
/* Ticks since it went silent, or -1 where it never came to that. */
static int after(const controller *c, uint32_t tick) { return tick ? (int)(tick - c->silent_from) : -1; }
static void tell(void) {
    printf("summary: %d controllers, %u ticks, %" U " datagrams sent, %" U " lost, %" U " repeated\n", many, ticks, sent, lost, repeated);
    for (int k = 0; k < many; k++) {
        const controller *c = &all[k];
        if (c->silent_from > ticks) continue;
        printf("silent: %s from %u: %" U " pings until it was declared; ticks until it was suspected %d, declared %d, off a list %d, off all lists %d; "
               "on %d at the end\n", named(k), c->silent_from, c->pings, after(c, c->suspected), after(c, c->declared), after(c, c->first_gone),
               after(c, c->all_gone), on_lists(k));
    }
    printf("removals: %zu, false %" U ", by %" U " false timers\nrefused:", removed, wrong_removals, wrong_timers);
    for (int r = 1; r <= 16; r++)
        if (refused[r]) printf(" %d: %" U, r, refused[r]);
    puts("");
}

static int wrong(int line, const char *text) { fprintf(stderr, "cabinet: line %d is not of the form: %s\n", line, text); return 1; }
static int setting(const char *text) {
    char one[16] = "", two[16] = "";
    int n = sscanf(text, "settings %" SCNu64 " %" SCNu64 " %" SCNu64 " %" SCNu64 " %" SCNu64 " %" SCNu64 " %" SCNu64 " %" SCNu64 " %15s %15s",
                   &settings.ping_interval, &settings.ping_timeout, &settings.ping_req_timeout, &settings.suspect_timeout, &settings.group,
                   &settings.constant, &settings.selected, &settings.size, one, two);
    settings.collect = !strcmp(one, "collect"), settings.remember = !strcmp(one, "remember") || !strcmp(two, "remember");
    return n >= 8;
}
static int obey(const char *text) {
    unsigned k, at, by;
    if (text[0] == '#' || text[0] == '\n') return 1;
    if (!strncmp(text, "settings ", 9)) return setting(text);
    if (sscanf(text, "controllers %d", &many) == 1) return many >= 1 && many <= MOST;
    if (sscanf(text, "seed %" SCNu64, &seed) == 1 || sscanf(text, "ticks %u", &ticks) == 1) return 1;
    if (sscanf(text, "loss %" SCNu64, &lose) == 1 || sscanf(text, "repeat %" SCNu64, &repeat) == 1) return lose <= 100 && repeat <= 100;
    if (sscanf(text, "delay %u %u", &soonest, &latest) == 2) return soonest >= 1 && soonest <= latest && latest < LONGEST / 2;
    if (sscanf(text, "slow %u %u %u", &k, &at, &by) == 3 && k >= 1 && k <= MOST && by < LONGEST / 2) return all[k - 1].slow_from = at, all[k - 1].slow_by = by, 1;
    if (sscanf(text, "silent %u %u %u", &k, &at, &by) == 3 && k >= 1 && k <= MOST) return all[k - 1].silent_from = at, all[k - 1].silent_to = by, 1;
    if (sscanf(text, "silent %u %u", &k, &at) == 2 && k >= 1 && k <= MOST) return all[k - 1].silent_from = at, 1;
    return 0;
}
int main(int argc, char **argv) {
    char text[256];
    if (argc != 2) { fputs("usage: cabinet FOLDER <SCRIPT\n", stderr); return 2; }
    for (int k = 0; k < MOST; k++) all[k].silent_from = all[k].silent_to = all[k].slow_from = UINT32_MAX;
    for (int line = 1; fgets(text, sizeof text, stdin); line++)
        if (!obey(text)) return wrong(line, text);
    for (int k = 0; k < many; k++) begin(k, argv[1]);
    run();
    tell();
    for (int k = 0; k < many; k++)
        if (fclose(all[k].history) != 0) { perror("cabinet"); return 2; }
    return 0;
}
