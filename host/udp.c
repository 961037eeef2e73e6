/* One node over UDP, IPv4 or IPv6: `udp --help` lists the options. What it was asked goes to --record in the replay text (docs/REPLAY.md). */
#define _GNU_SOURCE
#include <arpa/inet.h>
#include <errno.h>
#include <fcntl.h>
#include <poll.h>
#include <signal.h>
#include <stdio.h>
#include <sys/random.h>
#include <sys/socket.h>
#include <time.h>
#include <unistd.h>
static FILE *record;
#define SWIM_OUT record
#include "text.h"

/* Draws lent to a call; datagrams heard before the clock is looked at again; ticks between two saves. */
enum { DRAWS = 128, IN_A_ROW = 64, JOINS = 63, SAVE_EVERY = 100, PATH = 4096 };

static swim_settings settings = {50, 10, 20, 100, 3, 3, 24, 1169, 1, 0};
static swim_address own, joins[JOINS];
static size_t njoins;
static const char *record_path, *save_path, *restore_path;
static int json, bound, sock = -1, save_failed;
static uint64_t tick_ms = 10, own_number;

static swim_node node;
static swim_wait wait_;
static uint32_t tick, saved_at, asked_at;
static int unsaved;
static uint64_t draws[DRAWS];
static swim_record brought[SWIM_MESSAGE_GOSSIP], gossip[SWIM_STEP_GOSSIP], events[SWIM_MESSAGE_EVENTS];
static swim_letter letters[SWIM_LETTERS];
static swim_counts counts;
static char record_room[1 << 15];
static uint64_t heard, malformed, sent, unsent, refused;
static volatile sig_atomic_t ended;

static void stop(int code, const char *what, const char *why) {
    fprintf(stderr, "udp: %s%s%s\n", what, why ? ": " : "", why ? why : "");
    exit(code);
}

/* Addresses: as text, and as the system's. */
static uint64_t word_of(const uint8_t *b) {
    uint64_t w = 0;
    for (int i = 0; i < 8; i++) w = w << 8 | b[i];
    return w;
}
static void bytes_of(uint64_t w, uint8_t *b) {
    for (int i = 8; i-- > 0; w >>= 8) b[i] = (uint8_t)w;
}
static socklen_t to_system(const swim_address *a, struct sockaddr_storage *s) {
    struct sockaddr_in *four = (struct sockaddr_in *)s;
    struct sockaddr_in6 *six = (struct sockaddr_in6 *)s;
    memset(s, 0, sizeof *s);
    if (a->first >> 16 == 4) {
        four->sin_family = AF_INET, four->sin_port = htons((uint16_t)a->first), four->sin_addr.s_addr = htonl((uint32_t)a->low);
        return sizeof *four;
    }
    six->sin6_family = AF_INET6, six->sin6_port = htons((uint16_t)a->first);
    bytes_of(a->high, six->sin6_addr.s6_addr), bytes_of(a->low, six->sin6_addr.s6_addr + 8);
    return sizeof *six;
}
static int read_address(const char *text, swim_address *a) {
    char host[64], *end;
    uint8_t ip[16];
    const char *colon = strrchr(text, ':');
    int six = text[0] == '[';
    if (colon == NULL || colon[1] < '0' || colon[1] > '9') return 0;
    unsigned long port = strtoul(colon + 1, &end, 10);
    size_t n = (size_t)(colon - text);
    if (*end || port == 0 || port > 65535 || n < 3 || n >= sizeof host || (six && colon[-1] != ']')) return 0;
    memcpy(host, text + six, n), host[n - 2 * (size_t)six] = 0;
    if (inet_pton(six ? AF_INET6 : AF_INET, host, ip) != 1) return 0;
    if (six) *a = swim_ip6(word_of(ip), word_of(ip + 8), (uint16_t)port);
    else *a = swim_ip4((uint32_t)ip[0] << 24 | (uint32_t)ip[1] << 16 | (uint32_t)ip[2] << 8 | ip[3], (uint16_t)port);
    return 1;
}
static void put_text(FILE *f, const swim_address *a) {
    char host[INET6_ADDRSTRLEN];
    struct sockaddr_storage s;
    to_system(a, &s);
    if (s.ss_family == AF_INET) {
        fprintf(f, "%s:%u", inet_ntop(AF_INET, &((struct sockaddr_in *)&s)->sin_addr, host, sizeof host), (unsigned)(a->first & 65535));
        return;
    }
    fprintf(f, "[%s]:%u", inet_ntop(AF_INET6, &((struct sockaddr_in6 *)&s)->sin6_addr, host, sizeof host), (unsigned)(a->first & 65535));
}

/* The record: a line for each call, flushed, so that a node that is killed leaves whole lines. */
static void end_line(void) { fputs("\n", record), fflush(record); }
/* A kept call read no further than it says; a refused one might have. */
static void put_draws(uint64_t code) {
    uint64_t n = code == SWIM_KEPT ? counts.used : DRAWS;
    fputs(" |", record);
    for (uint64_t i = 0; i < n; i++) fprintf(record, " %" U, draws[i]);
    end_line();
}
static void put_message(const swim_action *a, uint64_t n, uint64_t code) {
    if (record == NULL) return;
    fprintf(record, "%s ", verbs_[a->kind]), put_address(&a->from), fputs(" ", record), put_address(&a->other);
    for (uint64_t i = 0; i < n; i++) fputs(" ", record), put_record(&brought[i]);
    put_draws(code);
}
static void put_settings(const char *verb) {
    fprintf(record, "%s %" U " %" U " %" U " %" U " %" U " %" U " %" U " %" U, verb, settings.ping_interval, settings.ping_timeout,
            settings.ping_req_timeout, settings.suspect_timeout, settings.group, settings.constant, settings.selected, settings.size);
}
static void put_switches(void) { fprintf(record, "%s%s", settings.collect ? " collect" : "", settings.remember ? " remember" : ""), end_line(); }

/* What a call answered, told and sent. */
static void put_events(void) {
    static const char *const kinds[] = {"nothing", "joined", "recovered", "suspected", "deceased"};
    for (uint64_t i = 0; i < counts.reported; i++) {
        const swim_record *e = &events[i];
        printf(json ? "{\"kind\":\"%s\",\"from\":\"" : "%s from ", kinds[e->kind]), put_text(stdout, &e->from);
        fputs(json ? "\",\"subject\":\"" : " about ", stdout), put_text(stdout, &e->subject);
        printf(json ? "\",\"number\":%" U ",\"tick\":%" PRIu32 "}\n" : " number %" U " tick %" PRIu32 "\n", e->number, tick);
        unsaved = 1;
    }
    fflush(stdout);
}
/* A letter that can't be sent is a lost datagram: the detector sees to it. */
static void send_letters(void) {
    uint64_t at = 0, length;
    for (uint64_t i = 0; i < counts.sent; at += letters[i++].count) {
        _Alignas(8) uint8_t bytes[SWIM_DATAGRAM];
        struct sockaddr_storage to;
        socklen_t size = to_system(&letters[i].target, &to);
        int written = swim_write(&letters[i].action, &gossip[at], letters[i].count, bytes, sizeof bytes, &length) == SWIM_KEPT;
        if (written && sendto(sock, bytes, length, 0, (struct sockaddr *)&to, size) == (ssize_t)length) sent++;
        else unsent++;
    }
}
static void fresh_draws(void) {
    for (size_t got = 0; got < sizeof draws;) {
        ssize_t n = getrandom((uint8_t *)draws + got, sizeof draws - got, 0);
        if (n > 0) got += (size_t)n;
        else if (errno != EINTR) stop(2, "getrandom", strerror(errno));
    }
}

static uint64_t receive(const swim_action *action, uint64_t n) {
    fresh_draws();
    uint64_t code = swim_receive(&node, action, brought, n, draws, DRAWS, gossip, SWIM_MESSAGE_GOSSIP, events, SWIM_MESSAGE_EVENTS,
                                 letters, &counts);
    put_message(action, n, code);
    refused += code != SWIM_KEPT;
    return code;
}
/* Refused at a record, it is made again with those before it: who pings a node that is full still gets an Ack. */
static void hear(const uint8_t *bytes, size_t length) {
    swim_action action;
    uint64_t n, code;
    heard++;
    if (length > SWIM_DATAGRAM || swim_read(bytes, length, &action, brought, SWIM_MESSAGE_GOSSIP, &n) != SWIM_KEPT) { malformed++; return; }
    code = receive(&action, n);
    if (swim_place(code) > 0 && swim_place(code) < SWIM_SENDER) code = receive(&action, swim_place(code) - 1);
    if (code == SWIM_KEPT) put_events(), send_letters();
}
static void hear_all(void) {
    for (int i = 0; i < IN_A_ROW; i++) {
        _Alignas(8) uint8_t bytes[SWIM_DATAGRAM + 1];
        ssize_t n = recv(sock, bytes, sizeof bytes, MSG_DONTWAIT);
        if (n < 0) return;
        hear(bytes, (size_t)n);
    }
}
/* A heap or the timers are full: from a fresh wait record a step can send, and what is sent makes room (docs/HOST.md). */
static void step(void) {
    fresh_draws();
    uint64_t code = swim_step(&node, &wait_, tick, draws, DRAWS, gossip, SWIM_STEP_GOSSIP, events, SWIM_STEP_EVENTS, letters, &counts);
    if (code == SWIM_NOT_DUE) return;
    if (record) fprintf(record, "step %" PRIu32, tick), put_draws(code);
    if (code == SWIM_KEPT) { put_events(), send_letters(); return; }
    refused++;
    if (code != SWIM_ALIVE_FULL && code != SWIM_TIMERS_FULL && code != SWIM_DECEASED_FULL) return;
    wait_ = swim_fresh(tick);
    if (record) fprintf(record, "wait ping %" PRIu32, tick), end_line();
}
/* One call ends one timer. A refused one is tried again at the next tick, when something may have been sent. */
static void end_timers(void) {
    for (uint64_t code = SWIM_KEPT; code == SWIM_KEPT;) {
        code = swim_end_timer(&node, tick, events, SWIM_TIMER_EVENTS, &counts);
        if (code == SWIM_NOT_DUE) return;
        if (record) fprintf(record, "timer %" PRIu32, tick), end_line();
        refused += code != SWIM_KEPT;
        put_events();
    }
}
/* 0, or above the number of its last death, news of which would take it out again. */
static uint64_t number_to_join(const swim_address *peer) {
    for (uint64_t i = 0; i < node.departed_used; i++) {
        const swim_departed *d = &node.departed[i];
        if (!memcmp(&d->address, peer, sizeof *peer)) return d->number + (d->number < UINT64_MAX);
    }
    return 0;
}
static void add_joins(void) {
    for (size_t i = 0; i < njoins; i++) {
        uint64_t number = number_to_join(&joins[i]);
        fresh_draws();
        uint64_t code = swim_add_peer(&node, &joins[i], number, draws, DRAWS, &counts);
        if (record) fputs("add ", record), put_address(&joins[i]), fprintf(record, " %" U, number), put_draws(code);
        refused += code != SWIM_KEPT && code != SWIM_ALREADY;
    }
    asked_at = tick;
}
/* Started before those that it joins, a node drops them, and nobody knows of it: it asks again. */
static int is_alone(void) { return node.lamps.alive + node.lamps.pending + node.lamps.suspected == 0; }

/* The saved list, under its name only once it is whole. */
static int write_whole(const char *path, const uint8_t *bytes, size_t n) {
    int f = open(path, O_WRONLY | O_CREAT | O_TRUNC, 0644);
    if (f < 0) return 0;
    int whole = write(f, bytes, n) == (ssize_t)n && fsync(f) == 0;
    return close(f) == 0 && whole;
}
static void save(void) {
    _Alignas(8) uint8_t image[SWIM_IMAGE];
    char path[PATH];
    uint64_t n;
    unsaved = 0, saved_at = tick;
    if (save_path == NULL) return;
    snprintf(path, sizeof path, "%s.new", save_path);
    save_failed = swim_save(&node, image, sizeof image, &n) != SWIM_KEPT || !write_whole(path, image, n) || rename(path, save_path) != 0;
    if (save_failed) fprintf(stderr, "udp: %s could not be saved: %s\n", save_path, strerror(errno));
}
/* 1 if the list was restored; a node whose file isn't there, or is damaged, begins anew. */
static int restore(void) {
    _Alignas(8) uint8_t image[SWIM_IMAGE + 1];
    int f = open(restore_path, O_RDONLY);
    ssize_t n = f < 0 ? -1 : read(f, image, sizeof image);
    if (f >= 0) close(f);
    if (n < 0) { fprintf(stderr, "udp: %s: %s; beginning anew\n", restore_path, strerror(errno)); return 0; }
    uint64_t code = swim_restore(&node, &wait_, image, (uint64_t)n, &settings, tick);
    if (code == SWIM_SETTING) stop(2, "a setting is out of its range", NULL);
    if (code != SWIM_KEPT) { fprintf(stderr, "udp: %s: refused by %" U "; beginning anew\n", restore_path, swim_number(code)); return 0; }
    if (memcmp(&node.own, &own, sizeof own)) stop(2, restore_path, "is the list of another address than that of --bind");
    if (record == NULL) return 1;
    put_settings("restore"), fprintf(record, " %" PRIu32 " ", tick);
    for (ssize_t i = 0; i < n; i++) fprintf(record, "%02x", image[i]);
    put_switches();
    return 1;
}
static void create(void) {
    if (swim_create(&node, &settings, &own, own_number) != SWIM_KEPT) stop(2, "a setting is out of its range", NULL);
    wait_ = swim_fresh(tick);
    if (record == NULL) return;
    put_settings("new"), fputs(" ", record), put_address(&own), fprintf(record, " %" U " %" PRIu32, own_number, tick);
    put_switches();
}

/* Milliseconds of a clock that nobody sets; ticks are counted from the start and come round. */
static uint64_t milliseconds(void) {
    static uint64_t start;
    struct timespec t;
    clock_gettime(CLOCK_MONOTONIC, &t);
    uint64_t now = (uint64_t)t.tv_sec * 1000 + (uint64_t)t.tv_nsec / 1000000;
    if (start == 0) start = now;
    return now - start;
}
static void on_tick(void) {
    step(), end_timers();
    if (is_alone() && tick - asked_at >= settings.suspect_timeout) add_joins();
    if (unsaved && tick - saved_at >= SAVE_EVERY) save();
}
static void run(void) {
    for (uint32_t stepped = tick; !ended;) {
        struct pollfd p = {sock, POLLIN, 0};
        if (poll(&p, 1, (int)(tick_ms - milliseconds() % tick_ms)) < 0 && errno != EINTR) stop(2, "poll", strerror(errno));
        tick = (uint32_t)(milliseconds() / tick_ms);
        hear_all();
        if (tick != stepped) stepped = tick, on_tick();
    }
}
static void end(int signal) { (void)signal, ended = 1; }
static void open_socket(void) {
    struct sockaddr_storage s;
    struct sigaction act;
    socklen_t size = to_system(&own, &s);
    int on = 1;
    memset(&act, 0, sizeof act), act.sa_handler = end;
    sigaction(SIGTERM, &act, NULL), sigaction(SIGINT, &act, NULL);
    sock = socket(s.ss_family, SOCK_DGRAM | SOCK_CLOEXEC, 0);
    /* One node is of one family: to IPv6's socket IPv4 would come as mapped addresses, which are others. */
    if (sock >= 0 && s.ss_family == AF_INET6) setsockopt(sock, IPPROTO_IPV6, IPV6_V6ONLY, &on, sizeof on);
    if (sock < 0 || bind(sock, (struct sockaddr *)&s, size) < 0) stop(2, "the address of --bind can't be had", strerror(errno));
}
/* A restart goes on behind what is there, on a line of its own: a loss of power may have torn the last one. */
static void open_record(void) {
    if (record_path == NULL) return;
    record = fopen(record_path, "a");
    if (record == NULL) stop(2, record_path, strerror(errno));
    setvbuf(record, record_room, _IOFBF, sizeof record_room);
    if (fseek(record, 0, SEEK_END) == 0 && ftell(record) > 0) end_line();
}

static void help(void) {
    puts("usage: udp --bind ADDR:PORT [--join ADDR:PORT]... [OPTION]...\n"
         "One node over UDP, until SIGTERM or SIGINT. ADDR is a.b.c.d or [..], one that the others can send to.\n"
         "  --join ADDR:PORT      a peer to begin with, up to 63\n"
         "  --record FILE         every call that may change the node, behind what is there, for bin/replay and bin/audit\n"
         "  --save FILE           the list, at the end and at most every 100 ticks when an event was told\n"
         "  --restore FILE        begin with a saved list, if it is there and whole\n"
         "  --json                events as lines of JSON\n"
         "  --tick MS             milliseconds of a tick (10)\n"
         "  --number N            the own number to begin with (0)\n"
         "in ticks: --interval (50) --ping-timeout (10) --request-timeout (20) --suspect-timeout (100)\n"
         "gossip: --group (3) --constant (3) --selected (24) --size (1169) --collect 0 or 1 (1) --remember 0 or 1 (0)\n"
         "Exit code: 0; 1 where the record or the list could not be written; 2 where it could not begin or go on.");
    exit(0);
}
static int number_option(const char *name, const char *text) {
    static const struct { const char *name; uint64_t *value; } all[] = {
        {"--tick", &tick_ms}, {"--number", &own_number}, {"--interval", &settings.ping_interval}, {"--ping-timeout", &settings.ping_timeout},
        {"--request-timeout", &settings.ping_req_timeout}, {"--suspect-timeout", &settings.suspect_timeout}, {"--group", &settings.group},
        {"--constant", &settings.constant}, {"--selected", &settings.selected}, {"--size", &settings.size}, {"--collect", &settings.collect},
        {"--remember", &settings.remember}};
    for (size_t i = 0; i < sizeof all / sizeof all[0]; i++) {
        char *end;
        if (strcmp(name, all[i].name)) continue;
        errno = 0, *all[i].value = strtoull(text, &end, 10);
        return *text >= '0' && *text <= '9' && *end == 0 && errno == 0;
    }
    return 0;
}
static int option(const char *name, const char *text) {
    if (!strcmp(name, "--bind")) return bound = read_address(text, &own);
    if (!strcmp(name, "--join")) return njoins < JOINS && read_address(text, &joins[njoins++]);
    if (!strcmp(name, "--record")) return record_path = text, 1;
    if (!strcmp(name, "--save")) return save_path = text, strlen(text) + 5 <= PATH;
    if (!strcmp(name, "--restore")) return restore_path = text, 1;
    return number_option(name, text);
}
static void options(int argc, char **argv) {
    for (int i = 1; i < argc; i++) {
        if (!strcmp(argv[i], "--help")) help();
        else if (!strcmp(argv[i], "--json")) json = 1;
        else if (i + 1 == argc || !option(argv[i], argv[i + 1])) stop(2, argv[i], "no such option, or not of its form (udp --help lists them)");
        else i++;
    }
    if (!bound || (own.high == 0 && own.low == 0)) stop(2, "--bind has to name an address that the others can send to", NULL);
    if (tick_ms == 0 || tick_ms > 60000) stop(2, "--tick is from 1 to 60000", NULL);
}
int main(int argc, char **argv) {
    options(argc, argv);
    open_socket(), open_record();
    milliseconds();
    if (restore_path == NULL || !restore()) create();
    add_joins();
    run();
    save();
    fprintf(stderr, "udp: %" PRIu32 " ticks, %" U " datagrams heard, %" U " malformed, %" U " sent, %" U " not sent, %" U " calls refused\n",
            tick, heard, malformed, sent, unsent, refused);
    if (record && (ferror(record) || fclose(record) != 0)) stop(1, record_path, "the record could not be written whole");
    return save_failed;
}
