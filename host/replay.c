/* A script of well-formed lines (docs/REPLAY.md) answered through the C calls, as `replay` answers it. */
#include "text.h"

static swim_node node;
static swim_wait wait_;
static int there, lent;
static uint64_t lent_gossip, lent_events, draws[1024];
static swim_record records[256], gossip[1024], events[1024];
static swim_letter letters[SWIM_LETTERS];
static swim_counts counts;
static char line[1 << 17], *words[2048];
static int nwords;
static uint8_t bytes[1 << 16], out[1 << 16];

static uint64_t number_of(const char *w) { return strtoull(w, NULL, 10); }

/* N for IPv4, HIGH.LOW.PORT for IPv6, FAMILY.HIGH.LOW.PORT for any. Stops at a colon. */
static swim_address address_of(const char *w) {
    uint64_t part[4];
    int n = 0;
    char *end;
    swim_address a;
    if (w[0] == '-') return swim_absent();
    for (;; w = end + 1) {
        part[n++] = strtoull(w, &end, 10);
        if (*end != '.' || n == 4) break;
    }
    if (n == 1) a.first = 4 * 65536 + part[0] % 65536, a.high = 0, a.low = part[0] / 65536;
    else if (n == 3) a.first = 6 * 65536 + part[2], a.high = part[0], a.low = part[1];
    else a.first = part[0] * 65536 + part[3], a.high = part[1], a.low = part[2];
    return a;
}
static swim_record record_of(const char *w) {
    swim_record r;
    memset(&r, 0, sizeof r);
    if (w[0] == 'n') return r;
    r.kind = (uint64_t)(strchr("njrsd", w[0]) - strchr("njrsd", 'n'));
    r.from = address_of(w + 2);
    w = strchr(w + 2, ':') + 1;
    r.subject = address_of(w);
    r.number = number_of(strchr(w, ':') + 1);
    return r;
}
static void split(void) {
    nwords = 0;
    for (char *p = strtok(line, " "); p; p = strtok(NULL, " ")) words[nwords++] = p;
}
static int is(const char *w) { return !strcmp(words[0], w); }

/* The settings of the words from 1 on; the switches stand from `last` on. */
static swim_settings settings_of(int last) {
    swim_settings s;
    uint64_t w[8];
    for (int i = 0; i < 8; i++) w[i] = number_of(words[1 + i]);
    s.ping_interval = w[0], s.ping_timeout = w[1], s.ping_req_timeout = w[2], s.suspect_timeout = w[3];
    s.group = w[4], s.constant = w[5], s.selected = w[6], s.size = w[7], s.collect = 0, s.remember = 0;
    for (int i = last; i < nwords; i++) *(words[i][0] == 'c' ? &s.collect : &s.remember) = 1;
    return s;
}
static void made(uint64_t code) {
    memset(&counts, 0, sizeof counts);
    there = code == SWIM_KEPT;
    put_reply(code, &counts);
    if (!there) return;
    lent = 0;
    put_state(&node, &wait_);
}
static void make(void) {
    swim_settings s = settings_of(12);
    swim_address own = address_of(words[9]);
    uint64_t code = swim_create(&node, &s, &own, number_of(words[10]));
    if (code == SWIM_KEPT) wait_ = swim_fresh((uint32_t)number_of(words[11]));
    made(code);
}
static uint64_t bytes_of(const char *w) {
    uint64_t n = 0;
    if (w[0] == '-') return 0;
    for (; *w; w += 2, n++) {
        unsigned x;
        sscanf(w, "%2x", &x);
        bytes[n] = (uint8_t)x;
    }
    return n;
}
static void put_bytes(uint64_t n) {
    fputs("< ", stdout);
    if (n == 0) fputs("-", stdout);
    for (uint64_t i = 0; i < n; i++) printf("%02x", out[i]);
    fputs("\n", stdout);
}
static void restore(void) {
    swim_settings s = settings_of(11);
    made(swim_restore(&node, &wait_, bytes, bytes_of(words[10]), &s, (uint32_t)number_of(words[9])));
}
static void save(void) {
    uint64_t n, code = swim_save(&node, out, number_of(words[1]), &n);
    memset(&counts, 0, sizeof counts);
    put_reply(code, &counts);
    if (code == SWIM_KEPT) put_bytes(n);
    put_state(&node, &wait_);
}
static void salvage(void) {
    static const char *const said_as[] = {"cut", "address", "state", "repeat", "kept"};
    uint64_t said[64];
    swim_salvaged c;
    uint64_t code = swim_salvage(bytes, bytes_of(words[2]), out, number_of(words[1]), said, &c);
    memset(&counts, 0, sizeof counts);
    put_reply(code, &counts);
    if (code != SWIM_KEPT) return;
    put_bytes(c.written);
    printf("%% %" U, c.count);
    for (uint64_t i = 0; i < c.places; i++) printf(" %s", said_as[said[i]]);
    fputs("\n", stdout);
}
static swim_action action_of(int first) {
    swim_action a;
    a.kind = !strcmp(words[first], "ping") ? SWIM_PING : !strcmp(words[first], "req") ? SWIM_PING_REQ : SWIM_ACK;
    a.from = address_of(words[first + 1]), a.other = address_of(words[first + 2]);
    return a;
}
static void read_datagram(void) {
    swim_action a;
    uint64_t n, code = swim_read(bytes, bytes_of(words[2]), &a, gossip, number_of(words[1]), &n);
    memset(&counts, 0, sizeof counts);
    put_reply(code, &counts);
    if (code != SWIM_KEPT) return;
    printf("< %s ", verbs_[a.kind]);
    put_address(&a.from);
    fputs(" ", stdout);
    put_address(&a.other);
    for (uint64_t i = 0; i < n; i++) fputs(" ", stdout), put_record(&gossip[i]);
    fputs("\n", stdout);
}
static void write_datagram(void) {
    swim_action a = action_of(2);
    uint64_t n, code;
    for (int i = 5; i < nwords; i++) records[i - 5] = record_of(words[i]);
    code = swim_write(&a, records, (uint64_t)(nwords - 5), out, number_of(words[1]), &n);
    memset(&counts, 0, sizeof counts);
    put_reply(code, &counts);
    if (code == SWIM_KEPT) put_bytes(n);
}
static void lend_wait(void) {
    memset(&wait_, 0, sizeof wait_);
    for (uint64_t i = 0; i < 5; i++)
        if (!strcmp(words[1], waits_[i])) wait_.state = i;
    wait_.since = number_of(words[nwords - 1]);
    if (wait_.state) wait_.target = address_of(words[2]), wait_.number = number_of(words[3]);
}
static uint64_t message(int bar, uint64_t ndraws) {
    swim_action a = action_of(0);
    for (int i = 3; i < bar; i++) records[i - 3] = record_of(words[i]);
    return swim_receive(&node, &a, records, (uint64_t)(bar - 3), draws, ndraws, gossip, lent ? lent_gossip : SWIM_MESSAGE_GOSSIP, events,
                        lent ? lent_events : SWIM_MESSAGE_EVENTS, letters, &counts);
}
static uint64_t why(uint64_t ndraws) {
    swim_grounds g;
    swim_record r = record_of(words[1]);
    uint64_t code = swim_why(&node, &r, draws, ndraws, &g);
    if (code == SWIM_KEPT) put_grounds(&g);
    else put_reply(code, &counts);
    return code;
}
static void call(void) {
    int bar = nwords;
    uint64_t n = 0, code;
    for (int i = nwords; i-- > 0;)
        if (!strcmp(words[i], "|")) bar = i;
    for (int i = bar + 1; i < nwords; i++) draws[n++] = number_of(words[i]);
    memset(&counts, 0, sizeof counts);
    if (is("why")) { why(n), put_state(&node, &wait_); return; }
    if (is("add")) {
        swim_address peer = address_of(words[1]);
        code = swim_add_peer(&node, &peer, number_of(words[2]), draws, n, &counts);
    } else if (is("step"))
        code = swim_step(&node, &wait_, (uint32_t)number_of(words[1]), draws, n, gossip, lent ? lent_gossip : SWIM_STEP_GOSSIP, events,
                         lent ? lent_events : SWIM_STEP_EVENTS, letters, &counts);
    else if (is("timer")) code = swim_end_timer(&node, (uint32_t)number_of(words[1]), events, lent ? lent_events : SWIM_TIMER_EVENTS, &counts);
    else code = message(bar, n);
    put_answer(code, &node, &counts, letters, gossip, events);
    put_state(&node, &wait_);
}
int main(void) {
    while (fgets(line, sizeof line, stdin)) {
        line[strcspn(line, "\n")] = 0;
        if (line[0] == '#' || line[0] == 0) continue;
        split();
        if (is("new")) make();
        else if (is("restore")) restore();
        else if (is("salvage")) salvage();
        else if (is("read")) read_datagram();
        else if (is("write")) write_datagram();
        else if (is("rows")) { if (there) lent = 1, lent_gossip = number_of(words[1]), lent_events = number_of(words[2]); }
        else if (is("wait")) { if (there) lend_wait(); }
        else if (!there) puts("= none");
        else if (is("save")) save();
        else call();
    }
    return 0;
}
