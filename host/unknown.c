/* Words that no value has, damaged nodes and short rows: each is refused as the header says, and nothing but the counts is touched. */
#include "swim.h"
#include <stdio.h>
#include <stdlib.h>
#include <string.h>

static swim_node base, n, m;
static swim_record records[64], gossip[256], events[65], gossip_lent[256], events_lent[65];
static swim_letter letters[4], letters_lent[4];
static swim_counts counts;
static uint64_t draws[100];
static int tried, wrong;

static int untouched(void) {
    static const swim_counts none;
    return !memcmp(&n, &m, sizeof n) && !memcmp(gossip, gossip_lent, sizeof gossip) && !memcmp(events, events_lent, sizeof events) &&
           !memcmp(letters, letters_lent, sizeof letters) && !memcmp(&counts, &none, sizeof none);
}
static void expect(const char *what, uint64_t want, uint64_t code) {
    tried++;
    if (swim_number(code) == want && untouched()) return;
    wrong++;
    printf("%s: code %u for %u, untouched %d\n", what, (unsigned)code, (unsigned)want, untouched());
}
static uint64_t receive(const swim_action *a, uint64_t nrecords, uint64_t ngossip) {
    memset(&counts, 1, sizeof counts);
    return swim_receive(&n, a, records, nrecords, draws, 100, gossip, ngossip, events, 65, letters, &counts);
}
static uint64_t step(swim_wait *w) {
    memset(&counts, 1, sizeof counts);
    return swim_step(&n, w, 100, draws, 100, gossip, 256, events, 65, letters, &counts);
}
/* Every call on a node that isn't sound. */
static void unsound(const char *what) {
    swim_address peer = swim_ip4(9, 9);
    swim_action ping;
    swim_wait w = swim_fresh(0);
    swim_member found;
    swim_grounds grounds;
    uint8_t bytes[SWIM_IMAGE];
    uint64_t count;
    ping.kind = SWIM_PING, ping.from = peer, ping.other = swim_absent();
    m = n;
    memset(&counts, 1, sizeof counts);
    expect(what, SWIM_UNSOUND, swim_add_peer(&n, &peer, 0, draws, 100, &counts));
    expect(what, SWIM_UNSOUND, receive(&ping, 0, 256));
    expect(what, SWIM_UNSOUND, step(&w));
    memset(&counts, 1, sizeof counts);
    expect(what, SWIM_UNSOUND, swim_end_timer(&n, 100, events, 65, &counts));
    expect(what, SWIM_UNSOUND, swim_look_up(&n, &peer, &found));
    expect(what, SWIM_UNSOUND, swim_member_at(&n, 0, &found));
    expect(what, SWIM_UNSOUND, swim_how_many(&n, &count));
    expect(what, SWIM_UNSOUND, swim_why(&n, records, draws, 100, &grounds));
    expect(what, SWIM_UNSOUND, swim_save(&n, bytes, sizeof bytes, &count));
}
static void damaged_nodes(void) {
    n = base, n.alive[0].record.kind = 5, unsound("unknown kind, used place of alive");
    n = base, n.alive[100].record.kind = 5, unsound("unknown kind, unused place of alive");
    n = base, n.alive[100].record.from = swim_ip4(1, 1), unsound("no kind with an address");
    n = base, n.alive[0].record.kind = 0, unsound("no kind with an address, used place");
    n = base, n.deceased[0].record.kind = UINT64_MAX, unsound("unknown kind, deceased");
    n = base, n.members[1].state = 3, unsound("unknown state, listed");
    n = base, n.members[40].state = 3, unsound("unknown state, unused");
    n = base, n.timers[0].since = (uint64_t)1 << 32, unsound("tick of 33 bits, unused");
    n = base, n.timers_used = 1, n.timers[0].address = swim_ip4(3, 3), n.timers[0].since = (uint64_t)1 << 32, unsound("tick of 33 bits");
    n = base, n.settings.ping_interval += (uint64_t)1 << 32, unsound("wait of 33 bits");
    n = base, n.settings.collect = 2, unsound("a switch of 2");
    n = base, n.settings.remember = UINT64_MAX, unsound("a switch of ones");
    n = base, n.own.first = (uint64_t)1 << 24, unsound("family and port of 25 bits");
    n = base, n.order[1].first += 65536, unsound("a family of 5 in the order");
    n = base, n.departed[0].address.first = UINT64_MAX, unsound("an absent departed");
    n = base, n.listed = (uint64_t)1 << 63, unsound("length past the row");
    n = base, n.departed_used = 129, unsound("departed past the row");
    n = base, n.position = n.listed, unsound("position at the length");
    n = base, n.lamps.alive++, unsound("a lamp too many");
    memset(&n, 0, sizeof n), unsound("zeros: never created");
    memset(&n, 0xff, sizeof n), unsound("ones");
}
static void odd_inputs(void) {
    swim_action a, req;
    swim_wait w;
    n = base, m = n;
    a.kind = SWIM_PING, a.from = swim_ip4(5, 5), a.other = swim_absent();
    memset(records, 0, sizeof records);
    records[0].kind = 5, records[0].from = records[0].subject = swim_ip4(2, 2);
    expect("unknown kind of a record", SWIM_ADDRESS_RANGE, receive(&a, 1, 256));
    records[0].kind = 0;
    expect("no kind with an address", SWIM_ADDRESS_RANGE, receive(&a, 1, 256));
    for (uint64_t kind = 4; kind; kind = kind == 4 ? UINT64_MAX : 0)
        a.kind = kind, expect("unknown action", SWIM_ADDRESS_RANGE, receive(&a, 0, 256));
    a.kind = SWIM_PING, a.other.first = (uint64_t)1 << 24;
    expect("other of 25 bits", SWIM_ADDRESS_RANGE, receive(&a, 0, 256));
    req = a, req.kind = SWIM_PING_REQ, req.other = swim_absent();
    expect("request about nobody", SWIM_ADDRESS_RANGE, receive(&req, 0, 256));
    a.other = swim_absent();
    expect("a row of 63", SWIM_SHORT_ROW, receive(&a, 0, 63));
    w = swim_fresh(0), w.state = 5, expect("unknown state", SWIM_ADDRESS_RANGE, step(&w));
    w = swim_fresh(0), w.number = 1, expect("sending, with a number", SWIM_ADDRESS_RANGE, step(&w));
    w = swim_fresh(0), w.target = swim_ip4(2, 2), expect("sending, with a target", SWIM_ADDRESS_RANGE, step(&w));
    w = swim_fresh(0), w.since = (uint64_t)1 << 32, expect("tick of 33 bits", SWIM_ADDRESS_RANGE, step(&w));
}
/* Any word of the node turned into any of a few others: each call answers, and what isn't kept is untouched. */
static void any_word(unsigned seed) {
    static const uint64_t values[] = {0, 1, 4, 5, 65, 129, 262144, 393216, 16777216, (uint64_t)1 << 32, (uint64_t)1 << 63, UINT64_MAX};
    srand(seed);
    for (int i = 0; i < 3000; i++) {
        swim_wait w = swim_fresh(0), lent = w;
        uint64_t code;
        n = base;
        ((uint64_t *)&n)[(unsigned)rand() % (sizeof n / 8)] = values[(unsigned)rand() % 12];
        m = n;
        code = step(&w);
        tried++;
        if (code != SWIM_KEPT && (!untouched() || memcmp(&w, &lent, sizeof w))) wrong++, printf("a word: touched at code %u\n", (unsigned)code);
        if (code == SWIM_KEPT) memcpy(gossip, gossip_lent, sizeof gossip), memcpy(events, events_lent, sizeof events), memcpy(letters, letters_lent, sizeof letters);
    }
}
int main(void) {
    swim_settings s = {10, 10, 10, 10, 3, 3, 6, 1169, 0, 0}, odd = s;
    swim_address own = swim_ip4(1, 1), none = swim_absent();
    swim_action ping;
    uint64_t code = swim_create(&base, &s, &own, 0);
    for (uint32_t i = 2; i < 6; i++) {
        swim_address peer = i % 2 ? swim_ip4(i, (uint16_t)i) : swim_ip6(i, i, (uint16_t)i);
        code |= swim_add_peer(&base, &peer, 0, draws, 100, &counts);
    }
    ping.kind = SWIM_PING, ping.from = swim_ip4(5, 5), ping.other = swim_absent();
    records[0].kind = SWIM_SUSPECTED, records[0].from = swim_ip4(5, 5), records[0].subject = swim_ip4(3, 3), records[0].number = 3;
    code |= swim_receive(&base, &ping, records, 1, draws, 100, gossip, 256, events, 65, letters, &counts);
    if (code || !base.alive_used) return printf("not prepared: %u\n", (unsigned)code), 1;
    memset(gossip, 0x5a, sizeof gossip), memset(events, 0x5a, sizeof events), memset(letters, 0x5a, sizeof letters);
    memcpy(gossip_lent, gossip, sizeof gossip), memcpy(events_lent, events, sizeof events), memcpy(letters_lent, letters, sizeof letters);
    damaged_nodes();
    odd_inputs();
    n = base, m = n, odd.remember = 2, memset(&counts, 0, sizeof counts);
    expect("creation, a switch of 2", SWIM_SETTING, swim_create(&n, &odd, &own, 0));
    odd = s, odd.suspect_timeout = (uint64_t)1 << 40;
    expect("creation, a wait of 41 bits", SWIM_SETTING, swim_create(&n, &odd, &own, 0));
    expect("creation, no address", SWIM_ADDRESS_RANGE, swim_create(&n, &odd, &none, 0));
    expect("no draws, and no pointer", SWIM_DRAWS_SHORT, swim_add_peer(&n, &(swim_address){4 * 65536 + 9, 0, 9}, 0, NULL, 0, &counts));
    any_word(1);
    printf("%d tried, %d wrong\n", tried, wrong);
    return wrong != 0;
}
