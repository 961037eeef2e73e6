/* The loop of docs/HOST.md, to be copied. The board gives the functions whose names begin with it. */
#include "swim.h"

uint32_t board_tick(void);  /* a clock that nobody sets; it may come round */
void board_draw(uint64_t *draws, uint64_t n);  /* random words */
uint64_t board_take(uint8_t *bytes, uint64_t room);  /* a datagram that has come, or 0 */
void board_send(const swim_address *to, const uint8_t *bytes, uint64_t length);
void board_tell(const swim_record *event);
int begin(const swim_settings *settings, const swim_address *own, const swim_address *peer);
void loop(void);

static swim_node node;
static swim_wait wait_;
static swim_record brought[SWIM_MESSAGE_GOSSIP], gossip[SWIM_STEP_GOSSIP], events[SWIM_MESSAGE_EVENTS];
static swim_letter letters[SWIM_LETTERS];
static swim_counts did;  /* all zeros after a call that isn't kept */
static uint64_t draws[128];
static _Alignas(8) uint8_t bytes[SWIM_DATAGRAM];

static void carry_out(void) {
    uint64_t at = 0, n;
    for (uint64_t i = 0; i < did.reported; i++) board_tell(&events[i]);
    for (uint64_t i = 0; i < did.sent; at += letters[i++].count)
        if (swim_write(&letters[i].action, &gossip[at], letters[i].count, bytes, sizeof bytes, &n) == SWIM_KEPT)
            board_send(&letters[i].target, bytes, n);
}
static void on_datagram(uint64_t length) {
    swim_action action;
    uint64_t n;
    if (swim_read(bytes, length, &action, brought, 64, &n) != SWIM_KEPT) return;
    board_draw(draws, 128);
    swim_receive(&node, &action, brought, n, draws, 128, gossip, 64, events, 65, letters, &did), carry_out();
}
static void on_tick(uint32_t now) {
    board_draw(draws, 128);
    uint64_t code = swim_step(&node, &wait_, now, draws, 128, gossip, 256, events, 1, letters, &did);
    if (code == SWIM_KEPT) carry_out();
    else if (code != SWIM_NOT_DUE) wait_ = swim_fresh(now);  /* full: forget whom it waits for, so that it can send */
    while (swim_end_timer(&node, now, events, 1, &did) == SWIM_KEPT) carry_out();
}
int begin(const swim_settings *settings, const swim_address *own, const swim_address *peer) {
    if (swim_create(&node, settings, own, 0) != SWIM_KEPT) return 0;
    wait_ = swim_fresh(board_tick()), board_draw(draws, 128);
    return swim_add_peer(&node, peer, 0, draws, 128, &did) == SWIM_KEPT;
}
void loop(void) {
    for (uint32_t last = board_tick();;) {
        for (uint64_t n; (n = board_take(bytes, sizeof bytes)) > 0;) on_datagram(n);
        if (board_tick() != last) on_tick(last = board_tick());
    }
}
