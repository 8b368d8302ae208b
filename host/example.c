/* A first network in C: three desks in a chain, one revision, and a refusal. docs/HOST.md tells the same story with the tool. */
#include "relay.h"

#include <stdio.h>
#include <string.h>

/* Little-endian, as the records have it. */
static void put32(uint8_t *at, uint32_t word)
{
    for (int i = 0; i < 4; i++) {
        at[i] = (uint8_t)(word >> (8 * i));
    }
}

/* Writes one event record: the fields that a kind doesn't use are given as 0. */
static void put_event(uint8_t *at, uint8_t code, uint8_t peer, uint8_t message, uint32_t subs, uint32_t pubs,
                      uint32_t neighbours)
{
    at[0] = code;
    at[1] = peer;
    at[2] = message;
    at[3] = 0;
    put32(at + 4, subs);
    put32(at + 8, pubs);
    put32(at + 12, neighbours);
}

/* The set with one member. */
static uint32_t only(int number)
{
    return UINT32_C(1) << number;
}

static void print_seen(const char *title, const uint8_t *state)
{
    printf("%s\n", title);
    for (int peer = 0; peer < RELAY_PEERS; peer++) {
        const uint8_t *record = state + peer * RELAY_PEER_BYTES;
        if (record[0] == 1) {
            printf("  peer %d: pending 5? %s  seen 5? %s\n", peer, record[16] & only(5) ? "yes" : "no",
                   record[24] & only(5) ? "yes" : "no");
        }
    }
}

/* The answer to a forward, with the peers that newly hold the message. */
static void print_forwarded(const char *title, relay_forwarded forwarded)
{
    printf("%s: number %d, place %zu, deliveries %u, to", title, forwarded.number, forwarded.place,
           forwarded.deliveries);
    for (int peer = 0; peer < RELAY_PEERS; peer++) {
        if (forwarded.receivers & only(peer)) {
            printf(" %d", peer);
        }
    }
    printf("%s\n", forwarded.receivers == 0 ? " nobody" : "");
}

int main(void)
{
    static uint8_t state[RELAY_STATE_BYTES]; /* zero bytes: a blank network */
    static uint8_t table[RELAY_TABLE_BYTES]; /* zero bytes: every message has topic 0 and origin 0 */
    static uint8_t image[RELAY_STATE_BYTES];
    uint8_t events[5 * RELAY_EVENT_BYTES];
    relay_tally tally = {0, 0, 0};

    /* Desk 0 publishes topic 0; desks 1 and 2 subscribe to it; the links are 0 - 1 - 2. */
    put_event(events + 0, RELAY_JOIN, 0, 0, 0, only(0), 0);
    put_event(events + 16, RELAY_JOIN, 1, 0, only(0), 0, only(0));
    put_event(events + 32, RELAY_JOIN, 2, 0, only(0), 0, only(1));
    put_event(events + 48, RELAY_PRODUCE, 0, 5, 0, 0, 0);
    put_event(events + 64, RELAY_FORWARD, 0, 5, 0, 0, 0);
    relay_answer run = relay_run(state, sizeof state, table, sizeof table, events, sizeof events, &tally);
    printf("run: number %d, place %zu, accepted %zu\n", run.number, run.place, run.accepted);
    printf("tally: produced %llu, forwards %llu, deliveries %llu\n", (unsigned long long)tally.produced,
           (unsigned long long)tally.forwards, (unsigned long long)tally.deliveries);
    print_seen("state:", state);

    relay_checked imaged = relay_image(state, sizeof state, image, sizeof image);
    printf("image: number %d\n", imaged.number);
    print_seen("image (message 5 is still under way, so nobody has it there):", image);

    /* The desk that just forwarded has nothing left to forward: refused, and the state stays as it is. */
    print_forwarded("forward 0 5 again", relay_forward(state, sizeof state, table, sizeof table, 0, 5));
    /* Desk 1 passes it to desk 2; desk 0, which it came from, has seen it. */
    print_forwarded("forward 1 5", relay_forward(state, sizeof state, table, sizeof table, 1, 5));

    relay_drained drained = relay_drain(state, sizeof state, table, sizeof table, RELAY_ENOUGH);
    printf("drain: number %d, forwards %u, rounds %u, quiet %s\n", drained.number, drained.forwards, drained.rounds,
           drained.quiet ? "yes" : "no");
    print_seen("state:", state);

    /* Bad bytes are refused by number, with the record at fault and what is wrong in it: record 1 is made to know desk 2 as a
     * subscriber of topic 7, which it isn't. */
    relay_checked copied = relay_copy(state, sizeof state, image, sizeof image);
    put32(image + 1 * RELAY_PEER_BYTES + 32 + 4 * 7, only(2));
    relay_checked damaged = relay_check(image, sizeof image);
    relay_checked cut = relay_check(image, sizeof image - 1);
    printf("copy: number %d; one byte short: number %d\n", copied.number, cut.number);
    printf("a damaged copy: number %d, place %zu, detail %d\n", damaged.number, damaged.place, damaged.detail);
    return 0;
}
