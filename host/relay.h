/* The relay engine for C: the functions of the proved static library (target/staticlib/libengine.a).
 *
 * A buffer is lent as a pointer and a length in bytes. Every function takes any bytes of any length, ends, and answers by
 * number; a refusal leaves the lent buffers as they were. What C cannot promise by itself, the caller owes:
 *
 *   - a pointer is not NULL, also where its length is 0, and has at least that many readable bytes;
 *   - a buffer that is lent for writing overlaps no other buffer of the same call, and nobody else uses it meanwhile;
 *   - a tally lies on an address that is fit for a uint64_t, as every struct relay_tally does.
 *
 * No call allocates. Of stack a run needs 6.9 KB, a forward 6.8, a drain 7.5, an image 10.6, a check or a copy 5.9 (measured);
 * 16 KB are enough for each.
 *
 * The library is x86-64 code (docs/HOST.md says how other machines call it).
 *
 * Numbers answered:
 *    0 done
 *    1 state isn't 5,120 bytes
 *    2 message table isn't 256 bytes
 *    3 event bytes aren't a multiple of 16
 *    4 a message row has topic or origin above 31, or bytes 2-3 not zero    (place: lowest such row)
 *    6 unknown code                                                         (place of this and the next ten: the event)
 *    7 peer above 31, message above 63, or an unused byte not zero
 *    8 peer absent
 *    9 joining peer already present
 *   10 producing peer isn't the message's origin
 *   11 topic not in the peer's pubs
 *   12 message not new
 *   13 message not pending at this peer
 *   14 leaver has something pending
 *   15 joining peer names itself as neighbour
 *   16 a named neighbour is absent
 *   18 image buffer isn't 5,120 bytes
 *   20 presence byte or zero bytes                                         (place of this and the next six: lowest unsound record)
 *   21 absent record not empty
 *   22 own neighbour
 *   23 neighbour absent                                                    (detail: lowest neighbour whose byte 0 isn't 1)
 *   24 neighbour doesn't list back                                         (detail: lowest neighbour that doesn't)
 *   25 known subscribers wrong                                             (detail: lowest topic whose word is wrong)
 *   26 pending also seen
 *
 * 20 to 26 say that the state is unsound, and by which rule: the record is the lowest at fault, the number its lowest rule. The
 * detail is 0 where none is given. 5 is no longer answered (it was 20 to 26 in one), and 17 only by the run program.
 */
#ifndef RELAY_H
#define RELAY_H

#include <stdbool.h>
#include <stddef.h>
#include <stdint.h>

#ifdef __cplusplus
extern "C" {
#endif

/* All files are records of one fixed size without a header; numbers are little-endian.
 *   peer record     0 present (0 or 1); 1-3 zero; 4-7 pubs; 8-11 subs; 12-15 neighbours; 16-23 pending; 24-31 seen;
 *                   32-159 known subscribers for topics 0 to 31, 4 bytes each
 *   message record  0 topic; 1 origin; 2-3 zero
 *   event record    0 code; 1 peer; 2 message; 3 zero; 4-7 subs or topics; 8-11 pubs; 12-15 neighbours
 * A set is a word in which bit i stands for number i. A blank network is RELAY_STATE_BYTES zero bytes. */
#define RELAY_PEERS 32
#define RELAY_TOPICS 32
#define RELAY_MESSAGES 64
#define RELAY_PEER_BYTES 160
#define RELAY_ROW_BYTES 4
#define RELAY_EVENT_BYTES 16
#define RELAY_STATE_BYTES (RELAY_PEERS * RELAY_PEER_BYTES)
#define RELAY_TABLE_BYTES (RELAY_MESSAGES * RELAY_ROW_BYTES)

/* At most so many forwards are ever needed until nothing is pending. */
#define RELAY_ENOUGH 2048

/* Codes of the events, with the fields that each uses. Fields that a kind doesn't use must be zero. */
enum {
    RELAY_SKIP = 0,        /* none */
    RELAY_PRODUCE = 1,     /* peer, message: message becomes pending at its origin */
    RELAY_FORWARD = 2,     /* peer, message: moves from pending to seen, and on to the known subscribers */
    RELAY_SUBSCRIBE = 3,   /* peer, topics: topics join subs; neighbours' records follow */
    RELAY_UNSUBSCRIBE = 4, /* peer, topics: topics leave subs; neighbours' records follow */
    RELAY_LEAVE = 5,       /* peer: record becomes zero; neighbours drop the peer and its subscriptions */
    RELAY_JOIN = 6         /* peer, subs, pubs, neighbours: record made with nothing pending or seen */
};

/* Accepted produce events, accepted forward events, and the sum of the forwards' deliveries. */
typedef struct relay_tally {
    uint64_t produced;
    uint64_t forwards;
    uint64_t deliveries;
} relay_tally;

/* Every answer begins with number, detail and place; `detail` is the neighbour or topic at fault of 23 to 25, otherwise 0. */
typedef struct relay_answer {
    uint8_t number;
    uint8_t detail;
    size_t place;
    size_t accepted; /* the count of accepted events */
} relay_answer;

typedef struct relay_forwarded {
    uint8_t number;
    uint8_t detail;
    size_t place;
    uint32_t deliveries; /* how many peers newly hold the message: the size of the set below; 0 if refused */
    uint32_t receivers;  /* these peers, a set: bit q is peer q; 0 if refused */
} relay_forwarded;

typedef struct relay_drained {
    uint8_t number;
    uint8_t detail;
    size_t place;
    uint32_t forwards; /* forwards made */
    uint32_t rounds;   /* rounds finished */
    bool quiet;        /* nothing is pending */
} relay_drained;

typedef struct relay_checked {
    uint8_t number;
    uint8_t detail;
    size_t place;
} relay_checked;

/* Runs an event list on a state. 1 to 4, then 20 to 26, are tested in that order before any event; refused by one of them, the
 * accepted count is 0 and all buffers, the tally included, stay untouched. Then events from place 0, each tested 6, 7, then its
 * conditions. At the first refusal the run stops; the state buffer holds the state after the accepted events. The tally starts
 * from zero in each run that gets past 26. Table and events are never written. */
relay_answer relay_run(uint8_t *state, size_t state_length, const uint8_t *table, size_t table_length,
                       const uint8_t *events, size_t events_length, relay_tally *tally);

/* Forwards one message: it moves from pending to seen at the peer; then each known subscriber of its topic there gets
 * it pending, unless it is pending or seen there. Those that get it are the receivers: the neighbours that subscribe to
 * the topic and had it neither pending nor seen, never the peer itself. Refuses by 1, 2, 4, 20 to 26, 7, 8, 13 in this
 * order, place 0 for the last three, no receivers, buffers untouched. */
relay_forwarded relay_forward(uint8_t *state, size_t state_length, const uint8_t *table, size_t table_length,
                              uint8_t peer, uint8_t message);

/* Forwards by rounds. A round forwards every pair that was pending when the round began, peers rising, messages rising
 * within a peer; what becomes pending meanwhile waits. Stops when nothing is pending or the budget is spent. Refuses by
 * 1, 2, 4, 20 to 26 in this order with counts 0, not quiet, buffers untouched. */
relay_drained relay_drain(uint8_t *state, size_t state_length, const uint8_t *table, size_t table_length,
                          uint32_t budget);

/* Writes the commitment image: it keeps presence, pubs and subs, and from every seen set removes each message pending
 * at any peer; neighbours, pending and known subscribers are zero. Refuses by 1, 20 to 26, 18 in that order and leaves
 * both buffers untouched; the state is never written. */
relay_checked relay_image(const uint8_t *state, size_t state_length, uint8_t *image, size_t image_length);

/* Is this a sound state? Refuses by 1, then 20 to 26. */
relay_checked relay_check(const uint8_t *state, size_t state_length);

/* Reads a state from one buffer and writes it to another. Refuses by 1, then 20 to 26, for the buffer that is read; then
 * by 1 for the buffer that is written. A refusal leaves both untouched. */
relay_checked relay_copy(const uint8_t *from, size_t from_length, uint8_t *to, size_t to_length);

#ifdef __cplusplus
}
#endif

#endif
