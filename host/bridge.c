/* The engine as a process, for hosts on machines that cannot link x86-64 code.
 *
 * Reads calls from standard input and answers each on standard output, until the input ends. It adds nothing: it hands
 * the bytes to the engine and hands back the answer and every buffer.
 *
 *   call   0 function; 1 peer; 2 message; 4-7 budget; 8-31 lengths of three buffers, 8 bytes each; 32-55 tally;
 *          56-63 zero; then the buffers
 *   answer 0 number; 1 detail; 2 quiet; 8-15 place; 16-23 accepted; 24-27 deliveries or forwards; 28-31 receivers or
 *          rounds; 32-55 tally; the rest zero; then the buffers
 */
#include "relay.h"

#include <stdio.h>
#include <stdlib.h>
#include <string.h>

enum { RUN, FORWARD, DRAIN, IMAGE, CHECK, COPY, FUNCTIONS };
enum { HEAD = 64, LENGTHS = 8, TALLY = 32, BUFFERS = 3, ROOM = 1 << 16 };

struct call {
    uint8_t head[HEAD];
    uint8_t *buffer[BUFFERS];
    uint64_t length[BUFFERS];
};

/* Ends the process: the host sees the end of its input and says so. */
static _Noreturn void stop(const char *why)
{
    fprintf(stderr, "engine process: %s\n", why);
    exit(1);
}

/* Reads one call; false at the end of the input. */
static bool read_call(struct call *call)
{
    if (fread(call->head, 1, HEAD, stdin) != HEAD) {
        return false;
    }
    for (int i = 0; i < BUFFERS; i++) {
        memcpy(&call->length[i], call->head + LENGTHS + 8 * i, 8);
        call->buffer[i] = call->length[i] < SIZE_MAX ? malloc(call->length[i] + 1) : NULL;
        if (call->buffer[i] == NULL) {
            stop("no memory for a buffer");
        }
        if (fread(call->buffer[i], 1, call->length[i], stdin) != call->length[i]) {
            stop("a call is cut short");
        }
    }
    return true;
}

/* Puts what every answer has where the host looks for it. */
static void put(uint8_t *head, uint8_t number, uint8_t detail, uint64_t place)
{
    head[0] = number;
    head[1] = detail;
    memcpy(head + 8, &place, 8);
}

/* The same for the two words of a forward or a drain: deliveries and receivers, or forwards and rounds. */
static void put_words(uint8_t *head, uint32_t first, uint32_t second)
{
    memcpy(head + 24, &first, 4);
    memcpy(head + 28, &second, 4);
}

/* Calls one of the functions that answer no more than number, detail and place. */
static relay_checked checked(const struct call *call)
{
    uint8_t *const *buffer = call->buffer;
    const uint64_t *length = call->length;
    switch (call->head[0]) {
    case IMAGE:
        return relay_image(buffer[0], length[0], buffer[1], length[1]);
    case CHECK:
        return relay_check(buffer[0], length[0]);
    case COPY:
        return relay_copy(buffer[0], length[0], buffer[1], length[1]);
    default:
        stop("an unknown function is called");
    }
}

/* Calls the engine and leaves the answer's head in `head`. */
static void answer(const struct call *call, uint8_t head[HEAD])
{
    uint8_t *const *buffer = call->buffer;
    const uint64_t *length = call->length;
    relay_tally tally;
    uint32_t budget;
    memcpy(&tally, call->head + TALLY, sizeof tally);
    memcpy(&budget, call->head + 4, sizeof budget);
    memset(head, 0, HEAD);
    switch (call->head[0]) {
    case RUN: {
        relay_answer a = relay_run(buffer[0], length[0], buffer[1], length[1], buffer[2], length[2], &tally);
        uint64_t accepted = a.accepted;
        put(head, a.number, a.detail, a.place);
        memcpy(head + 16, &accepted, 8);
        break;
    }
    case FORWARD: {
        relay_forwarded f = relay_forward(buffer[0], length[0], buffer[1], length[1], call->head[1], call->head[2]);
        put(head, f.number, f.detail, f.place);
        put_words(head, f.deliveries, f.receivers);
        break;
    }
    case DRAIN: {
        relay_drained d = relay_drain(buffer[0], length[0], buffer[1], length[1], budget);
        put(head, d.number, d.detail, d.place);
        put_words(head, d.forwards, d.rounds);
        head[2] = d.quiet;
        break;
    }
    default: {
        relay_checked c = checked(call);
        put(head, c.number, c.detail, c.place);
    }
    }
    memcpy(head + TALLY, &tally, sizeof tally);
}

int main(void)
{
    struct call call;
    uint8_t head[HEAD];
    setvbuf(stdin, NULL, _IOFBF, ROOM);
    setvbuf(stdout, NULL, _IOFBF, ROOM);
    while (read_call(&call)) {
        answer(&call, head);
        fwrite(head, 1, HEAD, stdout);
        for (int i = 0; i < BUFFERS; i++) {
            fwrite(call.buffer[i], 1, call.length[i], stdout);
            free(call.buffer[i]);
        }
        if (fflush(stdout) != 0) {
            stop("the answer cannot be written");
        }
    }
    return 0;
}
