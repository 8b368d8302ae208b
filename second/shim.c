/* The engine's static library as a process: takes calls on standard input, answers on standard output.
   Meant for a host that cannot link the library, which is for x86-64 alone. It knows no rule of 01: it
   lays the lent buffers out as they come, guards and all, in pages of their own between pages without
   access, makes the call and sends everything back. process.rs has the other end. How the engine is called
   is declared in host/relay.h. */

#include "relay.h"

typedef unsigned char u8;
typedef unsigned int u32;
typedef unsigned long u64;

long read(int file, void *bytes, u64 count);
long write(int file, const void *bytes, u64 count);

void *mmap(void *at, u64 length, int rights, int kind, int file, long offset);
int mprotect(void *at, u64 length, int rights);

enum { NONE = 0, READ = 1, READ_WRITE = 3, PRIVATE_ANONYMOUS = 0x22, BUFFERS = 4 };
#define PAGE 4096ul
#define ROOM (4ul << 20)

/* For each buffer the first byte that can be opened; the page before it never is. */
static u8 *room[BUFFERS];

static int get(void *to, u64 count)
{
    u8 *next = to;
    while (count > 0) {
        long got = read(0, next, count);
        if (got <= 0)
            return 0;
        next += got;
        count -= (u64)got;
    }
    return 1;
}

static int put(const void *from, u64 count)
{
    const u8 *next = from;
    while (count > 0) {
        long put = write(1, next, count);
        if (put <= 0)
            return 0;
        next += put;
        count -= (u64)put;
    }
    return 1;
}

/* What the head says of each buffer: its whole length, its start, its length, whether it is locked. */
struct lent { u64 whole, start, length, locked; };
struct head { u64 call, first, second, count; struct lent lent[BUFFERS]; };

static void make_call(const struct head *head, u64 reply[6])
{
    const struct lent *lent = head->lent;
    u8 *x = room[0] + lent[0].start, *y = room[1] + lent[1].start, *z = room[2] + lent[2].start;
    u64 a = lent[0].length, b = lent[1].length, c = lent[2].length;
    if (head->call == 2) {
        relay_tally *tally = (relay_tally *)(room[3] + lent[3].start);
        relay_answer answer = relay_run(x, a, y, b, z, c, tally);
        reply[0] = answer.number, reply[1] = answer.detail, reply[2] = answer.place;
        reply[3] = answer.accepted;
    } else if (head->call == 3) {
        relay_forwarded answer = relay_forward(x, a, y, b, (u8)head->first, (u8)head->second);
        reply[0] = answer.number, reply[1] = answer.detail, reply[2] = answer.place;
        reply[3] = answer.deliveries, reply[4] = answer.receivers;
    } else if (head->call == 4) {
        relay_drained answer = relay_drain(x, a, y, b, (u32)head->first);
        reply[0] = answer.number, reply[1] = answer.detail, reply[2] = answer.place;
        reply[3] = answer.forwards, reply[4] = answer.rounds, reply[5] = *(const u8 *)&answer.quiet; /* the byte: a bool other than 0 and 1 is noticed */
    } else {
        relay_checked answer = head->call == 0 ? relay_check(x, a)
                              : head->call == 1 ? relay_copy(x, a, y, b)
                                                : relay_image(x, a, y, b);
        reply[0] = answer.number, reply[1] = answer.detail, reply[2] = answer.place;
    }
}

/* Opens the pages of a buffer, closes those behind it, and takes its bytes. */
static int lay(u64 i, const struct lent *lent)
{
    if (lent->whole > ROOM || mprotect(room[i], lent->whole, READ_WRITE) != 0)
        return 0;
    if (lent->whole < ROOM && mprotect(room[i] + lent->whole, ROOM - lent->whole, NONE) != 0)
        return 0;
    return get(room[i], lent->whole) && (!lent->locked || mprotect(room[i], lent->whole, READ) == 0);
}

int main(void)
{
    struct head head;
    for (u64 i = 0; i < BUFFERS; i++) {
        u8 *start = mmap(0, PAGE + ROOM + PAGE, NONE, PRIVATE_ANONYMOUS, -1, 0);
        if (start == (u8 *)-1)
            return 1;
        room[i] = start + PAGE;
    }
    while (get(&head, sizeof head)) {
        u64 reply[6] = { 0, 0, 0, 0, 0, 0 };
        if (head.count > BUFFERS)
            return 1;
        for (u64 i = 0; i < head.count; i++)
            if (!lay(i, &head.lent[i]))
                return 1;
        make_call(&head, reply);
        if (!put(reply, sizeof reply))
            return 1;
        for (u64 i = 0; i < head.count; i++)
            if (!put(room[i], head.lent[i].whole))
                return 1;
    }
    return 0;
}
