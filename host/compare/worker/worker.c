/*
 * Makes calls of the library for the tests, in a process of its own, with the
 * archive linked in. It reads calls from standard input and writes what came of
 * them to standard output, until its input ends.
 *
 * A call: five numbers of four bytes (which function, the lengths of up to four
 * slices), then the slices' bytes. What came of it: the answer, a byte that says
 * what the worker saw, two zero bytes, then the slices' bytes after the call.
 *
 * Each slice lies in memory of its own. Every second call it ends where its
 * memory ends, so that a read or a write beyond it stops the worker; in the
 * others it begins at each of sixteen alignments in turn, between margins whose
 * bytes must stay as they are.
 *
 * There is no C library here, and no header: the worker is built by a compiler
 * that may have neither.
 */

typedef __UINT8_TYPE__ byte;
typedef __UINT32_TYPE__ number;
typedef __SIZE_TYPE__ size;

enum {
    SLICES = 4,
    ROOM = 1 << 20,  /* the longest slice with its margins */
    GUARD = 1 << 16, /* after each room, memory that may not be touched */
    MARGIN = 64,
    FILL = 0xA5
};

enum { CHECK = 0, POST = 1, SETTLE = 2 };
enum { DONE = 0, MARGIN_CHANGED = 1 };

byte clearing_check(const byte *book, size book_length);
byte clearing_post(byte *book, size book_length, const byte *record, size record_length);
byte clearing_settle(const byte *book, size book_length, const byte *prices, size prices_length,
                     byte *next, size next_length, byte *results, size results_length);

static long system_call(long which, long a, long b, long c, long d, long e, long f)
{
    register long fourth __asm__("r10") = d;
    register long fifth __asm__("r8") = e;
    register long sixth __asm__("r9") = f;
    long answer;
    __asm__ volatile("syscall"
                     : "=a"(answer)
                     : "a"(which), "D"(a), "S"(b), "d"(c), "r"(fourth), "r"(fifth), "r"(sixth)
                     : "rcx", "r11", "memory");
    return answer;
}

__attribute__((noreturn)) static void leave(int status)
{
    for (;;)
        system_call(60, status, 0, 0, 0, 0, 0);
}

/* Reads all of it; the worker ends where the input does. */
static void receive(byte *to, size length)
{
    while (length > 0) {
        long got = system_call(0, 0, (long)to, (long)length, 0, 0, 0);
        if (got <= 0)
            leave(got == 0 ? 0 : 3);
        to += got;
        length -= (size)got;
    }
}

static void send(const byte *from, size length)
{
    while (length > 0) {
        long sent = system_call(1, 1, (long)from, (long)length, 0, 0, 0);
        if (sent <= 0)
            leave(3);
        from += sent;
        length -= (size)sent;
    }
}

static byte *rooms;

static void make_rooms(void)
{
    long read_and_write = 3, private_and_empty = 0x22;
    long at = system_call(9, 0, SLICES * (ROOM + GUARD), read_and_write, private_and_empty, -1, 0);
    if (at < 0 && at > -4096)
        leave(4);
    rooms = (byte *)at;
    for (int slice = 0; slice < SLICES; slice++)
        if (system_call(10, at + slice * (ROOM + GUARD) + ROOM, GUARD, 0, 0, 0, 0) != 0)
            leave(4);
}

static byte *room(int slice)
{
    return rooms + slice * (ROOM + GUARD);
}

static size place(number count, size length)
{
    return count % 2 == 0 ? ROOM - length : MARGIN + count / 2 % 16;
}

/* Fills the margins, or says whether they are as they were filled. */
static int margins(int fill, int slice, size start, size length)
{
    int same = 1;
    for (size i = 1; i <= MARGIN; i++) {
        byte *ends[2] = {room(slice) + start - i, room(slice) + start + length + i - 1};
        for (int end = 0; end < 2; end++) {
            if (ends[end] >= room(slice) + ROOM)
                continue;
            if (fill)
                *ends[end] = FILL;
            else
                same &= *ends[end] == FILL;
        }
    }
    return same;
}

static byte call(number which, byte *at[SLICES], const number *length)
{
    switch (which) {
    case CHECK:
        return clearing_check(at[0], length[0]);
    case POST:
        return clearing_post(at[0], length[0], at[1], length[1]);
    case SETTLE:
        return clearing_settle(at[0], length[0], at[1], length[1], at[2], length[2], at[3],
                               length[3]);
    default:
        leave(5);
    }
}

__attribute__((noreturn, force_align_arg_pointer)) void _start(void)
{
    make_rooms();
    for (number count = 0;; count++) {
        number head[1 + SLICES];
        byte answer[4] = {0, DONE, 0, 0};
        byte *at[SLICES];
        receive((byte *)head, sizeof head);
        for (int slice = 0; slice < SLICES; slice++) {
            size length = head[1 + slice];
            if (length > ROOM - 3 * MARGIN)
                leave(5);
            size start = place(count, length);
            at[slice] = room(slice) + start;
            receive(at[slice], length);
            margins(1, slice, start, length);
        }
        answer[0] = call(head[0], at, head + 1);
        for (int slice = 0; slice < SLICES; slice++)
            if (!margins(0, slice, (size)(at[slice] - room(slice)), head[1 + slice]))
                answer[1] = MARGIN_CHANGED;
        send(answer, sizeof answer);
        for (int slice = 0; slice < SLICES; slice++)
            send(at[slice], head[1 + slice]);
    }
}

/* What the compiler may ask for by itself. */
void *memcpy(void *to, const void *from, size length)
{
    byte *target = to;
    const byte *source = from;
    while (length-- > 0)
        *target++ = *source++;
    return to;
}

void *memmove(void *to, const void *from, size length)
{
    byte *target = to;
    const byte *source = from;
    if (target <= source)
        return memcpy(to, from, length);
    while (length-- > 0)
        target[length] = source[length];
    return to;
}

void *memset(void *to, int value, size length)
{
    byte *target = to;
    while (length-- > 0)
        *target++ = (byte)value;
    return to;
}

int memcmp(const void *left, const void *right, size length)
{
    const byte *a = left, *b = right;
    for (size i = 0; i < length; i++)
        if (a[i] != b[i])
            return a[i] < b[i] ? -1 : 1;
    return 0;
}
