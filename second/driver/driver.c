/* Calls the proved library for the second program, which speaks to this one over pipes: the library
   is for x86-64, and the second program for whatever machine this is.

   A call comes in as
       u32 number of the function, u32 number of arguments,
       and for each argument: u32 bytes, and that many bytes;
   its reply goes out as
       u32 answer,
       and for each argument: guard, its bytes as the call left them, guard.
   All numbers are little-endian. Every argument is memory lent to the call; a plain number is lent
   to this program only, as a u64. The guards are a pattern before and behind the lent bytes: where
   it comes back changed, the call wrote outside.

   The program ends with its input. A frame that it cannot read ends it with status 1. */
#include "lcs.h"

/* Of the C library; the toolchain's compiler comes without its headers. */
long read(int file, void *to, size_t bytes);
long write(int file, const void *from, size_t bytes);
void *memcpy(void *to, const void *from, size_t bytes);
void _exit(int status) __attribute__((noreturn));

/* ---- the functions */

struct lent {
    unsigned char *at;
    size_t bytes;
};

/* A lent argument as the pointer and the number of elements that the library takes. */
#define WORDS(lent) (uint16_t *)(void *)(lent).at, (lent).bytes / sizeof(uint16_t)
#define BYTES(lent) (lent).at, (lent).bytes
#define NUMBER(lent) (*(uint64_t *)(void *)(lent).at)
#define NUMBERS(lent) (uint64_t *)(void *)(lent).at

static uint32_t contained(const struct lent *a)
{
    return lcs_contained(WORDS(a[0]), WORDS(a[1]));
}

static uint32_t normal(const struct lent *a)
{
    return lcs_normal(WORDS(a[0]));
}

static uint32_t receive(const struct lent *a)
{
    return lcs_receive(WORDS(a[0]), (uint8_t)NUMBER(a[1]));
}

static uint32_t check_table(const struct lent *a)
{
    return lcs_check_table(BYTES(a[0]), NUMBERS(a[1]));
}

static uint32_t search(const struct lent *a)
{
    return lcs_search(BYTES(a[0]), WORDS(a[1]), WORDS(a[2]), NUMBERS(a[3]));
}

static uint32_t replay(const struct lent *a)
{
    return lcs_replay(BYTES(a[0]), WORDS(a[1]), NUMBERS(a[2]));
}

static uint32_t write_list(const struct lent *a)
{
    return lcs_write_list(BYTES(a[0]), WORDS(a[1]), NUMBER(a[2]), BYTES(a[3]), NUMBERS(a[4]));
}

static uint32_t judge(const struct lent *a)
{
    return lcs_judge(BYTES(a[0]), BYTES(a[1]), NUMBERS(a[2]));
}

/* By their numbers: the order is that of `Function` in the second program. */
static const struct function {
    uint32_t arguments;
    uint32_t (*call)(const struct lent *arguments);
} functions[] = {
    {2, contained},
    {1, normal},
    {2, receive},
    {2, check_table},
    {4, search},
    {3, replay},
    {5, write_list},
    {3, judge},
};

enum { FUNCTIONS = sizeof functions / sizeof functions[0], ARGUMENTS_MAX = 5 };

/* ---- bytes in and out */

static unsigned char in[1 << 16], out[1 << 16];
static size_t in_next, in_end, out_end;

static void fail(const char *why, size_t length)
{
    write(2, why, length);
    _exit(1);
}
#define FAIL(why) fail("driver: " why "\n", sizeof("driver: " why "\n") - 1)

static void send_out(void)
{
    size_t sent = 0;
    while (sent < out_end) {
        long now = write(1, out + sent, out_end - sent);
        if (now <= 0)
            FAIL("nobody takes the replies");
        sent += (size_t)now;
    }
    out_end = 0;
}

/* Gets more input, if there is any. No reply waits here meanwhile: the other side may need it before
   it sends more. */
static int more_in(void)
{
    send_out();
    long now = read(0, in, sizeof in);
    if (now < 0)
        FAIL("the input cannot be read");
    in_next = 0;
    in_end = (size_t)now;
    return now > 0;
}

static void take(void *to, size_t bytes)
{
    unsigned char *next = to;
    while (bytes > 0) {
        if (in_next == in_end && !more_in())
            FAIL("the input ends inside a call");
        size_t now = in_end - in_next < bytes ? in_end - in_next : bytes;
        memcpy(next, in + in_next, now);
        in_next += now, next += now, bytes -= now;
    }
}

static uint32_t take_number(void)
{
    uint32_t number;
    take(&number, sizeof number);
    return number;
}

static void put(const void *from, size_t bytes)
{
    const unsigned char *next = from;
    while (bytes > 0) {
        if (out_end == sizeof out)
            send_out();
        size_t now = sizeof out - out_end < bytes ? sizeof out - out_end : bytes;
        memcpy(out + out_end, next, now);
        out_end += now, next += now, bytes -= now;
    }
}

/* ---- lent memory */

enum { GUARD = 32, ALIGNED = 16 };
static unsigned char memory[1 << 22] __attribute__((aligned(ALIGNED)));
static size_t used;

static void put_guard(unsigned char *at)
{
    for (int i = 0; i < GUARD; i++)
        at[i] = (unsigned char)(0xC0 + i);
}

/* The next argument, between its guards. What is behind it starts at its very last byte. */
static struct lent take_lent(void)
{
    size_t bytes = take_number();
    used = (used + ALIGNED - 1) / ALIGNED * ALIGNED;
    if (sizeof memory - used < 2 * GUARD + bytes)
        FAIL("a call lends more than there is room for");
    struct lent lent = {memory + used + GUARD, bytes};
    put_guard(lent.at - GUARD);
    take(lent.at, bytes);
    put_guard(lent.at + bytes);
    used += 2 * GUARD + bytes;
    return lent;
}

/* ---- one call after the other */

static void answer_call(void)
{
    uint32_t number = take_number(), arguments = take_number();
    if (number >= FUNCTIONS || arguments != functions[number].arguments)
        FAIL("there is no such function");
    struct lent lent[ARGUMENTS_MAX];
    used = 0;
    for (uint32_t i = 0; i < arguments; i++)
        lent[i] = take_lent();
    uint32_t answer = functions[number].call(lent);
    put(&answer, sizeof answer);
    for (uint32_t i = 0; i < arguments; i++)
        put(lent[i].at - GUARD, 2 * GUARD + lent[i].bytes);
}

int main(void)
{
    while (in_next < in_end || more_in())
        answer_call();
    return 0;
}
