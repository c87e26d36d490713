/* Makes each call that decodes on a stack of just the size that include/mrc.h states, above a page that faults, and then in
 * a thread that has as much besides what a thread takes for itself. Prints how much of the stack the call reached. */
#define _DEFAULT_SOURCE
#define _XOPEN_SOURCE 700
#include "mrc.h"

#include <pthread.h>
#include <stdio.h>
#include <stdlib.h>
#include <string.h>
#include <sys/mman.h>
#include <ucontext.h>
#include <unistd.h>

enum { GUARD = 4096, PAINT = 0xA5, USUAL = 15, LARGEST = 255, LONGEST_RUN = LARGEST + 1 };

static uint8_t bytes[LONGEST_RUN + 6];
static size_t length;
static uint8_t budget;
static uint8_t reading;
static struct mrc_record record;
static uint8_t out[MRC_LONGEST_LINE];
static uint8_t large[8192];

static void decode(void) { mrc_decode(bytes, length, 0, budget, reading, &record); }
static void step(void) { mrc_step(bytes, length, 0, budget, reading); }
static void line(void) { mrc_line(bytes, length, 0, reading, out, sizeof out); }
static void line_without_room(void) { mrc_line(bytes, length, 0, reading, out, 1); }

static void page(void) { mrc_page(bytes, length, 0, reading, large, sizeof large); }
static void page_of_one_line(void) { mrc_page(bytes, length, 0, reading, out, sizeof out); }

/* The longest instruction, one that keeps an override in the second reading, and one that has its operand there alone. */
static const uint8_t add[] = {0x81, 0x80, 0x34, 0x12, 0x78, 0x56};
static const uint8_t move[] = {0xA4};
static const uint8_t esc[] = {0xDF, 0xBE, 0x34, 0x12};
static const struct { const uint8_t *bytes; size_t length; } tails[] = {{add, sizeof add}, {move, sizeof move}, {esc, sizeof esc}};
enum { TAILS = sizeof tails / sizeof tails[0] };

/* As many prefixes, and a tail behind them. */
static void fill(size_t prefixes, size_t tail)
{
    for (size_t i = 0; i < prefixes; i++)
        bytes[i] = i % 2 == 0 ? 0x26 : 0xF3;
    memcpy(bytes + prefixes, tails[tail].bytes, tails[tail].length);
    length = prefixes + tails[tail].length;
}

static uint8_t *stack_above_a_guard(size_t size)
{
    uint8_t *low = mmap(NULL, GUARD + size, PROT_READ | PROT_WRITE, MAP_PRIVATE | MAP_ANONYMOUS, -1, 0);
    if (low == MAP_FAILED || mprotect(low, GUARD, PROT_NONE) != 0) {
        puts("no memory for a stack");
        exit(1);
    }
    return low + GUARD;
}

/* The bytes of a stack of that size that a call reached. */
static size_t reached(void (*call)(void), size_t size)
{
    static ucontext_t here, there;
    uint8_t *stack = stack_above_a_guard(size);
    memset(stack, PAINT, size);
    getcontext(&there);
    there.uc_stack.ss_sp = stack;
    there.uc_stack.ss_size = size;
    there.uc_link = &here;
    makecontext(&there, call, 0);
    swapcontext(&here, &there);
    size_t untouched = 0;
    while (untouched < size && stack[untouched] == PAINT)
        untouched++;
    munmap(stack - GUARD, GUARD + size);
    return size - untouched;
}

static void (*called)(void);

static void *thread(void *unused)
{
    called();
    return unused;
}

/* The call in a thread with a stack of that size, and of the least that a thread may have. */
static void in_a_thread(void (*call)(void), size_t size)
{
    size_t whole = size + (size_t)sysconf(_SC_THREAD_STACK_MIN);
    uint8_t *stack = stack_above_a_guard(whole);
    pthread_attr_t attributes;
    pthread_t id;
    called = call;
    if (pthread_attr_init(&attributes) != 0 || pthread_attr_setstack(&attributes, stack, whole) != 0
        || pthread_create(&id, &attributes, thread, NULL) != 0 || pthread_join(id, NULL) != 0) {
        puts("no thread");
        exit(1);
    }
    munmap(stack - GUARD, GUARD + whole);
}

static void run(const char *what, void (*call)(void), uint8_t with_budget, size_t size)
{
    size_t most = 0;
    budget = with_budget;
    for (size_t i = 0; i < TAILS * ((size_t)with_budget + 2); i++) {
        fill(i / TAILS, i % TAILS);
        size_t now = reached(call, size);
        most = now > most ? now : most;
        in_a_thread(call, size);
    }
    printf("%s, budget %d, reading %d: %zu of %zu bytes\n", what, with_budget, reading, most, size);
}

static void run_each(void)
{
    run("decode", decode, USUAL, MRC_STACK_USUAL);
    run("step", step, USUAL, MRC_STACK_USUAL);
    run("line", line, USUAL, MRC_STACK_USUAL);
    run("line without room", line_without_room, USUAL, MRC_STACK_USUAL);
    run("page", page, USUAL, MRC_STACK_USUAL);
    run("page of one line", page_of_one_line, USUAL, MRC_STACK_USUAL);
    run("decode", decode, LARGEST, MRC_STACK_LARGEST);
    run("step", step, LARGEST, MRC_STACK_LARGEST);
}

int main(void)
{
    for (reading = MRC_READING_1; reading <= MRC_READING_2; reading++)
        run_each();
    return 0;
}
