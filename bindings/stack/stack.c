/* Runs the check on the cases of a batch (a run of [u32 length][case], each in the bench's format, of any length).
 *
 *     stack painted BATCH    each on a painted stack of its own; prints bytes of stack, number and place
 *     stack plain BATCH      each on the program's stack, for ulimit -s; prints how many
 *
 * The bytes are those below the caller's frame: the return address, and all frames of the check. The caller's own, 120 bytes of arguments among them,
 * are measured by a call of an empty function and taken off.
 */
#define _GNU_SOURCE
#include <stdio.h>
#include <stdlib.h>
#include <string.h>
#include <sys/mman.h>
#include <ucontext.h>

#include "shelfstork.h"

#define STACK (8u << 20)
#define GUARD (1u << 16)
#define PAINT 0xA5

typedef void checks(
    const uint8_t *, size_t, const uint32_t *, size_t, const uint8_t *, size_t, const uint32_t *, size_t,
    uint32_t *, size_t, uint32_t *, size_t, uint32_t *, size_t, uint32_t *, size_t, uint8_t *, size_t, uint32_t *, size_t, struct shelfstork_answer *);

/* The lent buffers and a case, none of it on a stack. */
static uint32_t slots[SHELFSTORK_SLOTS], functions[SHELFSTORK_FUNCTIONS], types[SHELFSTORK_TYPES];
static uint32_t diagnostics[SHELFSTORK_DIAGNOSTICS], scratch[SHELFSTORK_SCRATCH];
static uint8_t messages[SHELFSTORK_MESSAGES];
static struct shelfstork_answer answer;
static uint32_t image[1 << 16], library[1 << 16];
static const uint8_t *script, *text;
static uint32_t lengths[4];

static checks *volatile checked;
static ucontext_t before, inside;
static uint8_t *stack;

/* Nothing but a return address. */
__attribute__((naked, noinline)) static void empty(void) { __asm__("ret"); }

__attribute__((noinline)) static void run(void) {
    checked(script, lengths[0], image, lengths[1], text, lengths[2], library, lengths[3], slots, SHELFSTORK_SLOTS, functions, SHELFSTORK_FUNCTIONS, types,
            SHELFSTORK_TYPES, diagnostics, SHELFSTORK_DIAGNOSTICS, messages, SHELFSTORK_MESSAGES, scratch, SHELFSTORK_SCRATCH, &answer);
}

/* How many bytes of a freshly painted stack `run` wrote to. */
static size_t mark(checks *function) {
    memset(stack, PAINT, STACK);
    checked = function;
    getcontext(&inside);
    inside.uc_stack.ss_sp = stack;
    inside.uc_stack.ss_size = STACK;
    inside.uc_link = &before;
    makecontext(&inside, run, 0);
    swapcontext(&before, &inside);
    size_t i = 0;
    while (i < STACK && stack[i] == PAINT) {
        i++;
    }
    return STACK - i;
}

static uint8_t *whole(const char *path, size_t *length) {
    FILE *f = fopen(path, "rb");
    if (f == NULL) {
        return NULL;
    }
    fseek(f, 0, SEEK_END);
    *length = (size_t)ftell(f);
    rewind(f);
    uint8_t *data = malloc(*length + 1);
    if (data == NULL || fread(data, 1, *length, f) != *length) {
        return NULL;
    }
    fclose(f);
    return data;
}

/* Takes a case apart; 0 where its lengths do not fit. */
static int take(const uint8_t *data, size_t length) {
    if (length < 16) {
        return 0;
    }
    memcpy(lengths, data, 16);
    if (lengths[1] > 1 << 16 || lengths[3] > 1 << 16 || 16 + (size_t)lengths[0] + 4 * (size_t)lengths[1] + lengths[2] + 4 * (size_t)lengths[3] != length) {
        return 0;
    }
    script = data + 16;
    memcpy(image, script + lengths[0], 4 * (size_t)lengths[1]);
    text = script + lengths[0] + 4 * (size_t)lengths[1];
    memcpy(library, text + lengths[2], 4 * (size_t)lengths[3]);
    return 1;
}

int main(int argc, char **argv) {
    if (argc != 3) {
        return 2;
    }
    int painted = strcmp(argv[1], "painted") == 0;
    size_t length = 0, at = 0, done = 0;
    uint8_t *batch = whole(argv[2], &length);
    stack = mmap(NULL, STACK + GUARD, PROT_NONE, MAP_PRIVATE | MAP_ANONYMOUS, -1, 0);
    if (batch == NULL || stack == MAP_FAILED || mprotect(stack + GUARD, STACK, PROT_READ | PROT_WRITE) != 0) {
        return 2;
    }
    stack += GUARD;
    size_t own = mark((checks *)empty) - 8;
    while (at + 4 <= length) {
        uint32_t size;
        memcpy(&size, batch + at, 4);
        if (size > length - at - 4 || !take(batch + at + 4, size)) {
            return 2;
        }
        at += 4 + size;
        if (painted) {
            size_t bytes = mark(shelfstork_check) - own;
            printf("%zu %d %d\n", bytes, (int)answer.number, (int)answer.place);
        } else {
            checked = shelfstork_check;
            run();
        }
        done++;
    }
    if (!painted) {
        printf("%zu\n", done);
    }
    return 0;
}
