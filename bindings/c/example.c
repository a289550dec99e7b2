/* Checks the script of docs/01-scope.md, `let a = 1`, and then one with a fault, and prints what was found.
 *
 *     cc -std=c99 -I.. example.c -L../../crates/shelfstork/out -lshelfstork -o example && ./example
 */
#include <inttypes.h>
#include <stdio.h>
#include <string.h>

#include "shelfstork.h"

/* The lent buffers; the caller decides where they stand. */
static uint32_t slots[SHELFSTORK_SLOTS], functions[SHELFSTORK_FUNCTIONS], types[SHELFSTORK_TYPES];
static uint32_t diagnostics[SHELFSTORK_DIAGNOSTICS], scratch[SHELFSTORK_SCRATCH];
static uint8_t messages[SHELFSTORK_MESSAGES];

static struct shelfstork_answer check(const char *script, const uint32_t *image, size_t image_length) {
    static const uint32_t library[] = {0, 0};
    struct shelfstork_answer answer;
    shelfstork_check((const uint8_t *)script, strlen(script), image, image_length, (const uint8_t *)"", 0, library, 2, slots, SHELFSTORK_SLOTS,
                     functions, SHELFSTORK_FUNCTIONS, types, SHELFSTORK_TYPES, diagnostics, SHELFSTORK_DIAGNOSTICS, messages, SHELFSTORK_MESSAGES,
                     scratch, SHELFSTORK_SCRATCH, &answer);
    return answer;
}

/* A type with nothing inside. */
static const char *plain(uint32_t word) {
    static const char *const names[] = {"-", "Void", "Bool", "Int", "Double", "Str"};
    return shelfstork_kind(word) <= SHELFSTORK_STR ? names[shelfstork_kind(word)] : "..";
}

static void show(const char *script, struct shelfstork_answer answer, uint32_t slot_count) {
    printf("%s\n", script);
    if (answer.number != 0) {
        printf("  refused %" PRIu64 " %" PRIu64 "\n", answer.number, answer.place);
        return;
    }
    for (uint32_t i = 0; i <= slot_count; i++) {
        if (slots[i] != 0) {
            printf("  slot %u %s\n", i, plain(slots[i]));
        }
    }
    for (uint64_t i = 0; i < answer.diagnostics; i++) {
        const uint32_t *d = diagnostics + 6 * i;
        printf("  code %u at %u, %u bytes: %.*s\n", shelfstork_payload(d[0]), d[1], d[2], (int)d[4], (const char *)messages + d[3]);
    }
    printf("  %" PRIu64 " diagnostics\n", answer.diagnostics);
}

int main(void) {
    static const uint32_t sound[] = {2, 0, 1, 2, 1, 0x00000004, 0, 0xC0000801, 3, 0x40000004, 1, 0xC0000401, 0};
    static const uint32_t faulty[] = {1, 0, 1, 1, 0, 0x10000003, 0, 0xC0000001};
    static const uint32_t damaged[] = {1, 0, 1, 1, 0, 0x10000003, 7, 0xC0000001};
    show("let a = 1", check("let a = 1", sound, sizeof sound / 4), 2);
    show("x", check("x", faulty, sizeof faulty / 4), 1);
    show("x (slot 7 of 1)", check("x", damaged, sizeof damaged / 4), 1);
    return 0;
}
