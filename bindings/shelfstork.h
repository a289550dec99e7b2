/* The type checker as a C function: libshelfstork.a ((cd crates/shelfstork && rt lib)), x86-64 Linux.
 *
 * Inputs and answers are the words of docs/01-scope.md. The function is pure: it reads its inputs, writes the six lent buffers and the answer,
 * keeps nothing, allocates nothing and may be called from several threads at once. It needs at most 192 KB of stack (196,608 bytes below the
 * caller's frame), whatever it is given; for scripts whose nodes are at most d deep the greater of 58,856 and 34,944 + 2,384 * d bytes.
 * bindings/stack/ measures it.
 */
#ifndef SHELFSTORK_H
#define SHELFSTORK_H

#include <stddef.h>
#include <stdint.h>

#ifdef __cplusplus
extern "C" {
#endif

/* Lengths with which refusals 1 and 6 never come, and 7 and 9 only where a limit of document 01 is met: as long as can be used. */
#define SHELFSTORK_SLOTS 4097         /* words */
#define SHELFSTORK_FUNCTIONS 8192     /* words */
#define SHELFSTORK_TYPES 8192         /* words */
#define SHELFSTORK_DIAGNOSTICS 1536   /* words, six for each diagnostic */
#define SHELFSTORK_MESSAGES 65536     /* bytes */
#define SHELFSTORK_SCRATCH 16384      /* words */

struct shelfstork_answer {
    uint64_t number;         /* 0 answered, 1 to 9 refused */
    uint64_t place;          /* of a refusal, else 0 */
    uint64_t function_words; /* how much of each buffer is used; all 0 if refused */
    uint64_t type_words;
    uint64_t diagnostics;
    uint64_t message_bytes;
};

/* Checks a script, and tells the answer.
 *
 * Lengths count words where the pointer is to words, else bytes. No pointer may be null, not even where its length is 0; pointers to words are
 * aligned to 4 bytes, answer to 8. No lent buffer may overlap another buffer or an input. There is no other condition: any bytes and words are answered or
 * refused.
 */
void shelfstork_check(
    const uint8_t *script, size_t script_length,
    const uint32_t *image, size_t image_length,
    const uint8_t *library_text, size_t library_text_length,
    const uint32_t *library, size_t library_length,
    uint32_t *slots, size_t slots_length,
    uint32_t *functions, size_t functions_length,
    uint32_t *types, size_t types_length,
    uint32_t *diagnostics, size_t diagnostics_length,
    uint8_t *messages, size_t messages_length,
    uint32_t *scratch, size_t scratch_length,
    struct shelfstork_answer *answer);

/* Kinds of type words. */
enum {
    SHELFSTORK_VOID = 1, SHELFSTORK_BOOL, SHELFSTORK_INT, SHELFSTORK_DOUBLE, SHELFSTORK_STR, SHELFSTORK_OPTION, SHELFSTORK_ARRAY,
    SHELFSTORK_RECORD, SHELFSTORK_FOREIGN, SHELFSTORK_SLOT, SHELFSTORK_UNKNOWN
};

static inline uint32_t shelfstork_kind(uint32_t word) { return word >> 28; }
static inline uint32_t shelfstork_payload(uint32_t word) { return word & 0xFFFFFFFu; }

/* Of a name, or of the payload of a Foreign or Slot. */
static inline uint32_t shelfstork_name_length(uint32_t word) { return word & 0xFFu; }
static inline uint32_t shelfstork_name_start(uint32_t word) { return word >> 8 & 0xFFFFu; }
static inline int shelfstork_name_is_library(uint32_t word) { return (int)(word >> 24 & 1u); }

#ifdef __cplusplus
}
#endif

#endif
