/* A look at a rule file, and refusals as sentences, by proved functions on plain numbers. Link with libexport.a, which
 * `.ci/libraries export` writes to target/staticlib/. No function has a precondition: any text, any lengths, any start and any count are
 * answered. A slice is a pointer and the number of its elements; the pointer of an empty slice may be null. The slices lent to one call
 * must not overlap, each must be as long as the caller says, and SAKTHVEIM_STACK bytes of stack must be left: nothing else is asked of a
 * caller. */
#ifndef SAKTHVEIM_H
#define SAKTHVEIM_H

#include <stddef.h>
#include <stdint.h>

#ifdef __cplusplus
extern "C" {
#endif

/* Bytes of stack, enough for any call: a thread with a stack of this size can make it. */
#define SAKTHVEIM_STACK 131072u

/* The work area of an accepted look has at least this many numbers. It is all zero afterwards. */
#define SAKTHVEIM_WORK 9216u

/* 0 for an accepted text; else its refusal: SAKTHVEIM_NUMBER (1 to 10) and SAKTHVEIM_LINE. */
uint32_t sakthveim_check(const uint8_t *text, size_t text_len);

/* The smallest case k with start <= k < min(start + count, N), N being the number of candidates: the answer in the upper 8 bits, what
 * it comes with in the 56 below. A refused look changes no buffer. */
uint64_t sakthveim_look(const uint8_t *text, size_t text_len, uint64_t start, uint64_t count, int32_t *work, size_t work_len,
                        int16_t *instance, size_t instance_len);

/* Of the number r that a look returns: which answer, and what it comes with. */
#define SAKTHVEIM_ANSWER(r) ((uint32_t)((uint64_t)(r) >> 56))
#define SAKTHVEIM_VALUE(r) ((uint64_t)(r) & 0xffffffffffffffu)

#define SAKTHVEIM_SPENT 0x00u   /* the next start */
#define SAKTHVEIM_CASE 0x80u    /* k; the instance buffer begins with its cells */
#define SAKTHVEIM_NO_CASE 0x82u /* 0 */
#define SAKTHVEIM_REFUSED 0x8fu /* the refusal's number (1 to 13) times 65,536, and its line */

/* The refusal in the number r that a refused look or check returns: its number, and its line from 1, or 0 where none is said. */
#define SAKTHVEIM_NUMBER(r) ((uint32_t)((r) >> 16) & 0xffu)
#define SAKTHVEIM_LINE(r) ((uint32_t)(r) & 0xffffu)

/* The languages of a sentence. */
#define SAKTHVEIM_ENGLISH 0u
#define SAKTHVEIM_FRENCH 1u

/* Bytes, room enough for any sentence. */
#define SAKTHVEIM_SENTENCE 512u

/* The refusal with this number and line as one sentence in UTF-8, at the front of the buffer: its length in bytes. No 0 closes it, and the
 * bytes behind it are as they were. 0 where the buffer has no room for it or no language has this number; then no byte changes. */
size_t sakthveim_sentence(uint8_t number, uint16_t line, uint8_t language, uint8_t *out, size_t out_len);

#ifdef __cplusplus
}
#endif

#endif
