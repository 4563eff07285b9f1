/* Jigbalo's five services, as the crate export_c exports them.

   A function returns 0 where the request is answered, and writes its values; else it returns the refusal's number of document 01 or
   02 and writes its place. Whatever is not written is left as it was, every buffer of a refused request included.

   A slice is a pointer and a length in elements. No pointer is null, of an empty slice neither; what is written overlaps nothing else that
   is handed in. Any bytes, numbers and lengths may be handed in: there is nothing else to see to. A call takes no heap, keeps nothing, and
   may be made from any thread. Its stack, measured on tables of 60 variables, 254 records, 20 choices and 16 root words and rounded up:
   12 KiB for a read, 19 for a score, 23 for a sweep or a filter, 86 for a search; 4 more at a first call that the linker binds only then.

   A plan has one byte a choice: 0 open, 1 taken, 2 left. A table that is answered has at most 1,324 bytes. It may end with up to 16 root
   words, each a record's node with a reward (document 02, paper 3); B, scores, tops and drops are then over all roots. */
#ifndef JIGBALO_H
#define JIGBALO_H

#include <stddef.h>
#include <stdint.h>

#ifdef __cplusplus
extern "C" {
#endif

/* V, N, the number of choices and B of a table, the product of all b times the total reward. */
uint64_t jigbalo_read(const uint8_t *file, size_t file_length,
                      uint64_t *place, uint64_t *variables, uint64_t *records, uint64_t *choices, uint64_t *scale);

/* The score of a full plan. */
uint64_t jigbalo_score(const uint8_t *file, size_t file_length, const uint8_t *plan, size_t plan_length,
                       uint64_t *place, uint64_t *score);

/* The top of a plan; the drop of each choice is written to drops, one number a choice. */
uint64_t jigbalo_sweep(const uint8_t *file, size_t file_length, const uint8_t *plan, size_t plan_length,
                       uint64_t *drops, size_t drops_length, uint64_t *place, uint64_t *top);

/* How many lines the percentage forces; the plan with these taken is written to out, one byte a choice. */
uint64_t jigbalo_filter(const uint8_t *file, size_t file_length, const uint8_t *plan, size_t plan_length,
                        uint32_t percent, uint8_t *out, size_t out_length, uint64_t *place, uint64_t *forced);

/* The score of the first candidate in the ranking, and the visits; the candidate is written to out, one byte a choice. */
uint64_t jigbalo_search(const uint8_t *file, size_t file_length, const uint8_t *plan, size_t plan_length,
                        uint32_t kits, uint32_t percent, uint8_t *out, size_t out_length,
                        uint64_t *place, uint64_t *score, uint64_t *visits);

#ifdef __cplusplus
}
#endif
#endif
