/* Trisculap, for C and C++ firmware, and for Rust through embed/rust.
 *
 * Every call returns 0 where it answers and the number of its refusal, 1 to 11, where it refuses;
 * docs/EMBEDDING.md says what each number means. A refusal changes nothing: no cell, trail, mark or
 * work word, no count, no answer.
 *
 * Any words, counts, roots and lengths may arrive. Each array is a pointer and its length in words.
 * What the caller must see to: pointers are aligned and never null (a length may be 0), they point to
 * as many words as the length says, nothing that a call may write overlaps anything else it is given,
 * nobody else touches the words during a call, and there is stack enough (docs/EMBEDDING.md).
 *
 * Names are the caller's, but for atom 46, which is '.': a structure '.' of two arguments is the same
 * term as a Lis.
 */
#ifndef TRISCULAP_H
#define TRISCULAP_H
#include <stddef.h>
#include <stdint.h>

/* The most cells that a store may use, the work words that a call wants for each used cell, and the
 * words of a mark. */
#define TRISCULAP_LIMIT 4096
#define TRISCULAP_WORK_PER_CELL 12
#define TRISCULAP_MARK_WORDS 2

#ifdef __cplusplus
extern "C" {
#endif

uint64_t trisculap_check(const uint64_t *cells, size_t cells_len, size_t top,
                         const uint64_t *trail, size_t trail_len, size_t trail_count,
                         const uint64_t *marks, size_t marks_len, size_t mark_count);

uint64_t trisculap_number(int64_t n, uint64_t *word);

uint64_t trisculap_follow(const uint64_t *cells, size_t cells_len, size_t top,
                          size_t at, uint64_t *word);

uint64_t trisculap_append(uint64_t *cells, size_t cells_len, size_t *top,
                          const uint64_t *trail, size_t trail_len, size_t trail_count,
                          const uint64_t *marks, size_t marks_len, size_t mark_count,
                          const uint64_t *words, size_t words_len, size_t *at);

uint64_t trisculap_mark(const uint64_t *cells, size_t cells_len, size_t top,
                        const uint64_t *trail, size_t trail_len, size_t trail_count,
                        uint64_t *marks, size_t marks_len, size_t *mark_count,
                        size_t *number);

uint64_t trisculap_rollback(uint64_t *cells, size_t cells_len, size_t *top,
                            uint64_t *trail, size_t trail_len, size_t *trail_count,
                            uint64_t *marks, size_t marks_len, size_t *mark_count,
                            size_t k);

uint64_t trisculap_cut(const uint64_t *cells, size_t cells_len, size_t top,
                       const uint64_t *trail, size_t trail_len, size_t trail_count,
                       uint64_t *marks, size_t marks_len, size_t *mark_count,
                       size_t k);

/* *yes becomes 1 where the roots unify and 0 where there is no unifier. */
uint64_t trisculap_unify(uint64_t *cells, size_t cells_len, size_t top,
                         uint64_t *trail, size_t trail_len, size_t *trail_count,
                         const uint64_t *marks, size_t marks_len, size_t mark_count,
                         uint64_t *work, size_t work_len,
                         size_t a, size_t b, uint64_t *yes);

uint64_t trisculap_unify_checked(uint64_t *cells, size_t cells_len, size_t top,
                                 uint64_t *trail, size_t trail_len, size_t *trail_count,
                                 const uint64_t *marks, size_t marks_len, size_t mark_count,
                                 uint64_t *work, size_t work_len,
                                 size_t a, size_t b, uint64_t *yes);

uint64_t trisculap_copy(uint64_t *cells, size_t cells_len, size_t *top,
                        uint64_t *work, size_t work_len,
                        size_t root, size_t *at);

/* *yes becomes 1 where the root reaches a cycle and 0 where it does not. */
uint64_t trisculap_cyclic(const uint64_t *cells, size_t cells_len, size_t top,
                          size_t root, uint64_t *yes);

#ifdef __cplusplus
}
#endif
#endif
