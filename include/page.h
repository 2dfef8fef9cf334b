/* The page check for C.
 *
 * A page is records of 20 bytes: a two-byte mark, hex 49 43 for a row and hex 2E 2E for an empty
 * place; a row goes on with its relation in two bytes and four columns in four bytes each, the
 * highest byte first; an empty record is zero after its mark. A page has at most 256 records.
 *
 * Build the library with `c/library` and link target/staticlib/libpage.a. The check allocates
 * nothing and calls nothing, so no other library is needed.
 */
#ifndef PAGE_H
#define PAGE_H

#include <stddef.h>
#include <stdint.h>

#ifdef __cplusplus
extern "C" {
#endif

/* What `page_check` finds. No other number occurs. */
enum {
    PAGE_IS_A_PAGE = 0, /* the bytes are a page; the position is 0 */
    PAGE_NOT_WHOLE = 51, /* the length is not a multiple of 20; the position is 0 */
    PAGE_TOO_LONG = 52, /* the length is above 5120; the position is 0 */
    PAGE_UNMARKED = 53, /* the record at the position has neither mark */
    PAGE_UNFIT = 54, /* the record at the position is a row whose relation is not declared or whose
                        columns from the arity on are not zero, or is empty and not zero after its
                        mark */
    PAGE_REPEATED = 55 /* the record at the position is a row that an earlier record holds */
};

/* A number of those above, and the position: the first record, from 0, that fails that question.
 * The questions are asked in the order of their numbers, each of the whole page. */
struct page_finding {
    uint8_t number;
    size_t position;
};

/* Tells whether the bytes are a page of rows that fit the arities.
 *
 * `arities` has a byte for each of the relations 0 to 15: its arity, 1 to 4. A relation whose byte
 * is 0, above 4 or missing is not declared; bytes past the sixteenth are not looked at.
 *
 * A pointer may be NULL where its length is 0. The memory is read only, and not kept. */
struct page_finding page_check(const uint8_t *bytes, size_t bytes_length, const uint8_t *arities, size_t arities_length);

#ifdef __cplusplus
}
#endif

#endif
