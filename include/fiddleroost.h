/* Fiddleroost as a static library: the text of a drill file.
 *
 * Build it with `rt lib` in crates/fiddleroost, and link crates/fiddleroost/out/libfiddleroost.a. It is made for Linux on x86-64,
 * calls nothing but memcpy and memset, and keeps nothing between calls. */

#ifndef FIDDLEROOST_H
#define FIDDLEROOST_H

#include <stddef.h>
#include <stdint.h>

#ifdef __cplusplus
extern "C" {
#endif

/* A drill file has at most so many bytes; a longer one is refused by its text. */
#define FIDDLEROOST_FILE_MOST 65536

/* No text is longer: so many bytes are to be lent for it. */
#define FIDDLEROOST_TEXT_MOST 688708

/* FIDDLEROOST_TEXT_MOST as the library was built with it: where this differs, header and archive do not belong together. */
size_t fiddleroost_text_most(void);

/* Writes the text of the drill file `file` to the front of `out`, and returns its length in bytes.
 *
 * What the caller owes:
 * - `file` is not null and points to `length` bytes that can be read. Where `length` is 0 any address will do but null.
 * - `out` is not null and points to FIDDLEROOST_TEXT_MOST bytes that can be read and written, all of them set to some
 *   value.
 * - The two do not overlap, and nothing else changes the one or uses the other until the call returns.
 * - The calling thread has 128 kilobytes of stack left.
 *
 * What the caller gets, for every file, also a spoilt or an oversize one:
 * - The call returns, and what it returns is at least 1 and at most FIDDLEROOST_TEXT_MOST.
 * - So many bytes at the front of `out` are the text, and it ends in a newline. No zero byte is put behind it.
 * - The bytes of `out` after the text are as they were, and so are the bytes of `file`. Nothing else is touched.
 *
 * Two calls at once are fine where neither's `out` overlaps what the other was handed. */
size_t fiddleroost_text(const uint8_t *file, size_t length, uint8_t *out);

#ifdef __cplusplus
}
#endif

#endif
