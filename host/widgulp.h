/* The panel's view of Widgulp: one function on bytes. */
#ifndef WIDGULP_H
#define WIDGULP_H

#include <stddef.h>
#include <stdint.h>

/* A buffer of this length has room for every listing. */
#define WIDGULP_SHEET_LEN 16384

/* Writes the listing of a plant file to the front of `out` and returns its length, or returns the number of the
   decline as a negative and leaves `out` as it was. Allocates nothing. `file` and `out` must not overlap. */
#ifdef __cplusplus
extern "C"
#endif
int64_t widgulp_listing(const uint8_t *file, size_t file_len, uint8_t *out, size_t out_len);

#endif
