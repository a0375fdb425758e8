/* The listing of a recording, for C. */
#ifndef BANDS_H
#define BANDS_H

#include <stddef.h>
#include <stdint.h>

/* No listing has more bytes than this, so memory of this length is never too short. */
#define BANDS_LISTING_MOST 6747

/*
 * Writes the listing of a recording into the memory `out`, from its first byte on, and returns how many bytes it wrote.
 * If the recording is refused, the listing is one line that says why, and its bytes are counted like any others.
 *
 * Returns 0 if the memory is too short for the listing, and then writes nothing. No listing has 0 bytes, so 0 means
 * nothing else. Memory behind the listing stays as it was. No byte is added behind the listing: it is not a C string.
 *
 * The caller sees to it that
 * - `recording` points to `recording_len` bytes that can be read, and `out` to `out_len` bytes that can be read and
 *   written, all of them initialized;
 * - neither pointer is null, even where its length is 0;
 * - the two memories do not overlap, and no other thread changes either during the call.
 * The call asks nothing else of the recording: every row of bytes has a listing.
 */
size_t bands_listing(const uint8_t *recording, size_t recording_len, uint8_t *out, size_t out_len);

#endif
