/*
 * Hands a recording over as bytes, and prints its listing.
 *
 * To build it, `c/build`, or in the repository's folder, with the toolchain's `rt` on the path:
 *     (cd crates/listing_c && rt lib)
 *     mkdir -p target/staticlib
 *     cp crates/listing_c/out/liblisting_c.a target/staticlib/liblisting.a
 *     cc -Ic c/demo.c target/staticlib/liblisting.a -o target/demo
 * Then `target/demo` prints the listing of the recording below.
 */
#include "bands.h"
#include <stdio.h>

static const uint8_t recording[] = {
    0x10, 0x00, 0x0C, 0x00, 0x10, 0x02, 0x00, 0x30, 0x04, 0x00, 0x10,
    0x02, 0x00, 0x50, 0x01, 0x00, 0x20, 0x03, 0x00, 0x40, 0x05,
};

int main(void)
{
    static uint8_t out[BANDS_LISTING_MOST];
    size_t size = bands_listing(recording, sizeof recording, out, sizeof out);
    if (size == 0) {
        fputs("the memory is too short for the listing\n", stderr);
        return 1;
    }
    return fwrite(out, 1, size, stdout) == size ? 0 : 1;
}
