/* Packs a page in gzip's format, and unpacks it. */
#include "libdeflate.h"
#include "package.h"
#include <stdio.h>
#include <string.h>

extern const uint8_t page[];
extern const uint32_t page_size;

static uint8_t packed[1 << 14], plain[1 << 14];

static void try_level(int level) {
    struct libdeflate_compressor *packer = libdeflate_alloc_compressor(level);
    struct libdeflate_decompressor *unpacker = libdeflate_alloc_decompressor();
    size_t n = libdeflate_gzip_compress(packer, page, page_size, packed, sizeof packed), m = 0;
    int result = libdeflate_gzip_decompress(unpacker, packed, n, plain, sizeof plain, &m);
    printf("level %d: %u bytes to %u, sum %08x; back %d, %s\n", level, (unsigned)page_size, (unsigned)n, sum_of(packed, n), result,
           m == page_size && memcmp(plain, page, m) == 0 ? "the same" : "another");
    packed[n / 2] ^= 1;
    printf("damaged: %d\n", libdeflate_gzip_decompress(unpacker, packed, n, plain, sizeof plain, &m));
    libdeflate_free_compressor(packer);
    libdeflate_free_decompressor(unpacker);
}

int main(void) {
    for (int level = 0; level <= 9; level += 3)
        try_level(level);
    printf("crc %08x, adler %08x\n", (unsigned)libdeflate_crc32(0, page, page_size), (unsigned)libdeflate_adler32(1, page, page_size));
    return 0;
}
