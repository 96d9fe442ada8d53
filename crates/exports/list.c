// Lists the print items of the tree image on standard input in the mode with the number given, 0 (plain) by default, 1 (keeping).
//     crates/exports_c/archive
//     cc -o target/list crates/exports/list.c target/staticlib/libexports.a
#include <inttypes.h>
#include <stdio.h>
#include <stdlib.h>

// A slice is its pointer and its length. Values: records, bytes of texts, runs, marks, bytes of the listing, element.
uint32_t tungvesk_list(const uint8_t *image, size_t image_len, uint32_t mode, uint32_t *records, size_t records_len, uint8_t *texts, size_t texts_len,
                       uint8_t *listing, size_t listing_len, uint64_t values[6]);

static uint8_t image[65536], texts[32000], listing[65536];
static uint32_t records[3 * 5000];

int main(int argc, char **argv) {
    size_t n = fread(image, 1, sizeof image, stdin);
    uint32_t mode = argc > 1 ? (uint32_t)strtoul(argv[1], NULL, 10) : 0;
    uint64_t values[6] = {0};
    uint32_t number = tungvesk_list(image, n, mode, records, 3 * 5000, texts, sizeof texts, listing, sizeof listing, values);
    if (number == 254) {
        fprintf(stderr, "no mode has the number %" PRIu32 "\n", mode);
        return 2;
    }
    if (number != 0) {
        printf("refused %" PRIu32 " %" PRIu64 "\n", number, values[5]);
        return 1;
    }
    fwrite(listing, 1, values[4], stdout);
    return 0;
}
