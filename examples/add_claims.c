/* cc -std=c99 -Iinclude -o add_claims examples/add_claims.c lib/libltd_study.a

   Compiled so in the folder of an unpacked release. With the shared library: -Llib -lltd_study -Wl,-rpath,'$ORIGIN/lib' at the end. In a
   clone: target/staticlib/libc_abi.a at the end.

   Adds the claims of a claim file to a study one by one and prints the sums of the five groups, one line a group: group, thirtieths, the five
   closing counts, expected recoveries, expected deaths.
   Usage: add_claims CLAIMS RATES. Status 1 if something is refused, 2 if a file can't be read or the output can't be written. */
#include "ltd_study.h"
#include <inttypes.h>
#include <stdio.h>

/* Of 1,024 cells, the most that a table may have. */
#define RATES (1024 * 958)

/* One number more than a table may have, so that a longer one is refused. */
static uint32_t rates[RATES + 1];

/* Low byte first. */
static uint32_t four_bytes(const uint8_t *bytes) {
    return (uint32_t)bytes[0] | (uint32_t)bytes[1] << 8 | (uint32_t)bytes[2] << 16 | (uint32_t)bytes[3] << 24;
}

/* The rates of a file, four bytes each, low byte first, into rates. Answers 0, or 2 with a message. */
static int read_rates(const char *name, size_t *count) {
    uint8_t bytes[4];
    size_t n = 0;
    FILE *file = fopen(name, "rb");
    if (file == NULL) {
        perror(name);
        return 2;
    }
    *count = 0;
    while (*count <= RATES && (n = fread(bytes, 1, 4, file)) == 4) {
        rates[*count] = four_bytes(bytes);
        ++*count;
    }
    if (ferror(file) || (n > 0 && n < 4)) {
        fprintf(stderr, "%s: not read to its end, or a part number there\n", name);
        fclose(file);
        return 2;
    }
    fclose(file);
    return 0;
}

/* Opens a study of the window in block 0. Answers 0, or 1 with a message. */
static int open_study(const uint8_t *block, size_t length, int64_t *study) {
    uint32_t dates[2];
    uint8_t refused = ltd_read_window(block, length, dates, 2);
    if (refused == 0) {
        refused = ltd_open(dates[0], dates[1], study, LTD_STUDY_NUMBERS);
    }
    if (refused != 0) {
        fprintf(stderr, "refused %d block 0 claim 0\n", refused);
        return 1;
    }
    return 0;
}

/* Adds the claims of a block. Answers 0, or 1 with a message. */
static int add_block(const uint8_t *block, size_t length, uint32_t number, size_t rates_count, int64_t *study) {
    uint8_t claims[15 * LTD_CLAIM_BYTES];
    uint64_t count = ltd_read_block(block, length, number, claims, sizeof claims);
    uint64_t place;
    if (count >= LTD_REFUSAL_BASE) {
        fprintf(stderr, "refused %" PRIu64 " block %" PRIu32 " claim 0\n", count - LTD_REFUSAL_BASE, number);
        return 1;
    }
    for (place = 1; place <= count; place++) {
        const uint8_t *record = claims + (place - 1) * LTD_CLAIM_BYTES;
        uint8_t refused = ltd_add(study, LTD_STUDY_NUMBERS, record, LTD_CLAIM_BYTES, rates, rates_count);
        if (refused != 0) {
            fprintf(stderr, "refused %d block %" PRIu32 " claim %" PRIu64 ", claim number %" PRIu32 "\n", refused, number, place, four_bytes(record));
            return 1;
        }
    }
    return 0;
}

/* The study of a claim file. Answers 0, or 1 or 2 with a message. */
static int add_file(const char *name, size_t rates_count, int64_t *study) {
    uint8_t block[LTD_BLOCK_BYTES];
    uint32_t number = 0;
    int status = 0;
    size_t length;
    FILE *file = fopen(name, "rb");
    if (file == NULL) {
        perror(name);
        return 2;
    }
    /* A part block at the end is refused by its length, and so is block 0 of an empty file. */
    while (status == 0 && ((length = fread(block, 1, LTD_BLOCK_BYTES, file)) > 0 || number == 0)) {
        if (ferror(file)) {
            break;
        }
        status = number == 0 ? open_study(block, length, study) : add_block(block, length, number, rates_count, study);
        number++;
    }
    if (ferror(file)) {
        fprintf(stderr, "%s: not read to its end\n", name);
        status = 2;
    }
    fclose(file);
    return status;
}

int main(int argc, char **argv) {
    int64_t study[LTD_STUDY_NUMBERS];
    size_t rates_count;
    int status, group, i;
    if (argc != 3) {
        fprintf(stderr, "usage: add_claims CLAIMS RATES\n");
        return 2;
    }
    status = read_rates(argv[2], &rates_count);
    if (status == 0) {
        status = add_file(argv[1], rates_count, study);
    }
    if (status != 0) {
        return status;
    }
    for (group = 1; group <= 5; group++) {
        printf("%d", group);
        for (i = 0; i < 8; i++) {
            printf(" %" PRId64, study[3 + 8 * (group - 1) + i]);
        }
        printf("\n");
    }
    if (fflush(stdout) != 0 || ferror(stdout)) {
        perror("add_claims");
        return 2;
    }
    return 0;
}
