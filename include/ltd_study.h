/* The engine's calls for C, C++ and Rust, by task:

     the study of a whole claim file     ltd_file_study; where later records correct earlier ones, ltd_corrected_study;
                                         many files with one table, ltd_prepare once, then ltd_prepared_file_study and
                                         ltd_prepared_corrected_study
     the sums of each month of duration  ltd_durations; with a prepared table, ltd_prepared_durations
     a study claim by claim              ltd_open, ltd_add; a claim taken back, ltd_withdraw; studies of one window joined, ltd_join;
                                         with a prepared table, ltd_prepared_add and ltd_prepared_withdraw
     one claim's months                  ltd_listing
     a claim file's blocks               ltd_read_window, ltd_read_block; ltd_write_window, ltd_write_block
     factors and rates                   ltd_factor (z, m, T), ltd_wanted_count, ltd_valuation_rate
     reserves                            ltd_reserve_factor, ltd_reserve_limit
     the small company rule              ltd_small_company
     a load that anyone can rebuild      ltd_load_claim
     the version linked                  ltd_version

   Link with libltd_study.so or libltd_study.a of a release; examples/add_claims.c begins with its compile line. In a clone
   target/staticlib/libc_abi.a has the same calls.

   A slice is a pointer and a length in elements. No call keeps a pointer or writes outside the lent lists. A null list has length 0.
   A list that is written may overlap no other list of the call. A longer list than asked for is taken, its rest untouched, unless a call
   says otherwise.
   A date is the claim file's four bytes as one number, low byte first: year + 65,536 × month + 16,777,216 × day.
   A claim is its record, the 32 bytes of struct ltd_claim; a longer list is taken by its first 32.
   A refusal is the number of document 01's table or of document 02's requests: LTD_REFUSED_.. below. 255 says that a lent list has not the
   length or form asked for, before any numbered check; nothing is written then, nor at a refusal, unless a call says otherwise. */
#ifndef LTD_STUDY_H
#define LTD_STUDY_H
#include <stddef.h>
#include <stdint.h>

/* The version of this header. A library has all of its calls if the version that its ltd_version answers has the same major and no lower
   minor. */
#define LTD_VERSION_MAJOR 1
#define LTD_VERSION_MINOR 1
#define LTD_VERSION_PATCH 0
#define LTD_VERSION (65536 * LTD_VERSION_MAJOR + 256 * LTD_VERSION_MINOR + LTD_VERSION_PATCH)

/* Lengths: the numbers of a study, of a file's study with what was refused and where, and of n rows by duration, of which there are at most
   2,000; the bytes of a block and of a claim's record. */
#define LTD_STUDY_NUMBERS 83
#define LTD_FILE_STUDY_NUMBERS 86
#define LTD_DURATIONS_NUMBERS(n) (4 + 8 * (size_t)(n))
#define LTD_MOST_DURATIONS 2000
#define LTD_BLOCK_BYTES 512
#define LTD_CLAIM_BYTES 32

/* An answer of 64 bits that is not below this is this + the number refused. */
#define LTD_REFUSAL_BASE ((uint64_t)1 << 32)

/* What is refused: 1 to 13 are document 01's, 14 to 20 document 02's. */
#define LTD_REFUSED_WINDOW 1
#define LTD_REFUSED_DATE 2
#define LTD_REFUSED_STATUS 3
#define LTD_REFUSED_SEQUENCE 4
#define LTD_REFUSED_SHORT_ELIMINATION 5
#define LTD_REFUSED_RATE_TABLE 6
#define LTD_REFUSED_CELL 7
#define LTD_REFUSED_RATE 8
#define LTD_REFUSED_FULL 9
#define LTD_REFUSED_SHORT_LIST 10
#define LTD_REFUSED_BLOCK 11
#define LTD_REFUSED_VALUATION 12
#define LTD_REFUSED_DISCOUNT 13
#define LTD_REFUSED_TOO_MANY_RECORDS 14
#define LTD_REFUSED_OTHER_WINDOW 15
#define LTD_REFUSED_BENEFIT 16
#define LTD_REFUSED_OPEN_CLAIMS 17
#define LTD_REFUSED_WITHDRAWAL 18
#define LTD_REFUSED_NO_COUNT 19
#define LTD_REFUSED_LOAD 20
/* A lent list that has not the length or form asked for. */
#define LTD_BAD_FORM 255

#ifdef __cplusplus
extern "C" {
#endif

/* A claim's record: the claim file's own 32 bytes, which on a machine with its low byte first is this struct. */
struct ltd_claim {
    uint32_t number;
    uint32_t disability;
    uint32_t bcd;
    uint32_t termination;
    uint32_t maximum;
    uint8_t status;
    uint8_t code;
    uint16_t cell;
    uint8_t benefit;
    uint8_t zero[7];
};

/* Opens a study of the window first..last. A study is 83 numbers: first day number and last day number of the window, claims taken; then for
   each group: thirtieths, five closing counts (recovery, death, settlement, max-out, limit), expected recoveries, expected deaths; then for
   each group the same eight of the weighted set, each claim's share multiplied by its benefit (1 for a benefit of 0). Answers 0, or 1 with
   the study of 1950-01-01 alone. 255 if study is shorter than 83; nothing is written then. */
uint8_t ltd_open(uint32_t first, uint32_t last, int64_t *study, size_t study_len);

/* Adds a claim, the 32 bytes of its record, to a study. Answers 0 or the number refused (1 to 9, 16), study untouched. A study may hold any
   numbers: a day outside 0 to 54,786 is refused 1, claims taken outside 0 to 499,999 and every count or sum outside its bounds 9, each at
   its place in the order of the checks. The bounds of a closing count are 0 and 500,000, those of a weighted closing sum 0 and 100,000,000.
   255, study untouched, if study is shorter than 83, or if claim has fewer than 32 bytes or one of its bytes 25 to 31 is not zero. */
uint8_t ltd_add(int64_t *study, size_t study_len, const uint8_t *claim, size_t claim_len, const uint32_t *rates, size_t rates_len);

/* Withdraws a claim that was added before, the 32 bytes of its record, from a study. Answers 0 or the number refused, study untouched: as
   ltd_add, any numbers in the study included, save that exactly 500,000 claims may be taken; then 18 if no claim is taken, or if a closing
   count or a weighted closing sum would fall below zero. 255, study untouched, as ltd_add. */
uint8_t ltd_withdraw(int64_t *study, size_t study_len, const uint8_t *claim, size_t claim_len, const uint32_t *rates, size_t rates_len);

/* As ltd_add and ltd_withdraw, with a list that ltd_prepare made of rates: the same answers and the same study as with these rates, and
   faster. Refusal 6 says that the table is not a prepared one. */
uint8_t ltd_prepared_add(int64_t *study, size_t study_len, const uint8_t *claim, size_t claim_len, const uint32_t *table, size_t table_len);
uint8_t ltd_prepared_withdraw(int64_t *study, size_t study_len, const uint8_t *claim, size_t claim_len, const uint32_t *table, size_t table_len);

/* Joins another study of the same window to a study: claims taken and every sum of either set are added. Answers 0 or the number refused,
   study untouched: 1 if the window of either is bad, 15 if the windows differ, 9 if together they have over 500,000 claims, or if claims
   taken, a sum or a count is outside its bounds in either or in both together. Either study may hold any numbers, as for ltd_add. 255, study
   untouched, if either list is shorter than 83. */
uint8_t ltd_join(int64_t *study, size_t study_len, const int64_t *other, size_t other_len);

/* The dates of block 0's window into dates (2 numbers). Answers 0 or 11, dates untouched. 255 if dates is shorter than 2. */
uint8_t ltd_read_window(const uint8_t *block, size_t block_len, uint32_t *dates, size_t dates_len);

/* The month records of a claim, the 32 bytes of its record, in the window first..last, six numbers each into list. Answers how many, or
   2^32 + the number refused (1 to 5, 10, 16), list untouched; 2^32 + 255 if claim has fewer than 32 bytes or one of its bytes 25 to 31 is
   not zero. */
uint64_t ltd_listing(uint32_t first, uint32_t last, const uint8_t *claim, size_t claim_len, int32_t *list, size_t list_len);

/* The study of a whole claim file. Answers the number refused, or 0. Writes 86 numbers to out, at a refusal too: number, block, claim place,
   then the 83 numbers of the study. A refused run gives the study so far, with the claims before the refused one; where block 0 or its
   window is refused, that of 1950-01-01 alone. A claim place counts from 1, and is 0 for a block or a window. 255 if out is shorter than
   86. */
uint8_t ltd_file_study(const uint8_t *file, size_t file_len, const uint32_t *rates, size_t rates_len, int64_t *out, size_t out_len);

/* Prepares a table of 958 x n + 1 numbers in place, n 1 to 1,024, the last one 0: the rates of each cell that is sound are replaced by their
   running sums, an unsound cell is marked, and the last number becomes 1. Answers 0, or 6 with the table untouched (another length, or a
   last number that is not 0). */
uint8_t ltd_prepare(uint32_t *table, size_t table_len);

/* The study of a whole claim file with a prepared table: as ltd_file_study with the rates that were prepared, what is written at a refusal
   included, and faster. Refusal 6 says that the table is not a prepared one. 255 if out is shorter than 86. */
uint8_t ltd_prepared_file_study(const uint8_t *file, size_t file_len, const uint32_t *table, size_t table_len, int64_t *out, size_t out_len);

/* The study of a whole claim file in which a later record corrects the earlier ones with its claim number: as ltd_file_study, but of each
   number only the last record in file order is added, and earlier ones are not checked beyond their block. First every block is checked
   (11), then the window (1), both with the study of 1950-01-01 alone, then the number of records: 14 at block 0, place 0, with the fresh
   study of that window, if the file has more than 60,000, corrected ones included. A claim's refusal names its place in this file, with
   the study so far. 255 if out is shorter than 86. */
uint8_t ltd_corrected_study(const uint8_t *file, size_t file_len, const uint32_t *rates, size_t rates_len, int64_t *out, size_t out_len);

/* The same with a prepared table: as ltd_corrected_study with the rates that were prepared, and faster. Refusal 6 says that the table is not
   a prepared one. 255 if out is shorter than 86. */
uint8_t ltd_prepared_corrected_study(const uint8_t *file, size_t file_len, const uint32_t *table, size_t table_len, int64_t *out,
                                     size_t out_len);

/* The sums of each month of duration of a whole claim file, by count. Runs the file as ltd_file_study does and answers the same number. out
   has 4 + 8 x n numbers, n from 1 to 2,000: number, block, claim place, claims taken; then for d = 1 to n the eight numbers that a group of a
   study has: thirtieths, five closing counts, expected recoveries, expected deaths, over the month records of duration d; the last row has
   n and all later durations. A refused run gives the rows of the claims taken so far; where no study was opened they are zeros. Sums are
   modulo 2^64, which no sum reaches with rates that pass check 8. 255, nothing written, if out has another length. */
uint8_t ltd_durations(const uint8_t *file, size_t file_len, const uint32_t *rates, size_t rates_len, int64_t *out, size_t out_len);

/* The same with a prepared table: as ltd_durations with the rates that were prepared, and faster. Refusal 6 says that the table is not a
   prepared one. 255, nothing written, if out has another length. */
uint8_t ltd_prepared_durations(const uint8_t *file, size_t file_len, const uint32_t *table, size_t table_len, int64_t *out, size_t out_len);

/* z, m and T of a group into out (3 numbers), T without any ceiling. Answers 0, or 12 with out untouched. 255 if out is shorter than 3. */
uint8_t ltd_factor(uint8_t group, uint32_t terminations, int64_t expected, uint64_t *out, size_t out_len);

/* The smallest count of terminations, 0 to 500,000, with which T of a group is at least wanted, expected as it is. Answers the count, or
   2^32 + the number refused: 12 (group), 19 (no such count). Nothing is lent, so 255 is never answered. */
uint64_t ltd_wanted_count(uint8_t group, int64_t expected, uint64_t wanted);

/* The valuation rate, or 2^32 + the number refused (6, 7, 8, 12, in this order). */
uint64_t ltd_valuation_rate(const uint32_t *rates, size_t rates_len, uint32_t cell, uint64_t t, uint32_t duration);

/* The reserve factor into out (1 number), t five numbers exactly. Answers 0 or the number refused (6, 7, 8, 12, 13, in this order), out
   untouched. 255 if t has not five numbers or out none. */
uint8_t ltd_reserve_factor(const uint32_t *rates, size_t rates_len, uint32_t cell, uint32_t first, const uint64_t *t, size_t t_len,
                           uint32_t months, double v, double *out, size_t out_len);

/* The limit on reserves, over at most 2,000 open claims, each three numbers of open_claims: cell, next duration above 24, months left. Into
   totals (2 numbers) the reserve factors added up with t (five numbers), and with t replaced by 1,300,000 in groups 3 to 5, group 3 kept
   if group_3_count is 5,000 or more; into t_out (5 numbers) the replaced set if the first total is less, else t. Answers 0 or the number
   refused, t_out and totals untouched: first 17, if there are more than 2,000 claims or a part of one at the end; then the claims in
   order, each by ltd_reserve_factor's 6, 7, 8, 12, 13 and behind them 17, if its duration is 24 or less. 255 if t has not exactly five
   numbers, t_out is shorter than 5 or totals than 2. */
uint8_t ltd_reserve_limit(const uint32_t *rates, size_t rates_len, const uint32_t *open_claims, size_t open_claims_len, const uint64_t *t,
                          size_t t_len, uint64_t group_3_count, double v, uint64_t *t_out, size_t t_out_len, double *totals,
                          size_t totals_len);

/* The small company rule, over claims, 32 bytes each, one record after the other, as many as there are. Into out (9 numbers): 1 for an
   exempt carrier, else 0; open claims disabled within two years of date, and open claims disabled earlier; a group; five T. The same day
   two years before counts as within; of a 29 February that day is the 28th; where it lies before 1950 every day from 1950 on counts as
   within. Claims disabled after date count in neither. A carrier is exempt if these counts are below 50 and 200: it has group 0 and five T
   of 1,000,000. Another has new_t, and the first group in which ten times the difference of new_t and old_t exceeds old_t, or 0. Answers 0
   or the number refused, out untouched: 2 (date), then 11 (a part of a record at the end, or a record whose bytes 25 to 31 are not all
   zero), then the first claim's 2 to 5 or 16, closed claims too. 255 if new_t or old_t has not exactly five numbers or out is shorter than
   9. */
uint8_t ltd_small_company(uint32_t date, const uint8_t *claims, size_t claims_len, const uint64_t *new_t, size_t new_t_len,
                          const uint64_t *old_t, size_t old_t_len, uint64_t *out, size_t out_len);

/* The claim due of a load that anyone can rebuild: from x, which is the seed for claim 1 and then the x reached, the load's size and the
   claim's number, 1 to size. Writes the x reached into x_out (1 number) and the claim's record into claim (32 bytes). Answers 0, or 20 with
   both untouched: x not 1 to 2,147,483,646, size over 500,000, another number. 255 if x_out has no number or claim is shorter than 32. */
uint8_t ltd_load_claim(uint32_t x, uint32_t size, uint32_t number, uint32_t *x_out, size_t x_out_len, uint8_t *claim, size_t claim_len);

/* Reads a claim block (512 bytes) at the number due into claims (480 bytes): 32 bytes for each claim, its record, the rest untouched.
   Answers how many claims, or 2^32 + 11 (due 0 is refused too: ltd_read_window reads block 0), claims untouched. 2^32 + 255 if claims is
   shorter than 480. */
uint64_t ltd_read_block(const uint8_t *block, size_t block_len, uint32_t due, uint8_t *claims, size_t claims_len);

/* Writes a claim block of 0 to 15 claims, 32 bytes each, one record after the other, into block (512 bytes). Answers 0 or 11, block
   untouched: a number of 0 or above 65,535, more than 15 claims, a part of a record at the end, a record whose bytes 25 to 31 are not all
   zero, a block that has not 512 bytes. */
uint8_t ltd_write_block(uint32_t number, const uint8_t *claims, size_t claims_len, uint8_t *block, size_t block_len);

/* Writes block 0 with a window's dates, any two numbers, into block (512 bytes exactly). Answers 0, or 11 with block untouched: a block that
   has not 512 bytes. */
uint8_t ltd_write_window(uint32_t first, uint32_t last, uint8_t *block, size_t block_len);

/* The version of the engine that is linked: LTD_VERSION of its own header. */
uint32_t ltd_version(void);
#ifdef __cplusplus
}
#endif
#endif
