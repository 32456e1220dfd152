/*
 * Yikescanvas: an archive of jobs in shares. The calls of the static library libboundary.a, which `tools/build.sh boundary` builds.
 *
 * A book is four numbers: k, the bits of a word, 1 to 64; d, the words of an element, 2 to 6; n, the holders, 1 to 2^d - 1; t, the degree,
 * 0 to n - 1. A job is one element: d words, each below 2^k. Any t + 1 + 2e shares open a job, whatever up to e of them hold.
 *
 * Every call gives 0, or the number that it declines with. A call that declines leaves every output as it was. No call keeps anything,
 * allocates, or reads or writes but through its arguments; calls from several threads do not meet unless their buffers do.
 *
 * A list is a pointer and a length in items. The pointer is to that many items, aligned as their type asks, in fewer than 2^63 bytes, as every
 * object is; it may be null only where the length is 0. An output overlaps no other argument. That is all a caller owes: a list or an output
 * of another length than the call needs declines with YIKES_LENGTH before anything is read or written through it.
 */
#ifndef YIKESCANVAS_H
#define YIKESCANVAS_H

#include <stddef.h>
#include <stdint.h>

#ifdef __cplusplus
extern "C" {
#endif

/* Why a call declines. Where several apply, the order is 1, 2, 4, 7, 3, 5, 6 for the calls on lists. A call on a bundle first reads it all, and
 * its first fault in byte order counts (7, 1, 4, 8); then come 4 for the holder named, 2, 9, 3, 5, 6. A desk's record gives 2 or 1 before the
 * bundle is read, and 10 after 9 and before 5. Reading job text gives 11 after 2, and writing it gives 2 for the output after 3, since the text's
 * length depends on the words. Opening one job, from lent shares or at a place, never gives 3: there a share with a word of 2^k or more is present,
 * and wrong. */
enum {
    YIKES_OK = 0,
    YIKES_PARAMETERS = 1,     /* k, d, n, t, the number of jobs or a desk's allowance is out of its range, or d is not 4 in a call on job text */
    YIKES_LENGTH = 2,         /* a list or an output has not the length that the call needs */
    YIKES_WIDE_WORD = 3,      /* a word that the call uses is 2^k or more, in any call but those that open one job */
    YIKES_HOLDER = 4,         /* a holder is not from 1 to n, holders do not strictly rise, or the holder named has no file in the bundle */
    YIKES_TOO_FEW_SHARES = 5, /* fewer than t + 1 + 2e shares */
    YIKES_NO_CODEWORD = 6,    /* no polynomial of degree t or less differs from e shares or fewer */
    YIKES_MALFORMED = 7,      /* bytes that are no bundle, file or record, or job numbers that do not strictly rise */
    YIKES_MISMATCHED = 8,     /* a file does not belong with the first */
    YIKES_OUT_OF_RANGE = 9,   /* a place or a file that is not there, or a run from a to b with a above b, or b above the number of jobs */
    YIKES_DESK_CLOSED = 10,   /* the desk's count is its allowance or more */
    YIKES_TEXT = 11           /* bytes that are the text of no job of the book: another, a missing or a further line, or a number out of its range */
};

/* What every line of yikes_list_line fits into, with its line feed. */
enum { YIKES_LINE = 1024 };

/* How many entries the output `lowest` of a call that opens has, entry i - 1 for holder i, and the entry of a holder whose share is not wrong or who
 * has none. The entry of a wrong holder is the lowest bit, 0 to 63, at which any word of its share differs from the value that belongs there. */
enum { YIKES_LOWEST = 64, YIKES_NOT_WRONG = 255 };

/* The bytes of an order, and of a holder's file with so many jobs. A bundle has the bytes of an order and of its files. */
enum { YIKES_ORDER_SIZE = 7 };
#define YIKES_FILE_SIZE(d, jobs) ((size_t)23 + (size_t)(jobs) * ((size_t)14 + (size_t)8 * (size_t)(d)))

/* What yikes_describe tells, by its place in the output, and how many words that is. */
enum {
    YIKES_ABOUT_E = 0,         /* the allowance */
    YIKES_ABOUT_K = 1,         /* the book */
    YIKES_ABOUT_D = 2,
    YIKES_ABOUT_N = 3,
    YIKES_ABOUT_T = 4,
    YIKES_ABOUT_ARCHIVE = 5,   /* the archive number */
    YIKES_ABOUT_JOBS = 6,      /* the jobs of each file */
    YIKES_ABOUT_FILES = 7,     /* the files */
    YIKES_ABOUT_FILE_SIZE = 8, /* the bytes of each file */
    YIKES_ABOUT = 9
};

/* A desk's record, by place, and how many words that is. */
enum {
    YIKES_DESK_ALLOWANCE = 0, /* how many openings that give words a month may have, 0 to 1,000 */
    YIKES_DESK_COUNT = 1,     /* how many it has had */
    YIKES_DESK = 2
};

/* The kinds of records. */
enum { YIKES_HEADING = 1, YIKES_JOB = 2, YIKES_ORDER = 16 };

/* ---- elements and shares, as words */

/* out = a + b: d words each. The sum of two shares of one holder is its share of the two jobs' sum. Gives 1, 2, 3. */
uint8_t yikes_add(uint64_t k, size_t d, size_t n, size_t t, const uint64_t *a, size_t a_length, const uint64_t *b, size_t b_length,
                  uint64_t *out, size_t out_length);

/* out = a times b: d words each. A share times an element is a share of the job times it. Gives 1, 2, 3. */
uint8_t yikes_scale(uint64_t k, size_t d, size_t n, size_t t, const uint64_t *a, size_t a_length, const uint64_t *b, size_t b_length,
                    uint64_t *out, size_t out_length);

/* out = the inverse of a, or zero where a is zero modulo 2 and has none: d words each. Gives 1, 2, 3. */
uint8_t yikes_invert(uint64_t k, size_t d, size_t n, size_t t, const uint64_t *a, size_t a_length, uint64_t *out, size_t out_length);

/* Deals a job of d words with t coefficients of d words each, which must be drawn at random for each job and then forgotten: out has n
 * shares of d words, holder 1 first. Gives 1, 2, 3. */
uint8_t yikes_deal(uint64_t k, size_t d, size_t n, size_t t, const uint64_t *job, size_t job_length, const uint64_t *coefficients,
                   size_t coefficients_length, uint64_t *out, size_t out_length);

/* Opens a job from the shares of some holders, strictly rising, d words for each in turn, of which at most e are wrong. out has d words.
 * wrong has exactly one word, the set of the holders whose shares are wrong: bit i - 1 for holder i. A share with a word of 2^k or more is wrong.
 * lowest has exactly YIKES_LOWEST bytes, all of which are written: the lowest bit at which each wrong share differs. Words are compared as they
 * stand, at 64 bits, so that it is k or more where the low k bits of every word are right. Gives 1, 2, 4, 5, 6. */
uint8_t yikes_open(uint64_t k, size_t d, size_t n, size_t t, const uint64_t *holders, size_t holders_length, const uint64_t *shares,
                   size_t shares_length, uint64_t e, uint64_t *out, size_t out_length, uint64_t *wrong, size_t wrong_length, uint8_t *lowest,
                   size_t lowest_length);

/* The signed reading of a word of k bits: out has exactly one word, the value in two's complement, to be read as an int64_t.
 * Gives 1 (for k), 2, 3. */
uint8_t yikes_signed(uint64_t k, uint64_t w, uint64_t *out, size_t out_length);

/* ---- files, as bytes */

/* Writes a holder's file: as many jobs as there are numbers, 0 to 1,000, the numbers strictly rising, with d words for each in turn.
 * out has YIKES_FILE_SIZE(d, numbers_length) bytes. Gives 1, 2, 4, 7, 3. */
uint8_t yikes_write_file(uint64_t k, size_t d, size_t n, size_t t, size_t holder, uint64_t archive, const uint64_t *numbers,
                         size_t numbers_length, const uint64_t *words, size_t words_length, uint8_t *out, size_t out_length);

/* Writes an order with the allowance e: out has YIKES_ORDER_SIZE bytes. Gives 2. */
uint8_t yikes_write_order(uint8_t e, uint8_t *out, size_t out_length);

/* Writes a bundle of an order with the allowance e and files that stand one after another, holders strictly rising: out has
 * YIKES_ORDER_SIZE bytes more than files. Files that are not accepted decline with the fault of the bundle that would be written; then 2. */
uint8_t yikes_write_bundle(uint8_t e, const uint8_t *files, size_t files_length, uint8_t *out, size_t out_length);

/* Whether the bytes are one file and nothing more: what yikes_write_file writes, whatever its words. Gives 7, 1, 4 by its first fault. */
uint8_t yikes_check_file(const uint8_t *file, size_t file_length);

/* Reads the record at a cursor, a position in the bytes, and looks at nothing else: step has exactly four words, 0 for a record or 1 for the end;
 * the kind; where the body starts; its length in bytes. The next cursor is where the body ends, the third word and the fourth together. At the
 * end, where the cursor is the length of the bytes, the words are 1, 0, the cursor, 0. Gives 2, and 7 where the bytes end inside the record or
 * before the cursor, the kind is unknown, or the length is one that its kind has in no book. */
uint8_t yikes_read(const uint8_t *bytes, size_t bytes_length, size_t cursor, uint64_t *step, size_t step_length);

/* ---- job text, as bytes: one lens job of a book with d 4, as the five lines that surfacing machines read, each ended by CR LF: JOB= with the job
 * number, SPH= and CYL= in dioptres, AX= in degrees and CTHICK= in millimetres, in this order. The last four have the job's words in their signed
 * reading, all but AX= as hundredths with exactly two decimals. A minus sign stands only before a negative value; there are no leading zeros, but at
 * least one digit before any point. So each job has one text, of at most 135 bytes. A book with another d gives 1. */

/* How long the text of a job is: words has exactly four words, and size exactly one, the bytes. Gives 1, 2, 3. */
uint8_t yikes_text_size(uint64_t k, size_t d, size_t n, size_t t, uint64_t number, const uint64_t *words, size_t words_length, uint64_t *size,
                        size_t size_length);

/* Writes the text of a job: words has exactly four words, and out exactly the bytes that yikes_text_size tells, without a zero at the end. Gives 1,
 * 2 for words, 3, 2 for out. */
uint8_t yikes_write_text(uint64_t k, size_t d, size_t n, size_t t, uint64_t number, const uint64_t *words, size_t words_length, uint8_t *out,
                         size_t out_length);

/* Reads the text of a job: number has exactly one word, and words exactly four, those of the job whose text it is. Declines bytes that
 * yikes_write_text writes of no job of the book, among them a text with anything before or after it. Gives 1, 2 for number and words, 11. */
uint8_t yikes_read_text(uint64_t k, size_t d, size_t n, size_t t, const uint8_t *text, size_t text_length, uint64_t *number, size_t number_length,
                        uint64_t *words, size_t words_length);

/* ---- calls on a bundle: its first fault, 7, 1, 4 or 8, comes before anything else */

/* Whether the bundle is accepted. */
uint8_t yikes_accept(const uint8_t *bundle, size_t bundle_length);

/* What the other calls on the bundle need to know: about has exactly YIKES_ABOUT words, the allowance, k, d, n, t, the archive number, the
 * jobs, the files and the bytes of a file. Then gives 2. */
uint8_t yikes_describe(const uint8_t *bundle, size_t bundle_length, uint64_t *about, size_t about_length);

/* The number of the job at a place, 0 first: number has exactly one word. Then gives 2, 9. */
uint8_t yikes_job_number(const uint8_t *bundle, size_t bundle_length, size_t place, uint64_t *number, size_t number_length);

/* The holder of a file, 0 first, and where the file stands in the bundle: part has exactly three words, the holder, the offset and the length in
 * bytes. Holders rise from file to file. Then gives 2, and 9 for an index that is not there. */
uint8_t yikes_file(const uint8_t *bundle, size_t bundle_length, size_t index, uint64_t *part, size_t part_length);

/* Opens the job at a place, 0 first. out has d words; wrong has exactly one word, the set of the holders whose shares are wrong, as those with a
 * word of 2^k or more are; lowest has exactly YIKES_LOWEST bytes, the lowest bit at which each wrong share differs. Then gives 2, 9, 5, 6. */
uint8_t yikes_open_place(const uint8_t *bundle, size_t bundle_length, size_t place, uint64_t *out, size_t out_length, uint64_t *wrong,
                         size_t wrong_length, uint8_t *lowest, size_t lowest_length);

/* The total of a holder's file over the places a to b - 1: out has d words. Then gives 4, 2, 9, 3. */
uint8_t yikes_total(const uint8_t *bundle, size_t bundle_length, size_t holder, size_t a, size_t b, uint64_t *out, size_t out_length);

/* Adds the same total to running, which the caller lends: d words, each below 2^k, that are an element before the call and the element plus the
 * total after it, word by word modulo 2^k. A sum over several runs or bundles needs no second array: a to b and then b to c leave what a to c would,
 * and zero words become what yikes_total gives. Then gives 4, 2, 9, 3; 3 for a word of the run or of running, of running also where a is b. */
uint8_t yikes_add_total(const uint8_t *bundle, size_t bundle_length, size_t holder, size_t a, size_t b, uint64_t *running, size_t running_length);

/* Opens the sum of the jobs at the places a to b - 1, as yikes_open_place does one job, but declines where a word of these jobs is 2^k or more in
 * any file, also in a run of one place. The lowest bits are those of the sums. Then gives 2, 9, 3, 5, 6. */
uint8_t yikes_open_run(const uint8_t *bundle, size_t bundle_length, size_t a, size_t b, uint64_t *out, size_t out_length, uint64_t *wrong,
                       size_t wrong_length, uint8_t *lowest, size_t lowest_length);

/* Where the body of a job record stands in the bundle, by holder and place: part has exactly two words, the offset and the length in bytes,
 * which is never 0. Then gives 4, 2, 9. */
uint8_t yikes_fetch_body(const uint8_t *bundle, size_t bundle_length, size_t holder, size_t place, uint64_t *part, size_t part_length);

/* The number of the same fetch alone: 0 where it succeeds. Then gives 4, 9. */
uint8_t yikes_fetch_fault(const uint8_t *bundle, size_t bundle_length, size_t holder, size_t place);

/* The line of the job at a place, as the program `open` prints it: also of a job that declines with 5 or 6. line has YIKES_LINE bytes or
 * more, of which the line takes the first ones and the others stay; length has exactly one word, how many bytes the line has, with its line
 * feed. Then gives 2, 9. */
uint8_t yikes_list_line(const uint8_t *bundle, size_t bundle_length, size_t place, uint8_t *line, size_t line_length, uint64_t *length,
                        size_t length_length);

/* Mends the bundle: out has as many bytes as the bundle, and becomes the bundle with the words of each wrong share, as yikes_open_place names them,
 * replaced by the value of the job's polynomial at its holder's point. A job that declines with 5 or 6 keeps its words, and every other byte
 * stays. A job that opens in the bundle opens in out to the same words, and names nobody. Then gives 2. */
uint8_t yikes_mend(const uint8_t *bundle, size_t bundle_length, uint8_t *out, size_t out_length);

/* ---- a desk that limits openings: desk has exactly YIKES_DESK words, which the caller lends and keeps from call to call. Where each call after a
 * start is lent them as the call before left them, the count is the number of openings that gave words since the last start, and never exceeds the
 * allowance. The other calls ask no desk: totals, listings and mending are free. */

/* Starts a month: desk becomes the allowance q, 0 to 1,000, and a count of 0, whatever it was. Gives 2, and 1 for q above 1,000. */
uint8_t yikes_desk_start(uint64_t *desk, size_t desk_length, uint64_t q);

/* Opens the job at a place where the desk's count is below its allowance: out, wrong and lowest are filled as yikes_open_place does, and the count
 * grows by one. Whatever declines is not counted, and leaves desk as it was. Gives 2 for desk, and 1 for an allowance above 1,000; then the bundle's
 * first fault; then 2 for the other outputs, 9, 10, 5, 6. */
uint8_t yikes_desk_open(uint64_t *desk, size_t desk_length, const uint8_t *bundle, size_t bundle_length, size_t place, uint64_t *out,
                        size_t out_length, uint64_t *wrong, size_t wrong_length, uint8_t *lowest, size_t lowest_length);

#ifdef __cplusplus
}
#endif

#endif
