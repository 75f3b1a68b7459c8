/* Fuyegbo for C: the block coder, the decoder and graph design, over libfuyegbo.a.
 *
 * Nothing is kept between calls and nothing is allocated: all memory is lent by the caller, for the time of the call.
 * Every call ends, and calls from several threads are independent as long as what they are lent is.
 *
 * A slice is a pointer and a number of elements. It must hold that many, the slices of one call must not overlap, and of a
 * slice of 0 elements the pointer is not used. Everything else a call tests itself.
 *
 * Every call returns 0, or the number of a refusal, the first of those listed at the call. A refused call leaves everything
 * lent as it was, but for `answer`, in which it tells the refusal's pair.
 *
 *    number                                                        answer[0], answer[1]
 *    1  no family serves this n_tx                                 1, n_tx
 *    2  n_tx above 19,440                                          n_tx, 19440
 *    3  a design value outside its range                           the value, the limit that it breaks
 *    4  a row not below m_b, or repeated in its column             the column, the place in it (0, 1 or 2)
 *    5  an input of the wrong length                               given, wanted
 *    6  a byte above 1 where bits are wanted                       its place, the byte
 *    7  no such check                                              the check, the number of checks
 *    8  too little work memory                                     given, needed
 *    9  an output of the wrong size                                given, wanted
 *    10 more than 65,535 iterations                                iterations and grant together, 65535
 *    11 a record that fuyegbo_code does not give                   its rate, its n_tx
 *
 * Slices of fixed size: `answer` has FUYEGBO_ANSWER numbers, a code record FUYEGBO_CODE, a decode record FUYEGBO_DECODE.
 * They are tested before all else: an `answer` of another size is refused with 9, and nothing at all is written; then a record
 * that is read with 5, then one that is written with 9. The list of refusals at each call begins after these.
 *
 * Of `answer` a call writes the front only: the pair where it refuses, else what its comment names.
 */
#ifndef FUYEGBO_H
#define FUYEGBO_H

#include <stddef.h>
#include <stdint.h>

#ifdef __cplusplus
extern "C" {
#endif

/* The places of a record's numbers, and the sizes. */
enum {
    FUYEGBO_RATE,        /* 0 to 5 */
    FUYEGBO_N_TX,        /* transmitted bits */
    FUYEGBO_FAMILY,      /* 0 large, 1 small, 2 tiny */
    FUYEGBO_Z,           /* the lift */
    FUYEGBO_K,           /* information bits */
    FUYEGBO_SHORTENED,   /* information bits that are fixed to 0 and not sent */
    FUYEGBO_CODE,        /* how many numbers a code record has; a decode record begins with one */
    FUYEGBO_ITERATIONS = FUYEGBO_CODE,
    FUYEGBO_CONVERGED,   /* 0 or 1 */
    FUYEGBO_DECODE,      /* how many numbers a decode record has */
    FUYEGBO_ANSWER = 3,
    FUYEGBO_MAX_N_TX = 19440,
    FUYEGBO_MAX_WORK = 150336 /* the most floats of work memory that any code needs */
};

/* The code for n_tx transmitted bits at a rate; a rate above 5 counts as 5. Writes its record to `code`.
 * Refusals: 2, 1. */
size_t fuyegbo_code(size_t rate, size_t n_tx, size_t *code, size_t code_len, size_t *answer, size_t answer_len);

/* answer[0]: how many floats of work memory a decode of this code needs.
 * Refusals: 11. */
size_t fuyegbo_work_needed(const size_t *code, size_t code_len, size_t *answer, size_t answer_len);

/* k / n_tx, written to the one float of `rate`.
 * Refusals: 11, 9 for `rate`. */
size_t fuyegbo_effective_rate(const size_t *code, size_t code_len, float *rate, size_t rate_len, size_t *answer,
                              size_t answer_len);

/* The transmitted bits of a check, in edge order, written to the front of `out`; answer[0]: how many they are.
 * Refusals: 11, 7, 9 where `out` has too little room; what lies past the list is not touched. */
size_t fuyegbo_check_members(const size_t *code, size_t code_len, size_t check, uint32_t *out, size_t out_len,
                             size_t *answer, size_t answer_len);

/* answer[0]: how many checks a word does not meet. Bits are bytes, 0 or 1; missing ones are 0, those past n_tx don't count.
 * Refusals: 11, 6. */
size_t fuyegbo_unsatisfied(const size_t *code, size_t code_len, const uint8_t *word, size_t word_len, size_t *answer,
                           size_t answer_len);

/* Encodes the k bits of `info` into the n_tx bits of `out`.
 * Refusals: 11, 5 unless info_len is k, 9 unless out_len is n_tx, 6. */
size_t fuyegbo_encode(const size_t *code, size_t code_len, const uint8_t *info, size_t info_len, uint8_t *out,
                      size_t out_len, size_t *answer, size_t answer_len);

/* Starts a decode of n_tx readings (any float; below zero means 1): fills the work memory that the code needs, and writes
 * the decode's record. Work memory past what is needed is never touched.
 * Refusals: 11, 5 unless rx_len is n_tx, 8. */
size_t fuyegbo_start(const size_t *code, size_t code_len, const float *rx, size_t rx_len, float *work, size_t work_len,
                     size_t *decode, size_t decode_len, size_t *answer, size_t answer_len);

/* At most g iterations more: until the decisions meet every check, or g are done. Of a decode that has converged nothing
 * changes. The record is brought up to date in its place. It and the work memory are those that the start or the last
 * grant left.
 * Refusals: 11, 8, 10. (`decode` is read: another size than FUYEGBO_DECODE is refused with 5.) */
size_t fuyegbo_grant(size_t *decode, size_t decode_len, uint16_t g, float *work, size_t work_len, size_t *answer,
                     size_t answer_len);

/* Writes the n_tx decided bits to `out`; answer[0]: iterations, answer[1]: converged, answer[2]: clean, that is, converged
 * and the word written meets every check.
 * Refusals: 11, 9 unless out_len is n_tx, 8. */
size_t fuyegbo_read(const size_t *decode, size_t decode_len, const float *work, size_t work_len, uint8_t *out,
                    size_t out_len, size_t *answer, size_t answer_len);

/* The one call: the code, a start, one grant of `limit`, and a read, with the read's answer.
 * Refusals: 2, 1, 5 unless rx_len is n_tx, 9 unless out_len is n_tx, 8. */
size_t fuyegbo_decode(size_t rate, size_t n_tx, const float *rx, size_t rx_len, uint16_t limit, float *work,
                      size_t work_len, uint8_t *out, size_t out_len, size_t *answer, size_t answer_len);

/* Graph design. A graph has n_b base columns (4 to 64), k_b of them for information (1 to n_b - 3) and m_b = n_b - k_b
 * rows. The information columns are lent as 3 * k_b rows and as many shifts, column after column. */

/* answer[0]: k_b of n_b columns at a rate in percent (0 to 100).
 * Refusals: 3. */
size_t fuyegbo_information_columns(size_t n_b, size_t percent, size_t *answer, size_t answer_len);

/* Progressive edge growth: writes the rows.
 * Refusals: 3, 9 unless rows_len is 3 * k_b. */
size_t fuyegbo_peg(size_t n_b, size_t k_b, uint8_t *rows, size_t rows_len, size_t *answer, size_t answer_len);

/* Writes a shift below 512 for each row.
 * Refusals: 3, 5 unless rows_len is 3 * k_b, 9 unless shifts_len is, 4. */
size_t fuyegbo_assign_shifts(size_t n_b, size_t k_b, const uint8_t *rows, size_t rows_len, uint64_t seed,
                             uint16_t *shifts, size_t shifts_len, size_t *answer, size_t answer_len);

/* Both for a rate in percent, k_b being that of fuyegbo_information_columns.
 * Refusals: 3, 9 unless rows_len is 3 * k_b, 9 unless shifts_len is. */
size_t fuyegbo_build(size_t n_b, size_t percent, uint64_t seed, uint8_t *rows, size_t rows_len, uint16_t *shifts,
                     size_t shifts_len, size_t *answer, size_t answer_len);

/* answer[0]: the four-cycles among the information columns at a lift z (1 to 65,535).
 * Refusals: 3, 5 unless rows_len is 3 * k_b, 5 unless shifts_len is, 4. */
size_t fuyegbo_four_cycles(size_t n_b, size_t k_b, const uint8_t *rows, size_t rows_len, const uint16_t *shifts,
                           size_t shifts_len, size_t z, size_t *answer, size_t answer_len);

#ifdef __cplusplus
}
#endif

#endif
