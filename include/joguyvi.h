/* The operations of the library over records and plain buffers. They stand in
 * four archives of target/staticlib, each the crate of its name, and ./archives
 * writes all four. A program links those whose functions it calls.
 *
 * Each function answers 0, or the number of the first cause for which it
 * declines: 1 no byte or another version, 2 too short or a wrong length field,
 * 3 s or m out of range, 4 a wrong length, 5 start, 6 horizon, 7 a rule,
 * 8 a band, 9 the bands' sums, 10 a premium or a payoff, 11 the class asked
 * for, 12 the year asked for, 13 a lent buffer, 14 the ready scheme's number,
 * 15 the base, 16 no count of years to 1,024 that mixes, 17 a label's byte 7,
 * 18 a count of a book above 1,000,000, 19 a book without a chamber. Cause 17
 * is tested after 4, before 5; cause 13 last, also after 14 to 19.
 *
 * A record is of version 1 or of version 2, the label on a chamber's door;
 * `bytes` may be either. Byte 0 is the version, bytes 1 and 2 the length of the
 * whole record, byte 3 s, byte 4 m, byte 5 the start class, byte 6 the horizon,
 * and of a label byte 7 the claim number that opens the last column, m - 1. Then
 * come the s times m rules, class by class, the m bands, lower and upper end in
 * 4 bytes each, and the s premiums in 4 bytes each, of a label in 3. Numbers are
 * big-endian. A label has s - 1 bytes less than the same record in version 1.
 *
 * Lent buffers are filled only where the answer is 0, and otherwise left as
 * they were. A buffer passes as a pointer and its length in elements. A
 * pointer is never null, also where the length is 0; buffers of numbers are
 * aligned; a buffer that is filled overlaps no other. */
#ifndef JOGUYVI_H
#define JOGUYVI_H

#include <stddef.h>
#include <stdint.h>

#ifdef __cplusplus
extern "C" {
#endif

/* ---- libjoguyvi_years.a: what the years bring. ---- */

/* The share of a class, 1 to s, after a number of years, in parts of
 * 1,000,000,000: low and high into `out`, of 2 numbers. */
uint8_t joguyvi_share(const uint8_t *bytes, size_t bytes_length,
                      uint64_t class_number, uint64_t year,
                      uint64_t *out, size_t out_length);

/* The chance of having stood in a class, 1 to s, at least once in the years 0
 * to `year`, in parts of 1,000,000,000: low and high into `out`, of 2 numbers.
 * For the start class it is 1,000,000,000 in every year, and no chance falls
 * from year to year. No probabilities inside the bands lead outside, and for
 * each of the two some come within one part for each year. */
uint8_t joguyvi_reached(const uint8_t *bytes, size_t bytes_length,
                        uint64_t class_number, uint64_t year,
                        uint64_t *out, size_t out_length);

/* The mean premium of a year, in cents: low and high into `out`, of 2 numbers.
 * The years carry tenths of a cent, and only the answer is rounded to cents,
 * low down and high up. No probabilities inside the bands lead outside, and
 * for each of the two some come nearer to it than one cent and a tenth for
 * each year. */
uint8_t joguyvi_mean(const uint8_t *bytes, size_t bytes_length, uint64_t year,
                     uint64_t *out, size_t out_length);

/* The total of as many premiums as there are years, in cents: low and high
 * into `out`, of 2 numbers, carried and rounded as the mean is. */
uint8_t joguyvi_total(const uint8_t *bytes, size_t bytes_length, uint64_t year,
                      uint64_t *out, size_t out_length);

/* The shares of all classes after a number of years, in parts: `low` and
 * `high` are of s numbers each. */
uint8_t joguyvi_share_sheet(const uint8_t *bytes, size_t bytes_length,
                            uint64_t year,
                            uint64_t *low, size_t low_length,
                            uint64_t *high, size_t high_length);

/* A book says how many chambers begin in each class: 32 counts, that of class i
 * at i - 1. The pooled figures below are the mean of the figures of all classes,
 * weighed by these counts and rounded once, low down and high up; counts beyond
 * s are ignored. A count up to s above 1,000,000 is 18, and 19 is told where
 * all of them are 0. A book of another length than 32 is 13; before that, counts
 * that it lacks are taken for 0, and what it has beyond 32 is left out.
 *
 * With the same probabilities of each year for the whole book, none inside the
 * bands lead outside low and high; for each of the two some come within one
 * part, and one for each year, or, for money, nearer than one cent and a tenth
 * for each year. A book of one chamber in the start class gives the figures of
 * joguyvi_share, joguyvi_mean, joguyvi_total and joguyvi_share_sheet. */

/* The share of a class, 1 to s, after a number of years, pooled over a book, in
 * parts of 1,000,000,000: low and high into `out`, of 2 numbers. */
uint8_t joguyvi_pooled_share(const uint8_t *bytes, size_t bytes_length,
                             const uint32_t *book, size_t book_length,
                             uint64_t class_number, uint64_t year,
                             uint64_t *out, size_t out_length);

/* The mean premium of a year, pooled over a book, in cents: low and high into
 * `out`, of 2 numbers. The figures of the classes enter in tenths of a cent. */
uint8_t joguyvi_pooled_mean(const uint8_t *bytes, size_t bytes_length,
                            const uint32_t *book, size_t book_length,
                            uint64_t year,
                            uint64_t *out, size_t out_length);

/* The total of as many premiums as there are years, pooled over a book, in
 * cents: low and high into `out`, of 2 numbers. It is a mean too: the premiums
 * of one chamber. */
uint8_t joguyvi_pooled_total(const uint8_t *bytes, size_t bytes_length,
                             const uint32_t *book, size_t book_length,
                             uint64_t year,
                             uint64_t *out, size_t out_length);

/* The shares of all classes after a number of years, pooled over a book, in
 * parts: `low` and `high` are of s numbers each. */
uint8_t joguyvi_pooled_share_sheet(const uint8_t *bytes, size_t bytes_length,
                                   const uint32_t *book, size_t book_length,
                                   uint64_t year,
                                   uint64_t *low, size_t low_length,
                                   uint64_t *high, size_t high_length);

/* Two books joined: all 32 counts added, into `out`, of 32 counts. A count of
 * either book, or a joined one, above 1,000,000 is 18; no sum wraps round. */
uint8_t joguyvi_join(const uint32_t *first, size_t first_length,
                     const uint32_t *second, size_t second_length,
                     uint32_t *out, size_t out_length);

/* The sheet's text of any bytes into `out`, from the front on, and its length
 * into `length`, of 1 number. The line REFUSED of bytes that are not read is a
 * text too: the answer is then 0. Room for any sheet: 132,862 bytes. */
uint8_t joguyvi_sheet(const uint8_t *bytes, size_t bytes_length,
                      uint8_t *out, size_t out_length,
                      uint64_t *length, size_t length_length);

/* ---- libjoguyvi_records.a: records. ---- */

/* The cause for which a record is not read, or 0. */
uint8_t joguyvi_check(const uint8_t *bytes, size_t bytes_length);

/* A record read and written again into `out`, in version 1 or 2, from the front
 * on, and its length into `length`, of 1 number. In the version that it has, the
 * bytes written are those read; in the other, they are read as before, so that
 * a record rewritten as a label and back is the same record. Another version is
 * 1, tested before all else. Room for any record: 455 bytes, for any label 424. */
uint8_t joguyvi_rewrite(const uint8_t *bytes, size_t bytes_length,
                        uint64_t version,
                        uint8_t *out, size_t out_length,
                        uint64_t *length, size_t length_length);

/* The ready scheme 1, 2 or 3, with premiums from a base of 0 to 2,500,000
 * cents, as a record of version 1 or 2 into `out`, and its length into `length`,
 * of 1 number. Another version is 1, tested before all else. */
uint8_t joguyvi_ready(uint64_t number, uint64_t base, uint64_t version,
                      uint8_t *out, size_t out_length,
                      uint64_t *length, size_t length_length);

/* ---- libjoguyvi_rows.a: what a record says of one year, and what follows for
 * long contracts. ---- */

/* The tight row of a class, 1 to s, in parts of 1,000,000,000: the least and
 * the greatest share that one year can bring from it to each class. `lower`
 * and `upper` are of 32 numbers each, with 0 beyond s. Another length is 13. */
uint8_t joguyvi_row(const uint8_t *bytes, size_t bytes_length,
                    uint64_t class_number,
                    uint64_t *lower, size_t lower_length,
                    uint64_t *upper, size_t upper_length);

/* The rule row of a class, 1 to s: the next class for each claim column, as
 * the record holds it, into `out`, of exactly m bytes. Another length is 13. */
uint8_t joguyvi_rule_row(const uint8_t *bytes, size_t bytes_length,
                         uint64_t class_number,
                         uint8_t *out, size_t out_length);

/* The bands of all claim columns, in parts: `lower` and `upper` are of exactly
 * m numbers each. Another length is 13. */
uint8_t joguyvi_bands(const uint8_t *bytes, size_t bytes_length,
                      uint32_t *lower, size_t lower_length,
                      uint32_t *upper, size_t upper_length);

/* The first count of years, 1 to 1,024, in which every class can go to every
 * class, each step having a tight lower entry above 0 (see joguyvi_row), into
 * `count`, of 1 number. No smaller count has the property, every larger one
 * has it too. Where there is none the answer is 16; then no count has it,
 * however large. */
uint8_t joguyvi_mixing(const uint8_t *bytes, size_t bytes_length,
                       uint64_t *count, size_t count_length);

/* ---- libjoguyvi_steps.a: one year of any payoff. ---- */

/* The low step of a class: its least figure one year on, rounded down, into
 * `figure`, of 1 number, and a row of parts that reaches it unrounded into
 * `row`, of 32 numbers, with 0 beyond s. `payoff` is of 32 numbers; those
 * beyond s are ignored, and one above 10,000,000,000 is 10. A payoff and its
 * figure have the same unit, whatever it is. Another length of `payoff`,
 * `figure` or `row` is 13. */
uint8_t joguyvi_low_step(const uint8_t *bytes, size_t bytes_length,
                         const uint64_t *payoff, size_t payoff_length,
                         uint64_t class_number,
                         uint64_t *figure, size_t figure_length,
                         uint64_t *row, size_t row_length);

/* The high step of a class: its greatest figure one year on, rounded up, and a
 * row that reaches it; `payoff`, `figure` and `row` as for the low step. */
uint8_t joguyvi_high_step(const uint8_t *bytes, size_t bytes_length,
                          const uint64_t *payoff, size_t payoff_length,
                          uint64_t class_number,
                          uint64_t *figure, size_t figure_length,
                          uint64_t *row, size_t row_length);

#ifdef __cplusplus
}
#endif

#endif
