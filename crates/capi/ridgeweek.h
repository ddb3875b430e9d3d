/* Set reconciliation modulo 65,537, from C. All state is in the words that the caller lends, and no memory is asked for.
 *
 * A letter, `note`:  m (0 to 64), the count, and the m values.
 * A list:            its count, and its numbers by rising number, each below 65537 - m; words behind them are room.
 *
 * An answer is one number. Its high 32 bits are 0 for done, 1 to 7 for a refusal, and 2^32 - 1 for "more differ".
 * Its low 32 bits are what each call says below, or the refusal's place (2^32 - 1 for that and all further places):
 *
 *   1  the letter is cut short or says too large a number, at that word; in ridgeweek_letter, m is above 64, at 0
 *   2  the list is cut short, does not rise or has too large a number, at that word;
 *      in a deed, its count is missing or not the letter's, at 0, or there are fewer words, at its length
 *   3  d is above m, at d
 *   4  the row is too short, or a list has no room for one more number, at its length
 *   5  the number that is to come is not below 65537 - m, or is there, at the number
 *   6  the number that is to go is not there, at the number
 *   7  60,000 numbers are there, at 60,000
 *
 * Whatever is refused leaves all words as they were. The slices of one call must lie apart from each other. */
#ifndef RIDGEWEEK_H
#define RIDGEWEEK_H

#include <stddef.h>
#include <stdint.h>

/* Reads a letter of another list beside the list here. If at most d numbers differ, writes the numbers gone and then
 * the numbers come to out: the low bits are gone * 65536 + come. */
uint64_t ridgeweek_read(const uint64_t *note, size_t note_len, const uint64_t *here, size_t here_len, uint64_t *out,
                        size_t out_len, uint64_t d);

/* Writes the letter of a list with m values to out, from all its numbers: the low bits are the words written. */
uint64_t ridgeweek_letter(const uint64_t *list, size_t list_len, uint64_t *out, size_t out_len, uint64_t m);

/* A number comes to a list, or goes from it, in place, and the letter is made anew by one product for each value. The
 * list is not gone over: that it rises is the caller's to know. The low bits are 0. */
uint64_t ridgeweek_comes(uint64_t *note, size_t note_len, uint64_t *list, size_t list_len, uint64_t n);
uint64_t ridgeweek_goes(uint64_t *note, size_t note_len, uint64_t *list, size_t list_len, uint64_t n);

#endif
