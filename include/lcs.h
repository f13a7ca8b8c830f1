/* The checker for lossy channel systems, as C programs link it.

   `./archive` proves the library and writes target/staticlib/liblcs.a, for x86-64 Linux.

   Any words may be handed in: every call answers, and writes nothing but what is said here. Lent
   memory is a pointer, which is never null, and a number of elements, which may be 0. Memory that a
   call writes to is lent to nothing else meanwhile.

   An atom is one uint16_t: bit 15 marks a star, bits 0 to 14 are messages. Some message bit is set,
   and without the star exactly one. A product is 0 to 25 atoms. */
#ifndef LCS_H
#define LCS_H

#include <stddef.h>
#include <stdint.h>

#ifdef __cplusplus
extern "C" {
#endif

/* What lcs_normal and lcs_receive answer where they leave p as it was. */
#define LCS_NO_PRODUCT 65535u /* a word is no atom, or there are over 25 */
#define LCS_IMPOSSIBLE 65534u /* no word of p begins with the message */

/* Whether every word of p is a word of q: 1 yes, 0 no; 2 if p or q is no product. */
uint32_t lcs_contained(const uint16_t *p, size_t p_length, const uint16_t *q, size_t q_length);

/* Brings p to normal form: while an atom stands next to a star that has all its messages, it is
   removed. Answers the new count; the first places of p hold the normal form, all later places
   keep their values. LCS_NO_PRODUCT: p is no product. */
uint32_t lcs_normal(uint16_t *p, size_t length);

/* Receives the message from p: all before the first atom that has it is dropped, and that atom too
   if it is single. Answers the new count; the first places of p hold what is left, all later places
   keep their values. LCS_NO_PRODUCT: p is no product, whatever the message. LCS_IMPOSSIBLE: no atom
   has the message, as for every message over 14. */
uint32_t lcs_receive(uint16_t *p, size_t length, uint8_t message);

/* Checks a table. Fills all three places of out:
   0: good; its states, its transitions, its bad states.
   4: refused; the refusal's number, the input (0, the table), and the place in it. */
uint32_t lcs_check_table(const uint8_t *table, size_t length, uint64_t out[3]);

/* Searches a table for a way to a bad state. The work table has room for as many rows as it has
   times 103 words, but at most 1,024. Fills all three places of out:
   0: safe; the rows made, 0, 0.
   1: unsafe; the rows made, the steps of a run to a bad state, 0.
   2: rows full; the rows made, and the row and the transition whose outcome there is no room for.
   3: atoms full; the rows made, and the row and the transition whose outcome has a product of more
      than 24 atoms.
   4: refused; the refusal's number, the input, and the place. A table is refused as by
      lcs_check_table. Then, with input 3, 7: the work table has under 103 words; 8: the run buffer
      has under twice as many words as there is room for rows. The place is the length.
   The rows made stand in the first words of the work table, 103 to a row: its state, the row and the
   transition it was made by (65,535 both in row 0), then for each of 4 channels a count and 24
   atoms; atoms past the count, and channels that the table lacks, are 0. With unsafe the run stands
   in the first words of the run buffer, a word to a step: the transition, plus 32,768 where the
   message sent was lost. All other words keep their values. */
uint32_t lcs_search(const uint8_t *table, size_t table_length, uint16_t *work, size_t work_length,
                    uint16_t *run, size_t run_length, uint64_t out[3]);

/* Writes the first rows of a work table as a proof list to the front of list. A work table has room
   for rows, and a row has its words, as with lcs_search. Of a row the state, and for each channel of
   the table the count and the counted atoms are looked at; all other words may be anything. Fills
   all three places of out:
   0: written; the bytes of the list, 0, 0.
   4: refused; the refusal's number, the input, and the place. A table is refused as by
      lcs_check_table. Then, with input 3, 9: there is no room for so many rows, and the place is the
      room; or a row's state is none of the table's, a count is over 24, or a counted word is no atom
      over the table's messages, and the place is the lowest such row. 10: the list does not fit, and
      the place is how many bytes it needs.
   A list is records, one to a row: a payload length of two bytes, the kind 16 in two, and the payload,
   which is the state in two bytes, and then for each channel of the table a count in one and that many
   atoms in two each, all numbers little-endian. Bytes past the list keep their values. */
uint32_t lcs_write_list(const uint8_t *table, size_t table_length, const uint16_t *work,
                        size_t work_length, uint64_t rows, uint8_t *list, size_t list_length,
                        uint64_t out[3]);

/* Judges a proof list for a table. An accepted list is a proof that no run reaches a bad state,
   wherever the list comes from. Takes about 240,000 bytes of the stack. The first of these that
   holds is answered. Fills all three places of out:
   4: refused; the refusal's number, the input, and the place. A table is refused as by
      lcs_check_table, and then the list with input 1, by the same numbers but for 5; 6 is row 1,025.
      The place is where the record starts that is refused.
   1: no start; 0, 0, 0: no row is in the start state.
   2: bad row; the lowest row that is in a bad state, 0, 0.
   3: not closed; the lowest row with a transition whose outcome is possible and inside no single
      row of the list, the lowest such transition, 0. The outcome of a send that ends in its own state
      is that of any number of rounds.
   0: accepted; 0, 0, 0. */
uint32_t lcs_judge(const uint8_t *table, size_t table_length, const uint8_t *list,
                   size_t list_length, uint64_t out[3]);

/* Replays a run on a table, from the start with every channel empty. A word of the run is a step, as
   lcs_search writes it; steps are numbered from 0. All words are played, and the last state decides.
   Fills all three places of out:
   0: reaches bad; the steps, 0, 0.
   1: ends elsewhere; the last state, 0, 0.
   2: stuck; the first step that cannot be taken, 0, 0: its transition does not exist or does not
      start in the present state, or it marks a loss and is no send, or it receives what is not at
      the head of its channel.
   4: refused; the refusal's number, the input, and the place. A table is refused as by
      lcs_check_table. Then 6, with input 2 and place 0: the run has over 2,048 words. */
uint32_t lcs_replay(const uint8_t *table, size_t table_length, const uint16_t *run,
                    size_t run_length, uint64_t out[3]);

#ifdef __cplusplus
}
#endif

#endif
