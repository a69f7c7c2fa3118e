/* The capture rig's interface to the bench: certifying a sequence and judging a unit's answers.
 *
 * docs/SPECIFICATION.md has the sheet's format (section 2), the refusals with their places and what to do about them
 * (section 4.2), and what the results mean (sections 5 and 7); docs/RIG.md has a host as an example.
 *
 * Link with librig.a (`bash checker/proved rig`, for x86-64 Linux), which needs nothing but the C library's memset.
 *
 * Both functions take a sheet and a buffer for marks, and return one number with four fields, each in bits of its own:
 *
 *     bits 40 to 47  class         rig_class
 *     bits 16 to 39  place         rig_place
 *     bits 8 to 15   a             rig_a
 *     bits 0 to 7    b             rig_b
 *
 * The higher bits, and the fields that a class below does not name, are 0. N is the number of commands in the sheet's
 * sequence, at most 20,355.
 *
 * Classes of rig_certify
 *     110  certified      place: how many places are recognised
 *     111  open           place: how many places are recognised;  b: the open number (section 5.4)
 * Classes of rig_judge
 *     100  pass           place: N;  b: the end state
 *     101  wrong          place: that of the first wrong answer;  a: the answer that was specified;  b: that was given
 *     102  unfinished     place: the number of answers, which are right but fewer than N
 *     103  unheard        place: that of the first answer that is not the specified one, where it is 255: none came
 * Classes of both: refusals. The first cause that is present counts; place: the refusal's place (section 4.2)
 *       1  sheet cut or too long         2  record kind           3  machine shape       4  next state
 *       5  word                          6  word does not separate                       7  sequence
 *       8  is building's and does not occur
 *       9  room: place is the number of bytes that the marks need, N + 1
 *      10  answers, rig_judge only      11  not certified, rig_judge only: place is the open number
 *      12  an answer of the table is 255, checked between 4 and 5: place is the offset of the first such byte
 * Later versions may add refusals below 100 and results above. Only 100 is a pass, and only 110 is certified.
 *
 * What 100 means is proved: a unit that gave the answers in record 4, and is as section 9.1 says, is the sheet's machine
 * with its states renamed one for one, and is now in the state that the renaming gives to state b.
 *
 * The marks. One byte for each of the places 0 to N, N + 1 in all: 1 where the place is recognised, else 0. 20,356 bytes
 * are enough for every sheet. Classes 100 to 103, 110, 111 and 11 write exactly these bytes, whatever their values
 * were, and no later ones. Every other class of this list leaves the whole buffer as it was.
 *
 * Who owns what. The caller owns both buffers. The sheet is only read. Neither function keeps a pointer, allocates, or
 * does any input or output.
 *
 * The caller sees to it that
 *   - sheet points to sheet_len bytes that can be read, and marks to marks_len bytes that can be read and written;
 *   - a pointer is NULL only where its length is 0;
 *   - the two do not overlap, and nobody else writes to them, or reads the marks, during the call;
 *   - 64 KiB of stack are free.
 * The bytes themselves may be any. No state is kept, so several threads may call at once, with one sheet if they like
 * but each with its own marks.
 */
#ifndef RIG_H
#define RIG_H

#include <stddef.h>
#include <stdint.h>

#ifdef __cplusplus
extern "C" {
#endif

/* Certifies the sheet's sequence. */
uint64_t rig_certify(const uint8_t *sheet, size_t sheet_len, uint8_t *marks, size_t marks_len);

/* Judges the sheet's answers to its sequence. */
uint64_t rig_judge(const uint8_t *sheet, size_t sheet_len, uint8_t *marks, size_t marks_len);

/* The four fields of a result. */
static inline unsigned rig_class(uint64_t result) { return (unsigned)(result >> 40); }
static inline uint32_t rig_place(uint64_t result) { return (uint32_t)(result >> 16 & 0xFFFFFF); }
static inline unsigned rig_a(uint64_t result) { return (unsigned)(result >> 8 & 0xFF); }
static inline unsigned rig_b(uint64_t result) { return (unsigned)(result & 0xFF); }

#ifdef __cplusplus
}
#endif

#endif
