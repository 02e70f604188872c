/*
 * A judge of tapes: a host lends a tape of document 01, and is told whether its answers are the rules', and if not, the first that is another.
 * C99, and C++.
 *
 * Every call is answered: bytes of any length, whatever they hold. The tape is only read. Nothing is kept between calls, nothing is allocated,
 * and no function is called back. docs/JUDGE-C.md has more, and docs/TAPE.md what a tape is.
 *
 * A pointer may be null only where its length or count is 0. A host may use this header and rvn_image.h, and link both libraries.
 */
#ifndef RVN_JUDGE_H
#define RVN_JUDGE_H

#include <stddef.h>
#include <stdint.h>

#ifdef __cplusplus
extern "C" {
#endif

/* The count of the numbers that a host lends to be told in, and where each stands among them. */
#define RVN_VERDICT_NUMBERS 4
#define RVN_VERDICT_SEED 0   /* the header's seed, which nothing is judged by: 1..4294967295, and with 17 any other; 0 where there is no header */
#define RVN_VERDICT_RECORD 1 /* 0: how many command records there are. 255, 15, 17: the number of the record; the header is 0 */
#define RVN_VERDICT_TAPE 2   /* 255: the tape's answer, code + 256 * running + 65536 * released, as rvn_step's. Else 0 */
#define RVN_VERDICT_RULES 3  /* 255: the rules' answer to the same command, packed as the tape's, and another than it. Else 0 */

/* The answers of rvn_judge. */
#define RVN_TAPE_AGREES 0    /* a header and whole command records, each with the rules' code, running and released */
#define RVN_TAPE_UNASKED 1   /* Shape: not four numbers were lent. Nothing was judged, and nothing written */
#define RVN_TAPE_RECORD 15   /* Record: bytes that are no record, a torn one, or no header; all records before agree */
#define RVN_TAPE_SEED 17     /* Seed: a header else right whose seed is not 1..4294967295 */
#define RVN_TAPE_DIFFERS 255 /* the first record whose answer is not the rules'; all before it agree, and what follows was not looked at */

/* The byte place of a record on its tape, of its number. */
#define RVN_TAPE_PLACE(number) (16 * (uint64_t)(number))

/*
 * Judges a whole tape: its commands are run from the fresh machine, and each record's code, running and released are held against the rules'.
 * Where both a bad record and a difference are on the tape, the one that stands first is told.
 *
 *   tape     the bytes of the tape: a header and command records, 16 bytes each. Only read
 *   length   of the tape in bytes: any; 0 is refused with 15, and so is a torn last record, where all before it agree
 *   verdict  the numbers to be told in, see above; all four are written, whatever they held. With answer 1 they stay
 *   count    of these numbers: 4, any other is refused with 1
 *
 * The bytes of tape and verdict may not overlap.
 */
uint32_t rvn_judge(const uint8_t *tape, size_t length, uint64_t *verdict, size_t count);

#ifdef __cplusplus
}
#endif

#endif
