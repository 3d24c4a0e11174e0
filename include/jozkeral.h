/*
 * Jozkeral: a proved simulator for free-fermion (matchgate) circuits. The C interface.
 *
 * `host/staticlib.sh engine` writes target/staticlib/libengine.a (x86-64 Linux). It needs nothing but the C library:
 *
 *     cc -I include program.c target/staticlib/libengine.a
 *
 * Every function here is an export of the crate `engine` and is proved to equal its definition for all inputs that meet
 * the five rules below: what it returns, and every place of every slice afterwards.
 *
 * SLICES. A pointer and the number of its elements, always in this order. The rules, which no proof can check for you:
 *   1. a pointer is good for as many elements as its length says: for reading where it is const, else for reading and writing;
 *   2. it has the alignment of its element type;
 *   3. a slice that is not const overlaps no other slice of the same call, and nobody else touches it meanwhile;
 *   4. a slice of length 0 may have any pointer, NULL too;
 *   5. the thread's floating-point unit rounds to the nearest and keeps subnormal numbers, as it does in every thread that
 *      has not been told otherwise.
 *
 * OWNERSHIP. The caller owns every slice. The library allocates nothing, keeps no pointer and has no state of its own:
 * calls from several threads at once are fine as long as rule 3 holds. Slices may be longer than a call needs; what it
 * does not need it neither reads nor writes.
 *
 * ANSWERS. A call returns 0, or the number of the first question (below) whose answer is no. It returns JOZKERAL_NO_ROOM if a
 * slice for the answer itself (place, answer, row, report, measures, tables, found) is too short: then it has read and written
 * nothing at all. There is no other failure: any bytes of any length are answered, and no call loops for ever, traps or
 * reads outside its slices.
 *
 * WHAT IS WRITTEN WHEN. Unless JOZKERAL_NO_ROOM is returned, the slices for the answer are always written: in a refusal place[0] is the
 * place of the number and every other number is zero. Apart from these a refusal changes nothing but work (and marks), which
 * have zeros in the places that were asked for once question 9, or 20, has passed. Each function says what it writes else.
 */
#ifndef JOZKERAL_H
#define JOZKERAL_H

#include <stddef.h>
#include <stdint.h>

#ifdef __cplusplus
extern "C" {
#endif

/* ---- the numbers ----------------------------------------------------------------------------------------------------
 *
 * Each stands for a question that is asked, in this order, and the number is returned when the answer is no. The place of
 * 4 to 8 is the byte offset of the record, of 19 and 22 the index in the list, of all others 0.
 *
 * The tape (jozkeral_compile and jozkeral_run):
 */
#define JOZKERAL_OK 0
#define JOZKERAL_HEADER 1        /* Does the tape begin with a whole header: 20 bytes, marked 51 48? */
#define JOZKERAL_SIZE 2          /* Are there at most JOZKERAL_MAX_QUBITS qubits, and are the flags at most 7? */
#define JOZKERAL_TOLERANCE 3     /* Is the tolerance a number from 0 to 0.001? (-0.0 is 0, a NaN is none.) */
#define JOZKERAL_GATES 4         /* Is this gate among the first JOZKERAL_MAX_GATES? */
#define JOZKERAL_RECORD 5        /* Is this record whole, and of a known kind: its mark, its code, a label's length and bytes? */
#define JOZKERAL_QUBIT 6         /* Is every qubit of this gate below n? */
#define JOZKERAL_REPEATED 7      /* Are the qubits of this gate different? */
#define JOZKERAL_ENTRY 8         /* Is every number of this given matrix finite and of absolute value at most 2? */
#define JOZKERAL_WORK 9          /* For g gates, has work JOZKERAL_WORK_PLACES(g, n) and marks JOZKERAL_MARK_PLACES(g, n) places? */
#define JOZKERAL_OPERATIONS 10   /* Has ops JOZKERAL_OP_PLACES for each operation? */
/* Only jozkeral_run: */
#define JOZKERAL_APART 11        /* Is it untrue that there are bad blocks, all of them matchgates on modes that are not neighbours? */
#define JOZKERAL_BAD 12          /* Is no block bad (neither Gaussian nor an interaction)? */
#define JOZKERAL_INTERACTION 13  /* Is there no interaction, or does flag 4 drop them? */
#define JOZKERAL_LIMIT 14        /* Are the bytes of the covariance matrix, 8 for each of its places, at most the tape's limit? */
#define JOZKERAL_STATE 15        /* Has state JOZKERAL_STATE_PLACES(n)? */
/* The calls on a state: */
#define JOZKERAL_BAD_STATE 16    /* Is n at most JOZKERAL_MAX_QUBITS, has state its places, are the first n modes 0 to n - 1, each once? */
#define JOZKERAL_OPERATION 17    /* Has op JOZKERAL_OP_PLACES, a kind 1 to 3, for 1 and 2 a whole mode below n, for 2 the next one too? */
#define JOZKERAL_BITS 18         /* Are there as many bits as qubits, each 0 or 1? */
#define JOZKERAL_LISTED 19       /* Is this listed qubit below n? */
#define JOZKERAL_QUERY_WORK 20   /* Has work its places: the square of twice the number of modes that are left, for a sample (2n)^2? */
#define JOZKERAL_SHOTS 21        /* Are there at most JOZKERAL_MAX_SHOTS, n draws for each, and JOZKERAL_INDEX_WORDS of out for each? */
#define JOZKERAL_DRAW 22         /* Is this draw, which is to be used, at least 0 and below 1? */
/* Any call with a slice for its answer: */
#define JOZKERAL_NO_ROOM 99      /* Are the slices for the answer long enough? */

/* ---- limits --------------------------------------------------------------------------------------------------------- */
#define JOZKERAL_MAX_QUBITS 128  /* of a tape: question 2; of a state: question 16 */
#define JOZKERAL_MAX_GATES 1024  /* of a tape: question 4 */
#define JOZKERAL_MAX_LABEL 40    /* bytes of a label: question 5 */
#define JOZKERAL_MAX_SHOTS 65536 /* of one call: question 21 */

/* ---- sizes, in elements: n qubits, g gate records on the tape ------------------------------------------------------- */
#define JOZKERAL_HEADER_BYTES 20  /* of the tape's header */
#define JOZKERAL_OP_PLACES 18     /* places of one operation */
#define JOZKERAL_RECORD_FLOATS 64 /* places of work for each gate and each qubit */
#define JOZKERAL_RECORD_MARKS 32  /* places of marks for each of them */
#define JOZKERAL_RECORD_OPS 3     /* operations of each of them at most */
#define JOZKERAL_REPORT_WORDS 14
#define JOZKERAL_MEASURES 2
#define JOZKERAL_TABLES 3
#define JOZKERAL_INDEX_WORDS 2    /* words of a basis index, and of out for each shot */
/* work and marks of compile and run: question 9 */
#define JOZKERAL_WORK_PLACES(g, n) (JOZKERAL_RECORD_FLOATS * ((size_t)(g) + (size_t)(n)))
#define JOZKERAL_MARK_PLACES(g, n) (JOZKERAL_RECORD_MARKS * ((size_t)(g) + (size_t)(n)))
/* ops: enough for any tape; JOZKERAL_OP_PLACES for each operation are needed */
#define JOZKERAL_OPS_PLACES(g, n) (JOZKERAL_RECORD_OPS * JOZKERAL_OP_PLACES * ((size_t)(g) + (size_t)(n)))
/* state, the covariance matrix with the signs: questions 15 and 16 */
#define JOZKERAL_COVARIANCE_PLACES(n) (4 * (size_t)(n) * (size_t)(n))
#define JOZKERAL_STATE_PLACES(n) (JOZKERAL_COVARIANCE_PLACES(n) + 2 * (size_t)(n))
/* work of a query of n qubits: question 20. Those of all qubits suffice for each query; a basis index and a sample need them all */
#define JOZKERAL_QUERY_PLACES(n) JOZKERAL_COVARIANCE_PLACES(n)
/* tables, and where the last of them starts, the modes */
#define JOZKERAL_TABLE_PLACES (JOZKERAL_TABLES * JOZKERAL_MAX_QUBITS)
#define JOZKERAL_MODES_AT (2 * JOZKERAL_MAX_QUBITS)

/* ---- the kinds of operations ---------------------------------------------------------------------------------------- */
#define JOZKERAL_KIND_ONE 1
#define JOZKERAL_KIND_TWO 2
#define JOZKERAL_KIND_INTERACTION 3

/* ---- the words of a report ------------------------------------------------------------------------------------------ */
#define JOZKERAL_WORD_N 0
#define JOZKERAL_WORD_BLOCKS 1
#define JOZKERAL_WORD_TWO 2          /* blocks of two qubits */
#define JOZKERAL_WORD_GAUSSIAN 3     /* Gaussian blocks */
#define JOZKERAL_WORD_BAD 4          /* bad blocks */
#define JOZKERAL_WORD_NONADJACENT 5  /* of the bad ones the matchgates on modes that are not neighbours */
#define JOZKERAL_WORD_INTERACTIONS 6
#define JOZKERAL_WORD_SWAPS 7        /* swaps relabelled */
#define JOZKERAL_WORD_OPERATIONS 8
#define JOZKERAL_WORD_CONSERVING 9   /* this and the next three are 0 or 1: number conserving */
#define JOZKERAL_WORD_EXACT 10       /* no bad block and no interaction */
#define JOZKERAL_WORD_FREE 11        /* no bad block */
#define JOZKERAL_WORD_ANGLED 12
#define JOZKERAL_WORD_ORDERING 13    /* one of these three: */
#define JOZKERAL_ORDERING_IDENTITY 0
#define JOZKERAL_ORDERING_PATHS 1
#define JOZKERAL_ORDERING_GREEDY 2

/* ---- the tape -------------------------------------------------------------------------------------------------------
 *
 * Numbers are little endian, floats IEEE 754 binary64; bytes are written in hexadecimal here.
 *   header  51 48, n (1 byte), flags (1), tolerance (8, a float), limit in bytes (8, an integer): 20 bytes, first and only.
 *           flags: 1 relabels swaps, 2 reorders the modes, 4 drops interactions; their sum.
 *   gate    51 47, code (1), one byte for each qubit, then a given matrix row by row, the real part before the imaginary one.
 *           The first qubit is the high bit of a row or column index.
 *           1 qubit: 00 I, 01 H, 02 X, 03 Y, 04 Z, 05 S, 06 S adjoint, 07 root of X, 08 its adjoint, 0f given (8 floats);
 *           2 qubits: 10 CNOT, 11 CZ, 12 SWAP, 13 ISWAP, 14 its adjoint, 1f given (32 floats); 3 qubits: 20 CCX.
 *   label   51 4c, length 0 to JOZKERAL_MAX_LABEL (1), as many bytes from 20 to 7e; anywhere after the header.
 */

/*
 * Where label `which` (counted from 0) is. found (2): the offset of its first byte on the tape, and its length; 0 and 0 if
 * there is no such label or the tape is refused by one of 1 to 8. (No label begins at 0; one of length 0 has an offset.)
 * Returns 0, or JOZKERAL_NO_ROOM (99) if found has fewer than 2 places; no question is asked.
 */
uint64_t jozkeral_label(const uint8_t *tape, size_t tape_len, size_t which, uint64_t *found, size_t found_len);

/*
 * The report and the operations of a tape: questions 1 to 10. Bad blocks are reported, not refused.
 *
 * work, marks (JOZKERAL_WORK_PLACES, JOZKERAL_MARK_PLACES): what was there does not matter; zeros in these places once 9 has
 *     passed, untouched before.
 * ops: written if the answer is 0, one operation after the other, JOZKERAL_OP_PLACES each; later places keep their values. An
 *     operation is kind, mode and 16 numbers, with 0.0 in the places that are not used:
 *       JOZKERAL_KIND_ONE          a map of one mode, 2 by 2 by rows
 *       JOZKERAL_KIND_TWO          a map of a mode and the next one, 4 by 4 by rows
 *       JOZKERAL_KIND_INTERACTION  the index of its block, its second mode, the real and the imaginary part of its phase
 *     There are none if a block is bad.
 * place (1): the place of the refusal, or 0.
 * report (JOZKERAL_REPORT_WORDS): the words JOZKERAL_WORD_N to JOZKERAL_WORD_ORDERING.
 * measures (JOZKERAL_MEASURES): Gaussian blocks in proportion to all (1.0 if there is none), the largest residual.
 * tables (JOZKERAL_TABLE_PLACES): three tables of JOZKERAL_MAX_QUBITS, of which the first n entries count and the others are 0:
 *     the wire on each mode, whether a path starts there (0 or 1), the mode of each qubit. `tables + JOZKERAL_MODES_AT` with
 *     length JOZKERAL_MAX_QUBITS is `modes` for the calls on a state.
 */
uint64_t jozkeral_compile(const uint8_t *tape, size_t tape_len, double *work, size_t work_len, uint32_t *marks, size_t marks_len,
                          double *ops, size_t ops_len, uint64_t *place, size_t place_len, uint64_t *report, size_t report_len,
                          double *measures, size_t measures_len, uint16_t *tables, size_t tables_len);

/*
 * A tape run from the state |0..0>: questions 1 to 15. As jozkeral_compile, and if the answer is 0:
 *
 * state (JOZKERAL_STATE_PLACES): the covariance matrix of the 2n Majorana operators by rows, then 2n signs; later places keep
 *     their values. Entry (r, c) stands for itself times sign r times sign c.
 * A refusal by 10 to 15 leaves ops and state as they were.
 */
uint64_t jozkeral_run(const uint8_t *tape, size_t tape_len, double *work, size_t work_len, uint32_t *marks, size_t marks_len,
                      double *ops, size_t ops_len, double *state, size_t state_len, uint64_t *place, size_t place_len,
                      uint64_t *report, size_t report_len, double *measures, size_t measures_len, uint16_t *tables,
                      size_t tables_len);

/* ---- calls on a state -----------------------------------------------------------------------------------------------
 *
 * n, state and modes are those of a run, or any others: 16 asks what is needed of them. A query only reads the state.
 * work: what was there does not matter. Once 20 has passed, the places that it asks for are left zero, whatever the answer;
 *     where the answer is given before 20, work is untouched.
 * place (1): the place of the refusal, or 0. answer (1): the number asked for, 0.0 in a refusal.
 * row (1): k + 1 if the number is a zero that was found in row k, else 0. The number comes of the matrix of the modes that are left,
 *     which is eliminated two rows at a time: the rows 0, 2, 4, ... are searched in turn for an entry to divide by. A search that
 *     meets only zeros (NaNs after the first aside) stops with its row, of the matrix as it is swapped by then, and the number is
 *     0.0. A row is no wire; of one qubit it is row 0. row[0] is 0 where there was no stop: the number was worked out, or there
 *     was none to work out (a refusal, a contradiction, an empty list). Neither is a word on the true value: the entries of a row
 *     may have been rounded before, even to zero; and a zero is worked out where the product of the entries divided by is too
 *     small for a float, or where a marginal with the sign of its ones comes to less than zero or to a NaN.
 */

/* Applies the operation in op to the state: questions 16 and 17, whose place is 0. An interaction does nothing. */
uint64_t jozkeral_apply(size_t n, double *state, size_t state_len, const uint16_t *modes, size_t modes_len, const double *op,
                        size_t op_len);

/*
 * The product of Z over the listed qubits, their joint parity (on the state of a run from -1 to 1, but for rounding): questions 16,
 * 19 and 20. Pairs of a listed qubit cancel, so that those listed an odd number of times are left. For k that are left, work has
 * JOZKERAL_QUERY_PLACES(k) places; of none the product is 1.0, and work may be empty.
 *
 * Z of one qubit q is the product over the list of q alone, `&q, 1`: work has 4 places. It is an entry of the covariance, but
 * +0.0 where that is -0.0. The correlation of two qubits is the product over the list of the two: work has 16 places.
 */
uint64_t jozkeral_expectation_z_product(size_t n, const double *state, size_t state_len, const uint16_t *modes, size_t modes_len,
                                        const size_t *qubits, size_t qubits_len, double *work, size_t work_len, uint64_t *place,
                                        size_t place_len, double *answer, size_t answer_len, uint64_t *row, size_t row_len);

/*
 * The probability that each listed qubit reads its bit: questions 16, 18, 19 and 20. A qubit listed again with the same bit
 * counts once; at the first contradiction the answer is 0.0, later qubits and 20 are not looked at.
 */
uint64_t jozkeral_marginal_probability(size_t n, const double *state, size_t state_len, const uint16_t *modes, size_t modes_len,
                                       const size_t *qubits, size_t qubits_len, const uint8_t *bits, size_t bits_len, double *work,
                                       size_t work_len, uint64_t *place, size_t place_len, double *answer, size_t answer_len,
                                       uint64_t *row, size_t row_len);

/*
 * The probability of a basis index: qubit q reads bit q of low, from 64 on bit q - 64 of high; bits from n on are ignored.
 * Questions 16 and 20, whose place is 0. It tells no row; the marginal of all qubits has the same number and tells it.
 */
uint64_t jozkeral_probability(size_t n, const double *state, size_t state_len, const uint16_t *modes, size_t modes_len, uint64_t low,
                              uint64_t high, double *work, size_t work_len, double *answer, size_t answer_len);

/*
 * Shots of all n qubits: questions 16, 20, 21 and 22. draws: n numbers for each shot, from 0 up to but not 1, used in mode order.
 * out: written if the answer is 0, JOZKERAL_INDEX_WORDS for each shot, low first, with qubit q's bit where jozkeral_probability has
 * it; later places keep their values.
 */
uint64_t jozkeral_sample(size_t n, const double *state, size_t state_len, const uint16_t *modes, size_t modes_len, size_t shots,
                         const double *draws, size_t draws_len, double *work, size_t work_len, uint64_t *out, size_t out_len,
                         uint64_t *place, size_t place_len);

/* ---- an example: X on qubit 0, then ISWAP of 0 and 1; prints "Z: 1 -1" ----------------------------------------------

    static const uint8_t tape[] = {0x51, 0x48, 2, 3, 0, 0, 0, 0, 0, 0, 0, 0, 0, 0, 0, 0x40, 0, 0, 0, 0,
                                   0x51, 0x47, 0x02, 0, 0x51, 0x47, 0x13, 0, 1};
    enum { N = 2, G = 2 };
    double work[JOZKERAL_WORK_PLACES(G, N)], ops[JOZKERAL_OPS_PLACES(G, N)], state[JOZKERAL_STATE_PLACES(N)];
    uint32_t marks[JOZKERAL_MARK_PLACES(G, N)];
    uint64_t place[1], row[1], report[JOZKERAL_REPORT_WORDS];
    double measures[JOZKERAL_MEASURES], z_work[JOZKERAL_QUERY_PLACES(1)], z[1];
    uint16_t tables[JOZKERAL_TABLE_PLACES];
    uint64_t no = jozkeral_run(tape, sizeof tape, work, JOZKERAL_WORK_PLACES(G, N), marks, JOZKERAL_MARK_PLACES(G, N),
                               ops, JOZKERAL_OPS_PLACES(G, N), state, JOZKERAL_STATE_PLACES(N), place, 1,
                               report, JOZKERAL_REPORT_WORDS, measures, JOZKERAL_MEASURES, tables, JOZKERAL_TABLE_PLACES);
    if (no) { printf("refused %d at %d\n", (int)no, (int)place[0]); return 1; }
    printf("Z:");
    for (size_t q = 0; q < N; q++)
        if (jozkeral_expectation_z_product(N, state, JOZKERAL_STATE_PLACES(N), tables + JOZKERAL_MODES_AT, JOZKERAL_MAX_QUBITS,
                                           &q, 1, z_work, JOZKERAL_QUERY_PLACES(1), place, 1, z, 1, row, 1) == JOZKERAL_OK)
            printf(" %g%s", z[0], row[0] ? " found" : "");
    printf("\n");
*/

#ifdef __cplusplus
}
#endif

#endif
