/* pull.h: the C functions of the pull stand's panel.
 *
 * Link with libpanel.a (x86-64 Linux). The functions allocate nothing, keep
 * nothing between calls, and may be called from several threads at once on
 * separate answer bytes. They end, without a fault, on every content of the
 * bytes lent to them.
 */
#ifndef PULL_H
#define PULL_H

#include <stddef.h>
#include <stdint.h>

#ifdef __cplusplus
extern "C" {
#endif

/* The stated lengths of the bytes that are lent for an answer. */
#define PULL_ENTRY_BYTES 24u
#define PULL_KENWARD_ROGER_BYTES 168u /* seven entries */
#define PULL_ARCHIVE_BYTES 7184u      /* the longest archive */

/* The length of a table of cutoffs: nine records. */
#define PULL_TABLE_BYTES 144u

/* What a call returns: 0, or the number of the refusal; pull_archive and
 * pull_archive_with return the archive's length where they accept, at least 128,
 * which is no refusal's number. Where several refusals apply it is the first of
 * these:
 *
 *   pull_kenward_roger: 1; 2 for records_length; 12; 2 for any of its other
 *     reasons; 13; 3; 4 of an input; 5; 6; 7; 8; 9 and 10 of the covariance
 *     adjustment; 4 of its output; 10 of a test
 *   pull_archive: the same without 10 of a test, since it runs none
 *   pull_archive_test: 1; of the archive 2 for its length; 12; 2 for any other
 *     reason but the last; 4; 5; 2 for records in response units that are not
 *     those in residual units, scaled; then of the second file 2 for its
 *     length; 12; 2 for any of its other reasons; 4; 8; then 10 of a test
 *   pull_satterthwaite: 1; 2 for records_length; 12; 2 for any of its other
 *     reasons; 4; 11
 *   pull_kenward_roger_with, pull_archive_with, pull_archive_test_with and
 *     pull_satterthwaite_with: 1; 14; then as the call without a table */
enum pull_number {
    PULL_ACCEPTED = 0,
    PULL_LENGTH = 1,        /* answer_length (of the two that write an archive: archive_length) is
                               not the stated one */
    PULL_RECORDS = 2,       /* a file's length not a multiple of 16, bad kind, nonzero unused field,
                               index past a limit, cell twice (a block with two k's), missing or
                               beyond the sizes; in an archive also a record in response units whose
                               bits are not its residual one's times or divided by sigma2 */
    PULL_SIZE = 3,          /* a size outside its limits: a block's k not 1 or 2, m = 0, more than
                               three block parameters; or all weights zero */
    PULL_NOT_FINITE = 4,    /* an input not finite; or some number of the adjustment's output */
    PULL_SIGMA2 = 5,        /* sigma2 <= 0 */
    PULL_WEIGHT = 6,        /* a weight < 0 */
    PULL_BLOCKS = 7,        /* sum of m*k is not the number of Z columns, or the number of thetas is
                               not the sum of k(k+1)/2 */
    PULL_ZERO_CONTRAST = 8, /* Kenward-Roger: the contrast is all zero */
    PULL_CHOLESKY = 9,      /* a Cholesky diagonal not > 0 */
    PULL_PIVOT = 10,        /* a zero pivot in an elimination */
    PULL_EIGENVALUE = 11,   /* Satterthwaite: a covariance of several rows that has an eigenvalue
                               not finite or <= 0 */
    PULL_ORDER = 12,        /* a record that does not stand before the next one, as the records
                               argument says; so also any other cell twice */
    PULL_PARAMETER_COUNT = 13, /* a block whose written number is not k(k+1)/2 */
    PULL_TABLE = 14         /* a table of cutoffs that is none, as the last part of this header says:
                               of another length, with other or other-ordered records, with a value
                               not finite or not above zero, or with a cap not above 2 */
};

/* One series by Kenward-Roger: each coefficient alone, then the contrast if
 * the series has one.
 *
 * records         the series: records of 16 bytes, rising strictly. Byte 0
 *                 kind, 1 row, 2 column, 3 zero, 4-7 count (little-endian),
 *                 8-15 the bits of an f64 (little-endian), of a block (kind 3)
 *                 a number and seven zeros, as below. A record stands
 *                 before another by its kind, then for the kinds 13, 17 and 31
 *                 by its count, then by its row, then by its column, also
 *                 where the kind leaves row or column unused. This is the
 *                 order in every file of every call, whichever kinds the call
 *                 reads. Read, never written.
 * records_length  the number of bytes at records.
 * answer          the answer bytes. They may not overlap the records.
 * answer_length   the number of bytes at answer: PULL_KENWARD_ROGER_BYTES.
 *
 * Both pointers point to at least as many bytes as their length says, and are
 * not NULL even where the length is 0. No alignment is asked.
 *
 * The kinds of a series are 1 to 10. Kind 21, which closes a series in a season's
 * file, is a bad kind here and in every call below, also where its other bytes are
 * zero: 2, or 12 where it does not rise. A season's file is for the program
 * pullseason; a caller that has one lends its series one by one, without the
 * closing records.
 *
 * A block (kind 3) has its index in byte 1, its effects k (1 or 2) in byte 2 and
 * its groups m in the count. Byte 8, the first of its eight value bytes, holds the
 * number of its parameters, k(k+1)/2: 1 or 3. Bytes 9 to 15 are zero (else 2). A
 * block with another number is refused with 13, whatever k is, before its size is
 * looked at (3): k = 3 with 6 is refused with 3 and with 0 with 13. No byte holds
 * the number of a k above 22, so that such a block is refused with 13 whatever
 * byte 8 holds.
 *
 * A weight (kind 5) of 0, +0 or -0, says that the film tore outside the glue:
 * the specimen is absent. Its records are asked for and must be finite, as any
 * other's (2 and 4); then its rows of X and Z and its weight are dropped, and
 * the answer is that of the specimens that are left. All sizes but the number of
 * specimens stay as sent: a column of Z whose only records were a torn
 * specimen's still counts (7), and is a column of zeros. A series of torn
 * specimens alone is refused with 3, before 4. Without weights no specimen is
 * torn.
 *
 * Returns 0, and then all 168 answer bytes are written; or the number of the
 * refusal (1 to 10, 12 or 13), and then every answer byte keeps its contents.
 *
 * The answer has seven entries of 24 bytes: entries 0 to 5 are the
 * coefficients, entry 6 is the contrast. In an entry:
 *
 *   bytes 0-7    the bits of F, little-endian; 0 where F is none
 *   bytes 8-15   the bits of df, little-endian; 0 where df is none
 *   byte  16     rank, 1 to 6
 *   byte  17     1 where F is given, 0 where it is none
 *   byte  18     1 where df is given, 0 where it is none
 *   byte  19     1 inside, 0 outside
 *   bytes 20-23  zero
 *
 * An entry with no coefficient, and entry 6 of a series without a contrast,
 * is 24 zero bytes; so a rank of 0 tells an unused entry. */
uint32_t pull_kenward_roger(const uint8_t *records, size_t records_length,
                            uint8_t *answer, size_t answer_length);

/* A contrast by Satterthwaite, with the covariance of beta, its Jacobians and
 * the covariance of the parameters from the file.
 *
 * The arguments are those of pull_kenward_roger, with the same order of the
 * records, and the same is asked of the pointers. answer_length is
 * PULL_ENTRY_BYTES.
 *
 * The records have the kinds 8 (beta), 9 (the contrast), 10 (the hypothesis
 * values, all or none), 30 (v, the covariance of beta), 31 (a Jacobian, told
 * by its count) and 32 (A, the covariance of the parameters), with every cell;
 * any other kind is refused with PULL_RECORDS.
 *
 * Returns 0, and then all 24 answer bytes are written, one entry as above; or
 * the number of the refusal (PULL_LENGTH, PULL_RECORDS, PULL_ORDER,
 * PULL_NOT_FINITE of an input, PULL_EIGENVALUE), and then every answer byte
 * keeps its contents. The rank is the number of contrast rows. */
uint32_t pull_satterthwaite(const uint8_t *records, size_t records_length,
                            uint8_t *answer, size_t answer_length);

/* The archive of a series: its adjusted matrices, as a record file.
 *
 * records         a series, as for pull_kenward_roger; what is archived is that
 *                 of the specimens that are not torn. Read, never written.
 * records_length  the number of bytes at records.
 * archive         the bytes that the archive is written to. They may not
 *                 overlap the records.
 * archive_length  the number of bytes at archive: PULL_ARCHIVE_BYTES, whatever
 *                 the series is.
 *
 * The same is asked of the pointers as above.
 *
 * Returns the length of the archive, a multiple of 16 from 128 to 7,184: then
 * the archive stands at the front of the lent bytes, and the bytes behind it
 * keep their contents. Or it returns the number of the refusal (1 to 10, 12 or
 * 13, so below 128), and then every lent byte keeps its contents. No test is run: a
 * series that only a test refuses (10) is archived. A contrast that is all zero
 * is refused (8), as the series is.
 *
 * With p coefficients and N matrices P (one more than there are thetas), the
 * archive has 4p^2 + 2Np^2 + N^2 + 1 records, every cell, in this order, row
 * after row:
 *
 *   kind 11      Phi in response units: Phi times sigma2, p rows of p
 *   kind 12      Phi_A in response units: Phi_A times sigma2, p rows of p
 *   kind 13      P in response units: P_r divided by sigma2, the count is r
 *                from 0 to N-1, p rows of p for each
 *   kind 14      W, N rows of N
 *   kind 15      Phi in residual units, as the series has it
 *   kind 16      Phi_A in residual units
 *   kind 17      P in residual units, as kind 13
 *   kind 18      sigma2; row, column and count are 0
 *
 * Each cell in response units is one f64 multiplication or division. */
uint32_t pull_archive(const uint8_t *records, size_t records_length,
                      uint8_t *archive, size_t archive_length);

/* The tests of pull_kenward_roger from an archive, so without the specimens.
 *
 * archive         an archive, as pull_archive writes it. Read, never written.
 * archive_length  the number of bytes at archive: those of the archive alone.
 * tests           the second file: records of the kinds 8 (beta, one for each
 *                 of the archive's coefficients), 9 (the contrast, absent
 *                 wholly or with every cell) and 10 (the hypothesis values, all
 *                 or none, and none without a contrast), rising as every file
 *                 does. Any other kind is refused with PULL_RECORDS. Read,
 *                 never written.
 * tests_length    the number of bytes at tests.
 * answer          the answer bytes. They may overlap neither file.
 * answer_length   the number of bytes at answer: PULL_KENWARD_ROGER_BYTES.
 *
 * The same is asked of the pointers as above.
 *
 * The number of coefficients is told by kind 11 and the number of matrices by
 * kind 14, each by its largest index, and is at least 1; every cell of every
 * kind from 11 to 18 is there, and none beyond. The tests are made from the
 * kinds 14 to 18; the kinds 11 to 13 are compared with what they must be, bit
 * by bit (-0 is not +0).
 *
 * Returns 0, and then all 168 answer bytes are written, as pull_kenward_roger
 * writes them; or the number of the refusal (PULL_LENGTH, PULL_RECORDS,
 * PULL_NOT_FINITE, PULL_SIGMA2, PULL_ZERO_CONTRAST, PULL_PIVOT, PULL_ORDER), and
 * then every answer byte keeps its contents.
 *
 * For a series that pull_archive accepts, the test from its archive with the
 * series' own records of the kinds 8 to 10 returns the number that
 * pull_kenward_roger returns on the series and writes the same bytes. */
uint32_t pull_archive_test(const uint8_t *archive, size_t archive_length,
                           const uint8_t *tests, size_t tests_length,
                           uint8_t *answer, size_t answer_length);

/* The lab's own cutoffs. Each of the four functions above has a form that takes
 * the small numbers at which the tests decide from a table; the function above is
 * the same with the built-in table.
 *
 * table         the table: nine records of 16 bytes, of kind 20 (byte 0), with the
 *               rows 0 to 8 (byte 1) in this order. Bytes 2 to 7 are zero, bytes 8
 *               to 15 hold the bits of an f64, little-endian: finite and above zero
 *               (a subnormal is, +0 and -0 are not), that of row 8 above 2. Any
 *               other table is refused with PULL_TABLE, after PULL_LENGTH and
 *               before anything of the other files is looked at; a table out of
 *               order too, so that no table is refused with 12. Read, never
 *               written.
 * table_length  the number of bytes at table. Any other than PULL_TABLE_BYTES is
 *               refused with PULL_TABLE.
 *
 *   row  built in  what it is
 *   0    1e-15     a Kenward-Roger test of several rows: where |a2| is not above it
 *                  g is 0; where |d| is not above it c1 is 0
 *   1    1e-10     there too: V0 and V2 below it in magnitude become 0
 *   2    1e-10     there too: a quotient whose denominator, V1 or V2, is below it in
 *                  magnitude is 0
 *   3    1e-12     there too: where |q rho - 1| is not above it df is none
 *   4    1e-2      there too: where |df - 2| is below it F is not scaled
 *   5    1e-10     the covariance adjustment: where the smallest eigenvalue of IE is
 *                  not above it in magnitude, the next one joins IE's diagonal
 *   6    1e-8      what then joins each cell of IE's diagonal
 *   7    2^-100    the Jacobi sweeps of IE, and of the covariance V of a
 *                  Satterthwaite contrast of several rows: a pair is rotated where
 *                  the square of its cell is above this factor times the product of
 *                  the two diagonal cells
 *   8    3000      a Satterthwaite test of several rows: a component's df above it
 *                  becomes it
 *
 * The rows 0 to 4 show in a test of one row only where a2 is not above zero or not
 * finite. 2^-52, of the rank of a contrast, and the 1e-8 within which components of
 * df count as equal stand fast.
 *
 * Of the nine only the factor of row 7 stands in steps that the mark looks at, those
 * of V's sweeps: with a binary exponent outside -800 to 800, or where its product
 * with the two diagonal cells leaves that range or is lost to zero, such a test is
 * outside as soon as one pair is looked at. A V whose cells off the diagonal are all
 * zero has none, and stays inside.
 *
 * The other arguments, the answer and the refusals are those of the function without
 * a table, with PULL_TABLE besides. The table may not overlap the bytes that are
 * written; its pointer is not NULL even where table_length is 0. A test from an
 * archive is the direct call's where the archive, the test and the direct call have
 * one table: an archive does not tell its table. */
uint32_t pull_kenward_roger_with(const uint8_t *table, size_t table_length,
                                 const uint8_t *records, size_t records_length,
                                 uint8_t *answer, size_t answer_length);

uint32_t pull_satterthwaite_with(const uint8_t *table, size_t table_length,
                                 const uint8_t *records, size_t records_length,
                                 uint8_t *answer, size_t answer_length);

uint32_t pull_archive_with(const uint8_t *table, size_t table_length,
                           const uint8_t *records, size_t records_length,
                           uint8_t *archive, size_t archive_length);

uint32_t pull_archive_test_with(const uint8_t *table, size_t table_length,
                                const uint8_t *archive, size_t archive_length,
                                const uint8_t *tests, size_t tests_length,
                                uint8_t *answer, size_t answer_length);

#ifdef __cplusplus
}
#endif

#endif
