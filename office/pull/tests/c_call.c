/* pull.h from C: document 01's examples, a torn pull, a block's number, tables of cutoffs, refusals,
 * other lengths. */

#include "pull.h"

#include <math.h>
#include <stdio.h>
#include <string.h>

static void record(uint8_t *to, uint8_t kind, uint8_t row, uint8_t column, double value)
{
    memset(to, 0, 16);
    to[0] = kind;
    to[1] = row;
    to[2] = column;
    memcpy(to + 8, &value, 8);
}

static double number(const uint8_t *from)
{
    double value;
    memcpy(&value, from, 8);
    return value;
}

static int failed(const char *what)
{
    printf("failed: %s\n", what);
    return 1;
}

/* Two neighbouring records change places. */
static void swap(uint8_t *records)
{
    uint8_t first[16];
    memcpy(first, records, 16);
    memmove(records, records + 16, 16);
    memcpy(records + 16, first, 16);
}

/* The pulltest example. */
static void example(uint8_t *records)
{
    record(records, 1, 0, 0, 1.0);
    record(records + 16, 1, 1, 0, 1.0);
    record(records + 32, 6, 0, 0, 0.5);
    record(records + 48, 7, 0, 0, 8.0);
    record(records + 64, 8, 0, 0, 6.0);
    record(records + 80, 9, 0, 0, 1.0);
}

/* The example through the Kenward-Roger call. */
static int kenward_roger(void)
{
    uint8_t records[96], answer[PULL_KENWARD_ROGER_BYTES], kept[PULL_KENWARD_ROGER_BYTES];
    const uint8_t *contrast = answer + 6 * PULL_ENTRY_BYTES;
    size_t i;

    example(records);
    memset(answer, 0xa5, sizeof answer);
    memset(kept, 0xa5, sizeof kept);
    if (pull_kenward_roger(records, sizeof records, answer, 100) != PULL_LENGTH)
        return failed("100 answer bytes");
    if (pull_kenward_roger(records, 95, answer, sizeof answer) != PULL_RECORDS)
        return failed("95 bytes of records");
    swap(records + 64);
    if (pull_kenward_roger(records, sizeof records, answer, sizeof answer) != PULL_ORDER)
        return failed("the contrast before beta");
    if (pull_kenward_roger(records, 95, answer, sizeof answer) != PULL_RECORDS)
        return failed("95 bytes of records out of order");
    swap(records + 64);
    record(records + 48, 7, 0, 0, 0.0);
    if (pull_kenward_roger(records, sizeof records, answer, sizeof answer) != PULL_SIGMA2)
        return failed("sigma2 = 0");
    if (memcmp(answer, kept, sizeof answer) != 0)
        return failed("a refusal has written answer bytes");

    record(records + 48, 7, 0, 0, 8.0);
    if (pull_kenward_roger(records, sizeof records, answer, sizeof answer) != PULL_ACCEPTED)
        return failed("the example is refused");
    if (number(answer) != 9.0 || number(answer + 8) != 1.0)
        return failed("F and df of coefficient 0");
    if (number(contrast) != 9.0 || number(contrast + 8) != 1.0)
        return failed("F and df of the contrast");
    for (i = 16; i < 24; i++)
        if (answer[i] != (i < 20) || contrast[i] != (i < 20))
            return failed("rank, given, given, inside, four zeros");
    for (i = 24; i < 144; i++)
        if (answer[i] != 0)
            return failed("an unused entry");
    return 0;
}

/* The example with weights, and with a third pull whose film tore: the same answer. */
static int torn(void)
{
    uint8_t records[160], whole[96], answer[PULL_KENWARD_ROGER_BYTES], expected[PULL_KENWARD_ROGER_BYTES];
    uint8_t kept[PULL_KENWARD_ROGER_BYTES], row;

    example(whole);
    if (pull_kenward_roger(whole, sizeof whole, expected, sizeof expected) != PULL_ACCEPTED)
        return failed("the example is refused");
    for (row = 0; row < 3; row++) {
        record(records + 16 * row, 1, row, 0, row == 2 ? 1e300 : 1.0);
        record(records + 48 + 16 * row, 5, row, 0, row == 2 ? 0.0 : 1.0);
    }
    memcpy(records + 96, whole + 32, 64);
    if (pull_kenward_roger(records, sizeof records, answer, sizeof answer) != PULL_ACCEPTED)
        return failed("a torn pull");
    if (memcmp(answer, expected, sizeof answer) != 0)
        return failed("a torn pull has changed the answer");
    record(records + 80, 5, 2, 0, -0.0);
    if (pull_kenward_roger(records, sizeof records, answer, sizeof answer) != PULL_ACCEPTED)
        return failed("a pull torn by -0");
    if (memcmp(answer, expected, sizeof answer) != 0)
        return failed("a pull torn by -0 has changed the answer");

    memset(answer, 0xa5, sizeof answer);
    memset(kept, 0xa5, sizeof kept);
    record(records + 64, 5, 1, 0, -1.0);
    if (pull_kenward_roger(records, sizeof records, answer, sizeof answer) != PULL_WEIGHT)
        return failed("a weight of -1 beside a zero");
    record(records + 32, 1, 2, 0, HUGE_VAL);
    if (pull_kenward_roger(records, sizeof records, answer, sizeof answer) != PULL_NOT_FINITE)
        return failed("a torn pull that is not finite");
    record(records + 48, 5, 0, 0, 0.0);
    record(records + 64, 5, 1, 0, -0.0);
    if (pull_kenward_roger(records, sizeof records, answer, sizeof answer) != PULL_SIZE)
        return failed("all pulls torn");
    if (memcmp(answer, kept, sizeof answer) != 0)
        return failed("a refusal has written answer bytes");
    return 0;
}

/* A block of k effects and one group: in byte 8 this number, and six zeros and `last` behind it. */
static void block(uint8_t *to, uint8_t k, uint8_t written, uint8_t last)
{
    record(to, 3, 0, k, 0.0);
    to[4] = 1;
    to[8] = written;
    to[15] = last;
}

/* Example (k), the example's two pulls in one group with theta 0: the number in its block. */
static int block_number(void)
{
    uint8_t records[160], whole[96], answer[PULL_KENWARD_ROGER_BYTES], kept[PULL_ARCHIVE_BYTES];
    uint8_t lent[PULL_ARCHIVE_BYTES], *sent = records + 64;

    example(whole);
    memcpy(records, whole, 32);
    record(records + 32, 2, 0, 0, 1.0);
    record(records + 48, 2, 1, 0, 1.0);
    record(records + 80, 4, 0, 0, 0.0);
    memcpy(records + 96, whole + 32, 64);
    memset(answer, 0xa5, sizeof answer);
    memset(lent, 0xa5, sizeof lent);
    memset(kept, 0xa5, sizeof kept);
    block(sent, 1, 0, 0);
    if (pull_kenward_roger(records, sizeof records, answer, sizeof answer) != PULL_PARAMETER_COUNT)
        return failed("k = 1 with 0");
    if (pull_archive(records, sizeof records, lent, sizeof lent) != PULL_PARAMETER_COUNT)
        return failed("k = 1 with 0, to be archived");
    if (pull_satterthwaite(records, sizeof records, answer, PULL_ENTRY_BYTES) != PULL_RECORDS)
        return failed("a block for the other call");
    block(sent, 1, 1, 128);
    if (pull_kenward_roger(records, sizeof records, answer, sizeof answer) != PULL_RECORDS)
        return failed("k = 1 with 1 and a byte behind it");
    block(sent, 3, 0, 0);
    if (pull_kenward_roger(records, sizeof records, answer, sizeof answer) != PULL_PARAMETER_COUNT)
        return failed("k = 3 with 0");
    block(sent, 3, 6, 0);
    if (pull_kenward_roger(records, sizeof records, answer, sizeof answer) != PULL_SIZE)
        return failed("k = 3 with 6");
    block(sent, 23, 20, 0);
    if (pull_kenward_roger(records, sizeof records, answer, sizeof answer) != PULL_PARAMETER_COUNT)
        return failed("k = 23 with 276 less 256");
    if (memcmp(answer, kept, sizeof answer) != 0 || memcmp(lent, kept, sizeof lent) != 0)
        return failed("a refusal has written answer bytes");

    block(sent, 1, 1, 0);
    if (pull_kenward_roger(records, sizeof records, answer, sizeof answer) != PULL_ACCEPTED)
        return failed("example (k) is refused");
    if (number(answer) != 9.0)
        return failed("F of example (k)");
    return 0;
}

/* A matrix of two rows and columns, its diagonal a and b. */
static uint8_t *diagonal(uint8_t *to, uint8_t kind, double a, double b)
{
    record(to, kind, 0, 0, a);
    record(to + 16, kind, 0, 1, 0.0);
    record(to + 32, kind, 1, 0, 0.0);
    record(to + 48, kind, 1, 1, b);
    return to + 64;
}

/* Example (i): beta (4, 1), L identity, v = diag(4, 1), one Jacobian equal to v, A 0.5. */
static int satterthwaite(void)
{
    uint8_t records[15 * 16], answer[PULL_ENTRY_BYTES], kept[PULL_ENTRY_BYTES];
    uint8_t *v, *jacobian, *a, i;

    record(records, 8, 0, 0, 4.0);
    record(records + 16, 8, 1, 0, 1.0);
    v = diagonal(records + 32, 9, 1.0, 1.0);
    jacobian = diagonal(v, 30, 4.0, 1.0);
    a = diagonal(jacobian, 31, 4.0, 1.0);
    record(a, 32, 0, 0, 0.5);

    memset(answer, 0xa5, sizeof answer);
    memset(kept, 0xa5, sizeof kept);
    if (pull_satterthwaite(records, sizeof records, answer, 23) != PULL_LENGTH)
        return failed("23 answer bytes");
    if (pull_satterthwaite(records, sizeof records - 16, answer, sizeof answer) != PULL_RECORDS)
        return failed("a record less");
    swap(jacobian + 48);
    if (pull_satterthwaite(records, sizeof records, answer, sizeof answer) != PULL_ORDER)
        return failed("A before the last cell of the Jacobian");
    swap(jacobian + 48);
    record(records + 16, 8, 1, 0, HUGE_VAL);
    if (pull_satterthwaite(records, sizeof records, answer, sizeof answer) != PULL_NOT_FINITE)
        return failed("an infinite beta");
    record(records + 16, 8, 1, 0, 1.0);
    record(v, 30, 0, 0, -4.0);
    if (pull_satterthwaite(records, sizeof records, answer, sizeof answer) != PULL_EIGENVALUE)
        return failed("a negative v");
    if (memcmp(answer, kept, sizeof answer) != 0)
        return failed("a refusal has written answer bytes");

    record(v, 30, 0, 0, 4.0);
    if (pull_satterthwaite(records, sizeof records, answer, sizeof answer) != PULL_ACCEPTED)
        return failed("example (i) is refused");
    if (number(answer) != 2.5 || number(answer + 8) != 4.0)
        return failed("F and df of example (i)");
    for (i = 16; i < 24; i++)
        if (answer[i] != (i == 16 ? 2 : i < 20))
            return failed("rank 2, given, given, inside, four zeros");
    return 0;
}

/* The example archived, and tested from its archive. */
static int archive(void)
{
    static const double cells[8] = { 4.0, 4.0, -0.25, 2.0, 0.5, 0.5, -2.0, 8.0 };
    uint8_t records[96], lent[PULL_ARCHIVE_BYTES], kept[PULL_ARCHIVE_BYTES];
    uint8_t answer[PULL_KENWARD_ROGER_BYTES], direct[PULL_KENWARD_ROGER_BYTES];
    const uint8_t *tests = records + 64;
    size_t i;

    example(records);
    memset(lent, 0xa5, sizeof lent);
    memset(kept, 0xa5, sizeof kept);
    memset(answer, 0xa5, sizeof answer);
    if (pull_archive(records, sizeof records, lent, 128) != PULL_LENGTH)
        return failed("128 archive bytes");
    if (pull_archive(records, 95, lent, sizeof lent) != PULL_RECORDS)
        return failed("95 bytes of records to be archived");
    if (memcmp(lent, kept, sizeof lent) != 0)
        return failed("a refusal has written archive bytes");
    if (pull_archive(records, sizeof records, lent, sizeof lent) != 128)
        return failed("the length of the example's archive");
    for (i = 0; i < 8; i++)
        if (lent[16 * i] != 11 + i || number(lent + 16 * i + 8) != cells[i])
            return failed("a record of the example's archive");
    if (memcmp(lent + 128, kept + 128, sizeof lent - 128) != 0)
        return failed("bytes behind the archive have been written");

    if (pull_archive_test(lent, 128, tests, 32, answer, 24) != PULL_LENGTH)
        return failed("24 answer bytes for the archive's test");
    if (pull_archive_test(lent, 127, tests, 32, answer, sizeof answer) != PULL_RECORDS)
        return failed("127 bytes of an archive");
    if (pull_archive_test(lent, 128, tests, 31, answer, sizeof answer) != PULL_RECORDS)
        return failed("31 bytes of a second file");
    swap(lent);
    if (pull_archive_test(lent, 128, tests, 32, answer, sizeof answer) != PULL_ORDER)
        return failed("Phi_A before Phi");
    swap(lent);
    lent[8] ^= 1;
    if (pull_archive_test(lent, 128, tests, 32, answer, sizeof answer) != PULL_RECORDS)
        return failed("another last digit of Phi in response units");
    lent[8] ^= 1;
    if (memcmp(answer, kept, sizeof answer) != 0)
        return failed("a refusal has written answer bytes");
    if (pull_kenward_roger(records, sizeof records, direct, sizeof direct) != PULL_ACCEPTED)
        return failed("the example is refused");
    if (pull_archive_test(lent, 128, tests, 32, answer, sizeof answer) != PULL_ACCEPTED)
        return failed("the example's archive is refused");
    if (memcmp(answer, direct, sizeof answer) != 0)
        return failed("the test from the archive is not the direct call's");
    return 0;
}

/* The built-in table. */
static void built_in(uint8_t *table)
{
    const double values[9] = {1e-15, 1e-10, 1e-10, 1e-12, 1e-2, 1e-10, 1e-8, 0x1p-100, 3000.0};
    uint8_t row;

    for (row = 0; row < 9; row++)
        record(table + 16 * row, 20, row, 0, values[row]);
}

/* The example with tables: the built-in one, one that is none, and IE, which is 1, at the cutoff. */
static int table_direct(void)
{
    uint8_t table[PULL_TABLE_BYTES], records[96], answer[PULL_KENWARD_ROGER_BYTES];
    uint8_t plain[PULL_KENWARD_ROGER_BYTES], kept[PULL_KENWARD_ROGER_BYTES];

    built_in(table);
    example(records);
    memset(answer, 0xa5, sizeof answer);
    memset(kept, 0xa5, sizeof kept);
    if (pull_kenward_roger_with(table, 143, records, 96, answer, 100) != PULL_LENGTH)
        return failed("100 answer bytes and a short table");
    if (pull_kenward_roger_with(table, 143, records, 96, answer, sizeof answer) != PULL_TABLE)
        return failed("143 bytes of a table");
    record(table + 128, 20, 8, 0, 2.0);
    if (pull_kenward_roger_with(table, sizeof table, records, 95, answer, sizeof answer) != PULL_TABLE)
        return failed("a cap of 2, and 95 bytes of records");
    built_in(table);
    swap(table + 16);
    if (pull_kenward_roger_with(table, sizeof table, records, 96, answer, sizeof answer) != PULL_TABLE)
        return failed("a table out of order");
    built_in(table);
    if (pull_kenward_roger_with(table, sizeof table, records, 95, answer, sizeof answer) != PULL_RECORDS)
        return failed("95 bytes of records and a table");
    if (memcmp(answer, kept, sizeof answer) != 0)
        return failed("a refusal has written answer bytes");

    if (pull_kenward_roger_with(table, sizeof table, records, 96, answer, sizeof answer) != PULL_ACCEPTED)
        return failed("the example with the built-in table");
    if (pull_kenward_roger(records, 96, plain, sizeof plain) != PULL_ACCEPTED)
        return failed("the example is refused");
    if (memcmp(answer, plain, sizeof answer) != 0)
        return failed("the built-in table has changed the answer");
    record(table + 80, 20, 5, 0, 1.0);
    record(table + 96, 20, 6, 0, 1.0);
    if (pull_kenward_roger_with(table, sizeof table, records, 96, answer, sizeof answer) != PULL_ACCEPTED)
        return failed("the example with the cutoff 1");
    if (number(answer + 8) != 2.0)
        return failed("df with IE raised from 1 to 2");
    return 0;
}

/* The archive's two and the Satterthwaite call with a table. */
static int table_others(void)
{
    uint8_t table[PULL_TABLE_BYTES], records[96], lent[PULL_ARCHIVE_BYTES], kept[PULL_ARCHIVE_BYTES];
    uint8_t answer[PULL_KENWARD_ROGER_BYTES], direct[PULL_KENWARD_ROGER_BYTES];
    uint8_t file[240], *end;

    built_in(table);
    example(records);
    memset(lent, 0xa5, sizeof lent);
    memset(kept, 0xa5, sizeof kept);
    memset(answer, 0xa5, sizeof answer);
    record(table + 80, 20, 5, 0, -0.0);
    if (pull_archive_with(table, sizeof table, records, 95, lent, sizeof lent) != PULL_TABLE)
        return failed("a cutoff of -0 for the archive");
    if (pull_archive_test_with(table, sizeof table, lent, 7, lent, 7, answer, sizeof answer) != PULL_TABLE)
        return failed("a cutoff of -0 for a test from an archive");
    if (memcmp(lent, kept, sizeof lent) != 0 || memcmp(answer, kept, sizeof answer) != 0)
        return failed("a refusal has written lent bytes");
    record(table + 80, 20, 5, 0, 1.0);
    record(table + 96, 20, 6, 0, 1.0);
    if (pull_archive_with(table, sizeof table, records, 96, lent, sizeof lent) != 128)
        return failed("the length of an archive with a table");
    if (number(lent + 56) != 1.0)
        return failed("W with IE raised from 1 to 2");
    if (pull_archive_test_with(table, sizeof table, lent, 128, records + 64, 32, answer, sizeof answer) != PULL_ACCEPTED)
        return failed("a test from an archive with a table");
    if (pull_kenward_roger_with(table, sizeof table, records, 96, direct, sizeof direct) != PULL_ACCEPTED)
        return failed("the direct call with a table");
    if (memcmp(answer, direct, sizeof answer) != 0)
        return failed("the test from the archive is not the direct call's, with a table");

    record(file, 8, 0, 0, 4.0);
    record(file + 16, 8, 1, 0, 1.0);
    end = diagonal(file + 32, 9, 1.0, 1.0);
    end = diagonal(end, 30, 4.0, 1.0);
    end = diagonal(end, 31, 4.0, 1.0);
    record(end, 32, 0, 0, 0.5);
    record(table + 128, 20, 8, 0, 3.0);
    if (pull_satterthwaite_with(table, 0, file, sizeof file, answer, PULL_ENTRY_BYTES) != PULL_TABLE)
        return failed("no table for the other call");
    if (pull_satterthwaite_with(table, sizeof table, file, sizeof file, answer, PULL_ENTRY_BYTES) != PULL_ACCEPTED)
        return failed("example (i) with a table");
    if (number(answer) != 2.5 || number(answer + 8) != 3.0)
        return failed("example (i) with a cap of 3");
    return 0;
}

int main(void)
{
    if (kenward_roger() != 0)
        return 1;
    if (torn() != 0)
        return 1;
    if (block_number() != 0)
        return 1;
    if (satterthwaite() != 0)
        return 1;
    if (archive() != 0)
        return 1;
    if (table_direct() != 0)
        return 1;
    if (table_others() != 0)
        return 1;
    printf("C calls: ok\n");
    return 0;
}
