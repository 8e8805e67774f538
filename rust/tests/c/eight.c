/*
 * The eight-peptide family from C: every call, what it writes, and every number by its name. The expected values are those
 * of the scope document. Then lists of selections, a family with leaves without a peptide, peptides chosen by their rows, bounds
 * from p-values, hybrid curves and the file by level, whose values are derived beside them.
 * Compiled as C99 and as C++11. Prints `ok`, or the first line that does not hold.
 */
#include <math.h>
#include <stdio.h>
#include <string.h>

#include "phf.h"

static int failures = 0;

#define HOLDS(fact)                                                  \
    do {                                                             \
        if (!(fact)) {                                               \
            printf("line %d does not hold: %s\n", __LINE__, #fact); \
            failures++;                                              \
        }                                                            \
    } while (0)

static const uint8_t eight[54] = {
    0x50, 0x48, 0x46, 0x42, 8, 0, 4, 0, 5, 0, 16, 0, 24, 0, 54, 0,
    2, 0, 3, 0, 1, 0, 2, 0,
    1, 0, 2, 0, 3, 0,
    1, 0, 1, 0, 2, 0,
    2, 0, 2, 0, 1, 0,
    3, 0, 4, 0, 3, 0,
    4, 0, 4, 0, 0, 0};

static void check_and_regions(void)
{
    phf_checked good = phf_check(eight, sizeof eight);
    phf_checked torn = phf_check(eight, sizeof eight - 1);
    phf_checked none = phf_check(NULL, 0);
    phf_part part = phf_regions(eight, sizeof eight);
    phf_part no_part = phf_regions(eight, 15);
    HOLDS(good.number == 0 && good.peptides == 8 && good.leaves == 4 && good.regions == 5);
    HOLDS(torn.number == 5 && torn.peptides == 0 && torn.leaves == 0 && torn.regions == 0);
    HOLDS(none.number == 1);
    HOLDS(part.offset == 24 && part.length == 30);
    HOLDS(no_part.offset == 0 && no_part.length == 0);
}

static void bound(void)
{
    const uint8_t all[8] = {1, 1, 1, 1, 1, 1, 1, 1};
    const uint8_t expected[6] = {0, 0, 1, 0, 1, 77};
    uint8_t taken[6];
    phf_bounded answer;
    memset(taken, 77, sizeof taken);
    answer = phf_bound(eight, sizeof eight, all, 8, taken, 4);
    HOLDS(answer.number == 16 && answer.bound == 0 && taken[0] == 77);
    answer = phf_bound(eight, sizeof eight, all, 7, taken, 6);
    HOLDS(answer.number == 14 && answer.bound == 0 && taken[0] == 77);
    answer = phf_bound(eight, sizeof eight, all, 8, taken, 6);
    HOLDS(answer.number == 0 && answer.bound == 4);
    HOLDS(memcmp(taken, expected, 6) == 0);
}

/*
 * Of 1 and 2 both can be false, of 3 to 5 one, 6 can be, 7 and 8 cannot: the bounds of all, of none, of 3 to 5, of 1, 6 and 7,
 * and of 7 and 8. There are 5 regions.
 */
static const uint8_t five_selections[40] = {
    1, 1, 1, 1, 1, 1, 1, 1,
    0, 0, 0, 0, 0, 0, 0, 0,
    0, 0, 1, 1, 1, 0, 0, 0,
    1, 0, 0, 0, 0, 1, 1, 0,
    0, 0, 0, 0, 0, 0, 1, 1};

static void list(void)
{
    const uint16_t expected[6] = {4, 0, 1, 2, 0, 777};
    uint16_t values[6] = {777, 777, 777, 777, 777, 777};
    phf_listed answer;
    HOLDS(sizeof(phf_listed) == 8);
    HOLDS(offsetof(phf_listed, number) == 0 && offsetof(phf_listed, charge) == 2 && offsetof(phf_listed, tally) == 4);
    answer = phf_bounds_list(eight, sizeof eight, NULL, 0, 0, UINT32_C(4294967295), NULL, 0);
    HOLDS(answer.number == PHF_DONE && answer.charge == 0 && answer.tally == UINT32_C(4294967295));
    answer = phf_bounds_list(eight, sizeof eight, five_selections, 40, 5, 70000, values, 6);
    HOLDS(answer.number == PHF_DONE && answer.charge == 5 && answer.tally == 70005);
    HOLDS(memcmp(values, expected, sizeof values) == 0);
    answer = phf_bounds_list(eight, sizeof eight, five_selections + 16, 8, 1, answer.tally, values, 1);
    HOLDS(answer.number == PHF_DONE && answer.charge == 5 && answer.tally == 70010);
    HOLDS(values[0] == 1 && memcmp(values + 1, expected + 1, 5 * sizeof expected[0]) == 0);
    answer = phf_bounds_list(eight, sizeof eight, five_selections, 40, 5, UINT32_C(4294967290), values, 5);
    HOLDS(answer.number == PHF_DONE && answer.charge == 5 && answer.tally == UINT32_C(4294967295));
}

static uint16_t list_number(size_t file_len, size_t selections_len, uint16_t count, uint32_t tally, size_t room)
{
    uint8_t selections[8 * 33 + 1];
    uint16_t values[33];
    phf_listed answer;
    int i;
    for (i = 0; i < 33; i++)
        values[i] = 777;
    memset(selections, 1, sizeof selections);
    /* the first byte of the thirty-second selection */
    selections[8 * 31] = 2;
    answer = phf_bounds_list(eight, file_len, selections, selections_len, count, tally, values, room);
    for (i = 0; i < 33; i++)
        HOLDS(values[i] == 777);
    HOLDS(answer.charge == 0 && answer.tally == tally);
    return answer.number;
}

static void list_declines(void)
{
    uint8_t none[8 * (PHF_MOST_SELECTIONS + 1)];
    uint16_t values[PHF_MOST_SELECTIONS + 1];
    phf_listed answer;
    memset(none, 0, sizeof none);
    values[0] = 777;
    HOLDS(phf_bounds_list(NULL, 0, NULL, 0, 33, 7, NULL, 0).number == PHF_NOT_A_FAMILY_FILE);
    HOLDS(list_number(53, 8 * 32, 32, UINT32_C(4294967295), 31) == PHF_BAD_LAYOUT);
    HOLDS(list_number(54, 8 * 32, 32, UINT32_C(4294967295), 31) == PHF_BAD_SELECTION);
    HOLDS(list_number(54, 8 * 31 - 1, 31, UINT32_C(4294967295), 30) == PHF_BAD_SELECTION);
    HOLDS(list_number(54, 8, 0, 0, 0) == PHF_BAD_SELECTION);
    HOLDS(list_number(54, 8 * 31, 31, UINT32_C(4294967291), 30) == PHF_SHORT_OUTPUT);
    HOLDS(list_number(54, 8 * 31, 31, UINT32_C(4294967291), 31) == PHF_TALLY_TOO_LARGE);
    HOLDS(list_number(54, 8, 1, UINT32_C(4294967295), 33) == PHF_TALLY_TOO_LARGE);
    answer = phf_bounds_list(eight, sizeof eight, none, sizeof none, PHF_MOST_SELECTIONS + 1, UINT32_C(4294967291), values,
                             PHF_MOST_SELECTIONS);
    HOLDS(answer.number == PHF_SHORT_OUTPUT && answer.charge == 0 && answer.tally == UINT32_C(4294967291));
    answer = phf_bounds_list(eight, sizeof eight, none, sizeof none, PHF_MOST_SELECTIONS + 1, UINT32_C(4294967291), values,
                             PHF_MOST_SELECTIONS + 1);
    HOLDS(answer.number == PHF_TOO_MANY_SELECTIONS && answer.charge == 0 && answer.tally == UINT32_C(4294967291));
    HOLDS(values[0] == 777);
    answer = phf_bounds_list(eight, sizeof eight, none, 8 * PHF_MOST_SELECTIONS, PHF_MOST_SELECTIONS, UINT32_C(4294967290),
                             values, PHF_MOST_SELECTIONS);
    HOLDS(answer.number == PHF_DONE && answer.charge == 5 && answer.tally == UINT32_C(4294967295));
    HOLDS(values[0] == 0 && values[PHF_MOST_SELECTIONS - 1] == 0);
}

static void curve_and_cut(void)
{
    const uint16_t path[8] = {7, 3, 1, 4, 6, 2, 5, 8};
    const uint16_t twice[6] = {7, 3, 1, 3, 7, 1};
    const uint16_t twice_and_nine[4] = {7, 7, 7, 9};
    const uint16_t expected[10] = {0, 0, 1, 2, 2, 3, 4, 4, 4, 777};
    const uint8_t expected_marks[9] = {0, 1, 1, 0, 1, 1, 0, 0, 77};
    uint16_t values[10];
    uint8_t marks[9];
    phf_curved answer;
    phf_cutting cut;
    int i;
    for (i = 0; i < 10; i++)
        values[i] = 777;
    memset(marks, 77, sizeof marks);
    answer = phf_curve(eight, sizeof eight, twice, 6, values, 10, marks, 9);
    HOLDS(answer.number == PHF_PEPTIDE_TWICE && answer.place == 4 && values[0] == 777 && marks[0] == 77);
    answer = phf_curve(eight, sizeof eight, twice_and_nine, 3, values, 10, marks, 9);
    HOLDS(answer.number == PHF_PEPTIDE_TWICE && answer.place == 2 && values[0] == 777 && marks[0] == 77);
    answer = phf_curve(eight, sizeof eight, twice_and_nine, 4, values, 10, marks, 9);
    HOLDS(answer.number == PHF_BAD_PATH_NUMBER && answer.place == 0 && values[0] == 777 && marks[0] == 77);
    answer = phf_curve(eight, sizeof eight, path, 8, values, 8, marks, 9);
    HOLDS(answer.number == 16 && answer.place == 0 && values[0] == 777 && marks[0] == 77);
    answer = phf_curve(eight, sizeof eight, NULL, 0, values, 1, NULL, 0);
    HOLDS(answer.number == 0 && answer.place == 0 && values[0] == 0 && values[1] == 777);
    answer = phf_curve(eight, sizeof eight, path, 8, values, 10, marks, 9);
    HOLDS(answer.number == 0 && answer.place == 0);
    HOLDS(memcmp(values, expected, sizeof values) == 0);
    HOLDS(memcmp(marks, expected_marks, sizeof marks) == 0);
    cut = phf_cut(eight, sizeof eight, path, 8, 1, 2);
    HOLDS(cut.number == 0 && cut.place == 0 && cut.cut == 8);
    cut = phf_cut(eight, sizeof eight, path, 8, 2, 5);
    HOLDS(cut.number == 0 && cut.place == 0 && cut.cut == 1);
    cut = phf_cut(eight, sizeof eight, path, 8, 1, 0);
    HOLDS(cut.number == 15 && cut.place == 0 && cut.cut == 0);
    cut = phf_cut(eight, sizeof eight, twice, 6, 1, 2);
    HOLDS(cut.number == PHF_PEPTIDE_TWICE && cut.place == 4 && cut.cut == 0);
    cut = phf_cut(eight, sizeof eight, twice_and_nine, 4, 1, 2);
    HOLDS(cut.number == PHF_BAD_PATH_NUMBER && cut.place == 0 && cut.cut == 0);
}

static void reduce_and_same(void)
{
    const uint8_t expected[36] = {
        0x50, 0x48, 0x46, 0x42, 8, 0, 4, 0, 2, 0, 16, 0, 24, 0, 36, 0,
        2, 0, 3, 0, 1, 0, 2, 0,
        2, 0, 2, 0, 1, 0,
        4, 0, 4, 0, 0, 0};
    uint8_t out[54];
    phf_reduced answer;
    phf_compared compared;
    memset(out, 77, sizeof out);
    answer = phf_reduce(eight, sizeof eight, out, sizeof out - 1);
    HOLDS(answer.number == 16 && answer.length == 0 && answer.regions == 0 && out[0] == 77);
    answer = phf_reduce(eight, sizeof eight, out, sizeof out);
    HOLDS(answer.number == 0 && answer.length == 36 && answer.regions == 2);
    HOLDS(memcmp(out, expected, 36) == 0 && out[36] == 77 && out[53] == 77);
    compared = phf_same(eight, sizeof eight, out, 36);
    HOLDS(compared.number == 0 && compared.same == 1);
    compared = phf_same(eight, sizeof eight, out, 35);
    HOLDS(compared.number == 105 && compared.same == 0);
}

/*
 * 4 peptides in 7 leaves: 1 and 2 in leaf 2, 3 in leaf 4, 4 in leaf 5. The first two regions both have peptides 1 and 2, the
 * third has none, the fourth has 3 and 4, the last has 4. So a set respects every bound exactly if it has at most one of 1
 * and 2, and not 4.
 */
static const uint8_t unmeasured[60] = {
    0x50, 0x48, 0x46, 0x42, 4, 0, 7, 0, 5, 0, 16, 0, 30, 0, 60, 0,
    0, 0, 2, 0, 0, 0, 1, 0, 1, 0, 0, 0, 0, 0,
    1, 0, 3, 0, 1, 0,
    2, 0, 2, 0, 2, 0,
    3, 0, 3, 0, 0, 0,
    4, 0, 6, 0, 1, 0,
    5, 0, 6, 0, 0, 0};

static void check_and_bound_unmeasured(void)
{
    const uint8_t all[4] = {1, 1, 1, 1};
    /* the inside totals are 2, 2, 0, 1, 1: only the first and the last region have a z below theirs */
    const uint8_t expected[6] = {1, 0, 0, 0, 1, 77};
    uint8_t taken[6];
    phf_checked checked = phf_check(unmeasured, sizeof unmeasured);
    phf_part part = phf_regions(unmeasured, sizeof unmeasured);
    phf_bounded answer;
    HOLDS(checked.number == 0 && checked.peptides == 4 && checked.leaves == 7 && checked.regions == 5);
    HOLDS(part.offset == 30 && part.length == 30);
    memset(taken, 77, sizeof taken);
    answer = phf_bound(unmeasured, sizeof unmeasured, all, 4, taken, 6);
    HOLDS(answer.number == 0 && answer.bound == 2);
    HOLDS(memcmp(taken, expected, 6) == 0);
}

static void curve_and_cut_unmeasured(void)
{
    const uint16_t path[4] = {2, 3, 1, 4};
    /* 2; 2 and 3; then 1 is one too many beside 2, and 4 is never in such a set */
    const uint16_t expected[5] = {0, 1, 2, 2, 2};
    const uint8_t expected_marks[4] = {1, 1, 0, 0};
    uint16_t values[5];
    uint8_t marks[4];
    phf_curved answer = phf_curve(unmeasured, sizeof unmeasured, path, 4, values, 5, marks, 4);
    phf_cutting cut = phf_cut(unmeasured, sizeof unmeasured, path, 4, 2, 3);
    HOLDS(answer.number == 0 && answer.place == 0);
    HOLDS(memcmp(values, expected, sizeof values) == 0);
    HOLDS(memcmp(marks, expected_marks, sizeof marks) == 0);
    /* 2 of 4 is at most 2/3; 1 of 1, 2 of 2, 2 of 3 and 2 of 4 are all more than 1/3 */
    HOLDS(cut.number == 0 && cut.place == 0 && cut.cut == 4);
    cut = phf_cut(unmeasured, sizeof unmeasured, path, 4, 1, 3);
    HOLDS(cut.number == 0 && cut.place == 0 && cut.cut == 0);
}

static void reduce_and_same_unmeasured(void)
{
    /*
     * Dead is 4 alone. The stretches are 1 to 2, with the smaller z of its two regions, 1, and room 2; and 3 to 3, with z 1
     * and room 1. The first is kept, and with the dead run 4 to 4 the leaves end at 2, 3 and 4.
     */
    const uint8_t expected[34] = {
        0x50, 0x48, 0x46, 0x42, 4, 0, 3, 0, 2, 0, 16, 0, 22, 0, 34, 0,
        2, 0, 1, 0, 1, 0,
        1, 0, 1, 0, 1, 0,
        3, 0, 3, 0, 0, 0};
    uint8_t other[sizeof unmeasured];
    uint8_t out[sizeof unmeasured];
    phf_reduced answer;
    phf_compared compared;
    memset(out, 77, sizeof out);
    answer = phf_reduce(unmeasured, sizeof unmeasured, out, sizeof out);
    HOLDS(answer.number == 0 && answer.length == 34 && answer.regions == 2);
    HOLDS(memcmp(out, expected, 34) == 0 && out[34] == 77 && out[59] == 77);
    compared = phf_same(unmeasured, sizeof unmeasured, expected, sizeof expected);
    HOLDS(compared.number == 0 && compared.same == 1);
    /* z of the region without a peptide says nothing; with 2 for the z of the first region, 1 and 2 may both be false */
    memcpy(other, unmeasured, sizeof other);
    other[46] = 9;
    compared = phf_same(unmeasured, sizeof unmeasured, other, sizeof other);
    HOLDS(compared.number == 0 && compared.same == 1);
    other[34] = 2;
    compared = phf_same(unmeasured, sizeof unmeasured, other, sizeof other);
    HOLDS(compared.number == 0 && compared.same == 0);
}

/* The rows of the eight peptides, from which selections are chosen. */
static const double p_values[8] = {0.001, 0.2, 0.01, 0.05, 0.04, 0.03, 0.02, 0.6};
static const double folds[8] = {2.0, -3.0, -1.5, 0.9, 0.5, -1.0, -2.5, 0.1};

/* The bound of the selection in the first eight of nine bytes, if these are as expected and the last is still 77; else 99. */
static uint16_t bound_of(const uint8_t *selection, const uint8_t *expected)
{
    uint8_t taken[5];
    phf_bounded answer = phf_bound(eight, sizeof eight, selection, 8, taken, 5);
    int right = memcmp(selection, expected, 8) == 0 && selection[8] == 77 && answer.number == PHF_DONE;
    return right ? answer.bound : 99;
}

static void choose(void)
{
    /* 4 has just 0.05 and 7 just 0.02; 4 and 5 are inside the band from -1 to 1, and 6 is at its edge */
    const uint8_t at_most[8] = {1, 0, 1, 1, 1, 1, 1, 0};
    const uint8_t between[8] = {0, 0, 0, 1, 1, 1, 1, 0};
    const uint8_t volcano[8] = {1, 0, 1, 0, 0, 1, 1, 0};
    const uint8_t none[8] = {0, 0, 0, 0, 0, 0, 0, 0};
    uint8_t out[9];
    memset(out, 77, sizeof out);
    /* at most 1 of 3 to 5, and none of 7 and 8: with 1 and 6 these are 3 */
    HOLDS(phf_choose_at_most(8, p_values, 8, folds, 8, 0.05, out, 9) == PHF_DONE);
    HOLDS(bound_of(out, at_most) == 3);
    /* one of 4 and 5; 6 */
    HOLDS(phf_choose_between(8, p_values, 8, folds, 8, 0.02, 0.05, out, 9) == PHF_DONE);
    HOLDS(bound_of(out, between) == 2);
    /* 1, 3 and 6 */
    HOLDS(phf_choose_volcano(8, p_values, 8, folds, 8, 0.05, 1.0, out, 9) == PHF_DONE);
    HOLDS(bound_of(out, volcano) == 3);
    /* a first cut above the second, a cut and a band that nothing reaches are no refusal */
    HOLDS(phf_choose_between(8, p_values, 8, folds, 8, 0.05, 0.02, out, 9) == PHF_DONE);
    HOLDS(bound_of(out, none) == 0);
    out[0] = 1;
    HOLDS(phf_choose_at_most(8, p_values, 8, folds, 8, -1.0, out, 8) == PHF_DONE);
    HOLDS(bound_of(out, none) == 0);
    out[0] = 1;
    HOLDS(phf_choose_volcano(8, p_values, 8, folds, 8, INFINITY, INFINITY, out, 8) == PHF_DONE);
    HOLDS(bound_of(out, none) == 0);
}

static void choose_declines(void)
{
    const double bad_p[3] = {0.5, 0.5, 1.5};
    const double bad_folds[3] = {-INFINITY, 0.0, 0.0};
    const double not_numbers[3] = {0.0, NAN, 0.0};
    uint8_t out[4] = {77, 77, 77, 77};
    HOLDS(phf_choose_at_most(0, NULL, 0, NULL, 0, 0.05, NULL, 0) == PHF_BAD_PEPTIDE_COUNT);
    HOLDS(phf_choose_between(4097, p_values, 8, folds, 8, NAN, NAN, out, 4) == PHF_BAD_PEPTIDE_COUNT);
    HOLDS(phf_choose_volcano(3, NULL, 0, NULL, 0, 0.05, 1.0, NULL, 0) == PHF_BAD_ROWS_LENGTH);
    HOLDS(phf_choose_at_most(3, p_values, 2, folds, 3, 0.05, out, 4) == PHF_BAD_ROWS_LENGTH);
    HOLDS(phf_choose_between(3, p_values, 3, folds, 4, 0.0, 0.05, out, 4) == PHF_BAD_ROWS_LENGTH);
    HOLDS(phf_choose_volcano(3, bad_p, 3, folds, 3, NAN, 1.0, out, 2) == PHF_BAD_ROWS_LENGTH);
    HOLDS(phf_choose_at_most(3, bad_p, 3, folds, 3, 0.05, out, 4) == PHF_BAD_ROW);
    HOLDS(phf_choose_between(3, p_values, 3, bad_folds, 3, NAN, 0.05, out, 4) == PHF_BAD_ROW);
    HOLDS(phf_choose_volcano(3, not_numbers, 3, folds, 3, 0.05, -1.0, out, 4) == PHF_BAD_ROW);
    HOLDS(phf_choose_at_most(3, p_values, 3, not_numbers, 3, 0.05, out, 4) == PHF_BAD_ROW);
    HOLDS(phf_choose_at_most(3, p_values, 3, folds, 3, NAN, out, 4) == PHF_BAD_RULE);
    HOLDS(phf_choose_between(3, p_values, 3, folds, 3, NAN, 0.05, out, 4) == PHF_BAD_RULE);
    HOLDS(phf_choose_between(3, p_values, 3, folds, 3, 0.05, NAN, out, 4) == PHF_BAD_RULE);
    HOLDS(phf_choose_volcano(3, p_values, 3, folds, 3, NAN, 1.0, out, 4) == PHF_BAD_RULE);
    HOLDS(phf_choose_volcano(3, p_values, 3, folds, 3, 0.05, -1.0, out, 4) == PHF_BAD_RULE);
    HOLDS(phf_choose_volcano(3, p_values, 3, folds, 3, 0.05, NAN, out, 4) == PHF_BAD_RULE);
    HOLDS(out[0] == 77 && out[1] == 77 && out[2] == 77 && out[3] == 77);
}

/* The p-values of the eight peptides in millionths, from which z is computed. */
static const uint32_t millionths[8] = {1000, 500000, 20, 300, 900000, 40000, 10, 5};

/* Whether these z come from the p-values, and all else of the file and of the output stays. */
static int gives(uint32_t deviation_squared, int z0, int z1, int z2, int z3, int z4)
{
    const int z[5] = {z0, z1, z2, z3, z4};
    uint8_t expected[55];
    uint8_t out[55];
    int i;
    memset(out, 77, sizeof out);
    memcpy(expected, eight, sizeof eight);
    expected[54] = 77;
    for (i = 0; i < 5; i++)
        expected[28 + 6 * i] = (uint8_t)z[i];
    return phf_bounds_from_p(eight, sizeof eight, millionths, 8, deviation_squared, out, 55) == PHF_DONE
        && memcmp(out, expected, sizeof out) == 0;
}

static void bounds_from_p(void)
{
    uint8_t given[sizeof eight];
    uint8_t out[sizeof eight];
    /* at a region's largest p-value, under 1000000, none is over */
    HOLDS(gives(0, 0, 0, 0, 0, 0));
    /* in the first region two are over 1000: 2 has no excess there, and 3 has 997000 */
    HOLDS(gives(100000, 2, 0, 1, 0, 0));
    /* in the second region 1 has the excess 500000 at 500000, whose square is 250000 * 1000000 */
    HOLDS(gives(249999, 2, 0, 1, 0, 0));
    HOLDS(gives(250000, 2, 1, 1, 0, 0));
    /* at 1000, 4 has the excess 1996000 and 5 has 2995000; at 40000, in the fourth region, 1 has 960000 and 2 has 1920000 */
    HOLDS(gives(1497866, 4, 2, 3, 1, 1));
    /* a z that it wrote is not used either */
    HOLDS(phf_bounds_from_p(eight, sizeof eight, millionths, 8, 250000, given, sizeof given) == PHF_DONE);
    HOLDS(phf_bounds_from_p(given, sizeof given, millionths, 8, 250000, out, sizeof out) == PHF_DONE);
    HOLDS(memcmp(out, given, sizeof out) == 0);
}

static void bounds_from_p_declines(void)
{
    const uint32_t over[8] = {0, 0, 0, 0, 0, 0, 0, 1000001};
    uint8_t out[sizeof eight];
    memset(out, 77, sizeof out);
    HOLDS(phf_bounds_from_p(NULL, 0, NULL, 0, 0, NULL, 0) == PHF_NOT_A_FAMILY_FILE);
    HOLDS(phf_bounds_from_p(eight, 53, over, 7, 100000001, out, 0) == PHF_BAD_LAYOUT);
    HOLDS(phf_bounds_from_p(eight, 54, over, 7, 100000001, out, 53) == PHF_SHORT_OUTPUT);
    HOLDS(phf_bounds_from_p(eight, 54, NULL, 0, 100000001, out, 54) == PHF_BAD_P_VALUES_LENGTH);
    HOLDS(phf_bounds_from_p(eight, 54, over, 7, 100000001, out, 54) == PHF_BAD_P_VALUES_LENGTH);
    HOLDS(phf_bounds_from_p(eight, 54, over, 8, 100000001, out, 54) == PHF_BAD_P_VALUE);
    HOLDS(phf_bounds_from_p(eight, 54, millionths, 8, 100000001, out, 54) == PHF_BAD_DEVIATION);
    HOLDS(out[0] == 77 && out[28] == 77 && out[53] == 77);
    HOLDS(phf_bounds_from_p(eight, 54, millionths, 8, 100000000, out, 54) == PHF_DONE);
}

/* Whether these values, from t = 0 on, are the hybrid curve along the path of the example, and what lies beyond stays. */
static int draws(uint32_t level, const uint16_t *expected)
{
    const uint16_t path[8] = {7, 3, 1, 4, 6, 2, 5, 8};
    uint16_t values[10];
    phf_curved answer;
    values[9] = 777;
    answer = phf_hybrid(eight, sizeof eight, path, 8, millionths, 8, level, values, 10);
    return answer.number == PHF_DONE && answer.place == 0
        && memcmp(values, expected, 9 * sizeof expected[0]) == 0 && values[9] == 777;
}

static void hybrid(void)
{
    /* along the path p is 10 20 1000 300 40000 500000 900000 5, and the regions have 0 1 2 2 3 4 4 4 from t = 1 on */
    const uint16_t narrow[9] = {0, 0, 0, 0, 0, 1, 2, 3, 3};
    const uint16_t wide[9] = {0, 0, 0, 0, 0, 0, 1, 2, 2};
    const uint16_t narrowest[9] = {0, 0, 1, 2, 2, 3, 4, 4, 4};
    const uint16_t none[2] = {0, 777};
    uint16_t values[2] = {777, 777};
    phf_curved answer;
    /* the thresholds are 6250 k: at k = 1 the fifth, the sixth and the seventh peptide are counted */
    HOLDS(draws(50000, narrow));
    /* they are 125000 k: the sixth and the seventh are */
    HOLDS(draws(1000000, wide));
    /* they are k / 8: every p is over all of them, so that the Simes bound is t, and that of the regions no larger */
    HOLDS(draws(1, narrowest));
    answer = phf_hybrid(eight, sizeof eight, NULL, 0, millionths, 8, 50000, values, 2);
    HOLDS(answer.number == PHF_DONE && answer.place == 0 && memcmp(values, none, sizeof values) == 0);
}

static uint16_t hybrid_number(size_t file_len, const uint16_t *path, size_t path_len, const uint32_t *p, size_t p_len,
                              uint32_t level, size_t room)
{
    uint16_t values[9] = {777, 777, 777, 777, 777, 777, 777, 777, 777};
    phf_curved answer = phf_hybrid(eight, file_len, path, path_len, p, p_len, level, values, room);
    int i;
    for (i = 0; i < 9; i++)
        HOLDS(values[i] == 777);
    HOLDS(answer.place == (answer.number == PHF_PEPTIDE_TWICE ? 3 : 0));
    return answer.number;
}

static void hybrid_declines(void)
{
    const uint32_t over[8] = {0, 0, 0, 0, 0, 0, 0, 1000001};
    const uint16_t path[9] = {1, 2, 3, 4, 5, 6, 7, 8, 9};
    const uint16_t twice[4] = {1, 2, 1, 2};
    HOLDS(phf_hybrid(NULL, 0, NULL, 0, NULL, 0, 0, NULL, 0).number == PHF_NOT_A_FAMILY_FILE);
    HOLDS(hybrid_number(53, path, 9, over, 7, 0, 0) == PHF_BAD_LAYOUT);
    HOLDS(hybrid_number(54, path, 9, over, 7, 0, 0) == PHF_PATH_TOO_LONG);
    HOLDS(hybrid_number(54, path + 2, 7, over, 7, 0, 0) == PHF_BAD_PATH_NUMBER);
    HOLDS(hybrid_number(54, twice, 4, over, 7, 0, 0) == PHF_PEPTIDE_TWICE);
    HOLDS(hybrid_number(54, path, 8, over, 7, 0, 8) == PHF_SHORT_OUTPUT);
    HOLDS(hybrid_number(54, path, 8, over, 7, 0, 9) == PHF_BAD_P_VALUES_LENGTH);
    HOLDS(hybrid_number(54, path, 8, NULL, 0, 0, 9) == PHF_BAD_P_VALUES_LENGTH);
    HOLDS(hybrid_number(54, path, 8, over, 8, 0, 9) == PHF_BAD_P_VALUE);
    /* also that of a peptide that is not in the path */
    HOLDS(hybrid_number(54, path, 1, over, 8, 50000, 9) == PHF_BAD_P_VALUE);
    HOLDS(hybrid_number(54, path, 8, millionths, 8, 0, 9) == PHF_BAD_LEVEL);
    HOLDS(hybrid_number(54, path, 8, millionths, 8, 1000001, 9) == PHF_BAD_LEVEL);
}

static void put(uint8_t *file, size_t at, size_t number)
{
    file[at] = (uint8_t)(number & 255);
    file[at + 1] = (uint8_t)(number >> 8);
}

/*
 * The eight-peptide family by level. (1,2) and (3,4) have no region around them; (1,1) and (2,2) have (1,2), and (4,4) has (3,4):
 * two regions of level 1 and three of level 2. Header and level counts take 144 bytes, four leaf lengths 8 and five regions 30.
 */
static void put_by_level(uint8_t *file)
{
    const uint8_t header[20] = {0x50, 0x48, 0x46, 0x4C, 8, 0, 4, 0, 5, 0, 144, 0, 152, 0, 182, 0, 2, 0, 3, 0};
    const uint8_t rest[38] = {
        2, 0, 3, 0, 1, 0, 2, 0,
        1, 0, 2, 0, 3, 0,
        3, 0, 4, 0, 3, 0,
        1, 0, 1, 0, 2, 0,
        2, 0, 2, 0, 1, 0,
        4, 0, 4, 0, 0, 0};
    memset(file, 0, 182);
    memcpy(file, header, sizeof header);
    memcpy(file + 144, rest, sizeof rest);
}

static void levels(void)
{
    uint8_t expected[182];
    uint8_t out[184];
    uint8_t back[56];
    phf_converted answer;
    HOLDS(sizeof(phf_converted) == 4);
    HOLDS(offsetof(phf_converted, number) == 0 && offsetof(phf_converted, length) == 2);
    HOLDS(PHF_MOST_BYTES_BY_LEVEL == PHF_MOST_BYTES + 2 * PHF_MOST_LEVELS);
    put_by_level(expected);
    memset(out, 77, sizeof out);
    answer = phf_to_levels(eight, sizeof eight, out, sizeof out);
    HOLDS(answer.number == PHF_DONE && answer.length == 182);
    HOLDS(memcmp(out, expected, sizeof expected) == 0 && out[182] == 77 && out[183] == 77);
    memset(back, 77, sizeof back);
    answer = phf_from_levels(out, answer.length, back, sizeof back);
    HOLDS(answer.number == PHF_DONE && answer.length == 54);
    HOLDS(memcmp(back, eight, sizeof eight) == 0 && back[54] == 77 && back[55] == 77);
}

/* What is said of the file by level with another number at an offset. */
static uint16_t level_number(size_t at, size_t number, size_t file_len, size_t room)
{
    uint8_t file[182];
    uint8_t out[54];
    phf_converted answer;
    size_t i;
    put_by_level(file);
    put(file, at, number);
    memset(out, 77, sizeof out);
    answer = phf_from_levels(file, file_len, out, room);
    if (answer.number != PHF_DONE) {
        HOLDS(answer.length == 0);
        for (i = 0; i < sizeof out; i++)
            HOLDS(out[i] == 77);
    }
    return answer.number;
}

static void levels_decline(void)
{
    uint8_t file[182];
    uint8_t out[182];
    phf_converted answer;
    put_by_level(file);
    memset(out, 77, sizeof out);
    HOLDS(phf_to_levels(NULL, 0, NULL, 0).number == PHF_NOT_A_FAMILY_FILE);
    HOLDS(phf_from_levels(NULL, 0, NULL, 0).number == PHF_NOT_A_FAMILY_FILE);
    /* the file of the one is none for the other, and for every other call */
    HOLDS(phf_to_levels(file, sizeof file, out, sizeof out).number == PHF_NOT_A_FAMILY_FILE);
    HOLDS(phf_from_levels(eight, sizeof eight, out, sizeof out).number == PHF_NOT_A_FAMILY_FILE);
    HOLDS(phf_check(file, sizeof file).number == PHF_NOT_A_FAMILY_FILE);
    HOLDS(phf_same(eight, sizeof eight, file, sizeof file).number == PHF_OF_SECOND_FILE + PHF_NOT_A_FAMILY_FILE);
    HOLDS(phf_to_levels(eight, 53, out, 0).number == PHF_BAD_LAYOUT);
    answer = phf_to_levels(eight, sizeof eight, out, 181);
    HOLDS(answer.number == PHF_SHORT_OUTPUT && answer.length == 0);
    HOLDS(out[0] == 77 && out[16] == 77 && out[181] == 77);
    HOLDS(level_number(4, 8, 182, 54) == PHF_DONE);
    HOLDS(level_number(4, 8, 15, 54) == PHF_NOT_A_FAMILY_FILE);
    HOLDS(level_number(4, 8, 16, 54) == PHF_BAD_LAYOUT);
    HOLDS(level_number(4, 0, 16, 54) == PHF_BAD_PEPTIDE_COUNT);
    HOLDS(level_number(6, 4097, 182, 54) == PHF_BAD_LEAF_COUNT);
    HOLDS(level_number(8, 8, 182, 54) == PHF_TOO_MANY_REGIONS);
    HOLDS(level_number(10, 16, 182, 54) == PHF_BAD_LAYOUT);
    HOLDS(level_number(144, 3, 182, 54) == PHF_BAD_LEAF_LENGTHS);
    HOLDS(level_number(154, 5, 182, 54) == PHF_BAD_REGION_LEAVES);
    /* (3,4) becomes (2,4), which crosses (1,2) */
    HOLDS(level_number(158, 2, 182, 54) == PHF_REGIONS_CROSS);
    HOLDS(level_number(4, 8, 182, 53) == PHF_SHORT_OUTPUT);
    HOLDS(level_number(16, 1, 182, 53) == PHF_SHORT_OUTPUT);
    HOLDS(level_number(16, 1, 182, 54) == PHF_BAD_LEVEL_COUNTS);
    HOLDS(level_number(142, 1, 182, 54) == PHF_BAD_LEVEL_COUNTS);
    /* (4,4) becomes (3,4), which is listed in level 1; (1,1) becomes (1,2) */
    HOLDS(level_number(176, 3, 182, 54) == PHF_REGIONS_NOT_BY_LEVEL);
    HOLDS(level_number(166, 2, 182, 54) == PHF_REGIONS_NOT_BY_LEVEL);
    /* of level 1 are told one, and of level 2 four */
    file[16] = 1;
    file[18] = 4;
    answer = phf_from_levels(file, sizeof file, out, sizeof out);
    HOLDS(answer.number == PHF_REGIONS_NOT_BY_LEVEL && answer.length == 0 && out[0] == 77);
}

/* What the check says of the eight-peptide family with another number at an offset. */
static uint16_t number_with(size_t at, size_t number)
{
    uint8_t file[sizeof eight];
    memcpy(file, eight, sizeof file);
    put(file, at, number);
    return phf_check(file, sizeof file).number;
}

/* What the check says of 65 leaves and so many regions, each but the first inside the one before it. */
static uint16_t number_of_nested(size_t regions)
{
    uint8_t file[16 + 2 * 65 + 6 * 65] = {0x50, 0x48, 0x46, 0x42};
    const size_t total = 16 + 2 * 65 + 6 * regions;
    const size_t header[6] = {65, 65, regions, 16, 16 + 2 * 65, total};
    size_t i;
    for (i = 0; i < 6; i++)
        put(file, 4 + 2 * i, header[i]);
    for (i = 0; i < 65; i++)
        put(file, 16 + 2 * i, 1);
    for (i = 0; i < regions; i++) {
        put(file, 16 + 2 * 65 + 6 * i, 1);
        put(file, 16 + 2 * 65 + 6 * i + 2, 65 - i);
    }
    return phf_check(file, total).number;
}

/* What the check says of so many leaves, of which the first has the one peptide and the others none. */
static uint16_t number_of_leaves(size_t leaves)
{
    uint8_t file[16 + 2 * (PHF_MOST_LEAVES + 1)] = {0x50, 0x48, 0x46, 0x42};
    const size_t total = 16 + 2 * leaves;
    const size_t header[6] = {1, leaves, 0, 16, total, total};
    size_t i;
    for (i = 0; i < 6; i++)
        put(file, 4 + 2 * i, header[i]);
    put(file, 16, 1);
    return phf_check(file, total).number;
}

static void numbers_of_files(void)
{
    HOLDS(number_with(4, 8) == PHF_DONE);
    HOLDS(number_with(0, 0) == PHF_NOT_A_FAMILY_FILE);
    HOLDS(number_with(4, 4097) == PHF_BAD_PEPTIDE_COUNT);
    HOLDS(number_with(6, 0) == PHF_BAD_LEAF_COUNT);
    HOLDS(number_of_leaves(PHF_MOST_LEAVES) == PHF_DONE);
    HOLDS(number_of_leaves(PHF_MOST_LEAVES + 1) == PHF_BAD_LEAF_COUNT);
    HOLDS(number_with(8, 8) == PHF_TOO_MANY_REGIONS);
    HOLDS(number_with(14, 55) == PHF_BAD_LAYOUT);
    HOLDS(number_with(16, 1) == PHF_BAD_LEAF_LENGTHS);
    HOLDS(number_with(24, 0) == PHF_BAD_REGION_LEAVES);
    /* the second region becomes (1,2), as the first; the third (2,3), which crosses the first */
    HOLDS(number_with(32, 2) == PHF_REGIONS_OUT_OF_ORDER);
    HOLDS(number_with(38, 3) == PHF_REGIONS_CROSS);
    HOLDS(number_of_nested(64) == PHF_DONE);
    HOLDS(number_of_nested(65) == PHF_NESTED_TOO_DEEP);
}

static void numbers_of_other_inputs(void)
{
    const uint16_t path[9] = {1, 2, 3, 4, 5, 6, 7, 8, 9};
    const uint16_t twice[2] = {3, 3};
    const uint8_t selection[8] = {0, 0, 0, 2, 0, 0, 0, 0};
    uint8_t out[54];
    HOLDS(phf_cut(eight, sizeof eight, path, 9, 1, 2).number == PHF_PATH_TOO_LONG);
    HOLDS(phf_cut(eight, sizeof eight, path + 8, 1, 1, 2).number == PHF_BAD_PATH_NUMBER);
    HOLDS(phf_cut(eight, sizeof eight, twice, 2, 1, 2).number == PHF_PEPTIDE_TWICE);
    HOLDS(phf_cut(eight, sizeof eight, path, 8, 2, 1).number == PHF_BAD_FRACTION);
    HOLDS(phf_bound(eight, sizeof eight, selection, 8, out, 54).number == PHF_BAD_SELECTION);
    HOLDS(phf_reduce(eight, sizeof eight, out, 53).number == PHF_SHORT_OUTPUT);
    HOLDS(phf_same(eight, 53, eight, 53).number == PHF_BAD_LAYOUT);
    HOLDS(phf_same(eight, 54, eight, 53).number == PHF_OF_SECOND_FILE + PHF_BAD_LAYOUT);
}

int main(void)
{
    check_and_regions();
    bound();
    list();
    list_declines();
    curve_and_cut();
    reduce_and_same();
    check_and_bound_unmeasured();
    curve_and_cut_unmeasured();
    reduce_and_same_unmeasured();
    choose();
    choose_declines();
    bounds_from_p();
    bounds_from_p_declines();
    hybrid();
    hybrid_declines();
    levels();
    levels_decline();
    numbers_of_files();
    numbers_of_other_inputs();
    if (failures == 0)
        printf("ok\n");
    return failures != 0;
}
