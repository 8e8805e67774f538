/*
 * phf.h - bounds on false peptides over nested regions: curves and reduced families.
 *
 * A family says, for each of a number of nested or disjoint regions of peptides, that at most z of the region's
 * peptides are false. These calls check such a family, compute its z from p-values, tell how many of a selection of
 * peptides can be false at most, for one selection or for up to 32, make such a selection from p-values and fold changes,
 * draw that number along a ranking, cut the ranking at a wanted fraction, draw the hybrid of that number and of the Simes
 * bound from p-values, bring a family into its shortest form, compare two families, and convert a family file into one that
 * lists the regions by level, and back.
 *
 * Every function here is proved: for all inputs, well formed or not, it returns and writes what is said below.
 * What the proofs take for granted is the usual contract of C:
 *   - a buffer is a pointer and a number of elements (not bytes): the elements are there, and aligned;
 *   - a buffer that is written overlaps no other buffer of the same call;
 *   - a buffer with 0 elements is not looked at, and its pointer may be anything, NULL included;
 *   - a double is a 64-bit float of IEEE 754 and is compared as it says there: the thread is in no mode that takes subnormal
 *     numbers for 0 (gcc sets one in a program that it links with -ffast-math), and traps no floating-point exception.
 *     phf_choose_... may leave flags of such exceptions set.
 *
 * No function keeps anything from one call to the next, allocates, or fails otherwise than by the number it returns.
 * All may be called from several threads at once.
 *
 * STACK. Working arrays lie on the stack. With what it calls, each function needs at most (KB are 1,024 bytes; it is what the
 * largest and deepest families use of this library and 1 KB more, up to the next 4 KB; measured, not proved; a test makes every
 * call on just that much):
 *     phf_check, phf_regions                                        28 KB
 *     phf_bounds_from_p                                             68 KB
 *     phf_bound                                                     28 KB
 *     phf_bounds_list                                               28 KB
 *     phf_curve                                                     44 KB
 *     phf_cut                                                       48 KB
 *     phf_hybrid                                                    56 KB
 *     phf_reduce                                                   152 KB
 *     phf_same                                                     264 KB
 *     phf_to_levels                                                 44 KB
 *     phf_from_levels                                              140 KB
 *     phf_choose_at_most, phf_choose_between, phf_choose_volcano     4 KB
 *
 * BUILDING. tools/staticlib proves the functions and writes target/staticlib/libphf.a, to link with a program;
 * tools/sharedlib makes target/sharedlib/libphf.so of it. Both run in any folder and print where the library is.
 *
 * THE NUMBER. Each answer but phf_part has a field `number`, and those of phf_bounds_from_p and phf_choose_... are the
 * number itself: PHF_DONE if the call did its work, else the number of the first cause of enum phf_number that holds, of
 * those that the call tries. Fields of an answer that have no value are 0.
 *
 * BUFFERS. A declined call leaves every buffer as it was. A call that did its work writes its outputs from their start, as
 * far as is said there, and leaves what lies beyond, and all inputs, as they were.
 *
 * THE FILE. All numbers have 2 bytes, low byte first. From offset 0: the mark "PHFB", m, N, K, the offset of the leaf
 * lengths (16), the offset of the regions (16 + 2N), the total length (16 + 2N + 6K); then N leaf lengths; then K
 * regions, each first leaf, last leaf, z. Peptides are numbered from 1 to m, leaves from 1 to N; they are different
 * things. A leaf may have no peptide (a protein with nothing measured), so N may be larger than m. A region has all
 * peptides of its leaves: it may have none, and two regions may have the same ones. Nesting goes by leaf numbers.
 *
 * THE FILE BY LEVEL lists the same family outermost regions first. A region with no region around it has level 1, one with
 * h - 1 around it level h; with at most 63 around it there are 64 levels. From offset 0: the mark "PHFL", m, N, K, the offset
 * of the leaf lengths (144), the offset of the regions (144 + 2N), the total length (144 + 2N + 6K); then 64 level counts,
 * how many regions have level 1, level 2 and so on; then the N leaf lengths and the K regions as above, the regions by level
 * and within a level by first leaf, strictly rising. Only phf_from_levels reads such a file. For every other call it is
 * PHF_NOT_A_FAMILY_FILE (101 as the second file of phf_same).
 *
 * EXAMPLE, for a main with <stdio.h>: the curve of a family with 8 peptides, 4 leaves and 5 regions, and the bound of a
 * selection.
 *
 *     const uint8_t family[54] = {'P', 'H', 'F', 'B', 8, 0, 4, 0, 5, 0, 16, 0, 24, 0, 54, 0, 2, 0, 3, 0, 1, 0, 2, 0,
 *         1, 0, 2, 0, 3, 0, 1, 0, 1, 0, 2, 0, 2, 0, 2, 0, 1, 0, 3, 0, 4, 0, 3, 0, 4, 0, 4, 0, 0, 0};
 *     const uint16_t path[8] = {7, 3, 1, 4, 6, 2, 5, 8};
 *     uint16_t values[9];
 *     uint8_t marks[8];
 *     phf_curved answer = phf_curve(family, 54, path, 8, values, 9, marks, 8);
 *     if (answer.number != PHF_DONE)
 *         return answer.number;
 *     for (int t = 1; t <= 8; t++)
 *         printf("of the first %d at most %d are false\n", t, values[t]);
 *     // then the bound of those with p at most 0.05 that are at least doubled or halved; the folds are logarithms to base 2
 *     const double p[8] = {0.001, 0.2, 0.01, 0.05, 0.04, 0.03, 0.02, 0.6};
 *     const double folds[8] = {2.0, -3.0, -1.5, 0.9, 0.5, -1.0, -2.5, 0.1};
 *     uint8_t selection[8], taken[5];
 *     uint16_t number = phf_choose_volcano(8, p, 8, folds, 8, 0.05, 1.0, selection, 8);
 *     if (number != PHF_DONE)
 *         return number;
 *     printf("of the selected at most %d are false\n", phf_bound(family, 54, selection, 8, taken, 5).bound);
 *
 * END OF THE EXAMPLE.
 */
#ifndef PHF_H
#define PHF_H

#include <stddef.h>
#include <stdint.h>

#ifdef __cplusplus
extern "C" {
#endif

/*
 * The version. Before 1.0.0 the calls, what is promised of their answers, the numbers and the file may still change, and
 * others may be added: MINOR rises then. PATCH rises when all of these stay as they are.
 */
#define PHF_VERSION_MAJOR 0
#define PHF_VERSION_MINOR 16
#define PHF_VERSION_PATCH 0

/*
 * The largest sizes: peptides, leaves, regions, and bytes of a family file; selections of a list; levels, and bytes of a file by
 * level.
 */
#define PHF_MOST_PEPTIDES 4096
#define PHF_MOST_LEAVES 4096
#define PHF_MOST_REGIONS 8191
#define PHF_MOST_BYTES 57354
#define PHF_MOST_SELECTIONS 32
#define PHF_MOST_LEVELS 64
#define PHF_MOST_BYTES_BY_LEVEL 57482

/*
 * The numbers, each with its cause. Causes are tried in this order, each over its whole input; those of inputs that a call
 * lacks are skipped.
 */
enum phf_number {
    /* none: the call did its work */
    PHF_DONE = 0,
    /*
     * the file has under 16 bytes, or does not begin with the bytes 50 48 46 42 (hexadecimal), "PHFB", which for phf_from_levels
     * are 50 48 46 4C, "PHFL"
     */
    PHF_NOT_A_FAMILY_FILE = 1,
    /* m, the number of peptides, is 0 or over 4096 */
    PHF_BAD_PEPTIDE_COUNT = 2,
    /* N, the number of leaves, is 0 or over 4096 */
    PHF_BAD_LEAF_COUNT = 3,
    /* K, the number of regions, is over 2N - 1 */
    PHF_TOO_MANY_REGIONS = 4,
    /* an offset or the total in the file is not as laid down, or the file's length is not the total */
    PHF_BAD_LAYOUT = 5,
    /* the leaf lengths do not add to m */
    PHF_BAD_LEAF_LENGTHS = 6,
    /* a region's first leaf is 0, or its last below its first, or over N */
    PHF_BAD_REGION_LEAVES = 7,
    /* a region does not stand after the one before it (first leaf rising; where equal, last leaf falling) */
    PHF_REGIONS_OUT_OF_ORDER = 8,
    /* two regions share a leaf, neither inside the other */
    PHF_REGIONS_CROSS = 9,
    /* a region has more than 63 regions around it */
    PHF_NESTED_TOO_DEEP = 10,
    /* the path is longer than m */
    PHF_PATH_TOO_LONG = 11,
    /* a number of the path is 0 or over m */
    PHF_BAD_PATH_NUMBER = 12,
    /* a peptide stands twice in the path; `place` is the first place, counted from 1, whose peptide stands earlier too */
    PHF_PEPTIDE_TWICE = 13,
    /* the selection is not m bytes, or the list of selections not count times m bytes, or a byte of either is over 1 */
    PHF_BAD_SELECTION = 14,
    /* b is 0, or a is over b */
    PHF_BAD_FRACTION = 15,
    /* an output is shorter than needed; for phf_choose_... see 17 */
    PHF_SHORT_OUTPUT = 16,
    /* the p-values or the folds are not m numbers, or the output has under m bytes */
    PHF_BAD_ROWS_LENGTH = 17,
    /* a p-value is not a number or outside 0 to 1, or a fold is not finite */
    PHF_BAD_ROW = 18,
    /* a cut or the fold of the rule is not a number, or that fold is under 0 (-0.0 is not) */
    PHF_BAD_RULE = 19,
    /* the p-values in millionths are not m numbers */
    PHF_BAD_P_VALUES_LENGTH = 20,
    /* a p-value in millionths is over 1000000 */
    PHF_BAD_P_VALUE = 21,
    /* deviation_squared is over 100000000 */
    PHF_BAD_DEVIATION = 22,
    /* level is 0 or over 1000000 */
    PHF_BAD_LEVEL = 23,
    /* there are more than PHF_MOST_SELECTIONS selections */
    PHF_TOO_MANY_SELECTIONS = 24,
    /* the tally would pass 4294967295 */
    PHF_TALLY_TOO_LARGE = 25,
    /* the level counts do not add to K */
    PHF_BAD_LEVEL_COUNTS = 26,
    /*
     * a region has another level than the counts say of its place, or in its level no greater first leaf than the region before
     * it, or the leaves of an earlier region
     */
    PHF_REGIONS_NOT_BY_LEVEL = 27
};

/* What phf_same adds to a number of its second file: PHF_OF_SECOND_FILE + PHF_BAD_LAYOUT is 105. */
#define PHF_OF_SECOND_FILE 100

/*
 * Is this an accepted family? Causes 1 to 10. If so, how many peptides (m), leaves (N) and regions (K) it has.
 */
typedef struct phf_checked {
    uint16_t number;
    uint16_t peptides;
    uint16_t leaves;
    uint16_t regions;
} phf_checked;

phf_checked phf_check(const uint8_t *file, size_t file_len);

/*
 * Where the regions stand in an accepted file: `length` bytes from `offset` on, 6 for each region. Both are 0 for a file
 * that phf_check refuses; `length` is 0 for a family without regions.
 */
typedef struct phf_part {
    uint32_t offset;
    uint32_t length;
} phf_part;

phf_part phf_regions(const uint8_t *file, size_t file_len);

/*
 * The family with z computed from p-values. The answer is the number. Causes 1 to 10, 16, 20, 21, 22, in this order.
 *
 * p:                 m p-values in whole millionths, 0 to 1000000; p[i] is that of peptide i + 1.
 * deviation_squared: half the natural logarithm of one over the risk level of a region's z, in millionths, rounded up:
 *                    1497867 for the level 0.05. The level is that of each region by itself.
 * out:               at least as long as the family file. Its first file_len bytes become the file with the same m, leaves
 *                    and ranges and, in each region, the new z, and the rest is unchanged. The z of the given file are not
 *                    used.
 *
 * The z of a region with n peptides is the largest v from 0 to n that passes at the threshold 0 and at each p-value of the
 * region under 1000000. With t for the threshold and over for the number of the region's p-values above it, the excess of v
 * is v * (1000000 - t) - 1000000 * over. There v passes if the excess is 0 or negative, or if its square is at most
 * deviation_squared * v * 1000000.
 */
uint16_t phf_bounds_from_p(const uint8_t *file, size_t file_len,
                           const uint32_t *p, size_t p_len,
                           uint32_t deviation_squared,
                           uint8_t *out, size_t out_len);

/*
 * How many of the selected peptides can be false at most: `bound` is the largest count of selected peptides in any set
 * that has at most z peptides in each region. Causes 1 to 10, 14, 16.
 *
 * selection: m bytes, byte i is 1 if peptide i + 1 is selected, else 0.
 * taken:     at least K bytes; the first K become 1 for a region that is taken, else 0, in the order of the file, and the
 *            rest is unchanged. The z of the taken regions and the selected peptides outside of them add up to the bound.
 */
typedef struct phf_bounded {
    uint16_t number;
    uint16_t bound;
} phf_bounded;

phf_bounded phf_bound(const uint8_t *file, size_t file_len,
                      const uint8_t *selection, size_t selection_len,
                      uint8_t *taken, size_t taken_len);

/*
 * The bounds of up to 32 selections for one family, each the one that phf_bound gives for the selection by itself. The file is
 * checked once. Causes 1 to 10, 14, 16, 24, 25, in this order.
 *
 * selections: count times m bytes: the selections, each as in phf_bound, one behind the other.
 * count:      how many selections there are, 0 to 32.
 * tally:      what earlier calls were charged, all together; 0 if there were none.
 * values:     at least `count` numbers; values[i] becomes the bound of the selection that begins at selections[i * m], for i from
 *             0 to count - 1, and the rest is unchanged. There are no taken bytes.
 *
 * `charge` is K, the number of regions, for one selection as for 32, and 0 for none. `tally` is the given one with the charge
 * added. A declined call is charged 0, and its `tally` is the given one.
 */
typedef struct phf_listed {
    uint16_t number;
    uint16_t charge;
    uint32_t tally;
} phf_listed;

phf_listed phf_bounds_list(const uint8_t *file, size_t file_len,
                           const uint8_t *selections, size_t selections_len,
                           uint16_t count, uint32_t tally,
                           uint16_t *values, size_t values_len);

/*
 * The selection of the peptides whose p-value and log fold change pass a rule, for phf_bound. The answer is the number.
 * Causes 2, 17, 18, 19, in this order.
 *
 * m:     how many peptides, 1 to 4096.
 * p:     m p-values from 0 to 1; p[i] is that of peptide i + 1.
 * folds: m finite log fold changes, in the same order.
 * out:   at least m bytes; out[i] becomes 1 if row i, which is p[i] and folds[i], passes, else 0, for i from 0 to m - 1, and
 *        the rest is unchanged.
 *
 * A row passes
 *   phf_choose_at_most   if p[i] <= cut;
 *   phf_choose_between   if low <= p[i] and p[i] <= high: none does if low is above high, and that is no refusal;
 *   phf_choose_volcano   if p[i] <= cut and (folds[i] >= fold or folds[i] <= -fold).
 *
 * Cuts may be any number, infinite ones too; fold may be any that is not under 0. 0.0 and -0.0 are equal everywhere.
 */
uint16_t phf_choose_at_most(uint16_t m,
                            const double *p, size_t p_len,
                            const double *folds, size_t folds_len,
                            double cut,
                            uint8_t *out, size_t out_len);

uint16_t phf_choose_between(uint16_t m,
                            const double *p, size_t p_len,
                            const double *folds, size_t folds_len,
                            double low, double high,
                            uint8_t *out, size_t out_len);

uint16_t phf_choose_volcano(uint16_t m,
                            const double *p, size_t p_len,
                            const double *folds, size_t folds_len,
                            double cut, double fold,
                            uint8_t *out, size_t out_len);

/*
 * The curve along a ranking. path is T different peptide numbers, T from 0 to m. Causes 1 to 13, 16.
 *
 * values: at least T + 1 numbers; values[t] becomes the bound of the first t peptides of the path, for t from 0 to T, and
 *         the rest is unchanged.
 * marks:  at least T bytes; marks[t - 1] becomes 1 if values[t] is one more than values[t - 1], else 0, for t from 1 to T,
 *         and the rest is unchanged.
 *
 * `place` is 0 unless the number is PHF_PEPTIDE_TWICE. With it, path[place - 1] stands earlier in the path too, and the numbers
 * before it are all different, so that a path can be corrected from the top.
 */
typedef struct phf_curved {
    uint16_t number;
    uint16_t place;
} phf_curved;

phf_curved phf_curve(const uint8_t *file, size_t file_len,
                     const uint16_t *path, size_t path_len,
                     uint16_t *values, size_t values_len,
                     uint8_t *marks, size_t marks_len);

/*
 * How far down the ranking the fraction of false peptides stays at most a / b: `cut` is the largest t, 0 included, at
 * which values[t] * b <= a * t. It may lie behind places where that does not hold. Causes 1 to 13, 15; `place` as in
 * phf_curve.
 */
typedef struct phf_cutting {
    uint16_t number;
    uint16_t place;
    uint16_t cut;
} phf_cutting;

phf_cutting phf_cut(const uint8_t *file, size_t file_len,
                    const uint16_t *path, size_t path_len,
                    uint16_t a, uint16_t b);

/*
 * The hybrid curve along a ranking: at each t the smaller of two bounds of the first t peptides, that of the regions and the
 * Simes bound. Causes 1 to 13, 16, 20, 21, 23, in this order; path and `place` as in phf_curve.
 *
 * p:      m p-values in whole millionths, 0 to 1000000; p[i] is that of peptide i + 1.
 * level:  the risk level of the Simes bound in millionths, 1 to 1000000: 50000 for the level 0.05. It is that of the Simes
 *         bound by itself.
 * values: at least T + 1 numbers; values[t] becomes the smaller of what phf_curve gives there and of the Simes bound of the
 *         first t peptides of the path, for t from 0 to T, and the rest is unchanged. There are no marks.
 *
 * The Simes bound of a selection is 0 if nothing is selected. Else it is the least of m numbers, one for each k from 1 to m:
 * k - 1 plus the count of the selected peptides with p * m > level * k. One with p * m = level * k is not counted.
 */
phf_curved phf_hybrid(const uint8_t *file, size_t file_len,
                      const uint16_t *path, size_t path_len,
                      const uint32_t *p, size_t p_len,
                      uint32_t level,
                      uint16_t *values, size_t values_len);

/*
 * The reduced file of a family: the one file that all families reduce to which have the same m and, for every selection,
 * the same bound (equivalently, for every path, the same curve). Each of its leaves has a peptide. Causes 1 to 10, 16.
 *
 * out: at least as long as the family file. Its first `length` bytes become the reduced file, which has `regions` regions,
 *      and the rest is unchanged.
 */
typedef struct phf_reduced {
    uint16_t number;
    uint16_t length;
    uint16_t regions;
} phf_reduced;

phf_reduced phf_reduce(const uint8_t *file, size_t file_len, uint8_t *out, size_t out_len);

/*
 * Do two families give the same bounds, which is the same m and, for every selection, the same bound (equivalently, for
 * every path, the same curve)? `same` is 1 exactly when their reduced files are equal, else 0; families with a different
 * number of peptides are not the same. Causes 1 to 10 of the first file, then those of the second, whose numbers have
 * PHF_OF_SECOND_FILE added (101 to 110).
 */
typedef struct phf_compared {
    uint16_t number;
    uint16_t same;
} phf_compared;

phf_compared phf_same(const uint8_t *first, size_t first_len, const uint8_t *second, size_t second_len);

/*
 * A family file as a file by level, for those who list the outermost regions first (phf_to_levels), and a file by level as a
 * family file (phf_from_levels). What is written has the same m, leaf lengths and regions with their z. The other call accepts
 * it, and gives back the given file, byte for byte.
 *
 * out: phf_to_levels needs file_len + 128 bytes, phf_from_levels file_len - 128. That many, which `length` tells, become the
 *      file, and the rest is unchanged.
 *
 * phf_to_levels tries the causes 1 to 10, 16; phf_from_levels 1 to 7, 9, 10, 16, 26, 27, in this order. There 5 is judged by the
 * layout of a file by level; 9 and 10 in whatever order the regions stand, and a region with the leaves of an earlier one,
 * whatever its z, is left out for them. Such a region gives 27.
 */
typedef struct phf_converted {
    uint16_t number;
    uint16_t length;
} phf_converted;

phf_converted phf_to_levels(const uint8_t *file, size_t file_len, uint8_t *out, size_t out_len);

phf_converted phf_from_levels(const uint8_t *file, size_t file_len, uint8_t *out, size_t out_len);

#ifdef __cplusplus
}
#endif

#endif
