/* The library as a C program links it: document 01's window read and cuts added and StableHLO's gather, raw and by stored jobs,
   in i32 and f64, with refusals on the way; scatters by each rule, and with an operand; how many windows slid. Prints each check
   that fails; the exit status is 0 where none does. */
#include "strided.h"

#include <inttypes.h>
#include <math.h>
#include <stdio.h>
#include <string.h>

#define COUNT(list) (sizeof(list) / sizeof((list)[0]))
#define SLICE(list) (list), COUNT(list)

static int failures = 0;
static int checks = 0;

static void check(int holds, const char *what) {
    checks++;
    if (!holds) {
        failures++;
        printf("failed: %s\n", what);
    }
}

static void answered(const uint64_t answer[4], uint64_t n, uint64_t a, uint64_t b, uint64_t slid, const char *what) {
    int holds = answer[0] == n && answer[1] == a && answer[2] == b && answer[3] == slid;
    check(holds, what);
    if (!holds) {
        printf("  answer %" PRIu64 " %" PRIu64 " %" PRIu64 " %" PRIu64 "\n", answer[0], answer[1], answer[2], answer[3]);
    }
}

/* A call that was done, with so many windows slid. */
static void done(const uint64_t answer[4], uint64_t slid, const char *what) {
    answered(answer, STRIDED_DONE, 0, 0, slid, what);
}

/* A call that was refused: no window slid. */
static void refused(const uint64_t answer[4], uint64_t n, uint64_t a, uint64_t b, const char *what) {
    answered(answer, n, a, b, 0, what);
}

/* For a slice of no elements: something to point to. */
static const uint64_t none[1] = {0};

/* Windows of two of five cells at the starts 4 and -1, which are clamped. */
static const uint64_t five[] = {5}, two[] = {2}, two_two[] = {2, 2}, axis_0[] = {0};
static const int64_t one[] = {1}, one_two[] = {1, 2};
static const int64_t window_starts[] = {4, -1};

static void window_read(void) {
    const int32_t operand[] = {10, 20, 30, 40, 50}, expected[] = {40, 50, 10, 20};
    int32_t destination[] = {1, 2, 3, 4};
    uint64_t answer[4];
    strided_gather_refusal(SLICE(five), SLICE(one), SLICE(two), SLICE(one), SLICE(two_two), SLICE(one_two), SLICE(axis_0),
                           none, 0, SLICE(axis_0), 1, SLICE(two), answer);
    done(answer, 0, "compile of the window read");
    strided_raw_gather_i32(SLICE(five), SLICE(one), SLICE(two), SLICE(one), SLICE(two_two), SLICE(one_two), SLICE(axis_0),
                           none, 0, SLICE(axis_0), 1, SLICE(two), SLICE(five), SLICE(one), 0, SLICE(two), SLICE(one), 0,
                           SLICE(two_two), SLICE(one_two), 1, SLICE(operand), SLICE(window_starts), SLICE(destination),
                           answer);
    refused(answer, STRIDED_BUFFER_BOUNDS, 3, 0, "a destination that begins one element later");
    check(destination[0] == 1 && destination[3] == 4, "a refusal changes no element");
    strided_raw_gather_i32(SLICE(five), SLICE(one), SLICE(two), SLICE(one), SLICE(two_two), SLICE(one_two), SLICE(axis_0),
                           none, 0, SLICE(axis_0), 1, SLICE(two), SLICE(five), SLICE(one), 0, SLICE(two), SLICE(one), 0,
                           SLICE(two_two), SLICE(one_two), 0, SLICE(operand), SLICE(window_starts), SLICE(destination),
                           answer);
    done(answer, 2, "the window read");
    check(memcmp(destination, expected, sizeof expected) == 0, "the window read gives 40 50 10 20");
}

static void window_read_by_job(void) {
    const double operand[] = {10, 20, 30, 40, 50}, expected[] = {40, 50, 10, 20};
    double destination[] = {0, 0, 0, 0};
    int32_t other[] = {7};
    uint8_t job[512];
    uint64_t answer[4];
    memset(job, 0xee, sizeof job);
    strided_write_gather_job(STRIDED_F64, SLICE(five), SLICE(one), 0, SLICE(two), SLICE(one), 0, SLICE(two_two),
                             SLICE(one_two), 0, SLICE(axis_0), none, 0, SLICE(axis_0), 1, SLICE(two), job, 10, answer);
    check(answer[0] == STRIDED_BUFFER_BOUNDS && answer[1] == 0 && answer[3] == 0, "no room for a job");
    check(job[0] == 0xee, "without room no byte is written");
    size_t needed = (size_t)answer[2];
    check(needed < sizeof job, "the bytes that are needed");
    strided_write_gather_job(STRIDED_F64, SLICE(five), SLICE(one), 0, SLICE(two), SLICE(one), 0, SLICE(two_two),
                             SLICE(one_two), 0, SLICE(axis_0), none, 0, SLICE(axis_0), 1, SLICE(two), job, sizeof job,
                             answer);
    done(answer, 0, "a job is written");
    check(job[needed] == 0xee, "bytes past a written job stay");
    strided_write_gather_job(3, SLICE(five), SLICE(one), 0, SLICE(two), SLICE(one), 0, SLICE(two_two), SLICE(one_two), 0,
                             SLICE(axis_0), none, 0, SLICE(axis_0), 1, SLICE(two), job, sizeof job, answer);
    refused(answer, STRIDED_JOB_BYTES, 6, 0, "an element that is not listed");
    strided_read_job(job, needed, answer);
    done(answer, 0, "it is a job");
    strided_read_job(job, needed - 1, answer);
    refused(answer, STRIDED_JOB_BYTES, 0, 0, "cut short it is none");
    strided_gather_i32(job, needed, other, 1, SLICE(window_starts), other, 0, answer);
    refused(answer, STRIDED_JOB_BYTES, 6, 0, "a job of f64 run as one of i32");
    strided_gather_f64(job, needed, SLICE(operand), SLICE(window_starts), SLICE(destination), answer);
    done(answer, 2, "the window read by its job");
    check(memcmp(destination, expected, sizeof expected) == 0, "the window read by its job gives 40 50 10 20");
}

static const uint64_t three[] = {3};
static const int64_t cut_starts[] = {0, 0, 9};

static void cuts_added(void) {
    const int32_t updates[] = {3, 4, 5}, expected[] = {7, 0, 0, 0, 5};
    int32_t grid[] = {0, 0, 0, 0, 0};
    uint64_t answer[4];
    strided_scatter_refusal(SLICE(three), SLICE(one), SLICE(three), SLICE(one), SLICE(five), SLICE(one), none, 0,
                            SLICE(axis_0), SLICE(axis_0), 2, answer);
    refused(answer, STRIDED_INVALID_AXIS, 2, 2, "a vector axis past the index's rank");
    strided_raw_scatter_i32(STRIDED_ADD, SLICE(three), SLICE(one), SLICE(three), SLICE(one), SLICE(five), SLICE(one), none, 0,
                            SLICE(axis_0), SLICE(axis_0), 1, SLICE(three), SLICE(one), 0, SLICE(three), SLICE(one), 0,
                            SLICE(five), SLICE(one), 0, SLICE(cut_starts), SLICE(updates), SLICE(grid), answer);
    done(answer, 1, "the cuts added");
    check(memcmp(grid, expected, sizeof expected) == 0, "the cuts added leave 7 0 0 0 5");
}

static void cuts_added_by_job(void) {
    const double updates[] = {3, 4, 5}, expected[] = {7, 0, 0, 0, 5};
    const int32_t depths[] = {3, 4, 5}, twice[] = {14, 0, 0, 0, -2147483647 - 1 + 4};
    double grid[] = {0, 0, 0, 0, 0};
    int32_t depth_grid[] = {7, 0, 0, 0, 2147483647};
    uint8_t job[512];
    uint64_t answer[4];
    strided_write_scatter_job(STRIDED_F64, SLICE(three), SLICE(one), 0, SLICE(three), SLICE(one), 0, SLICE(five), SLICE(one),
                              0, none, 0, SLICE(axis_0), SLICE(axis_0), 1, SLICE(job), answer);
    done(answer, 0, "a scatter's job is written");
    size_t size = 4 + ((size_t)job[0] << 24 | (size_t)job[1] << 16 | (size_t)job[2] << 8 | (size_t)job[3]);
    strided_scatter_f64(job, size, SLICE(cut_starts), SLICE(updates), SLICE(grid), answer);
    done(answer, 1, "the cuts added by their job");
    check(memcmp(grid, expected, sizeof expected) == 0, "the cuts added by their job leave 7 0 0 0 5");
    strided_write_scatter_job(0, SLICE(three), SLICE(one), 0, SLICE(three), SLICE(one), 0, SLICE(five), SLICE(one), 0, none, 0,
                              SLICE(axis_0), SLICE(axis_0), 1, SLICE(job), answer);
    refused(answer, STRIDED_JOB_BYTES, 6, 0, "an element that is not listed, of a scatter");
    strided_write_scatter_job(STRIDED_I32, SLICE(three), SLICE(one), 0, SLICE(three), SLICE(one), 0, SLICE(five), SLICE(one),
                              0, none, 0, SLICE(axis_0), SLICE(axis_0), 1, SLICE(job), answer);
    strided_scatter_i32(job, size, SLICE(cut_starts), SLICE(depths), SLICE(depth_grid), answer);
    done(answer, 1, "the same in i32");
    check(memcmp(depth_grid, twice, sizeof twice) == 0, "i32 sums wrap modulo 2^32");
}

/* StableHLO's printed gather: the numbers 1 to 24 as 3x4x2, last axis innermost. */
static void printed_gather(void) {
    const uint64_t operand_extents[] = {3, 4, 2}, index_extents[] = {2, 3, 2}, dest_extents[] = {2, 3, 2, 2};
    const int64_t operand_strides[] = {8, 2, 1}, index_strides[] = {6, 2, 1}, dest_strides[] = {12, 4, 2, 1};
    const uint64_t offset_dims[] = {2, 3}, map[] = {1, 0}, sizes[] = {1, 2, 2};
    const int64_t starts[] = {0, 0, 1, 0, 2, 1, 0, 1, 1, 1, 0, 9};
    const double expected[] = {1, 2, 3, 4, 3, 4, 5, 6, 13, 14, 15, 16, 9, 10, 11, 12, 11, 12, 13, 14, 17, 18, 19, 20};
    double operand[24], destination[24] = {0};
    uint64_t answer[4];
    for (int i = 0; i < 24; i++) {
        operand[i] = i + 1;
    }
    strided_raw_gather_f64(SLICE(operand_extents), SLICE(operand_strides), SLICE(index_extents), SLICE(index_strides),
                           SLICE(dest_extents), SLICE(dest_strides), SLICE(offset_dims), SLICE(axis_0), SLICE(map), 2,
                           SLICE(sizes), SLICE(operand_extents), SLICE(operand_strides), 0, SLICE(index_extents),
                           SLICE(index_strides), 0, SLICE(dest_extents), SLICE(dest_strides), 0, SLICE(operand),
                           SLICE(starts), SLICE(destination), answer);
    done(answer, 1, "StableHLO's gather");
    check(memcmp(destination, expected, sizeof expected) == 0, "StableHLO's gather gives what is printed there");
}

static void cuts_added_f64(void) {
    const double updates[] = {3, 4, 5}, expected[] = {7, 0, 0, 0, 5};
    double grid[] = {0, 0, 0, 0, 0};
    uint64_t answer[4];
    strided_raw_scatter_f64(STRIDED_ADD, 0, SLICE(three), SLICE(one), SLICE(three), SLICE(one), SLICE(five), SLICE(one), none, 0,
                            SLICE(axis_0), SLICE(axis_0), 1, SLICE(five), SLICE(one), 0, SLICE(three), SLICE(one), 0,
                            SLICE(five), SLICE(one), 0, SLICE(cut_starts), SLICE(updates), SLICE(grid), answer);
    refused(answer, STRIDED_PLAN_LAYOUT_MISMATCH, 0, 0, "a call's index of another layout");
    strided_raw_scatter_f64(STRIDED_ADD, 0, SLICE(three), SLICE(one), SLICE(three), SLICE(one), SLICE(five), SLICE(one), none, 0,
                            SLICE(axis_0), SLICE(axis_0), 1, SLICE(three), SLICE(one), 0, SLICE(three), SLICE(one), 0,
                            SLICE(five), SLICE(one), 0, SLICE(cut_starts), SLICE(updates), SLICE(grid), answer);
    done(answer, 1, "the cuts added in f64");
    check(memcmp(grid, expected, sizeof expected) == 0, "the cuts added in f64 leave 7 0 0 0 5");
}

/* The window read in i32 by a job, as the last of the functions that run one. */
static void window_read_by_i32_job(void) {
    const int32_t operand[] = {10, 20, 30, 40, 50}, expected[] = {40, 50, 10, 20};
    int32_t destination[] = {0, 0, 0, 0};
    uint8_t job[512];
    uint64_t answer[4];
    strided_write_gather_job(STRIDED_I32, SLICE(five), SLICE(one), 0, SLICE(two), SLICE(one), 0, SLICE(two_two),
                             SLICE(one_two), 0, SLICE(axis_0), none, 0, SLICE(axis_0), 1, SLICE(two), job, sizeof job,
                             answer);
    size_t size = 4 + ((size_t)job[2] << 8 | (size_t)job[3]);
    strided_gather_i32(job, size, SLICE(operand), SLICE(window_starts), SLICE(destination), answer);
    done(answer, 2, "the window read by a job of i32");
    check(memcmp(destination, expected, sizeof expected) == 0, "the window read by a job of i32 gives 40 50 10 20");
}

/* Three updates at the starts 0, 0 and 9, which is clamped to 4, by a rule. The vector axis is 1; any other is refused. */
static void put_i32(uint64_t rule, uint64_t vector, const int32_t updates[3], int32_t grid[5], uint64_t answer[4]) {
    strided_raw_scatter_i32(rule, SLICE(three), SLICE(one), SLICE(three), SLICE(one), SLICE(five), SLICE(one), none, 0,
                            SLICE(axis_0), SLICE(axis_0), vector, SLICE(three), SLICE(one), 0, SLICE(three), SLICE(one), 0,
                            SLICE(five), SLICE(one), 0, SLICE(cut_starts), updates, 3, grid, 5, answer);
}

static void put_f64(uint64_t rule, double limit, uint64_t vector, const double updates[3], double grid[5], uint64_t answer[4]) {
    strided_raw_scatter_f64(rule, limit, SLICE(three), SLICE(one), SLICE(three), SLICE(one), SLICE(five), SLICE(one), none, 0,
                            SLICE(axis_0), SLICE(axis_0), vector, SLICE(three), SLICE(one), 0, SLICE(three), SLICE(one), 0,
                            SLICE(five), SLICE(one), 0, SLICE(cut_starts), updates, 3, grid, 5, answer);
}

static const struct {
    uint64_t rule;
    int32_t expected[5];
    const char *what;
} by_rules[] = {
    {STRIDED_ADD, {29, 20, 30, 40, 110}, "added"},
    {STRIDED_LOWEST, {7, 20, 30, 40, 50}, "the lowest"},
    {STRIDED_HIGHEST, {12, 20, 30, 40, 60}, "the highest"},
    {STRIDED_REPLACE, {7, 20, 30, 40, 60}, "replaced"},
};

static void put_by_each_rule(void) {
    const int32_t updates[] = {12, 7, 60};
    const double soundings[] = {12, 7, 60};
    uint64_t answer[4];
    for (size_t i = 0; i < COUNT(by_rules); i++) {
        int32_t grid[] = {10, 20, 30, 40, 50};
        double depths[] = {10, 20, 30, 40, 50};
        put_i32(by_rules[i].rule, 1, updates, grid, answer);
        done(answer, 1, by_rules[i].what);
        check(memcmp(grid, by_rules[i].expected, sizeof grid) == 0, by_rules[i].what);
        put_f64(by_rules[i].rule, -1, 1, soundings, depths, answer);
        done(answer, 1, by_rules[i].what);
        for (int cell = 0; cell < 5; cell++) {
            check(depths[cell] == by_rules[i].expected[cell], by_rules[i].what);
        }
    }
}

static void put_under_a_ceiling(void) {
    const double updates[] = {9, -2, 3}, expected[] = {3, 99, 99, 99, 4.5};
    double grid[] = {1, 99, 99, 99, 1.5}, nan_grid[] = {1, 99, 99, 99, NAN};
    uint64_t answer[4];
    put_f64(STRIDED_CEILING, 5, 1, updates, grid, answer);
    done(answer, 1, "under a ceiling");
    check(memcmp(grid, expected, sizeof grid) == 0, "a ceiling holds at every update, and where nothing lands the cell stays");
    put_f64(STRIDED_CEILING, NAN, 1, updates, nan_grid, answer);
    check(nan_grid[0] == 8 && isnan(nan_grid[4]), "a limit that is NaN holds nothing back, and a sum that is NaN stands");
}

static void put_with_nan_and_zeros(void) {
    const double updates[] = {NAN, NAN, 0.0}, before[] = {1, 2, 3, 4, -0.0};
    double grid[] = {1, 2, 3, 4, -0.0};
    uint64_t answer[4];
    put_f64(STRIDED_LOWEST, 0, 1, updates, grid, answer);
    put_f64(STRIDED_HIGHEST, 0, 1, updates, grid, answer);
    done(answer, 1, "NaN and zeros");
    check(memcmp(grid, before, sizeof grid) == 0, "neither NaN nor a zero of the other sign is lower or higher");
    put_f64(STRIDED_REPLACE, 0, 1, updates, grid, answer);
    check(isnan(grid[0]) && !signbit(grid[4]), "NaN and zeros replace");
    put_f64(STRIDED_LOWEST, 0, 1, before, grid, answer);
    check(isnan(grid[0]), "a NaN that is held stays");
}

/* Rules that are not listed, alone and beside a vector axis that is refused too. */
static void unlisted_rules(void) {
    const uint64_t rules[] = {0, STRIDED_CEILING, 6, UINT64_MAX};
    const int32_t updates[] = {12, 7, 60}, before[] = {10, 20, 30, 40, 50};
    const double soundings[] = {12, 7, 60}, depths_before[] = {10, 20, 30, 40, 50};
    int32_t grid[] = {10, 20, 30, 40, 50};
    double depths[] = {10, 20, 30, 40, 50};
    uint64_t answer[4];
    for (uint64_t vector = 1; vector < 3; vector++) {
        for (size_t i = 0; i < COUNT(rules); i++) {
            put_i32(rules[i], vector, updates, grid, answer);
            refused(answer, STRIDED_UNLISTED_RULE, rules[i], 0, "a rule that is not listed for i32");
            if (rules[i] != STRIDED_CEILING) {
                put_f64(rules[i], 1, vector, soundings, depths, answer);
                refused(answer, STRIDED_UNLISTED_RULE, rules[i], 0, "a rule that is not listed for f64");
            }
        }
    }
    put_i32(STRIDED_REPLACE, 2, updates, grid, answer);
    refused(answer, STRIDED_INVALID_AXIS, 2, 2, "a rule that is listed, and a vector axis past the index's rank");
    check(memcmp(grid, before, sizeof grid) == 0, "a refused rule changes no i32");
    check(memcmp(depths, depths_before, sizeof depths) == 0, "a refused rule changes no f64");
}

/* Two windows of `size` of five cells, on the last axis of the destination, which begins at its offset. */
static void read_two(const uint64_t size[1], const int64_t index_stride[1], const int64_t starts[2], int64_t offset,
                     uint64_t answer[4]) {
    const uint64_t extents[] = {size[0], 2};
    const int32_t operand[] = {10, 20, 30, 40, 50};
    int32_t destination[4];
    strided_raw_gather_i32(SLICE(five), SLICE(one), SLICE(two), index_stride, 1, SLICE(extents), SLICE(one_two), SLICE(axis_0),
                           none, 0, SLICE(axis_0), 1, size, 1, SLICE(five), SLICE(one), 0, SLICE(two), index_stride, 1, 0,
                           SLICE(extents), SLICE(one_two), offset, SLICE(operand), starts, 2, SLICE(destination), answer);
}

/* The same two windows, put on five cells. */
static void put_two(const uint64_t size[1], const int64_t index_stride[1], const int64_t starts[2], int64_t offset,
                    uint64_t answer[4]) {
    const uint64_t extents[] = {size[0], 2};
    const double updates[] = {1, 2, 3, 4};
    double grid[] = {0, 0, 0, 0, 0};
    strided_raw_scatter_f64(STRIDED_ADD, 0, SLICE(two), index_stride, 1, SLICE(extents), SLICE(one_two), SLICE(five), SLICE(one),
                            SLICE(axis_0), none, 0, SLICE(axis_0), 1, SLICE(two), index_stride, 1, 0, SLICE(extents),
                            SLICE(one_two), 0, SLICE(five), SLICE(one), offset, starts, 2, SLICE(updates), SLICE(grid), answer);
}

static const struct {
    uint64_t size[1];
    int64_t index_stride[1];
    int64_t starts[2];
    uint64_t slid;
    const char *what;
} slides[] = {
    {{2}, {1}, {0, 3}, 0, "windows at the two ends"},
    {{2}, {1}, {3, 4}, 1, "one window of two one past the end"},
    {{2}, {1}, {-1, 0}, 1, "one window of two one before the beginning"},
    {{2}, {1}, {INT64_MIN, INT64_MAX}, 2, "windows at the ends of i64"},
    {{2}, {0}, {4, 0}, 2, "two batch coordinates that read one start"},
    {{0}, {1}, {-1, 9}, 0, "windows without cells"},
};

static void windows_slid(void) {
    uint64_t answer[4];
    for (size_t i = 0; i < COUNT(slides); i++) {
        read_two(slides[i].size, slides[i].index_stride, slides[i].starts, 0, answer);
        done(answer, slides[i].slid, slides[i].what);
        put_two(slides[i].size, slides[i].index_stride, slides[i].starts, 0, answer);
        done(answer, slides[i].slid, slides[i].what);
    }
    read_two(two, one, window_starts, 1, answer);
    refused(answer, STRIDED_BUFFER_BOUNDS, 3, 0, "a gather that is refused, of windows that would slide");
    put_two(two, one, window_starts, 1, answer);
    refused(answer, STRIDED_BUFFER_BOUNDS, 3, 0, "a scatter that is refused, of windows that would slide");
}

/* One cut at a start of two components on a grid of 2 by 3. */
static void components_moved(void) {
    const uint64_t extents[] = {2, 3}, cell[] = {1, 1}, axes[] = {0, 1};
    const int64_t starts[][2] = {{1, 2}, {1, 3}, {-1, 2}, {2, 3}};
    const int32_t updates[] = {7};
    uint64_t answer[4];
    for (size_t i = 0; i < COUNT(starts); i++) {
        int32_t grid[6] = {0};
        strided_raw_scatter_i32(STRIDED_ADD, SLICE(two), SLICE(one), SLICE(cell), SLICE(one_two), SLICE(extents),
                                SLICE(one_two), SLICE(axes), none, 0, SLICE(axes), 0, SLICE(two), SLICE(one), 0, SLICE(cell),
                                SLICE(one_two), 0, SLICE(extents), SLICE(one_two), 0, SLICE(starts[i]), SLICE(updates),
                                SLICE(grid), answer);
        done(answer, i == 0 ? 0 : 1, "a window counts once, however many of its components are moved");
    }
}

/* The cuts added, to five cells that an operand of the given extents and strides is copied to first: compile's refusal. */
static void with_operand(const uint64_t *extents, size_t rank, const int64_t *strides, size_t strides_count,
                         const int64_t dest_strides[1], uint64_t answer[4]) {
    strided_scatter_operand_refusal(extents, rank, strides, strides_count, SLICE(three), SLICE(one), SLICE(three), SLICE(one),
                                    SLICE(five), dest_strides, 1, none, 0, SLICE(axis_0), SLICE(axis_0), 1, answer);
}

static void operand_refusals(void) {
    const uint64_t six[] = {6}, nine[] = {1, 1, 1, 1, 1, 1, 1, 1, 1}, huge[] = {UINT64_MAX, 2}, five_one[] = {5, 1};
    const int64_t nines[] = {1, 1, 1, 1, 1, 1, 1, 1, 1}, zeros[] = {0, 0}, back[] = {-1}, far[] = {INT64_MAX};
    uint64_t answer[4];
    with_operand(SLICE(five), SLICE(back), one, answer);
    done(answer, 0, "compile of the cuts added to an operand that is kept backwards");
    with_operand(SLICE(five), SLICE(zeros), zeros, answer);
    refused(answer, STRIDED_STRIDE_LENGTH_MISMATCH, 0, 0, "an operand's extents and strides");
    with_operand(SLICE(nine), SLICE(nines), zeros, answer);
    refused(answer, STRIDED_RANK_TOO_LARGE, 9, 8, "an operand of nine axes");
    with_operand(SLICE(huge), SLICE(zeros), zeros, answer);
    refused(answer, STRIDED_OFFSET_OVERFLOW, 0, 0, "the product of an operand's extents");
    with_operand(SLICE(five_one), SLICE(one_two), zeros, answer);
    refused(answer, STRIDED_SHAPE_MISMATCH, 1, 2, "an operand of two axes for a destination of one");
    with_operand(SLICE(six), SLICE(one), zeros, answer);
    refused(answer, STRIDED_SHAPE_MISMATCH, 1, 1, "an operand of another extent, before a destination that is not nested");
    with_operand(SLICE(five), SLICE(far), zeros, answer);
    refused(answer, STRIDED_OFFSET_OVERFLOW, 0, 0, "an operand's span, before a destination that is not nested");
    with_operand(SLICE(five), SLICE(one), zeros, answer);
    refused(answer, STRIDED_NON_INJECTIVE_OUTPUT, 0, 0, "a destination that is not nested");
}

/* Where each of the four views begins, and the strides of the operand's. */
struct views {
    int64_t operand, index, updates, dest, stride;
};

/* The cuts added to a chart that is kept backwards, through a destination whose cells are every other element of nine. */
static void put_with_operand_i32(uint64_t rule, struct views at, const int32_t operand[5], int32_t grid[9], uint64_t answer[4]) {
    const int64_t back[] = {-1}, apart[] = {2};
    const int32_t updates[] = {3, 4, 5};
    strided_raw_scatter_operand_i32(
        rule, SLICE(five), SLICE(back), SLICE(three), SLICE(one), SLICE(three), SLICE(one), SLICE(five), SLICE(apart), none, 0,
        SLICE(axis_0), SLICE(axis_0), 1, SLICE(five), &at.stride, 1, at.operand, SLICE(three), SLICE(one), at.index,
        SLICE(three), SLICE(one), at.updates, SLICE(five), SLICE(apart), at.dest, operand, 5, SLICE(cut_starts), SLICE(updates),
        grid, 9, answer);
}

static void put_with_operand_f64(uint64_t rule, double limit, struct views at, const double operand[5], double grid[9],
                             uint64_t answer[4]) {
    const int64_t back[] = {-1}, apart[] = {2};
    const double updates[] = {3, 4, 5};
    strided_raw_scatter_operand_f64(
        rule, limit, SLICE(five), SLICE(back), SLICE(three), SLICE(one), SLICE(three), SLICE(one), SLICE(five), SLICE(apart),
        none, 0, SLICE(axis_0), SLICE(axis_0), 1, SLICE(five), &at.stride, 1, at.operand, SLICE(three), SLICE(one), at.index,
        SLICE(three), SLICE(one), at.updates, SLICE(five), SLICE(apart), at.dest, operand, 5, SLICE(cut_starts), SLICE(updates),
        grid, 9, answer);
}

static void put_with_an_operand(void) {
    const struct views at = {4, 0, 0, 0, -1};
    const int32_t operand[] = {50, 40, 30, 20, 10}, expected[] = {17, 1, 20, 1, 30, 1, 40, 1, 55};
    const double soundings[] = {50, NAN, -0.0, 20, 10}, heaped[] = {12, 1, 20, 1, -0.0, 1, 0, 1, 12};
    int32_t grid[] = {1, 1, 1, 1, 1, 1, 1, 1, 1};
    double depths[] = {1, 1, 1, 1, 1, 1, 1, 1, 1};
    uint64_t answer[4];
    put_with_operand_i32(STRIDED_ADD, at, operand, grid, answer);
    done(answer, 1, "the cuts added to a chart");
    check(memcmp(grid, expected, sizeof grid) == 0, "the chart is copied first, and elements between the cells stay");
    put_with_operand_i32(STRIDED_ADD, at, operand, grid, answer);
    check(memcmp(grid, expected, sizeof grid) == 0, "what the cells held makes no difference");
    put_with_operand_f64(STRIDED_CEILING, 12, at, soundings, depths, answer);
    done(answer, 1, "the cuts under a ceiling, on a chart");
    check(memcmp(&depths[6], &soundings[1], sizeof depths[6]) == 0, "a NaN is copied bit for bit");
    depths[6] = 0;
    check(memcmp(depths, heaped, sizeof depths) == 0, "the rule goes by the chart's cells");
}

/* A call that is refused copies nothing: by 18, by 8, and by 9 for each view in turn. */
static void refused_with_an_operand(void) {
    const struct views at[] = {{5, -1, -1, 2, -1}, {4, -1, -1, 2, -1}, {4, 0, -1, 2, -1}, {4, 0, 0, 2, -1}};
    const struct views other = {0, -1, -1, 2, 1};
    const int32_t operand[] = {50, 40, 30, 20, 10}, before[] = {1, 1, 1, 1, 1, 1, 1, 1, 1};
    const double soundings[] = {50, 40, 30, 20, 10};
    int32_t grid[] = {1, 1, 1, 1, 1, 1, 1, 1, 1};
    double depths[] = {1, 1, 1, 1, 1, 1, 1, 1, 1};
    uint64_t answer[4];
    put_with_operand_i32(STRIDED_CEILING, other, operand, grid, answer);
    refused(answer, STRIDED_UNLISTED_RULE, STRIDED_CEILING, 0, "a rule that is not listed for i32, on a chart");
    put_with_operand_f64(0, 1, other, soundings, depths, answer);
    refused(answer, STRIDED_UNLISTED_RULE, 0, 0, "a rule that is not listed for f64, on a chart");
    put_with_operand_i32(STRIDED_ADD, other, operand, grid, answer);
    refused(answer, STRIDED_PLAN_LAYOUT_MISMATCH, 0, 0, "a chart of another layout than was compiled for");
    for (size_t i = 0; i < COUNT(at); i++) {
        put_with_operand_i32(STRIDED_ADD, at[i], operand, grid, answer);
        refused(answer, STRIDED_BUFFER_BOUNDS, i + 1, 0, "a view of four outside its slice, in i32");
        put_with_operand_f64(STRIDED_ADD, 0, at[i], soundings, depths, answer);
        refused(answer, STRIDED_BUFFER_BOUNDS, i + 1, 0, "a view of four outside its slice, in f64");
    }
    check(memcmp(grid, before, sizeof grid) == 0 && depths[0] == 1 && depths[8] == 1, "a refusal copies nothing");
}

int main(void) {
    check(strided_version_4() == STRIDED_VERSION && STRIDED_VERSION == 4, "the archive is of the header's version");
    window_read();
    window_read_by_job();
    window_read_by_i32_job();
    cuts_added();
    cuts_added_by_job();
    cuts_added_f64();
    put_by_each_rule();
    put_under_a_ceiling();
    put_with_nan_and_zeros();
    unlisted_rules();
    printed_gather();
    windows_slid();
    components_moved();
    operand_refusals();
    put_with_an_operand();
    refused_with_an_operand();
    printf("C program: %d checks, %d failed\n", checks, failures);
    return failures != 0;
}
