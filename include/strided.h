/* Gather and scatter on strided grids: the functions of libstrided.a (`./library`).

   Every function answers for all arguments, always returns, and reads and writes only inside the slices that it is lent.
   Its answer is four numbers in `answer`: STRIDED_DONE, or one of the refusals below, then a and b, 0 where unnamed, and last
   how many windows slid; the version's function alone has none, and returns its number.
   A refusal changes no element of a destination and no byte of a job. A call that is done changes only the destination's
   elements that its cells name. An accepted call takes as long as its plan has cells: a gather, and the copy of an operand, has at
   most as many as its destination has elements, but a scatter whose index and updates have strides of 0 can name 2^62 updates in a
   few elements, and at a nanosecond each such a call would take more than a hundred years.

   What the caller owes:
   - A slice is a pointer to its first element and a count of elements; the count is true, for as long as the call takes.
     Where the count is 0 nothing is read or written, but the pointer is still not NULL and is aligned.
   - What a function writes (`destination`, `out`, `answer`) overlaps no other argument, and nobody else touches it meanwhile.

   A view is a layout (extents and strides of equal length, in elements, at most STRIDED_RANK_LIMIT axes) with an offset into
   its slice. Coordinates go first axis fastest. Axis lists are those of StableHLO's gather and scatter. Starts are clamped, in
   a gather and in a scatter.

   How many windows slid, answer[3], is the number of batch coordinates with at least one moved component: one whose clamped start
   is not its start. A batch coordinate counts once, however many of its components are moved; two batch coordinates that read the
   same start, through a stride of 0 of the index, are two. The number is 0 where the call is refused, and 0 where the destination
   of a gather, or the updates of a scatter, have no cells, even if batch coordinates exist; and 0 in every function that moves
   nothing.

   A scatter takes its updates in order, and the rule says what an element becomes of what it holds and of each update that lands
   on it:
   - STRIDED_ADD: the sum. An i32 sum wraps modulo 2^32; an f64 sum rounds once.
   - STRIDED_LOWEST: the update where it is less than what is held; otherwise what is held stays.
   - STRIDED_HIGHEST: the update where it is greater than what is held; otherwise what is held stays.
   - STRIDED_REPLACE: the update. The last one that lands on an element stays there.
   - STRIDED_CEILING, for f64 alone, with a limit: the sum, or the limit where the sum is greater than it. This is done at every
     update, not once at the end.
   A comparison with NaN is false: under Lowest and Highest what is held stays where it or the update is NaN, and under Ceiling the
   sum stands where it or the limit is NaN. +0 and -0 are neither less nor greater than each other. What stays, and what takes its
   place, keeps its bits; which NaN a sum gives is left open.
   A call by lists names its rule. One that is not listed for the element is refused before everything else, and changes nothing.
   The functions that run a stored job mean Add.

   A scatter may have an operand, in the functions with `operand` in their names: a grid with the destination's extents, and with
   strides and a view of its own, that is copied cell by cell into the destination before the first update. What an element that a
   cell of the destination names holds before the updates is then the operand's cell, whatever it held before the call; all other
   elements keep theirs. For two scatters on one grid the operand is copied once, by the first call; the second goes without it.
   The functions that run a stored job copy none.

   No function takes a plan: a call compiles what it is given, lists or a stored job, and runs it. So the half of 8 that
   refuses a plan which compile did not make has no place here; it is in the calls with a plan, for Rattle programs. */
#ifndef STRIDED_H
#define STRIDED_H

#include <stddef.h>
#include <stdint.h>

#ifdef __cplusplus
extern "C" {
#endif

/* The version of these functions, which grows with every change of them, and which the function returns. An archive of another
   version has no function of this name, and a program that includes this header does not link with it (with GCC and Clang; with
   other compilers, if it calls the function). */
#define STRIDED_VERSION 4
uint64_t strided_version_4(void);
#if defined(__GNUC__)
__attribute__((used)) static uint64_t (*const strided_version_wanted)(void) = strided_version_4;
#endif

#define STRIDED_RANK_LIMIT 8
#define STRIDED_LIST_LIMIT 16

/* The first number of an answer. */
enum {
    STRIDED_DONE = 0,
    STRIDED_STRIDE_LENGTH_MISMATCH = 1, /* extents and strides differ in length */
    STRIDED_RANK_TOO_LARGE = 2,         /* a: the rank of the first such layout; b: the limit */
    STRIDED_OFFSET_OVERFLOW = 3,        /* a product, span, step or reset does not fit */
    STRIDED_NON_INJECTIVE_OUTPUT = 4,   /* the destination is not nested */
    STRIDED_RANK_MISMATCH = 5,          /* a and b: two counts that differ */
    STRIDED_INVALID_AXIS = 6,           /* a: the axis; b: the rank */
    STRIDED_SHAPE_MISMATCH = 7,         /* a and b: the ranks of the given and of the expected shape */
    STRIDED_PLAN_LAYOUT_MISMATCH = 8,   /* a call's layout is not the one that is compiled for */
    STRIDED_BUFFER_BOUNDS = 9,          /* a: the view, from 1; or a: 0, b: the bytes that a writer needs */
    STRIDED_JOB_BYTES = 10,             /* a: the place in a stored job, from 0 */
    STRIDED_UNLISTED_RULE = 18          /* a: the rule as it was given; before every other refusal */
};

/* The element of a stored job. */
enum { STRIDED_I32 = 1, STRIDED_F64 = 2 };

/* The rule of a scatter: what an element becomes of what it holds and an update. STRIDED_CEILING is listed for f64 alone. */
enum { STRIDED_ADD = 1, STRIDED_LOWEST = 2, STRIDED_HIGHEST = 3, STRIDED_REPLACE = 4, STRIDED_CEILING = 5 };

/* ---- stored jobs: a gather or a scatter with its views, as bytes */

/* Whether the bytes store a job; 10 where they do not. A job that is stored may still be refused when it is run. answer[3] is 0. */
void strided_read_job(const uint8_t *bytes, size_t bytes_count, uint64_t answer[4]);

/* Writes a job to the front of `out`; bytes past it stay. Refuses by 10 (a: 6, an element that is not listed), 1, 2, 5 (a list
   of more than STRIDED_LIST_LIMIT) and 9. The job's first four bytes, big-endian, count those that follow. answer[3] is 0. */
void strided_write_gather_job(
    uint64_t element,
    const uint64_t *operand_extents, size_t operand_extents_count,
    const int64_t *operand_strides, size_t operand_strides_count, int64_t operand_offset,
    const uint64_t *index_extents, size_t index_extents_count,
    const int64_t *index_strides, size_t index_strides_count, int64_t index_offset,
    const uint64_t *dest_extents, size_t dest_extents_count,
    const int64_t *dest_strides, size_t dest_strides_count, int64_t dest_offset,
    const uint64_t *offset_dims, size_t offset_dims_count,
    const uint64_t *collapsed_slice_dims, size_t collapsed_slice_dims_count,
    const uint64_t *start_index_map, size_t start_index_map_count,
    uint64_t index_vector_dim,
    const uint64_t *slice_sizes, size_t slice_sizes_count,
    uint8_t *out, size_t out_count, uint64_t answer[4]);

void strided_write_scatter_job(
    uint64_t element,
    const uint64_t *index_extents, size_t index_extents_count,
    const int64_t *index_strides, size_t index_strides_count, int64_t index_offset,
    const uint64_t *updates_extents, size_t updates_extents_count,
    const int64_t *updates_strides, size_t updates_strides_count, int64_t updates_offset,
    const uint64_t *dest_extents, size_t dest_extents_count,
    const int64_t *dest_strides, size_t dest_strides_count, int64_t dest_offset,
    const uint64_t *update_window_dims, size_t update_window_dims_count,
    const uint64_t *inserted_window_dims, size_t inserted_window_dims_count,
    const uint64_t *scatter_dims_to_operand_dims, size_t scatter_dims_to_operand_dims_count,
    uint64_t index_vector_dim,
    uint8_t *out, size_t out_count, uint64_t answer[4]);

/* Read a job, compile it and call it; a scatter adds. Done, answer[3] is how many windows slid. A job of another kind or element is
   refused by 10, at byte 5 or 6; none is refused by 8. */
void strided_gather_i32(
    const uint8_t *job, size_t job_count, const int32_t *operand, size_t operand_count,
    const int64_t *starts, size_t starts_count, int32_t *destination, size_t destination_count, uint64_t answer[4]);
void strided_gather_f64(
    const uint8_t *job, size_t job_count, const double *operand, size_t operand_count,
    const int64_t *starts, size_t starts_count, double *destination, size_t destination_count, uint64_t answer[4]);
void strided_scatter_i32(
    const uint8_t *job, size_t job_count, const int64_t *starts, size_t starts_count,
    const int32_t *updates, size_t updates_count, int32_t *destination, size_t destination_count, uint64_t answer[4]);
void strided_scatter_f64(
    const uint8_t *job, size_t job_count, const int64_t *starts, size_t starts_count,
    const double *updates, size_t updates_count, double *destination, size_t destination_count, uint64_t answer[4]);

/* ---- without a stored job */

/* Compile's refusal alone. answer[3] is 0. */
void strided_gather_refusal(
    const uint64_t *operand_extents, size_t operand_extents_count,
    const int64_t *operand_strides, size_t operand_strides_count,
    const uint64_t *index_extents, size_t index_extents_count,
    const int64_t *index_strides, size_t index_strides_count,
    const uint64_t *dest_extents, size_t dest_extents_count,
    const int64_t *dest_strides, size_t dest_strides_count,
    const uint64_t *offset_dims, size_t offset_dims_count,
    const uint64_t *collapsed_slice_dims, size_t collapsed_slice_dims_count,
    const uint64_t *start_index_map, size_t start_index_map_count,
    uint64_t index_vector_dim,
    const uint64_t *slice_sizes, size_t slice_sizes_count,
    uint64_t answer[4]);

void strided_scatter_refusal(
    const uint64_t *index_extents, size_t index_extents_count,
    const int64_t *index_strides, size_t index_strides_count,
    const uint64_t *updates_extents, size_t updates_extents_count,
    const int64_t *updates_strides, size_t updates_strides_count,
    const uint64_t *dest_extents, size_t dest_extents_count,
    const int64_t *dest_strides, size_t dest_strides_count,
    const uint64_t *update_window_dims, size_t update_window_dims_count,
    const uint64_t *inserted_window_dims, size_t inserted_window_dims_count,
    const uint64_t *scatter_dims_to_operand_dims, size_t scatter_dims_to_operand_dims_count,
    uint64_t index_vector_dim,
    uint64_t answer[4]);

/* Compile by the first three layouts and the lists, then call on the three views. Done, answer[3] is how many windows slid. A view
   whose layout is not the one that was compiled for it is refused by 8. A scatter goes by its rule; the limit is read by
   STRIDED_CEILING alone, and may be any f64. */
void strided_raw_gather_i32(
    const uint64_t *operand_extents, size_t operand_extents_count,
    const int64_t *operand_strides, size_t operand_strides_count,
    const uint64_t *index_extents, size_t index_extents_count,
    const int64_t *index_strides, size_t index_strides_count,
    const uint64_t *dest_extents, size_t dest_extents_count,
    const int64_t *dest_strides, size_t dest_strides_count,
    const uint64_t *offset_dims, size_t offset_dims_count,
    const uint64_t *collapsed_slice_dims, size_t collapsed_slice_dims_count,
    const uint64_t *start_index_map, size_t start_index_map_count,
    uint64_t index_vector_dim,
    const uint64_t *slice_sizes, size_t slice_sizes_count,
    const uint64_t *operand_view_extents, size_t operand_view_extents_count,
    const int64_t *operand_view_strides, size_t operand_view_strides_count, int64_t operand_offset,
    const uint64_t *index_view_extents, size_t index_view_extents_count,
    const int64_t *index_view_strides, size_t index_view_strides_count, int64_t index_offset,
    const uint64_t *dest_view_extents, size_t dest_view_extents_count,
    const int64_t *dest_view_strides, size_t dest_view_strides_count, int64_t dest_offset,
    const int32_t *operand, size_t operand_count,
    const int64_t *starts, size_t starts_count,
    int32_t *dest, size_t dest_count,
    uint64_t answer[4]);

void strided_raw_gather_f64(
    const uint64_t *operand_extents, size_t operand_extents_count,
    const int64_t *operand_strides, size_t operand_strides_count,
    const uint64_t *index_extents, size_t index_extents_count,
    const int64_t *index_strides, size_t index_strides_count,
    const uint64_t *dest_extents, size_t dest_extents_count,
    const int64_t *dest_strides, size_t dest_strides_count,
    const uint64_t *offset_dims, size_t offset_dims_count,
    const uint64_t *collapsed_slice_dims, size_t collapsed_slice_dims_count,
    const uint64_t *start_index_map, size_t start_index_map_count,
    uint64_t index_vector_dim,
    const uint64_t *slice_sizes, size_t slice_sizes_count,
    const uint64_t *operand_view_extents, size_t operand_view_extents_count,
    const int64_t *operand_view_strides, size_t operand_view_strides_count, int64_t operand_offset,
    const uint64_t *index_view_extents, size_t index_view_extents_count,
    const int64_t *index_view_strides, size_t index_view_strides_count, int64_t index_offset,
    const uint64_t *dest_view_extents, size_t dest_view_extents_count,
    const int64_t *dest_view_strides, size_t dest_view_strides_count, int64_t dest_offset,
    const double *operand, size_t operand_count,
    const int64_t *starts, size_t starts_count,
    double *dest, size_t dest_count,
    uint64_t answer[4]);

void strided_raw_scatter_i32(
    uint64_t rule,
    const uint64_t *index_extents, size_t index_extents_count,
    const int64_t *index_strides, size_t index_strides_count,
    const uint64_t *updates_extents, size_t updates_extents_count,
    const int64_t *updates_strides, size_t updates_strides_count,
    const uint64_t *dest_extents, size_t dest_extents_count,
    const int64_t *dest_strides, size_t dest_strides_count,
    const uint64_t *update_window_dims, size_t update_window_dims_count,
    const uint64_t *inserted_window_dims, size_t inserted_window_dims_count,
    const uint64_t *scatter_dims_to_operand_dims, size_t scatter_dims_to_operand_dims_count,
    uint64_t index_vector_dim,
    const uint64_t *index_view_extents, size_t index_view_extents_count,
    const int64_t *index_view_strides, size_t index_view_strides_count, int64_t index_offset,
    const uint64_t *updates_view_extents, size_t updates_view_extents_count,
    const int64_t *updates_view_strides, size_t updates_view_strides_count, int64_t updates_offset,
    const uint64_t *dest_view_extents, size_t dest_view_extents_count,
    const int64_t *dest_view_strides, size_t dest_view_strides_count, int64_t dest_offset,
    const int64_t *starts, size_t starts_count,
    const int32_t *updates, size_t updates_count,
    int32_t *dest, size_t dest_count,
    uint64_t answer[4]);

void strided_raw_scatter_f64(
    uint64_t rule, double limit,
    const uint64_t *index_extents, size_t index_extents_count,
    const int64_t *index_strides, size_t index_strides_count,
    const uint64_t *updates_extents, size_t updates_extents_count,
    const int64_t *updates_strides, size_t updates_strides_count,
    const uint64_t *dest_extents, size_t dest_extents_count,
    const int64_t *dest_strides, size_t dest_strides_count,
    const uint64_t *update_window_dims, size_t update_window_dims_count,
    const uint64_t *inserted_window_dims, size_t inserted_window_dims_count,
    const uint64_t *scatter_dims_to_operand_dims, size_t scatter_dims_to_operand_dims_count,
    uint64_t index_vector_dim,
    const uint64_t *index_view_extents, size_t index_view_extents_count,
    const int64_t *index_view_strides, size_t index_view_strides_count, int64_t index_offset,
    const uint64_t *updates_view_extents, size_t updates_view_extents_count,
    const int64_t *updates_view_strides, size_t updates_view_strides_count, int64_t updates_offset,
    const uint64_t *dest_view_extents, size_t dest_view_extents_count,
    const int64_t *dest_view_strides, size_t dest_view_strides_count, int64_t dest_offset,
    const int64_t *starts, size_t starts_count,
    const double *updates, size_t updates_count,
    double *dest, size_t dest_count,
    uint64_t answer[4]);

/* ---- scatters with an operand */

/* Compile's refusal alone. answer[3] is 0. The first that is met: 1, of the operand, the index, the updates and the destination;
   2, of the same in turn; 3, where the product of the extents of the operand, the index or the updates does not fit; 7, where the
   destination's extents are not the operand's (a: the destination's rank; b: the operand's); 3, where the destination's span does
   not fit, then the operand's; 4; and then as in strided_scatter_refusal. */
void strided_scatter_operand_refusal(
    const uint64_t *operand_extents, size_t operand_extents_count,
    const int64_t *operand_strides, size_t operand_strides_count,
    const uint64_t *index_extents, size_t index_extents_count,
    const int64_t *index_strides, size_t index_strides_count,
    const uint64_t *updates_extents, size_t updates_extents_count,
    const int64_t *updates_strides, size_t updates_strides_count,
    const uint64_t *dest_extents, size_t dest_extents_count,
    const int64_t *dest_strides, size_t dest_strides_count,
    const uint64_t *update_window_dims, size_t update_window_dims_count,
    const uint64_t *inserted_window_dims, size_t inserted_window_dims_count,
    const uint64_t *scatter_dims_to_operand_dims, size_t scatter_dims_to_operand_dims_count,
    uint64_t index_vector_dim,
    uint64_t answer[4]);

/* Compile by the first four layouts and the lists, then call on the four views: 8 where a view's layout is not the one that was
   compiled for it, then 9 for the first view (operand 1, index 2, updates 3, destination 4) that reaches outside its slice. Done,
   each cell of the destination has become the operand's at the same coordinates, bit for bit, and then the updates have gone on by
   the rule, whose promises hold with the operand's cell as what was held before. Elements that no cell of the destination names
   stay. answer[3] is how many windows slid: the copy makes no difference to it. The rule and the limit are those of the scatters
   above; an unlisted rule is refused first, and nothing is copied then. */
void strided_raw_scatter_operand_i32(
    uint64_t rule,
    const uint64_t *operand_extents, size_t operand_extents_count,
    const int64_t *operand_strides, size_t operand_strides_count,
    const uint64_t *index_extents, size_t index_extents_count,
    const int64_t *index_strides, size_t index_strides_count,
    const uint64_t *updates_extents, size_t updates_extents_count,
    const int64_t *updates_strides, size_t updates_strides_count,
    const uint64_t *dest_extents, size_t dest_extents_count,
    const int64_t *dest_strides, size_t dest_strides_count,
    const uint64_t *update_window_dims, size_t update_window_dims_count,
    const uint64_t *inserted_window_dims, size_t inserted_window_dims_count,
    const uint64_t *scatter_dims_to_operand_dims, size_t scatter_dims_to_operand_dims_count,
    uint64_t index_vector_dim,
    const uint64_t *operand_view_extents, size_t operand_view_extents_count,
    const int64_t *operand_view_strides, size_t operand_view_strides_count, int64_t operand_offset,
    const uint64_t *index_view_extents, size_t index_view_extents_count,
    const int64_t *index_view_strides, size_t index_view_strides_count, int64_t index_offset,
    const uint64_t *updates_view_extents, size_t updates_view_extents_count,
    const int64_t *updates_view_strides, size_t updates_view_strides_count, int64_t updates_offset,
    const uint64_t *dest_view_extents, size_t dest_view_extents_count,
    const int64_t *dest_view_strides, size_t dest_view_strides_count, int64_t dest_offset,
    const int32_t *operand, size_t operand_count,
    const int64_t *starts, size_t starts_count,
    const int32_t *updates, size_t updates_count,
    int32_t *dest, size_t dest_count,
    uint64_t answer[4]);

void strided_raw_scatter_operand_f64(
    uint64_t rule, double limit,
    const uint64_t *operand_extents, size_t operand_extents_count,
    const int64_t *operand_strides, size_t operand_strides_count,
    const uint64_t *index_extents, size_t index_extents_count,
    const int64_t *index_strides, size_t index_strides_count,
    const uint64_t *updates_extents, size_t updates_extents_count,
    const int64_t *updates_strides, size_t updates_strides_count,
    const uint64_t *dest_extents, size_t dest_extents_count,
    const int64_t *dest_strides, size_t dest_strides_count,
    const uint64_t *update_window_dims, size_t update_window_dims_count,
    const uint64_t *inserted_window_dims, size_t inserted_window_dims_count,
    const uint64_t *scatter_dims_to_operand_dims, size_t scatter_dims_to_operand_dims_count,
    uint64_t index_vector_dim,
    const uint64_t *operand_view_extents, size_t operand_view_extents_count,
    const int64_t *operand_view_strides, size_t operand_view_strides_count, int64_t operand_offset,
    const uint64_t *index_view_extents, size_t index_view_extents_count,
    const int64_t *index_view_strides, size_t index_view_strides_count, int64_t index_offset,
    const uint64_t *updates_view_extents, size_t updates_view_extents_count,
    const int64_t *updates_view_strides, size_t updates_view_strides_count, int64_t updates_offset,
    const uint64_t *dest_view_extents, size_t dest_view_extents_count,
    const int64_t *dest_view_strides, size_t dest_view_strides_count, int64_t dest_offset,
    const double *operand, size_t operand_count,
    const int64_t *starts, size_t starts_count,
    const double *updates, size_t updates_count,
    double *dest, size_t dest_count,
    uint64_t answer[4]);

#ifdef __cplusplus
}
#endif

#endif
