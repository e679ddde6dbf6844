/* Wesalondo for C and C++: the proved library libwesalondo.a, which `tools/build wesalondo` makes, for x86-64 Linux.

   ANSWERS. A call answers 0, or the number of a refusal (WES_TOO_FEW and so on; README.md has them all). The checkers also answer a fault, which is
   its letter: 'A' to 'E'. Where a call refuses, every single value and every array of fixed length that it hands back is zeros (`made`, `point`, ..).
   Slices stay as they were, but 6 leaves every number of the slices lent to a fit zero, those of `open` too. Where several refusals would do, the first of
   9, 3, 1, 2, 4, 5 is given, and 6 or 8 only where none of these is; wes_write_file, wes_pack_file, wes_export_path and wes_import_path have orders of
   their own.

   RANGES, behind refusal 5. A coordinate is finite and at most 1,000,000 in magnitude, a tangent's component at most 2; a tolerance is finite and not below
   zero; a parameter or an estimate is finite; a dimension is 0 or 1; there are at most 64 rounds of Newton's.

   LIMITS, behind refusal 2. The fits by blocks, the checkers, wes_read_file and wes_write_file take up to 100,000 marks; wes_fit_curve_cubic,
   wes_fit_curve_cubic_flat and wes_list_outline 512; wes_judge_file and wes_save_fit 4,096, and files of up to 434,120 bytes, with 9 above; wes_pack_file,
   wes_unpack_file and wes_salvage any number.

   SLICES. A slice is a pointer and how many elements it has (`marks`, `marks_len`). Marks are x and y in turn, so n marks are a slice of 2n numbers.
   An empty slice may be NULL with length 0. A call never reads or writes beyond a slice, whatever the numbers in it, and ends on every input.

   WHAT THE CALLER OWES, for nothing can test it:
   - each pointer is valid for as many elements as its length says, and aligned as its type is; no array that a call writes overlaps another of the call's;
   - this header's declarations, unchanged;
   - the default float environment: rounding to nearest, subnormals kept. Never link with -ffast-math (or -Ofast): it has the processor
     take subnormal numbers for zero, in this library too, and what is proved no longer holds;
   - a stack with room for the call (STACK below).
   The library keeps nothing between calls and has no data of its own: calls from several threads at once are fine, on different slices.

   STACK, in KB of 1,024 bytes, rounded up; that of the second engine in bytes. These figures are measured, not proved: the most that bindings/c/stack.c saw on
   2026-11-26.
     wes_fit_joined 74 KB, wes_fit_ring 74 KB, wes_fit_curve 73 KB, wes_fit_curve_loop 73 KB, wes_fit_curve_cubic 177 KB,
     wes_fit_joined_flat 5672 bytes, wes_fit_ring_flat 5672 bytes, wes_fit_curve_cubic_flat 5672 bytes,
     wes_nearest_point_on_curve 24 KB, wes_list_outline 202 KB, wes_judge_file 801 KB, wes_save_fit 1225 KB; every other call at most 1 KB.
   Seen over outlines of 99,998 marks, whose blocks are the longest, and files of them (512 for the direct fits and the listing, 4,096 for the other two on
   files), among them zigzags that a fit cuts one mark at a time, as deep as it can go. A fit by blocks takes so much for its longest block, of 200 marks,
   however many there are: some 0.4 KB for a mark of it, as a direct fit does for each of its marks. The second engine takes as much for five marks as for all
   of these, and no input can make it take more: bindings/c/graph.py goes through the archive's code along every call, and adds up what each function takes (of
   memcpy and memset, which the archive does not hold, it knows nothing). Slices are the caller's: for 100,000 marks those of a fit are 8.8 MB beside 1.6 MB of marks,
   and `open` 0.8 MB, which no usual stack has room for.
*/
#ifndef WESALONDO_H
#define WESALONDO_H

#include <stdbool.h>
#include <stddef.h>
#include <stdint.h>

#if !defined(__x86_64__) || !defined(__linux__)
#error "libwesalondo.a is for x86-64 Linux"
#endif

#ifdef __cplusplus
extern "C" {
#pragma push_macro("restrict") /* C++ has no such word; the caller's own, if there is one, comes back below */
#undef restrict
#define restrict __restrict
#endif

/* The refusals. 7 is given to nothing. */
enum {
    WES_OK = 0,
    WES_TOO_FEW = 1,       /* fewer than 2 marks; fewer than 3 of a ring */
    WES_TOO_MANY = 2,      /* more marks than the call takes: LIMITS above */
    WES_ODD = 3,           /* a mark slice of odd length */
    WES_NO_ROOM = 4,       /* too little room in a lent slice */
    WES_OUT_OF_RANGE = 5,  /* an input number is out of range */
    WES_NOT_FINITE = 6,    /* an operation of the run gave NaN or infinity */
    WES_TOO_DEEP = 8,      /* the nearest search goes too deep */
    WES_BADLY_FORMED = 9,  /* a house file is badly formed, or its curves are not of the kind that suits its number of marks; or is too long for the call */
    WES_TOO_LARGE = 10,    /* a number of path data, or on the way to it, is above 1,000,000,000 in magnitude */
    WES_NO_PATH = 11,      /* a text is not path data that is read */
    WES_NOT_JOINED = 12    /* curves that do not meet bit for bit, on the way to path data or to a packed file; or none, on the way to path data */
};

/* ---- Fits: marks to curves.
   For n marks lend 9(n-1) numbers in `curves`, n-1 in `firsts` and in `worsts`, n in `params`; for wes_fit_ring 9n, n, n and n+1. `made` is how many curves
   there are. Curve j is the nine numbers from curves[9*j] on: start, first control, second control, end, each x then y, and the largest distance of a
   mark under it. firsts[j] is the number of its first mark, worsts[j] that of the mark with that distance; params[i] is where on its curve mark i lies. */

/* Fits an outline without gaps, and without a kink where its blocks meet. This is the one to use for an open outline. */
uint32_t wes_fit_joined(const double *restrict marks, size_t marks_len, double tolerance, double *restrict curves, size_t curves_len,
                        uint32_t *restrict firsts, size_t firsts_len, uint32_t *restrict worsts, size_t worsts_len,
                        double *restrict params, size_t params_len, size_t *restrict made);

/* Fits a closed outline: mark 0 counts again behind the last one, and the last curve comes back to it. */
uint32_t wes_fit_ring(const double *restrict marks, size_t marks_len, double tolerance, double *restrict curves, size_t curves_len,
                      uint32_t *restrict firsts, size_t firsts_len, uint32_t *restrict worsts, size_t worsts_len,
                      double *restrict params, size_t params_len, size_t *restrict made);

/* Fits as flo_curves' fit_curve does: in blocks that do not meet. The checkers do not pass such a list of more than one block. */
uint32_t wes_fit_curve(const double *restrict marks, size_t marks_len, double tolerance, double *restrict curves, size_t curves_len,
                       uint32_t *restrict firsts, size_t firsts_len, uint32_t *restrict worsts, size_t worsts_len,
                       double *restrict params, size_t params_len, size_t *restrict made);

/* Fits as flo_curves' fit_curve_loop does: the same blocks, with tangents from beyond their ends, the last mark being followed by the first. */
uint32_t wes_fit_curve_loop(const double *restrict marks, size_t marks_len, double tolerance, double *restrict curves, size_t curves_len,
                            uint32_t *restrict firsts, size_t firsts_len, uint32_t *restrict worsts, size_t worsts_len,
                            double *restrict params, size_t params_len, size_t *restrict made);

/* Fits up to 512 marks in one piece, with the tangents at its two ends given, as flo_curves' fit_curve_cubic does. They are unit vectors from the first
   and the last mark towards the curve's controls, so the second one points backwards. */
uint32_t wes_fit_curve_cubic(const double *restrict marks, size_t marks_len, double start_x, double start_y, double end_x, double end_y,
                             double tolerance, double *restrict curves, size_t curves_len,
                             uint32_t *restrict firsts, size_t firsts_len, uint32_t *restrict worsts, size_t worsts_len,
                             double *restrict params, size_t params_len, size_t *restrict made);

/* ---- Fits by the second engine, for a board with a small stack: the direct, the joined and the ring fit, with the same answers, bit for bit, and the same
   refusals. What they take of the stack does not grow with the outline (STACK above): parts that are still open, which wait to be fitted, are kept in a slice, and
   no function of theirs calls itself, not by way of others either. Lend room as for the fits above, and 2n numbers more in `open`, for n marks as they are given,
   of a ring too; fewer are refused by 4. What `open` holds before does not matter. A call that comes to run, whether it is accepted or refused by 6, leaves every
   number of `open` zero; refusals 1 to 5 leave it as it was. */

/* wes_fit_curve_cubic by the second engine. */
uint32_t wes_fit_curve_cubic_flat(const double *restrict marks, size_t marks_len, double start_x, double start_y, double end_x, double end_y,
                                  double tolerance, double *restrict curves, size_t curves_len,
                                  uint32_t *restrict firsts, size_t firsts_len, uint32_t *restrict worsts, size_t worsts_len,
                                  double *restrict params, size_t params_len, uint32_t *restrict open, size_t open_len,
                                  size_t *restrict made);

/* wes_fit_joined by the second engine. */
uint32_t wes_fit_joined_flat(const double *restrict marks, size_t marks_len, double tolerance, double *restrict curves, size_t curves_len,
                             uint32_t *restrict firsts, size_t firsts_len, uint32_t *restrict worsts, size_t worsts_len,
                             double *restrict params, size_t params_len, uint32_t *restrict open, size_t open_len, size_t *restrict made);

/* wes_fit_ring by the second engine. */
uint32_t wes_fit_ring_flat(const double *restrict marks, size_t marks_len, double tolerance, double *restrict curves, size_t curves_len,
                           uint32_t *restrict firsts, size_t firsts_len, uint32_t *restrict worsts, size_t worsts_len,
                           double *restrict params, size_t params_len, uint32_t *restrict open, size_t open_len, size_t *restrict made);

/* ---- Checkers: whether `count` curves are a sound list for these marks and this tolerance, whoever made them.
   0 is a sound list; 'A' to 'E' the first fault, at the curve number `curve` and the mark number `mark`: a wrong count or first mark (A), a curve's numbers or
   ends (B), a parameter (C), a mark too far off (D), a worst mark or distance that is not the list's own (E). A count of 0 is fault A. Slices may be longer
   than the list; what stands behind it is not looked at. */

/* Judges curves of nine numbers with their worst marks, as the fits hand them out, over an open outline. */
uint32_t wes_check_worst(const double *marks, size_t marks_len, double tolerance, size_t count, const double *curves, size_t curves_len,
                         const uint32_t *firsts, size_t firsts_len, const uint32_t *worsts, size_t worsts_len,
                         const double *params, size_t params_len, size_t *restrict curve, size_t *restrict mark);

/* The same over a closed outline, with n+1 parameters for n marks. */
uint32_t wes_check_worst_ring(const double *marks, size_t marks_len, double tolerance, size_t count, const double *curves, size_t curves_len,
                              const uint32_t *firsts, size_t firsts_len, const uint32_t *worsts, size_t worsts_len,
                              const double *params, size_t params_len, size_t *restrict curve, size_t *restrict mark);

/* Judges curves of eight numbers, without worst marks, over an open outline. */
uint32_t wes_check_list(const double *marks, size_t marks_len, double tolerance, size_t count, const double *curves, size_t curves_len,
                        const uint32_t *firsts, size_t firsts_len, const double *params, size_t params_len,
                        size_t *restrict curve, size_t *restrict mark);

/* The same over a closed outline. */
uint32_t wes_check_ring(const double *marks, size_t marks_len, double tolerance, size_t count, const double *curves, size_t curves_len,
                        const uint32_t *firsts, size_t firsts_len, const double *params, size_t params_len,
                        size_t *restrict curve, size_t *restrict mark);

/* Any of these four: `ring` for a closed outline, `nine` for curves of nine numbers with worst marks (else `worsts` is not looked at). */
uint32_t wes_check(bool ring, bool nine, const double *marks, size_t marks_len, double tolerance, size_t count,
                   const double *curves, size_t curves_len, const uint32_t *firsts, size_t firsts_len,
                   const uint32_t *worsts, size_t worsts_len, const double *params, size_t params_len,
                   size_t *restrict curve, size_t *restrict mark);

/* ---- One curve. Its eight numbers are start, first control, second control, end, each x then y: &curves[9*j] of a fit will do. */

/* The point of a curve at t. */
uint32_t wes_basis(const double curve[8], double t, double point[2]);

/* The same point by other roundings: flo_curves' de_casteljau4. */
uint32_t wes_de_casteljau4(const double curve[8], double t, double point[2]);

/* The point at t of a quadratic curve of three points. */
uint32_t wes_de_casteljau3(const double curve[6], double t, double point[2]);

/* The point at t of a line of two points. */
uint32_t wes_de_casteljau2(const double curve[4], double t, double point[2]);

/* The four coefficients of a curve, that of the cube first, in x (dimension 0) or in y (dimension 1). */
uint32_t wes_bezier_coefficients(const double curve[8], size_t dimension, double coefficients[4]);

/* The two parts of a curve that is cut at t. */
uint32_t wes_subdivide4(const double curve[8], double t, double left[8], double right[8]);

/* The point of a curve that is nearest to (x, y): its parameter, and the square of its distance. */
uint32_t wes_nearest_point_on_curve(const double curve[8], double x, double y, double *restrict t, double *restrict distance_sq);

/* A better parameter than an estimated one, in at most num_iterations rounds of Newton's (up to 64). */
uint32_t wes_nearest_point_on_curve_newton_raphson_with_estimate(const double curve[8], double x, double y, double estimated_t,
                                                                 size_t num_iterations, double *t);

/* ---- House files. Numbers are moved as their bits and not judged: a NaN comes as it was written.
   A file of n marks has 20 + 16n bytes, and with k curves 6 + 8n more and for each curve
       82, or 72 of eight numbers, up to 4,096 marks: its record is of kind 6, or 3, and a mark's number has two bytes;
       86, or 74 of eight numbers, above: kind 7, or 5, and four bytes.
   There are fewer curves than marks, so the longest file has 10,999,940 bytes, and 434,120 where it has 4,096 marks.
   A packed file has in place of its curves' records one of kind 8, with each joint once: 27 bytes, and for each curve 64, or 52 of eight numbers. Every call
   that reads a file takes packed ones too, as the files that they were packed from. */

/* Takes a file apart. For n marks and k curves lend 2n numbers in `marks`, k in `firsts`, 9k in `curves` and k in `worsts` (8k and none where `nine` is false),
   and n in `params`; a file without curves wants no room but that of its marks, and `nine` is false then. Files of no mark or one are taken. Refusals: 9, 2, 4;
   a kind that does not suit the number of marks is 9. */
uint32_t wes_read_file(const uint8_t *file, size_t file_len, double *restrict tolerance, double *restrict marks, size_t marks_len,
                       uint32_t *restrict firsts, size_t firsts_len, uint32_t *restrict worsts, size_t worsts_len,
                       double *restrict curves, size_t curves_len, double *restrict params, size_t params_len,
                       size_t *restrict mark_count, size_t *restrict curve_count, bool *restrict nine);

/* Puts a file together, with `count` curves, in the first `size` bytes of `out`. `nine` is as for wes_check. Refusals: 3, 2, 4, 9, in this order; 9 is
   as many curves as marks, or more, and up to 4,096 marks also a mark number above 65,535. */
uint32_t wes_write_file(bool nine, const double *tolerance, const double *marks, size_t marks_len, size_t count,
                        const uint32_t *firsts, size_t firsts_len, const uint32_t *worsts, size_t worsts_len,
                        const double *curves, size_t curves_len, const double *params, size_t params_len,
                        uint8_t *restrict out, size_t out_len, size_t *restrict size);

/* Fits a file of up to 512 marks and lists its curves as text, in the first `size` bytes of `out`; 78,233 bytes are room for every listing. A refused
   file is the text "REFUSED n\n", one of more than 65,536 bytes "REFUSED 9\n"; the call itself, as the two below, then answers 0, and refuses by 4 alone. */
uint32_t wes_list_outline(const uint8_t *file, size_t file_len, uint8_t *restrict out, size_t out_len, size_t *restrict size);

/* Says in one line whether a file's curves are sound: "PASSED marks curves\n", "FAULT A curve mark\n", "NO CURVES marks\n" (whatever its marks are) or
   "REFUSED n\n" (2 for more than 4,096 marks, 9 for more than 434,120 bytes, too). 64 bytes are room for it. Longer files: wes_read_file, wes_check. */
uint32_t wes_judge_file(const uint8_t *file, size_t file_len, uint8_t *restrict out, size_t out_len, size_t *restrict size);

/* Fits a file's marks, up to 4,096, and writes them with their curves, as a file. 434,120 bytes are room for every file, and no longer one is taken; a refused
   one gives the text "REFUSED n\n" instead. Longer files: wes_read_file, wes_fit_joined, wes_write_file. */
uint32_t wes_save_fit(const uint8_t *file, size_t file_len, uint8_t *restrict out, size_t out_len, size_t *restrict size);

/* Packs a file, in the first `size` bytes of `out`: 9 bytes more than the file has are room for every one. A file without curves stays as it is. Refusals: 9 (also
   a packed file with curves), 12 where a curve does not start with the very bits that the one before it ends with, 4, in this order. */
uint32_t wes_pack_file(const uint8_t *file, size_t file_len, uint8_t *restrict out, size_t out_len, size_t *restrict size);

/* Unpacks a file: gives the bytes that were packed, for which 22 more for each curve are room. A file without curves stays as it is. Refusals: 9 (also a
   file with curves that is not packed), 4, in this order. */
uint32_t wes_unpack_file(const uint8_t *file, size_t file_len, uint8_t *restrict out, size_t out_len, size_t *restrict size);

/* Cleans a shaky trace. Of a file's marks, packed or not, it drops each that has a coordinate that is not finite or exceeds 1,000,000 in magnitude (RANGE), and else
   each that is equal in both coordinates to the last one kept (EQUAL; as numbers, so that minus zero equals zero). The tolerance and the marks kept, with their
   bits as they were, make a file without curves in the first `size` bytes of `out`, and the list of the others is the text in the first `report_size` bytes of
   `report`: "KEPT k DROPPED d\n", then "DROP number RANGE\n" or "DROP number EQUAL\n" for each in order, by its number in the file given, counted from 0. As many
   bytes as the file has are room for every cleaned one, and 55 and 21 for each mark for every list. A cleaned file that is cleaned again stays as it is, and nothing
   is dropped. It is not promised that a fit takes it: there may be one mark left (1), or marks so near to each other that they still make it answer 6, or a
   tolerance out of range (5). Refusals: 9, 4 (where either slice is too short), in this order; both slices stay as they were then. */
uint32_t wes_salvage(const uint8_t *file, size_t file_len, uint8_t *restrict out, size_t out_len, uint8_t *restrict report, size_t report_len,
                     size_t *restrict size, size_t *restrict report_size);

/* ---- Path data, as SVG 1.1 has it: one subpath of absolute M, L, C and Z. */

/* Writes `count` curves as path data, in the first `size` bytes of `out`: "M x y", for each curve " C x1 y1 x2 y2 x y", and " Z" for a ring; one blank between
   words, no newline and no zero behind it. Each number is the exact one rounded to thousandths, halves away from zero, with no needless zero, and never -0.
   `nine` is as for wes_check; the ninth number of a curve is neither written nor looked at. 92 bytes for each curve and 33 more are room for every text.
   Refusals: 5 (here only a number that is not finite), 10, 12, 4 (also a `count` that the slice does not hold), in this order, each of all curves first. */
uint32_t wes_export_path(bool nine, const double *curves, size_t curves_len, size_t count, bool ring,
                         uint8_t *restrict out, size_t out_len, size_t *restrict size);

/* Reads path data into curves of eight numbers, `count` of them, and says whether a Z closed it. Numbers have three places at most and no exponent; each becomes the
   nearest number to its decimal, a minus zero plus zero. White space and commas are as SVG's grammar has them, pairs behind that of M are lines, and there is one M alone.
   A line becomes the curve that a fit makes of two marks; Z adds one back to the M, if the path is not there already. "M 1 2" is a path of no curves.
   Eight numbers for each curve are room enough, and a text has at most a quarter as many curves as bytes. Refusals: 11, 10, 4, in this order. */
uint32_t wes_import_path(const uint8_t *text, size_t text_len, double *restrict curves, size_t curves_len,
                         size_t *restrict count, bool *restrict closed);

/* ---- Numbers. These three refuse nothing. */

/* How many marks a block of the fits has, where n marks are cut (a ring's mark 0 counts twice). */
size_t wes_max_points_to_fit(size_t n);

/* How many blocks a joined fit of n marks has; for a ring of n marks ask for n+1. */
size_t wes_joined_blocks(size_t n);

/* The square root, rounded to the nearest number; NaN below zero. */
double wes_sqrt(double x);

#ifdef __cplusplus
#undef restrict
#pragma pop_macro("restrict")
}
#endif
#endif
