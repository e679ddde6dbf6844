/* What the test programs share: counted checks, slices lent between guard bytes, the fits of both engines under one signature, random
   numbers and files. */
#ifndef TEST_H
#define TEST_H

#include <stdio.h>
#include <string.h>
#include "wesalondo.h"

#define COUNT(list) (sizeof(list) / sizeof *(list))

/* The most marks of a fit by blocks, a list and a file, and of a direct fit; and the longest file. A file of more than NARROW_MARKS has mark
   numbers of four bytes in place of two. wes_judge_file and wes_save_fit take BENCH_MARKS in BENCH_FILE bytes. */
enum {
    MOST_MARKS = 100000,
    MOST_DIRECT = 512,
    LONGEST_FILE = 10999940,
    NARROW_MARKS = 4096,
    BENCH_MARKS = 4096,
    BENCH_FILE = 434120,
    LONGEST_LISTING = 78233
};

/* ---- Checks: counted, and told where they fail. */
#define CHECK(holds, ...) (counted(holds) ? (void)0 : (void)(printf("%s: ", __func__), printf(__VA_ARGS__), printf("\n")))

bool counted(bool holds);

/* Prints `N passed, M failed`; what main hands back. */
int finish(void);

/* ---- Numbers by their bits, for a NaN and the two zeros differ by them alone. */
uint64_t bits_of(double x);
double of_bits(uint64_t bits);
bool same_bits(const double *a, const double *b, size_t count);
double not_a_number(void);
double infinity(void);

/* ---- Lent slices. The slice and 256 guard bytes on either side hold a pattern that goes by the seed, so that any change can be seen. */
typedef struct {
    uint8_t *place;
    size_t room, bytes;
    unsigned seed;
} Lent;

Lent new_lent(size_t room);
void lend(Lent *slice, size_t bytes, unsigned seed);
double *numbers(const Lent *slice);
uint32_t *indices(const Lent *slice);

/* Whether the guards, and the slice's own bytes from `from` on, are as they were lent. */
bool kept_from(const Lent *slice, size_t from);
bool all_zero(const Lent *slice);

/* ---- The fits: five of the first engine, and three of the second, which is lent a slice of open parts as well. */
typedef uint32_t FitCall(const double *marks, size_t marks_len, double tolerance, double *curves, size_t curves_len, uint32_t *firsts,
                         size_t firsts_len, uint32_t *worsts, size_t worsts_len, double *params, size_t params_len, size_t *made);

typedef uint32_t FlatCall(const double *marks, size_t marks_len, double tolerance, double *curves, size_t curves_len, uint32_t *firsts,
                          size_t firsts_len, uint32_t *worsts, size_t worsts_len, double *params, size_t params_len, uint32_t *open,
                          size_t open_len, size_t *made);

/* One of `call` and `flat` is its call, by the engine. `twin` is the number of the fit that must answer alike: of the other engine's, if
   that has it, and else its own. */
typedef struct {
    const char *name;
    FitCall *call;
    FlatCall *flat;
    size_t twin;
    bool ring;
    size_t most;
} Fit;

enum { JOINED, RING, SOURCE, LOOP, DIRECT, JOINED_FLAT, RING_FLAT, DIRECT_FLAT, FITS };

extern const Fit fits[FITS];

/* Calls it; the first engine is not lent `open`. */
uint32_t fit_by(const Fit *fit, const double *marks, size_t marks_len, double tolerance, double *curves, size_t curves_len,
                uint32_t *firsts, size_t firsts_len, uint32_t *worsts, size_t worsts_len, double *params, size_t params_len, uint32_t *open,
                size_t open_len, size_t *made);

/* The tangents that the direct fit is handed: start x and y, end x and y. */
extern double tangents[4];

/* The fewest marks of a fit; of n marks the most curves, how many parameters they have, and how many numbers their open parts want. */
size_t fewest(const Fit *fit);
size_t most_curves(const Fit *fit, size_t n);
size_t params_for(const Fit *fit, size_t n);
size_t open_for(const Fit *fit, size_t n);

/* The slices of a fit, and how many curves it made. Of the first engine's `open` is empty. */
typedef struct {
    Lent curves, firsts, worsts, params, open;
    size_t made;
} Slices;

Slices new_slices(void);

/* Lends as many places as the header asks for, and `more` of each beside them. */
void lend_slices(Slices *to, const Fit *fit, size_t n, size_t more, unsigned seed);
uint32_t fit_into(const Fit *fit, const double *marks, size_t marks_len, double tolerance, Slices *to);

/* Whether open parts are as a call leaves them that answers so: zeros where it came to run, and else as they were. */
bool open_left(const Lent *open, uint32_t answer);

/* Whether the slices are as they were; whether all their numbers are zero; whether only what a fit of n marks writes has changed, and no
   part is left open. */
bool slices_kept(const Slices *s);
bool slices_zero(const Slices *s);
bool kept_beyond(const Slices *s, const Fit *fit, size_t n);

/* What the checker of nine numbers a curve says of a fit's list. */
uint32_t verdict(bool ring, const double *marks, size_t marks_len, double tolerance, const Slices *s, size_t *curve, size_t *mark);

/* The curves of nine numbers as curves of eight. */
void eight_of(const double *nine, size_t count, double *eight);

/* ---- Small lists that can be worked out by hand. */

/* A list of curves, each of nine numbers, with the lengths that are handed over. */
typedef struct {
    bool ring;
    size_t marks_len, count, curves, firsts, worsts, params;
    double tolerance, marks[12], numbers[5 * 9], times[6];
    uint32_t first[5], worst[5];
} List;

extern const List open_list, ring_list;

/* n marks along the x axis, a unit apart. */
void straight(double *marks, size_t n);

/* ---- Random numbers, the same in every run. */
uint64_t random_bits(void);
size_t random_below(size_t n);
double random_within(double low, double high);

/* ---- House files. Reads a whole file; the program ends where it can't. */
size_t load(const char *path, uint8_t *to, size_t room);

/* A call from a file's bytes to a text, or to another file. */
typedef uint32_t FileCall(const uint8_t *file, size_t file_len, uint8_t *out, size_t out_len, size_t *size);

/* The kind of the records of curves with 8 or 9 numbers, where there are n marks. */
unsigned kind_for(size_t n, size_t width);

/* Puts a house file together by the format's own rules, not by the library, and hands back its size. Curves have records of this kind: 3, 5,
   6 or 7, whether it suits the number of marks or not. */
size_t compose_kind(uint8_t *to, unsigned kind, double tolerance, const double *marks, size_t n, size_t count, const uint32_t *firsts,
                    const uint32_t *worsts, const double *curves, const double *params);

/* The same with the kind that suits; `width` is 8 or 9. */
size_t compose(uint8_t *to, double tolerance, const double *marks, size_t n, size_t width, size_t count, const uint32_t *firsts,
               const uint32_t *worsts, const double *curves, const double *params);

/* The same packed: each joint once, so of a curve behind the first its start is not looked at. */
size_t compose_packed(uint8_t *to, double tolerance, const double *marks, size_t n, size_t width, size_t count, const uint32_t *firsts,
                      const uint32_t *worsts, const double *curves, const double *params);

#endif
