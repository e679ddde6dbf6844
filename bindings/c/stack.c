/* How much stack each call takes: it runs on a stack of its own that was painted before, and what is no longer paint was used.
       stack          prints a line `NAME BYTES` for each call, the most over all outlines
       stack depths   prints a line `NAME FEW MANY` for each fit that both engines have: the bytes for few marks, and for many that are cut
                      off one at a time */
#include "test.h"
#include <stdlib.h>

/* LONG is the largest number of marks of which blocks are as long as they can be, 200 marks, in an outline and in a ring. All but the last
   of them, from DEEP on, where a block begins, lie on a line: every block is a fit of its own, and what the last ones take shows whether
   the many before have left anything on the stack. */
enum { STACK = 8 << 20, LONG = MOST_MARKS - 2, DEEP = 95800, FEW = 5 };

/* ---- The outlines. A fit cuts a part at its worst mark, and each side is a fit within the first one's frame; so deepest are outlines that
   lose one mark at a time, as a zigzag does that slowly shrinks. */

static double marks[2 * LONG], *const deep = marks + 2 * DEEP;
static size_t n;

/* One that takes the line in one curve a block, and no zigzag. */
static const double tolerance = 1e-10;

typedef double Place(size_t i);

static double index_of(size_t i) { return 0.5 * (double)i; }
static double nothing(size_t i) { return 0 * index_of(i); }
static double shaken(size_t i) { return (double)((i * 7919) % 101); }
static double cliff(size_t i) { return 1e5 / (1 + (double)i * (double)i); }
static double scattered(size_t i) { return random_within(-1000, 1000) + nothing(i); }

/* From a million on down, on either side of zero in turn, and again from the top behind so many marks. */
static double zigzag(size_t i, size_t marks_in_all, double ratio) {
    static double width;
    width = i % marks_in_all == 0 ? 1e6 : ratio * width;
    return i % 2 ? -width : width;
}

static double shrinking(size_t i) { return zigzag(i, LONG, 0.998); }

/* As long as a block: the loop fit takes a block's tangents from beyond its ends, and goes deepest on this one. */
static double restarted(size_t i) { return zigzag(i, 200, 0.85); }

static const struct {
    Place *x, *y;
} outlines[] = {{shrinking, nothing}, {restarted, nothing},   {index_of, shaken},
                {index_of, cliff},    {scattered, scattered}, {index_of, nothing}};

enum { OUTLINES = COUNT(outlines) };

static void draw(size_t number) {
    straight(marks, DEEP);
    for (size_t i = 0; DEEP + i < LONG; i++) {
        deep[2 * i] = outlines[number].x(i);
        deep[2 * i + 1] = outlines[number].y(i);
    }
}

/* ---- What the calls are handed and write, prepared before on the program's own stack. The checkers, the reader and the writer are handed
   the list that the fit before them has made. */

static double curves[9 * LONG], eight[8 * LONG], params[LONG + 1], out8[8], more8[8], x, y;
static uint32_t firsts[LONG], worsts[LONG], open[2 * LONG], answer;
static uint8_t file[LONGEST_FILE], text[LONGEST_FILE], report[55 + 21 * LONG];
static size_t made, file_size, size, report_size, curve, mark;
static bool nine;

static void fit_from(size_t fit, const double *from) {
    answer =
        fit_by(&fits[fit], from, 2 * n, tolerance, curves, 9 * LONG, firsts, LONG, worsts, LONG, params, LONG + 1, open, 2 * LONG, &made);
}

static void all_marks(void) { n = LONG; }
static void short_outline(void) { n = MOST_DIRECT; }
static void eights(void) { eight_of(curves, made, eight); }
static void curves_file(void) { file_size = compose(file, tolerance, marks, n, 9, made, firsts, worsts, curves, params); }
static void bench_file(void) { file_size = compose(file, tolerance, deep, BENCH_MARKS, 8, 0, NULL, NULL, NULL, NULL); }
static void short_file(void) { file_size = compose(file, tolerance, deep, MOST_DIRECT, 8, 0, NULL, NULL, NULL, NULL); }

static void bench_curves(void) {
    n = BENCH_MARKS;
    fit_from(JOINED, deep);
    file_size = compose(file, tolerance, deep, n, 9, made, firsts, worsts, curves, params);
}

/* Curves from mark to mark, which meet, and the text of them. */
static void drawn_list(void) {
    made = LONG - 1;
    for (size_t j = 0; j < made; j++)
        for (size_t i = 0; i < 4; i++) memcpy(eight + 8 * j + 2 * i, marks + 2 * (j + i / 2), 2 * sizeof *marks);
}

static void pack_file(void) { answer = wes_pack_file(file, file_size, text, sizeof text, &size); }

/* Files that meet: the joined fit's. */
static void packed_file(void) {
    pack_file();
    file_size = size;
    memcpy(file, text, size);
}

static void export_path(void) { answer = wes_export_path(false, eight, 8 * LONG, made, false, text, sizeof text, &size); }

static void drawn_text(void) {
    drawn_list();
    export_path();
}

/* ---- The calls */

static void unpack_file(void) { answer = wes_unpack_file(file, file_size, text, sizeof text, &size); }
static void salvage(void) { answer = wes_salvage(file, file_size, text, sizeof text, report, sizeof report, &size, &report_size); }
static void import_path(void) { answer = wes_import_path(text, size, curves, 9 * LONG, &made, &nine); }
static void fit_joined(void) { fit_from(JOINED, marks); }
static void fit_ring(void) { fit_from(RING, marks); }
static void fit_curve(void) { fit_from(SOURCE, marks); }
static void fit_curve_loop(void) { fit_from(LOOP, marks); }
static void fit_curve_cubic(void) { fit_from(DIRECT, deep); }
static void fit_joined_flat(void) { fit_from(JOINED_FLAT, marks); }
static void fit_ring_flat(void) { fit_from(RING_FLAT, marks); }
static void fit_curve_cubic_flat(void) { fit_from(DIRECT_FLAT, deep); }

static void check_worst(void) {
    answer = wes_check_worst(marks, 2 * n, tolerance, made, curves, 9 * LONG, firsts, LONG, worsts, LONG, params, LONG, &curve, &mark);
}

static void check_worst_ring(void) {
    answer =
        wes_check_worst_ring(marks, 2 * n, tolerance, made, curves, 9 * LONG, firsts, LONG, worsts, LONG, params, LONG + 1, &curve, &mark);
}

static void check_list(void) {
    answer = wes_check_list(marks, 2 * n, tolerance, made, eight, 8 * LONG, firsts, LONG, params, LONG, &curve, &mark);
}

static void check_ring(void) {
    answer = wes_check_ring(marks, 2 * n, tolerance, made, eight, 8 * LONG, firsts, LONG, params, LONG + 1, &curve, &mark);
}

static void check_any(void) {
    answer =
        wes_check(true, true, marks, 2 * n, tolerance, made, curves, 9 * LONG, firsts, LONG, worsts, LONG, params, LONG + 1, &curve, &mark);
}

static void basis(void) { answer = wes_basis(deep, 0.3, out8); }
static void de_casteljau4(void) { answer = wes_de_casteljau4(deep, 0.3, out8); }
static void de_casteljau3(void) { answer = wes_de_casteljau3(deep, 0.3, out8); }
static void de_casteljau2(void) { answer = wes_de_casteljau2(deep, 0.3, out8); }
static void bezier_coefficients(void) { answer = wes_bezier_coefficients(deep, 1, out8); }
static void subdivide4(void) { answer = wes_subdivide4(deep, 0.3, out8, more8); }
static void nearest_point(void) { answer = wes_nearest_point_on_curve(deep, deep[8], deep[9], &x, &y); }
static void refined_point(void) { answer = wes_nearest_point_on_curve_newton_raphson_with_estimate(deep, deep[8], deep[9], 0.3, 64, &x); }

static void read_file(void) {
    answer =
        wes_read_file(file, file_size, &x, marks, 2 * LONG, firsts, LONG, worsts, LONG, curves, 9 * LONG, params, LONG, &n, &made, &nine);
}

static void write_file(void) {
    answer = wes_write_file(true, &tolerance, marks, 2 * n, made, firsts, LONG, worsts, LONG, curves, 9 * LONG, params, LONG, text,
                            sizeof text, &size);
}

static void list_outline(void) { answer = wes_list_outline(file, file_size, text, sizeof text, &size); }
static void judge_file(void) { answer = wes_judge_file(file, file_size, text, sizeof text, &size); }
static void save_fit(void) { answer = wes_save_fit(file, file_size, text, sizeof text, &size); }

static void max_points_to_fit(void) { size = wes_max_points_to_fit(n); }
static void joined_blocks(void) { size = wes_joined_blocks(n); }
static void square_root(void) { x = wes_sqrt(2); }

static const struct {
    const char *name;
    void (*prepare)(void), (*call)(void);
} calls[] = {
    {"wes_fit_joined", all_marks, fit_joined},
    {"wes_check_worst", all_marks, check_worst},
    {"wes_check_list", eights, check_list},
    {"wes_write_file", all_marks, write_file},
    {"wes_read_file", curves_file, read_file},
    {"wes_pack_file", curves_file, pack_file},
    {"wes_unpack_file", packed_file, unpack_file},
    {"wes_salvage", all_marks, salvage},
    {"wes_fit_ring", all_marks, fit_ring},
    {"wes_check_worst_ring", all_marks, check_worst_ring},
    {"wes_check_ring", eights, check_ring},
    {"wes_check", all_marks, check_any},
    {"wes_fit_curve", all_marks, fit_curve},
    {"wes_fit_curve_loop", all_marks, fit_curve_loop},
    {"wes_fit_curve_cubic", short_outline, fit_curve_cubic},
    {"wes_fit_joined_flat", all_marks, fit_joined_flat},
    {"wes_fit_ring_flat", all_marks, fit_ring_flat},
    {"wes_fit_curve_cubic_flat", short_outline, fit_curve_cubic_flat},
    {"wes_basis", all_marks, basis},
    {"wes_de_casteljau4", all_marks, de_casteljau4},
    {"wes_de_casteljau3", all_marks, de_casteljau3},
    {"wes_de_casteljau2", all_marks, de_casteljau2},
    {"wes_bezier_coefficients", all_marks, bezier_coefficients},
    {"wes_subdivide4", all_marks, subdivide4},
    {"wes_nearest_point_on_curve", all_marks, nearest_point},
    {"wes_nearest_point_on_curve_newton_raphson_with_estimate", all_marks, refined_point},
    {"wes_list_outline", short_file, list_outline},
    {"wes_judge_file", bench_curves, judge_file},
    {"wes_save_fit", bench_file, save_fit},
    {"wes_export_path", drawn_list, export_path},
    {"wes_import_path", drawn_text, import_path},
    {"wes_max_points_to_fit", all_marks, max_points_to_fit},
    {"wes_joined_blocks", all_marks, joined_blocks},
    {"wes_sqrt", all_marks, square_root},
};

enum { CALLS = COUNT(calls), WORDS = STACK / 8 };

/* ---- The stack */

static const uint64_t paint = 0xA5C3F00D5EEDFACE;

static _Alignas(64) uint64_t stack[WORDS];

/* Runs a function on that stack. What a call may change is named, so that the compiler keeps nothing there; rbx keeps our own stack. */
static void run_below(uint64_t *top, void (*call)(void)) {
    __asm__ volatile("movq %%rsp, %%rbx\n\tmovq %0, %%rsp\n\tcallq *%1\n\tmovq %%rbx, %%rsp"
                     :
                     : "r"(top), "r"(call)
                     : "rax", "rbx", "rcx", "rdx", "rsi", "rdi", "r8", "r9", "r10", "r11", "xmm0", "xmm1", "xmm2", "xmm3", "xmm4", "xmm5",
                       "xmm6", "xmm7", "xmm8", "xmm9", "xmm10", "xmm11", "xmm12", "xmm13", "xmm14", "xmm15", "memory", "cc");
}

/* Paints the whole stack anew, and says how much of it was used. */
static size_t repaint(void) {
    size_t free_words = 0;
    while (free_words < WORDS && stack[free_words] == paint) free_words++;
    for (size_t i = free_words; i < WORDS; i++) stack[i] = paint;
    return 8 * (WORDS - free_words);
}

/* What a call takes. Every call must do its work: a refused one would not go deep. */
static size_t used_by(const char *name, void (*call)(void)) {
    answer = 0;
    run_below(stack + WORDS, call);
    if (answer == 0 || answer == WES_TOO_DEEP) return repaint();
    printf("%s is refused by %u\n", name, answer);
    exit(1);
}

static void print_most(void) {
    size_t most[CALLS] = {0};
    for (size_t outline = 0; outline < OUTLINES; outline++) {
        draw(outline);
        for (size_t i = 0; i < CALLS; i++) {
            calls[i].prepare();
            size_t used = used_by(calls[i].name, calls[i].call);
            if (used > most[i]) most[i] = used;
        }
    }
    for (size_t i = 0; i < CALLS; i++) printf("%s %zu\n", calls[i].name, most[i]);
}

static size_t chosen;

static void fit_chosen(void) { fit_from(chosen, deep); }

/* Along the first outline, of which few marks are cut off one at a time, too. */
static size_t used_for(size_t marks_taken) {
    n = marks_taken;
    size_t used = used_by(fits[chosen].name, fit_chosen);
    if (made + 1 >= n) return used;
    printf("%s made only %zu curves of %zu marks\n", fits[chosen].name, made, n);
    exit(1);
}

static void print_depths(void) {
    draw(0);
    for (chosen = 0; chosen < FITS; chosen++) {
        if (fits[chosen].twin == chosen) continue;
        size_t few = used_for(FEW), many = used_for(MOST_DIRECT);
        printf("wes_%s %zu %zu\n", fits[chosen].name, few, many);
    }
}

int main(int argc, char **argv) {
    (void)argv;
    repaint();
    (argc > 1 ? print_depths : print_most)();
    return 0;
}
