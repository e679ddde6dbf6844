/* Answers the lines of crates/replay/stdin through the C calls, and holds each answer against the kept one: replay CASES ANSWERS.
   Left out are lines whose kept answer is BAD, for C is handed numbers and not words, and the kind `distance`, which has no public call. */
#include "test.h"

/* Room for the kept lines, and for the most marks: more than crates/replay lends, whose longer lines are BAD. */
enum { TEXT = 1 << 24, CURVES = MOST_MARKS };

static double marks[2 * MOST_MARKS], curves[9 * CURVES], params[MOST_MARKS + 1];
static uint32_t firsts[CURVES], worsts[CURVES];

/* ---- The words of a line */

static const char *at, *line_end;

static uint64_t take(unsigned base) {
    uint64_t x = 0;
    for (at++; at < line_end && *at != ' '; at++) x = base * x + (uint64_t)(*at <= '9' ? *at - '0' : *at - 'A' + 10);
    return x;
}

static size_t take_count(void) { return take(10); }

static double take_number(void) { return of_bits(take(16)); }

static void take_numbers(double *to, size_t count) {
    for (size_t i = 0; i < count; i++) to[i] = take_number();
}

/* ---- The answer */

static char answer[TEXT], *answer_end;

static void say_word(uint64_t x, unsigned base, size_t digits) {
    char word[24], *w = word + sizeof word;
    for (size_t i = 0; i < digits || x != 0; i++, x /= base) *--w = "0123456789ABCDEF"[x % base];
    size_t size = (size_t)(word + sizeof word - w);
    memcpy(answer_end, w, size);
    answer_end += size;
}

static void say_count(size_t n) {
    if (answer_end > answer) *answer_end++ = ' ';
    say_word(n, 10, 1);
}

static void say_number(double x) {
    *answer_end++ = ' ';
    say_word(x != x ? 0x7FF8000000000000 : bits_of(x), 16, 16);
}

/* The number of the answer, and its numbers where it is 0. */
static void say(uint32_t number, const double *xs, size_t count) {
    say_count(number);
    for (size_t i = 0; number == 0 && i < count; i++) say_number(xs[i]);
}

/* ---- Single numbers and curves */

static void sqrt_case(void) {
    double root = wes_sqrt(take_number());
    say(0, &root, 1);
}

typedef uint32_t PointCall(const double *curve, double t, double *point);

static void point_case(PointCall *call, size_t count) {
    double t = take_number(), curve[8], point[2];
    take_numbers(curve, count);
    say(call(curve, t, point), point, 2);
}

static void basis_case(void) { point_case(wes_basis, 8); }
static void casteljau4_case(void) { point_case(wes_de_casteljau4, 8); }
static void casteljau3_case(void) { point_case(wes_de_casteljau3, 6); }
static void casteljau2_case(void) { point_case(wes_de_casteljau2, 4); }

static void coefficients_case(void) {
    size_t dimension = take_count();
    double curve[8], four[4];
    take_numbers(curve, 8);
    say(wes_bezier_coefficients(curve, dimension, four), four, 4);
}

static void subdivide4_case(void) {
    double t = take_number(), curve[8], parts[16];
    take_numbers(curve, 8);
    say(wes_subdivide4(curve, t, parts, parts + 8), parts, 16);
}

static void refine_case(void) {
    double all[11], t;
    take_numbers(all, 11);
    say(wes_nearest_point_on_curve_newton_raphson_with_estimate(all, all[8], all[9], all[10], take_count(), &t), &t, 1);
}

static void nearest_case(void) {
    double all[10], found[2];
    take_numbers(all, 10);
    say(wes_nearest_point_on_curve(all, all[8], all[9], &found[0], &found[1]), found, 2);
}

static void blocks_case(void) {
    say_count(0);
    say_count(wes_joined_blocks(take_count()));
}

static void size_case(void) {
    say_count(0);
    say_count(wes_max_points_to_fit(take_count()));
}

/* ---- Fits */

/* Whether they are by the second engine; lines of the kinds that it has go through both. Its slice of open parts is just as long as it is
   asked for. */
static bool by_second;
static Lent open;

static void fit_marks(const Fit *first, double tolerance) {
    const Fit *fit = by_second ? &fits[first->twin] : first;
    size_t made, count = (size_t)(line_end - at) / 17, parts = open_for(fit, count / 2);
    take_numbers(marks, count);
    lend(&open, parts * sizeof(uint32_t), 61);
    uint32_t number = fit_by(fit, marks, count, tolerance, curves, 9 * CURVES, firsts, CURVES, worsts, CURVES, params, MOST_MARKS + 1,
                             indices(&open), parts, &made);
    if (by_second) CHECK(open_left(&open, number), "%s of %zu numbers: open parts after %u", fit->name, count, number);
    say_count(number);
    if (number != 0) return;
    say_count(made);
    for (size_t j = 0; j < made; j++) {
        say_count(firsts[j]);
        say_count(worsts[j]);
        for (size_t i = 0; i < 9; i++) say_number(curves[9 * j + i]);
    }
    for (size_t i = 0; i < params_for(fit, count / 2); i++) say_number(params[i]);
}

static void source_case(void) { fit_marks(&fits[SOURCE], take_number()); }
static void loop_case(void) { fit_marks(&fits[LOOP], take_number()); }
static void joined_case(void) { fit_marks(&fits[JOINED], take_number()); }
static void ring_case(void) { fit_marks(&fits[RING], take_number()); }

static void direct_case(void) {
    double tolerance = take_number();
    take_numbers(tangents, 4);
    fit_marks(&fits[DIRECT], tolerance);
}

/* ---- Checkers */

static void say_verdict(uint32_t number, size_t curve, size_t mark) {
    if (number < 'A') {
        say_count(number);
        return;
    }
    memcpy(answer_end, "FAULT ", 6);
    answer_end[6] = (char)number;
    answer_end += 7;
    say_count(curve);
    say_count(mark);
}

static void check_marks(bool ring, bool nine) {
    double tolerance = take_number();
    size_t n = take_count(), width = nine ? 9 : 8, curve, mark;
    take_numbers(marks, 2 * n);
    size_t k = take_count(), times = ring ? n + 1 : n;
    for (size_t j = 0; j < k; j++) {
        firsts[j] = (uint32_t)take_count();
        if (nine) worsts[j] = (uint32_t)take_count();
        take_numbers(curves + width * j, width);
    }
    take_numbers(params, times);
    uint32_t number;
    if (nine)
        number = (ring ? wes_check_worst_ring : wes_check_worst)(marks, 2 * n, tolerance, k, curves, 9 * k, firsts, k, worsts, k, params,
                                                                 times, &curve, &mark);
    else
        number =
            (ring ? wes_check_ring : wes_check_list)(marks, 2 * n, tolerance, k, curves, 8 * k, firsts, k, params, times, &curve, &mark);
    say_verdict(number, curve, mark);
}

static void check_case(void) { check_marks(false, false); }
static void check_ring_case(void) { check_marks(true, false); }
static void check_worst_case(void) { check_marks(false, true); }
static void check_worst_ring_case(void) { check_marks(true, true); }

/* ---- Path data */

static void export_case(void) {
    bool ring = at[1] == 'R';
    size_t size = 77;
    at += 5;
    size_t k = take_count();
    take_numbers(curves, 8 * k);
    say_count(wes_export_path(false, curves, 8 * k, k, ring, (uint8_t *)answer + 2, sizeof answer - 2, &size));
    if (answer[0] != '0') return;
    *answer_end++ = ' ';
    answer_end += size;
}

/* All that is behind the blank is the text. */
static void import_case(void) {
    size_t count;
    bool closed;
    uint32_t number = wes_import_path((const uint8_t *)at + 1, (size_t)(line_end - at - 1), curves, 8 * CURVES, &count, &closed);
    at = line_end;
    say_count(number);
    if (number != 0) return;
    say_count(count);
    memcpy(answer_end, closed ? " CLOSED" : " OPEN", closed ? 7 : 5);
    answer_end += closed ? 7 : 5;
    for (size_t i = 0; i < 8 * count; i++) say_number(curves[i]);
}

/* ---- House files, two digits a byte */

static uint8_t given[TEXT / 2], made[TEXT / 2], list[TEXT / 4];

static unsigned digit(char c) { return (unsigned)(c <= '9' ? c - '0' : c - 'a' + 10); }

/* All that is behind the blank is the file. */
static size_t take_file(void) {
    size_t count = (size_t)(line_end - at - 1) / 2;
    for (size_t i = 0; i < count; i++) given[i] = (uint8_t)(16 * digit(at[2 * i + 1]) + digit(at[2 * i + 2]));
    at = line_end;
    return count;
}

static void say_bytes(const uint8_t *bytes, size_t size) {
    *answer_end++ = ' ';
    for (size_t i = 0; i < size; i++) {
        *answer_end++ = "0123456789abcdef"[bytes[i] / 16];
        *answer_end++ = "0123456789abcdef"[bytes[i] % 16];
    }
}

static void file_case(FileCall *call) {
    size_t size = 77, count = take_file();
    uint32_t number = call(given, count, made, sizeof made, &size);
    say_count(number);
    if (number == 0) say_bytes(made, size);
}

static void pack_case(void) { file_case(wes_pack_file); }
static void unpack_case(void) { file_case(wes_unpack_file); }

static void salvage_case(void) {
    size_t size = 77, list_size = 77, count = take_file();
    uint32_t number = wes_salvage(given, count, made, sizeof made, list, sizeof list, &size, &list_size);
    say_count(number);
    if (number != 0) return;
    say_bytes(made, size);
    say_bytes(list, list_size);
}

/* ---- Kinds */

typedef struct {
    const char *name;
    void (*answer)(void);
    size_t compared;
} Kind;

static Kind kinds[] = {
    {"sqrt", sqrt_case, 0},
    {"basis", basis_case, 0},
    {"de_casteljau4", casteljau4_case, 0},
    {"coefficients", coefficients_case, 0},
    {"subdivide4", subdivide4_case, 0},
    {"de_casteljau3", casteljau3_case, 0},
    {"de_casteljau2", casteljau2_case, 0},
    {"refine", refine_case, 0},
    {"nearest", nearest_case, 0},
    {"direct", direct_case, 0},
    {"source", source_case, 0},
    {"loop", loop_case, 0},
    {"joined", joined_case, 0},
    {"ring", ring_case, 0},
    {"check", check_case, 0},
    {"check_ring", check_ring_case, 0},
    {"check_worst", check_worst_case, 0},
    {"check_worst_ring", check_worst_ring_case, 0},
    {"blocks", blocks_case, 0},
    {"size", size_case, 0},
    {"export", export_case, 0},
    {"import", import_case, 0},
    {"pack", pack_case, 0},
    {"unpack", unpack_case, 0},
    {"salvage", salvage_case, 0},
};

enum { KINDS = COUNT(kinds) };

static Kind *kind_of(const char *word, size_t size) {
    for (size_t i = 0; i < KINDS; i++)
        if (strlen(kinds[i].name) == size && memcmp(kinds[i].name, word, size) == 0) return &kinds[i];
    return NULL;
}

/* ---- Lines */

static char cases[TEXT], answers[TEXT];

static bool has_second(const Kind *kind) { return kind->answer == direct_case || kind->answer == joined_case || kind->answer == ring_case; }

static const char *end_of_line(const char *from, const char *end) {
    const char *newline = memchr(from, '\n', (size_t)(end - from));
    return newline == NULL ? end : newline;
}

/* What a kind answers to the words from `words` on. */
static void expect_answer(size_t number, const Kind *kind, bool second, const char *words, const char *end, const char *kept,
                          size_t kept_size) {
    by_second = second;
    at = words;
    line_end = end;
    answer_end = answer;
    kind->answer();
    size_t said = (size_t)(answer_end - answer);
    CHECK(at == line_end && said == kept_size && memcmp(answer, kept, said) == 0, "line %zu, %s%s: %.*s.. where %.*s.. is kept", number,
          kind->name, second ? " by the second engine" : "", said < 60 ? (int)said : 60, answer, kept_size < 60 ? (int)kept_size : 60,
          kept);
}

/* A kind with this behind its name is the same by the second engine alone. */
static const char flat[] = "_flat";

static void compare(size_t number, const char *line, const char *end, const char *kept, size_t kept_size) {
    const char *word_end = memchr(line, ' ', (size_t)(end - line)), *words = word_end == NULL ? end : word_end;
    if (kept_size == 3 && memcmp(kept, "BAD", 3) == 0) return;
    size_t size = (size_t)(words - line), suffix = sizeof flat - 1;
    if (size == 8 && memcmp(line, "distance", 8) == 0) return;
    bool second = size > suffix && memcmp(words - suffix, flat, suffix) == 0;
    Kind *kind = kind_of(line, second ? size - suffix : size);
    if (kind == NULL || (second && !has_second(kind))) {
        CHECK(false, "line %zu is of no kind that is known here", number);
        return;
    }
    kind->compared++;
    if (!second) expect_answer(number, kind, false, words, end, kept, kept_size);
    if (has_second(kind)) expect_answer(number, kind, true, words, end, kept, kept_size);
}

int main(int argc, char **argv) {
    if (argc != 3) return 2;
    open = new_lent(2 * MOST_MARKS * sizeof(uint32_t));
    const char *line = cases, *end = cases + load(argv[1], (uint8_t *)cases, TEXT);
    const char *kept = answers, *kept_end = answers + load(argv[2], (uint8_t *)answers, TEXT);
    for (size_t number = 1; line < end; number++) {
        const char *stop = end_of_line(line, end), *kept_stop = end_of_line(kept, kept_end);
        compare(number, line, stop, kept, (size_t)(kept_stop - kept));
        line = stop + 1;
        kept = kept_stop + 1;
    }
    CHECK(kept >= kept_end, "there are more kept answers than lines");
    for (size_t i = 0; i < KINDS; i++) {
        CHECK(kinds[i].compared > 0, "no line of the kind %s", kinds[i].name);
        printf("%s%s %zu", i == 0 ? "lines: " : ", ", kinds[i].name, kinds[i].compared);
    }
    printf("\n");
    return finish();
}
