/* Every call on house files, accepted and refused: files EXAMPLES, the folder of the example files. The files are put together here by the
   format's own rules, and what is expected of them follows from these, from arithmetic and from examples/README.md. */
#include "test.h"

static double many[2 * (MOST_MARKS + 1)];

/* ---- House files read and written */

/* Room to read a file into, and what it says beside its slices. */
typedef struct {
    Lent marks, firsts, worsts, curves, params;
    double tolerance;
    size_t mark_count, curve_count;
    bool nine;
} Held;

static Held held;
static Lent written;
static uint8_t composed[LONGEST_FILE + 64];

static void lend_held(size_t n, size_t k, size_t width, size_t params) {
    lend(&held.marks, 2 * n * sizeof(double), 21);
    lend(&held.firsts, k * sizeof(uint32_t), 22);
    lend(&held.worsts, (width == 9 ? k : 0) * sizeof(uint32_t), 23);
    lend(&held.curves, width * k * sizeof(double), 24);
    lend(&held.params, params * sizeof(double), 25);
}

static uint32_t read_held(const uint8_t *file, size_t size) {
    held.tolerance = 7, held.mark_count = held.curve_count = 77, held.nine = true;
    return wes_read_file(file, size, &held.tolerance, numbers(&held.marks), held.marks.bytes / sizeof(double), indices(&held.firsts),
                         held.firsts.bytes / sizeof(uint32_t), indices(&held.worsts), held.worsts.bytes / sizeof(uint32_t),
                         numbers(&held.curves), held.curves.bytes / sizeof(double), numbers(&held.params),
                         held.params.bytes / sizeof(double), &held.mark_count, &held.curve_count, &held.nine);
}

static bool held_kept(void) {
    return kept_from(&held.marks, 0) && kept_from(&held.firsts, 0) && kept_from(&held.worsts, 0) && kept_from(&held.curves, 0) &&
           kept_from(&held.params, 0);
}

static void expect_unread(const char *why, const uint8_t *file, size_t size, uint32_t expected) {
    uint32_t answer = read_held(file, size);
    CHECK(answer == expected, "%s: %u in place of %u", why, answer, expected);
    CHECK(bits_of(held.tolerance) == 0 && held.mark_count == 0 && held.curve_count == 0 && !held.nine, "%s: not zeros", why);
    CHECK(held_kept(), "%s: the slices", why);
}

static uint32_t write_held(size_t room, size_t *size) {
    *size = 77;
    lend(&written, room, 26);
    return wes_write_file(held.nine, &held.tolerance, numbers(&held.marks), 2 * held.mark_count, held.curve_count, indices(&held.firsts),
                          held.firsts.bytes / sizeof(uint32_t), indices(&held.worsts), held.worsts.bytes / sizeof(uint32_t),
                          numbers(&held.curves), held.curves.bytes / sizeof(double), numbers(&held.params),
                          held.params.bytes / sizeof(double), written.place, room, size);
}

static void expect_unwritten(const char *why, size_t room, uint32_t expected) {
    size_t size;
    uint32_t answer = write_held(room, &size);
    CHECK(answer == expected && size == 0, "%s: %u and %zu in place of %u", why, answer, size, expected);
    CHECK(kept_from(&written, 0), "%s: the bytes", why);
}

static bool holds(const Lent *slice, const void *expected, size_t bytes) {
    return memcmp(slice->place, expected, bytes) == 0 && kept_from(slice, bytes);
}

/* A file read into just enough room, held against what it was made of, and written again into just enough. */
static void round_trip(const char *what, const List *l, size_t width, size_t k, const double *curves, size_t size) {
    size_t n = l->marks_len / 2, again, times = k > 0 ? n : 0;
    lend_held(n, k, width, times);
    CHECK(read_held(composed, size) == 0, "%s: not read", what);
    CHECK(same_bits(&held.tolerance, &l->tolerance, 1) && held.mark_count == n && held.curve_count == k && held.nine == (width == 9),
          "%s: counts", what);
    CHECK(holds(&held.marks, l->marks, 16 * n) && holds(&held.firsts, l->first, 4 * k) &&
              holds(&held.worsts, l->worst, width == 9 ? 4 * k : 0) && holds(&held.curves, curves, 8 * width * k) &&
              holds(&held.params, l->times, 8 * times),
          "%s: numbers", what);
    CHECK(write_held(size, &again) == 0 && again == size && memcmp(written.place, composed, size) == 0, "%s: other bytes", what);
    CHECK(kept_from(&written, size), "%s: bytes beyond", what);
    CHECK(write_held(size + 9, &again) == 0 && again == size && kept_from(&written, size), "%s: bytes behind the file", what);
    expect_unwritten(what, size - 1, 4);
}

/* One place too few in each slice that the file wants room in. */
static void short_of_room(const char *what, size_t n, size_t k, size_t width, size_t size) {
    Lent *each[5] = {&held.marks, &held.firsts, &held.worsts, &held.curves, &held.params};
    for (size_t i = 0; i < 5; i++) {
        lend_held(n, k, width, k > 0 ? n : 0);
        if (each[i]->bytes == 0) continue;
        lend(each[i], each[i]->bytes - (i == 1 || i == 2 ? 4 : 8), 27);
        expect_unread(what, composed, size, 4);
        composed[size] = 0;
        expect_unread("badly formed before no room", composed, size + 1, 9);
    }
}

/* Prefixes and changed heads. What remains a file is one without curves, where the marks end. */
static void damaged(size_t n, size_t k, size_t width, size_t size) {
    lend_held(n, k, width, n);
    for (size_t i = 0; i < size; i++)
        if (i != 20 + 16 * n) expect_unread("a prefix", composed, i, 9);
    const size_t heads[] = {0, 4, 14, 18, 20 + 16 * n, 24 + 16 * n};
    for (size_t i = 0; i < COUNT(heads) && heads[i] < size; i++) {
        composed[heads[i]] ^= 0x40;
        expect_unread("a changed head", composed, size, 9);
        composed[heads[i]] ^= 0x40;
    }
}

static void house_files(void) {
    List l = open_list;
    double eight[16];
    eight_of(l.numbers, 2, eight);
    /* Numbers are moved and not judged: these NaNs must come back with their own bits. */
    l.tolerance = of_bits(0x7FF0000000000123), l.marks[3] = of_bits(0xFFF800000000BEEF), l.numbers[17] = of_bits(0x7FFFFFFFFFFFFFFF);
    const struct {
        const char *what;
        size_t width, k, size;
        const double *curves;
    } kinds[] = {{"nine", 9, 2, 20 + 80 + 2 * 82 + 6 + 40, l.numbers},
                 {"eight", 8, 2, 20 + 80 + 2 * 72 + 6 + 40, eight},
                 {"no curves", 8, 0, 20 + 80, eight}};
    for (size_t i = 0; i < COUNT(kinds); i++) {
        size_t width = kinds[i].width, k = kinds[i].k;
        size_t size = compose(composed, l.tolerance, l.marks, 5, width, k, l.first, l.worst, kinds[i].curves, l.times);
        CHECK(size == kinds[i].size, "%s: %zu bytes", kinds[i].what, size);
        round_trip(kinds[i].what, &l, width, k, kinds[i].curves, size);
        short_of_room(kinds[i].what, 5, k, width, size);
        damaged(5, k, width, size);
    }
    lend_held(0, 0, 8, 0);
    expect_unread("no bytes", NULL, 0, 9);
    straight(many, MOST_MARKS + 1);
    expect_unread("100,001 marks before no room", composed, compose(composed, 1, many, MOST_MARKS + 1, 8, 0, NULL, NULL, NULL, NULL), 2);
    expect_unread("badly formed before too many", composed, 20 + 16 * (MOST_MARKS + 1) - 1, 9);
}

/* ---- The kinds of records: 3 and 6 with mark numbers of two bytes up to 4,096 marks, 5 and 7 with four bytes above. */

static const unsigned all_kinds[] = {3, 5, 6, 7};

static bool is_wide(unsigned kind) { return kind == 5 || kind == 7; }

static bool is_nine(unsigned kind) { return kind >= 6; }

static size_t width_of(unsigned kind) { return is_nine(kind) ? 9 : 8; }

/* The bytes of a curve's record, head and all. */
static size_t record_size(unsigned kind) { return 6 + (is_nine(kind) ? 2 : 1) * (is_wide(kind) ? 4 : 2) + 8 * width_of(kind); }

/* What stands in the files: the largest mark numbers that a field holds, and numbers of no account. */
static double some_curves[9 * MOST_MARKS], some_params[MOST_MARKS + 1];
static uint32_t some_firsts[MOST_MARKS], some_worsts[MOST_MARKS];

static void draw_some(unsigned kind, size_t n, size_t count) {
    uint32_t largest = is_wide(kind) ? 0xFFFFFFFF : 65535;
    for (size_t i = 0; i < 9 * count; i++) some_curves[i] = of_bits(random_bits());
    for (size_t i = 0; i < n; i++) some_params[i] = of_bits(random_bits());
    for (size_t j = 0; j < count; j++) some_firsts[j] = largest - (uint32_t)j, some_worsts[j] = (uint32_t)j;
    some_worsts[count - 1] = largest;
}

static size_t compose_drawn(uint8_t *to, unsigned kind, size_t n, size_t count) {
    return compose_kind(to, kind, 0.5, many, n, count, some_firsts, some_worsts, some_curves, some_params);
}

static size_t compose_some(uint8_t *to, unsigned kind, size_t n, size_t count) {
    draw_some(kind, n, count);
    return compose_drawn(to, kind, n, count);
}

/* Looks at the head of a file's first curve: its length, and its kind. */
static void expect_head(const uint8_t *file, size_t n, unsigned kind) {
    const uint8_t *head = file + 20 + 16 * n;
    CHECK(head[0] == record_size(kind) - 4 && head[1] == 0 && head[2] == 0 && head[3] == 0 && head[4] == kind && head[5] == 0,
          "a curve of kind %u over %zu marks: length %u, kind %u", kind, n, head[0], head[4]);
}

/* A file, read into just enough room. */
static void expect_numbers(const uint8_t *file, unsigned kind, size_t n, size_t count, size_t size) {
    size_t width = width_of(kind);
    lend_held(n, count, width, n);
    CHECK(read_held(file, size) == 0 && held.mark_count == n && held.curve_count == count && held.nine == is_nine(kind),
          "kind %u over %zu marks: not read", kind, n);
    CHECK(holds(&held.marks, many, 16 * n) && holds(&held.firsts, some_firsts, 4 * count) &&
              holds(&held.worsts, some_worsts, is_nine(kind) ? 4 * count : 0) && holds(&held.curves, some_curves, 8 * width * count) &&
              holds(&held.params, some_params, 8 * n),
          "kind %u over %zu marks: other numbers", kind, n);
}

/* A file whose kind suits, read, and written into just enough room again. */
static void expect_taken(unsigned kind, size_t n, size_t count, size_t size) {
    size_t again;
    expect_numbers(composed, kind, n, count, size);
    CHECK(write_held(size, &again) == 0 && again == size && memcmp(written.place, composed, size) == 0 && kept_from(&written, size),
          "kind %u over %zu marks: other bytes", kind, n);
    expect_head(written.place, n, kind);
    expect_unwritten("a byte too few", size - 1, 4);
}

/* A mark number that two bytes do not hold: 9 up to 4,096 marks, and above them it is written as it is. */
static void expect_wide_number(unsigned kind, size_t n, size_t size, uint32_t *index, size_t at) {
    const uint8_t four[4] = {0x00, 0x00, 0x01, 0x00};
    size_t again;
    *index = 65536;
    if (is_wide(kind))
        CHECK(write_held(size, &again) == 0 && again == size && memcmp(written.place + 20 + 16 * n + at, four, 4) == 0,
              "mark number 65,536 over %zu marks, kind %u", n, kind);
    else
        expect_unwritten("mark number 65,536", size, 9);
    *index = 7;
}

/* Each kind on either side of 4,096 marks and of the most: 9 where it does not suit, and that comes before 2. */
static void kinds_by_marks(void) {
    const size_t counts[] = {3, NARROW_MARKS, NARROW_MARKS + 1, MOST_MARKS, MOST_MARKS + 1};
    for (size_t i = 0; i < COUNT(counts); i++)
        for (size_t k = 0; k < COUNT(all_kinds); k++) {
            size_t n = counts[i], size;
            unsigned kind = all_kinds[k];
            size = compose_some(composed, kind, n, 2);
            CHECK(size == 20 + 16 * n + 2 * record_size(kind) + 6 + 8 * n, "kind %u over %zu marks: %zu bytes", kind, n, size);
            if (is_wide(kind) == (n > 4096) && n <= MOST_MARKS) {
                expect_taken(kind, n, 2, size);
                expect_wide_number(kind, n, size, indices(&held.firsts), 6);
                if (is_nine(kind)) expect_wide_number(kind, n, size, indices(&held.worsts), is_wide(kind) ? 10 : 8);
                continue;
            }
            lend_held(n, 2, width_of(kind), n);
            expect_unread("a kind by its marks", composed, size, is_wide(kind) == (n > 4096) ? 2 : 9);
            lend_held(0, 0, 8, 0);
            expect_unread("and that before no room", composed, size, is_wide(kind) == (n > 4096) ? 2 : 9);
        }
}

/* One curve of one kind and one of another. */
static void mixed_kinds(size_t n) {
    static uint8_t other[BENCH_FILE];
    lend_held(n, 2, 9, n);
    for (size_t i = 0; i < COUNT(all_kinds); i++)
        for (size_t k = 0; k < COUNT(all_kinds); k++) {
            if (i == k) continue;
            size_t marks_end = 20 + 16 * n, size = compose_some(other, all_kinds[k], n, 1), first = record_size(all_kinds[i]);
            compose_some(composed, all_kinds[i], n, 1);
            memcpy(composed + marks_end + first, other + marks_end, size - marks_end);
            expect_unread("two kinds", composed, size + first, 9);
        }
}

/* As many curves as the most marks can have. */
static void largest_files(void) {
    CHECK(compose_some(composed, 7, MOST_MARKS, MOST_MARKS - 1) == LONGEST_FILE, "the longest file");
    expect_taken(7, MOST_MARKS, MOST_MARKS - 1, LONGEST_FILE);
    size_t size = compose_some(composed, 5, MOST_MARKS, MOST_MARKS - 1);
    CHECK(size == 20 + 16 * MOST_MARKS + 74 * (MOST_MARKS - 1) + 6 + 8 * MOST_MARKS, "the longest file of eight numbers a curve: %zu",
          size);
    expect_taken(5, MOST_MARKS, MOST_MARKS - 1, size);
}

/* The writer's own order: 3, 2, 4, 9. */
static void writer_refusals(void) {
    size_t size = 77;
    List l = open_list;
    size_t bytes = compose(composed, l.tolerance, l.marks, 5, 9, 2, l.first, l.worst, l.numbers, l.times);
    lend_held(5, 2, 9, 5);
    CHECK(read_held(composed, bytes) == 0, "not read");
    indices(&held.firsts)[0] = 65536;
    expect_unwritten("a first mark above two bytes", bytes, 9);
    expect_unwritten("no room before it", bytes - 1, 4);
    indices(&held.firsts)[0] = 65535;
    CHECK(write_held(bytes, &size) == 0 && size == bytes, "the largest first mark");
    indices(&held.worsts)[1] = 65536;
    expect_unwritten("a worst mark above two bytes", bytes, 9);
    held.nine = false;
    CHECK(write_held(bytes, &size) == 0 && size == bytes - 20, "eight numbers do not look at worst marks");
    held.curve_count = 0, held.nine = true;
    CHECK(write_held(bytes, &size) == 0 && size == 20 + 80, "no curves are no records");
    held.mark_count = 2, held.curve_count = 2;
    expect_unwritten("as many curves as marks", bytes, 9);
    held.mark_count = 5, held.curve_count = 3;
    expect_unwritten("more curves than first marks", bytes, 4);
    lend(&written, 64, 28);
    size = 77;
    CHECK(wes_write_file(true, &held.tolerance, many, 2 * MOST_MARKS + 3, 9, NULL, 0, NULL, 0, NULL, 0, NULL, 0, written.place, 64,
                         &size) == 3 &&
              size == 0,
          "odd before too many");
    size = 77;
    CHECK(wes_write_file(true, &held.tolerance, many, 2 * MOST_MARKS + 2, 9, NULL, 0, NULL, 0, NULL, 0, NULL, 0, written.place, 64,
                         &size) == 2 &&
              size == 0,
          "too many before no room");
    CHECK(kept_from(&written, 0), "the bytes after either");
    CHECK(wes_write_file(true, &held.tolerance, NULL, 0, 0, NULL, 0, NULL, 0, NULL, 0, NULL, 0, NULL, 0, &size) == 4 && size == 0,
          "nothing into no room");
}

/* ---- House files to texts */

static const char *folder;
static uint8_t example[BENCH_FILE + 1];

static size_t load_example(const char *name) {
    char path[4096];
    snprintf(path, sizeof path, "%s/%s.house", folder, name);
    return load(path, example, sizeof example);
}

/* Asks for a text into just as much room as it has, into more, and into one byte too few, which is 4 and leaves the bytes. */
static void expect_text(const char *why, FileCall *call, const uint8_t *file, size_t file_len, const void *text, size_t text_size) {
    size_t size = 77;
    for (size_t more = 0; more < 2; more++) {
        lend(&written, text_size + 40 * more, 31);
        uint32_t answer = call(file, file_len, written.place, written.bytes, &size);
        CHECK(answer == 0 && size == text_size && memcmp(written.place, text, text_size) == 0, "%s: %u, %.*s", why, answer,
              size < 40 ? (int)size : 40, (char *)written.place);
        CHECK(kept_from(&written, text_size), "%s: bytes beyond", why);
    }
    lend(&written, text_size - 1, 32);
    CHECK(call(file, file_len, written.place, written.bytes, &size) == 4 && size == 0 && kept_from(&written, 0), "%s: a byte too few", why);
    size = 77;
    CHECK(call(file, file_len, NULL, 0, &size) == 4 && size == 0, "%s: no room at all", why);
}

static void expect_line(const char *why, FileCall *call, const uint8_t *file, size_t file_len, const char *text) {
    expect_text(why, call, file, file_len, text, strlen(text));
}

/* The three calls on a file that each refuses by one number, or that the judge has a line of its own for. */
static void expect_lines(const char *why, const uint8_t *file, size_t size, const char *listed, const char *judged, const char *saved) {
    expect_line(why, wes_list_outline, file, size, listed);
    expect_line(why, wes_judge_file, file, size, judged);
    expect_line(why, wes_save_fit, file, size, saved);
}

static void bad_texts(void) {
    const char *r9 = "REFUSED 9\n", *r2 = "REFUSED 2\n", *r1 = "REFUSED 1\n", *r5 = "REFUSED 5\n", *r6 = "REFUSED 6\n";
    size_t size = load_example("cover");
    expect_lines("nothing", NULL, 0, r9, r9, r9);
    expect_lines("cut short", example, size - 1, r9, r9, r9);
    example[4] ^= 1;
    expect_lines("another kind", example, size, r9, r9, r9);
    expect_lines("a mark that is NaN", example, load_example("lost"), r5, "NO CURVES 24\n", r5);
    expect_lines("equal marks", example, load_example("pressed"), r6, "NO CURVES 3\n", r6);
    expect_lines("one mark", composed, compose(composed, 1, many, 1, 8, 0, NULL, NULL, NULL, NULL), r1, "NO CURVES 1\n", r1);
    /* The listing takes no file of more than 65,536 bytes, so that 4,097 marks are badly formed to it. */
    straight(many, MOST_MARKS);
    expect_lines("too many", composed, compose(composed, 1, many, BENCH_MARKS + 1, 8, 0, NULL, NULL, NULL, NULL), r9, r2, r2);
    /* 27,131 marks are the most in 434,120 bytes. */
    expect_lines("not too long", composed, compose(composed, 1, many, 27131, 8, 0, NULL, NULL, NULL, NULL), r9, r2, r2);
    expect_lines("too long", composed, compose(composed, 1, many, 27132, 8, 0, NULL, NULL, NULL, NULL), r9, r9, r9);
    expect_lines("the most marks", composed, compose(composed, 1, many, MOST_MARKS, 8, 0, NULL, NULL, NULL, NULL), r9, r9, r9);
    expect_line("513 marks", wes_list_outline, composed, compose(composed, 1, many, MOST_DIRECT + 1, 8, 0, NULL, NULL, NULL, NULL), r2);
}

/* The kinds by their marks, for the calls with room for 4,096: of more marks a kind that suits is 2, and any that does not is 9. */
static void bad_kinds(void) {
    for (size_t k = 0; k < COUNT(all_kinds); k++) {
        bool wide = is_wide(all_kinds[k]);
        size_t size = compose_some(composed, all_kinds[k], BENCH_MARKS, 2);
        /* A kind that suits is judged: its first curve does not start on mark 0. */
        expect_line("4,096 marks", wes_judge_file, composed, size, wide ? "REFUSED 9\n" : "FAULT A 0 0\n");
        if (wide) expect_line("4,096 marks", wes_save_fit, composed, size, "REFUSED 9\n");
        size = compose_some(composed, all_kinds[k], BENCH_MARKS + 1, 2);
        expect_line("4,097 marks", wes_judge_file, composed, size, wide ? "REFUSED 2\n" : "REFUSED 9\n");
        expect_line("4,097 marks", wes_save_fit, composed, size, wide ? "REFUSED 2\n" : "REFUSED 9\n");
    }
}

static void expect_judged(const char *why, const List *l, const char *text) {
    double eight[16];
    eight_of(l->numbers, 2, eight);
    expect_line(why, wes_judge_file, composed, compose(composed, l->tolerance, l->marks, 5, 9, 2, l->first, l->worst, l->numbers, l->times),
                text);
    if (strlen(text) > 6 && text[6] == 'E') text = "PASSED 5 2\n";
    expect_line(why, wes_judge_file, composed, compose(composed, l->tolerance, l->marks, 5, 8, 2, l->first, NULL, eight, l->times), text);
}

/* The judge's line for each fault, and for a refusal of the checker. Eight numbers a curve have no fault E. */
static void judged_texts(void) {
    List l = open_list;
    expect_judged("sound", &l, "PASSED 5 2\n");
    l.first[1] = 4;
    expect_judged("a curve of the last mark alone", &l, "FAULT A 1 0\n");
    l = open_list, l.numbers[9] = 3.125;
    expect_judged("a start moved", &l, "FAULT B 1 2\n");
    l = open_list, l.times[3] = 2;
    expect_judged("a parameter of 2", &l, "FAULT C 1 3\n");
    l = open_list, l.tolerance = 0.375;
    expect_judged("a mark too far off", &l, "FAULT D 0 1\n");
    l = open_list, l.worst[1] = 2;
    expect_judged("another worst mark", &l, "FAULT E 1 2\n");
    l = open_list, l.marks[9] = not_a_number();
    expect_judged("a mark that is NaN", &l, "REFUSED 5\n");
}

/* The listing's text of what a saved file holds. */
static size_t listing_of(char *to) {
    char *at = to + snprintf(to, 64, "OUTLINE %zu %zu\n", held.mark_count, held.curve_count);
    for (size_t j = 0; j < held.curve_count; j++) {
        at += snprintf(at, 64, "PIECE %u", indices(&held.firsts)[j]);
        for (size_t i = 0; i < 8; i++) at += snprintf(at, 64, " %016lX", bits_of(numbers(&held.curves)[9 * j + i]));
        *at++ = '\n';
    }
    return (size_t)(at - to);
}

/* cover.house has 142 marks, and 24 curves by examples/README.md: a saved file is as long as that makes it, it passes, and the listing and
   the joined fit have the same curves. */
static void cover(void) {
    static char listing[LONGEST_LISTING];
    static uint8_t saved[BENCH_FILE];
    size_t size = load_example("cover"), n = 142, k = 24, bytes = 20 + 16 * n + 82 * k + 6 + 8 * n, got = 77;
    expect_line("a file without curves", wes_judge_file, example, size, "NO CURVES 142\n");
    CHECK(wes_save_fit(example, size, saved, sizeof saved, &got) == 0 && got == bytes, "a saved file of %zu bytes", got);
    CHECK(memcmp(saved, example, size) == 0, "a saved file begins as the file");
    expect_text("the saved file", wes_save_fit, example, size, saved, bytes);
    expect_text("of what is kept only the marks count", wes_save_fit, saved, bytes, saved, bytes);
    expect_line("the saved file", wes_judge_file, saved, bytes, "PASSED 142 24\n");
    lend_held(n, k, 9, n);
    CHECK(read_held(saved, bytes) == 0 && held.mark_count == n && held.curve_count == k && held.nine, "the saved file read");
    expect_text("the listing", wes_list_outline, example, size, listing, listing_of(listing));
    Slices slices = new_slices();
    lend_slices(&slices, &fits[JOINED], n, 0, 33);
    CHECK(fit_into(&fits[JOINED], numbers(&held.marks), 2 * n, held.tolerance, &slices) == 0 && slices.made == k, "the same marks fitted");
    CHECK(memcmp(slices.curves.place, held.curves.place, 72 * k) == 0 && memcmp(slices.params.place, held.params.place, 8 * n) == 0,
          "the same curves");
    saved[20 + 16 * n + 6 + 2] ^= 1;
    expect_line("another worst mark", wes_judge_file, saved, bytes, "FAULT E 0 0\n");
    saved[20 + 16 * n + 6] = 1;
    expect_line("another first mark", wes_judge_file, saved, bytes, "FAULT A 0 0\n");
}

/* ---- Packed files. They are put together here too, each joint once. */

static uint8_t packed[LONGEST_FILE];

/* Lets each of the curves that were drawn start where the one before it ends. */
static void join_some(size_t width, size_t count) {
    for (size_t j = 1; j < count; j++) memcpy(some_curves + width * j, some_curves + width * (j - 1) + 6, 16);
}

static void expect_refused(const char *why, FileCall *call, const uint8_t *file, size_t size, size_t room, uint32_t expected) {
    size_t made = 77;
    lend(&written, room, 34);
    uint32_t answer = call(file, size, written.place, room, &made);
    CHECK(answer == expected && made == 0 && kept_from(&written, 0), "%s: %u and %zu in place of %u", why, answer, made, expected);
}

/* Another bit where the second curve starts: 12, behind 9 and before 4. */
static void expect_apart(size_t size, size_t joint) {
    composed[joint] ^= 1;
    expect_refused("curves that do not meet", wes_pack_file, composed, size, size, 12);
    expect_refused("and that before no room", wes_pack_file, composed, size, 0, 12);
    expect_refused("badly formed before that", wes_pack_file, composed, size - 1, size, 9);
    composed[joint] ^= 1;
}

/* A file there and back, in just the room, in more, and in too little; what is read is the same list. Each call refuses what the other
   takes. */
static void there_and_back(unsigned kind, size_t n, size_t count) {
    size_t width = width_of(kind), size, small;
    draw_some(kind, n, count);
    join_some(width, count);
    size = compose_drawn(composed, kind, n, count);
    small = compose_packed(packed, 0.5, many, n, width, count, some_firsts, some_worsts, some_curves, some_params);
    CHECK(small == 20 + 24 * n + 33 + (width == 9 ? 64 : 52) * count, "kind %u over %zu marks, packed: %zu bytes", kind, n, small);
    expect_text("packed", wes_pack_file, composed, size, packed, small);
    expect_text("unpacked", wes_unpack_file, packed, small, composed, size);
    expect_numbers(packed, kind, n, count, small);
    expect_refused("packed twice", wes_pack_file, packed, small, size, 9);
    expect_refused("unpacked twice", wes_unpack_file, composed, size, size, 9);
    if (count > 1) expect_apart(size, 20 + 16 * n + 2 * record_size(kind) - 8 * width);
}

/* Another number for the last mark, which the second curve of two begins with; another flag; a mark number for which two bytes are too few;
   and bytes that are missing. */
static void bad_packed(unsigned kind, size_t n) {
    size_t width = width_of(kind), body = 20 + 16 * n + 6, last = body + 21 + (width == 9 ? 64 : 52), small;
    draw_some(kind, n, 2);
    small = compose_packed(packed, 0.5, many, n, width, 2, some_firsts, some_worsts, some_curves, some_params);
    packed[last] ^= 1;
    expect_refused("another last mark", wes_unpack_file, packed, small, LONGEST_FILE, 9);
    packed[last] ^= 1, packed[body] ^= 2;
    expect_refused("a flag above 1", wes_unpack_file, packed, small, LONGEST_FILE, 9);
    packed[body] ^= 2, packed[body + 3] ^= 1;
    if (!is_wide(kind)) expect_refused("a mark number above two bytes", wes_unpack_file, packed, small, LONGEST_FILE, 9);
    packed[body + 3] ^= 1;
    for (size_t i = 0; i < 40; i++) expect_refused("cut short", wes_unpack_file, packed, small - 1 - i, LONGEST_FILE, 9);
}

static void packed_files(void) {
    const size_t counts[] = {3, NARROW_MARKS, NARROW_MARKS + 1, MOST_MARKS};
    straight(many, MOST_MARKS + 1);
    for (size_t i = 0; i < COUNT(counts); i++) {
        size_t n = counts[i], size = compose(composed, 0.5, many, n, 8, 0, NULL, NULL, NULL, NULL);
        expect_text("marks alone, packed", wes_pack_file, composed, size, composed, size);
        expect_text("marks alone, unpacked", wes_unpack_file, composed, size, composed, size);
        for (size_t width = 8; width <= 9; width++) {
            unsigned kind = kind_for(n, width);
            there_and_back(kind, n, 1);
            there_and_back(kind, n, 2);
            there_and_back(kind, n, n - 1);
            bad_packed(kind, n);
        }
    }
    expect_refused("nothing, packed", wes_pack_file, NULL, 0, 64, 9);
    expect_refused("nothing, unpacked", wes_unpack_file, NULL, 0, 64, 9);
}

/* cushion.house is packed, and has 85 marks and 8 curves by examples/README.md: the judge and the listing say the same of it as of the file
   that it was packed from. */
static void cushion(void) {
    static uint8_t same[BENCH_FILE];
    static char listing[LONGEST_LISTING];
    size_t size = load_example("cushion"), whole = 20 + 24 * 85 + 6 + 82 * 8, got = 77;
    CHECK(wes_unpack_file(example, size, same, sizeof same, &got) == 0 && got == whole, "unpacked into %zu bytes", got);
    expect_text("packed again", wes_pack_file, same, whole, example, size);
    expect_line("packed and judged", wes_judge_file, example, size, "PASSED 85 8\n");
    expect_line("unpacked and judged", wes_judge_file, same, whole, "PASSED 85 8\n");
    CHECK(wes_list_outline(same, whole, (uint8_t *)listing, sizeof listing, &got) == 0, "not listed");
    expect_text("the listing", wes_list_outline, example, size, listing, got);
}

int main(int argc, char **argv) {
    if (argc != 2) return 2;
    folder = argv[1];
    held.marks = new_lent(2 * (MOST_MARKS + 1) * sizeof(double));
    held.firsts = new_lent(MOST_MARKS * sizeof(uint32_t));
    held.worsts = new_lent(MOST_MARKS * sizeof(uint32_t));
    held.curves = new_lent(9 * MOST_MARKS * sizeof(double));
    held.params = new_lent((MOST_MARKS + 1) * sizeof(double));
    written = new_lent(LONGEST_FILE + 64);
    house_files();
    kinds_by_marks();
    mixed_kinds(NARROW_MARKS);
    mixed_kinds(NARROW_MARKS + 1);
    largest_files();
    writer_refusals();
    bad_texts();
    bad_kinds();
    judged_texts();
    cover();
    packed_files();
    cushion();
    return finish();
}
