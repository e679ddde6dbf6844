/* wes_salvage, accepted and refused: salvage EXAMPLES, the folder of the example files. What is expected of a trace is worked out here, by
   the rule itself over the bits of its numbers, so that no float is compared; and a table says by hand what becomes of small ones. */
#include "test.h"

/* More marks than any other call takes. */
enum { MOST = 250000, CURVES = 3, FILE_ROOM = 20 + 24 * MOST + 6 + 86 * CURVES, LIST_ROOM = 55 + 21 * MOST };

/* ---- A trace, and what is to become of it */

static double tolerance, marks[2 * MOST], kept[2 * MOST];
static size_t n, kept_count;

/* 'K' for a mark that is kept, 'R' for one out of range, 'E' for one that is equal to the last one kept. */
static char fates[MOST];

/* A number's bits without its sign rise as its magnitude does, and those of infinities and NaNs stand above all others. */
static bool in_range(double x) { return bits_of(x) << 1 <= bits_of(1000000) << 1; }

static bool equal(double a, double b) { return bits_of(a) == bits_of(b) || (bits_of(a) | bits_of(b)) << 1 == 0; }

static char fate_of(const double *mark, const double *last) {
    if (!in_range(mark[0]) || !in_range(mark[1])) return 'R';
    return last != NULL && equal(mark[0], last[0]) && equal(mark[1], last[1]) ? 'E' : 'K';
}

static void sift(void) {
    kept_count = 0;
    for (size_t i = 0; i < n; i++) {
        fates[i] = fate_of(marks + 2 * i, kept_count == 0 ? NULL : kept + 2 * (kept_count - 1));
        if (fates[i] == 'K') memcpy(kept + 2 * kept_count++, marks + 2 * i, 2 * sizeof *marks);
    }
}

static uint8_t clean[20 + 16 * MOST];
static char list[LIST_ROOM];
static size_t clean_size, list_size;

static void say_counts(size_t dropped) { list_size = (size_t)snprintf(list, 64, "KEPT %zu DROPPED %zu\n", kept_count, dropped); }

static void foretell(void) {
    sift();
    clean_size = compose(clean, tolerance, kept, kept_count, 8, 0, NULL, NULL, NULL, NULL);
    say_counts(n - kept_count);
    for (size_t i = 0; i < n; i++)
        if (fates[i] != 'K') list_size += (size_t)snprintf(list + list_size, 64, "DROP %zu %s\n", i, fates[i] == 'R' ? "RANGE" : "EQUAL");
}

/* ---- Files of it: without curves, and with some of eight numbers and of nine, unpacked and packed. */

enum { ALONE, EIGHT, NINE, PACKED_EIGHT, PACKED_NINE, FORMS };

static uint8_t file[FILE_ROOM];
static double noise[MOST];

static size_t put_file(size_t form) {
    const uint32_t firsts[CURVES] = {0, 1, 2}, worsts[CURVES] = {1, 65535, 0};
    size_t width = form == NINE || form == PACKED_NINE ? 9 : 8, count = form == ALONE ? 0 : n - 1 < CURVES ? n - 1 : CURVES;
    return (form < PACKED_EIGHT ? compose : compose_packed)(file, tolerance, marks, n, width, count, firsts, worsts, noise, noise);
}

/* How many forms a file of the trace can have: one with curves has two marks. */
static size_t forms(void) { return n < 2 ? 1 : FORMS; }

/* ---- The call */

static Lent out, report;
static size_t size, report_size;

static uint32_t salvage(const uint8_t *from, size_t from_size, size_t room, size_t report_room) {
    lend(&out, room, 51);
    lend(&report, report_room, 52);
    size = report_size = 77;
    return wes_salvage(from, from_size, out.place, room, report.place, report_room, &size, &report_size);
}

static void expect_refused(const char *why, const uint8_t *from, size_t from_size, size_t room, size_t report_room, uint32_t expected) {
    uint32_t answer = salvage(from, from_size, room, report_room);
    CHECK(answer == expected && size == 0 && report_size == 0, "%s: %u, %zu and %zu in place of %u", why, answer, size, report_size,
          expected);
    CHECK(kept_from(&out, 0) && kept_from(&report, 0), "%s: the slices", why);
}

static void expect_clean(const char *why, const uint8_t *from, size_t from_size, size_t room, size_t report_room) {
    uint32_t answer = salvage(from, from_size, room, report_room);
    CHECK(answer == 0 && size == clean_size && report_size == list_size, "%s, %zu marks: %u, %zu and %zu in place of %zu and %zu", why, n,
          answer, size, report_size, clean_size, list_size);
    CHECK(memcmp(out.place, clean, clean_size) == 0 && kept_from(&out, clean_size), "%s, %zu marks: the file", why, n);
    CHECK(memcmp(report.place, list, list_size) == 0 && kept_from(&report, list_size), "%s, %zu marks: the list", why, n);
}

/* In just the room, in as much as the header says is enough, and in a byte too few of either. */
static void expect_rooms(const char *why, size_t file_size) {
    expect_clean(why, file, file_size, clean_size, list_size);
    expect_clean(why, file, file_size, file_size, 55 + 21 * n);
    expect_refused(why, file, file_size, clean_size - 1, 55 + 21 * n, 4);
    expect_refused(why, file, file_size, file_size, list_size - 1, 4);
    size = report_size = 77;
    CHECK(wes_salvage(file, file_size, NULL, 0, NULL, 0, &size, &report_size) == 4 && size == 0 && report_size == 0, "%s: no room", why);
}

/* What was made, cleaned again: nothing is dropped, and the bytes are the same. */
static void expect_again(const char *why) {
    say_counts(0);
    expect_clean(why, clean, clean_size, clean_size, list_size);
}

/* Tolerances that no fit takes, and others: none is judged, and all bits stay. */
static void next_tolerance(void) {
    static const uint64_t odd[] = {0x3FE0000000000000, 0x7FF0000000000123, 0xFFF800000000BEEF, 0xBFF0000000000000,
                                   0x7FF0000000000000, 0x8000000000000000, 0x0000000000000001, 0xFFFFFFFFFFFFFFFF};
    static size_t turn;
    tolerance = of_bits(odd[turn++ % COUNT(odd)]);
}

static void expect_trace(const char *why) {
    for (size_t form = 0; form < forms(); form++) {
        next_tolerance();
        foretell();
        expect_rooms(why, put_file(form));
    }
    expect_again(why);
}

/* ---- Small traces. A mark is two letters, each a number. */

static double number_of(char letter) {
    const double above = of_bits(bits_of(1000000) + 1), below = of_bits(bits_of(1000000) - 1), least = of_bits(1);
    switch (letter) {
    case '0': return 0;
    case 'o': return -0.0;
    case '1': return 1;
    case '2': return -2.5;
    case 'l': return least;
    case 'L': return -least;
    case 'b': return below;
    case 'm': return 1000000;
    case 'M': return -1000000;
    case 'a': return above;
    case 'A': return -above;
    case 'h': return 1.7976931348623157e308;
    case 'i': return infinity();
    case 'I': return -infinity();
    case 'n': return not_a_number();
    case 'N': return of_bits(0xFFF800000000BEEF);
    default: return of_bits(0x7FF0000000000123); /* a signalling NaN */
    }
}

static void take_marks(const char *letters) {
    size_t count = 0;
    for (; *letters != 0; letters++)
        if (*letters != ' ') marks[count++] = number_of(*letters);
    n = count / 2;
}

static void small_traces(void) {
    static const struct {
        const char *why, *marks, *fates;
    } traces[] = {
        {"no mark", "", ""},
        {"one mark", "12", "K"},
        {"one that is NaN", "1n", "R"},
        {"the hand rests", "11 11 11 12 12 11", "KEEKEK"},
        {"forth and back", "11 22 11 22", "KKKK"},
        {"equal in one coordinate", "11 12 22 21 11", "KKKKK"},
        {"zeros of either sign", "00 o0 0o oo 00", "KEEEE"},
        {"minus zero first", "oo 00 o1 01 1o 10", "KEKEKE"},
        {"the least numbers beside zero", "00 l0 L0 0l 0L", "KKKKK"},
        {"not finite", "n0 0n N0 0N s0 0s i0 0i I0 0I ns", "RRRRRRRRRRR"},
        {"the limit", "m0 0m M0 0M mM MM", "KKKKKK"},
        {"just below it", "b0 0b b0 bb", "KKKK"},
        {"just above it", "a0 0a A0 0A aA", "RRRRR"},
        {"far above it", "h0 0h hh", "RRR"},
        {"the limit twice", "mM mM Mm", "KEK"},
        {"equal to the last one kept and not to the mark before", "11 n1 11 1a 11 12", "KREREK"},
        {"not equal to one that was dropped", "11 22 2n 22 2a 11", "KKRERK"},
        {"out of range and equal", "aa aa nn nn", "RRRR"},
        {"the first is bad", "s1 11 11", "RKE"},
        {"the last is bad", "11 12 1I", "KKR"},
        {"one is left", "n1 11 i1 11 11 a1", "RKREER"},
        {"none is left", "n1 1n", "RR"},
    };
    for (size_t i = 0; i < COUNT(traces); i++) {
        take_marks(traces[i].marks);
        sift();
        CHECK(n == strlen(traces[i].fates) && memcmp(fates, traces[i].fates, n) == 0, "%s: the rule gives %.*s", traces[i].why, (int)n,
              fates);
        expect_trace(traces[i].why);
    }
}

/* ---- Random traces, of few numbers, so that marks are equal now and then, and of any bits. */

static void draw(size_t count, bool any) {
    static const char letters[] = "0o1122lbmManis";
    n = count;
    for (size_t i = 0; i < 2 * n; i++) marks[i] = any ? of_bits(random_bits()) : number_of(letters[random_below(random_below(4) ? 6 : 14)]);
}

/* How many marks met each fate. */
static size_t met[128];

static void random_traces(void) {
    for (size_t i = 0; i < 3000; i++) {
        draw(random_below(40), i % 10 == 0);
        next_tolerance();
        foretell();
        for (size_t k = 0; k < n; k++) met[(unsigned char)fates[k]]++;
        expect_rooms("random", put_file(random_below(forms())));
        expect_again("random");
    }
    CHECK(met['K'] > 3000 && met['R'] > 3000 && met['E'] > 3000, "kept %zu, out of range %zu, equal %zu", met['K'], met['R'], met['E']);
}

/* ---- Long traces */

static void trace(size_t count) {
    straight(marks, n = count);
    for (size_t i = 0; i < n; i++) {
        marks[2 * i] = (double)(i - i % 3 % 2);
        if (i % 1000 == 999) marks[2 * i + 1] = not_a_number();
    }
    expect_trace("every third mark equal, and every thousandth NaN");
}

/* The longest lists. */
static void all_alike(size_t count, double x, const char *why) {
    straight(marks, n = count);
    for (size_t i = 0; i < 2 * n; i++) marks[i] = x;
    expect_trace(why);
}

static void long_traces(void) {
    const size_t counts[] = {NARROW_MARKS, NARROW_MARKS + 1, 5000, MOST_MARKS, MOST_MARKS + 1, MOST};
    for (size_t i = 0; i < COUNT(counts); i++) trace(counts[i]);
    all_alike(MOST_MARKS, 3, "all equal");
    CHECK(kept_count == 1, "of equal marks %zu are kept", kept_count);
    all_alike(MOST_MARKS, infinity(), "all infinite");
    CHECK(kept_count == 0, "of infinite marks %zu are kept", kept_count);
}

/* ---- Bytes that are no file. 9 comes before 4. */

static void expect_broken(const char *why, const uint8_t *from, size_t from_size) {
    expect_refused(why, from, from_size, from_size + 64, 55 + 21 * n, 9);
    expect_refused(why, from, from_size, 0, 0, 9);
}

/* Prefixes, of which one is a file without curves, a byte too many, and changed heads. */
static void damaged(size_t file_size) {
    const size_t heads[] = {0, 4, 14, 18, 20 + 16 * n, 24 + 16 * n};
    for (size_t i = 0; i < file_size; i++)
        if (i != 20 + 16 * n) expect_broken("a prefix", file, i);
    file[file_size] = 0;
    expect_broken("a byte left over", file, file_size + 1);
    for (size_t i = 0; i < COUNT(heads) && heads[i] < file_size; i++) {
        file[heads[i]] ^= 0x40;
        expect_broken("a changed head", file, file_size);
        file[heads[i]] ^= 0x40;
    }
}

/* Curves of a kind that does not suit the number of marks, and as many curves as marks. */
static void unsuited(size_t count, unsigned eight, unsigned nine) {
    const uint32_t firsts[2] = {0, 1};
    straight(marks, n = count);
    expect_broken("eight numbers", file, compose_kind(file, eight, 0.5, marks, n, 1, firsts, firsts, noise, noise));
    expect_broken("nine numbers", file, compose_kind(file, nine, 0.5, marks, n, 1, firsts, firsts, noise, noise));
    expect_broken("two curves of two marks", file, compose(file, 0.5, marks, 2, 8, 2, firsts, firsts, noise, noise));
}

static void broken_files(void) {
    take_marks("11 n2 11 22");
    expect_broken("nothing", NULL, 0);
    for (size_t form = 0; form < FORMS; form++) damaged(put_file(form));
    unsuited(NARROW_MARKS, 5, 7);
    unsuited(NARROW_MARKS + 1, 3, 6);
}

/* ---- The examples, by examples/README.md, and what a fit says before and after: it is not promised that it takes what is left. `said` is
   what a list begins with. */

static void expect_fits(const char *why, uint32_t before, uint32_t after) {
    static Slices slices;
    if (slices.curves.place == NULL) slices = new_slices();
    lend_slices(&slices, &fits[JOINED], n, 0, 53);
    uint32_t one = fit_into(&fits[JOINED], marks, 2 * n, tolerance, &slices),
             other = fit_into(&fits[JOINED], kept, 2 * kept_count, tolerance, &slices);
    CHECK(one == before && other == after, "%s: the fit answers %u, and %u of what is kept", why, one, other);
}

static void expect_example(const char *folder, const char *name, size_t count, const char *said, uint32_t before, uint32_t after) {
    char path[4096];
    snprintf(path, sizeof path, "%s/%s.house", folder, name);
    size_t file_size = load(path, file, sizeof file);
    n = count;
    memcpy(&tolerance, file + 6, sizeof tolerance);
    memcpy(marks, file + 20, 16 * n);
    foretell();
    CHECK(strlen(said) <= list_size && memcmp(list, said, strlen(said)) == 0, "%s: %.*s", name, (int)list_size, list);
    expect_rooms(name, file_size);
    expect_fits(name, before, after);
}

static void still_refused(void) {
    const double near[] = {0, 0, 1e-200, 0, 2e-200, 0};
    tolerance = 0.5, n = 3;
    memcpy(marks, near, sizeof near);
    foretell();
    CHECK(kept_count == 3, "%zu marks are kept", kept_count);
    expect_rooms("marks that are nearly equal", put_file(ALONE));
    expect_fits("marks that are nearly equal", 6, 6);
}

int main(int argc, char **argv) {
    if (argc != 2) return 2;
    out = new_lent(FILE_ROOM);
    report = new_lent(LIST_ROOM);
    for (size_t i = 0; i < MOST; i++) noise[i] = of_bits(random_bits());
    small_traces();
    random_traces();
    long_traces();
    broken_files();
    expect_example(argv[1], "pressed", 3, "KEPT 1 DROPPED 2\nDROP 1 EQUAL\nDROP 2 EQUAL\n", 6, 1);
    expect_example(argv[1], "rested", 480, "KEPT 250 DROPPED 230\nDROP 186 EQUAL\nDROP 187 EQUAL\n", 6, 0);
    expect_example(argv[1], "lost", 24, "KEPT 23 DROPPED 1\nDROP 11 RANGE\n", 5, 0);
    expect_example(argv[1], "cover", 142, "KEPT 142 DROPPED 0\n", 0, 0);
    expect_example(argv[1], "cushion", 85, "KEPT 85 DROPPED 0\n", 0, 0);
    still_refused();
    printf("random marks: %zu kept, %zu out of range, %zu equal\n", met['K'], met['R'], met['E']);
    return finish();
}
