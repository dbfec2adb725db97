/* Random calls of the functions, and what must hold of every one of them:
 * - the reply is of one kind, and the fields that the kind does not use are 0;
 * - the bytes before the buffer, after it, and in it past the answer are as they were; after a refusal all are;
 * - in a buffer that is exactly full the same text comes back, and with one byte less refusal 7 with the same length;
 * - with no buffer at all, a null pointer and 0, the length needed comes back, and any other refusal is the same.
 * - a stamp that is read back gives the milliseconds that were stamped.
 * Values, modifiers and formats lie in blocks of exactly their length, and are null where that is 0, so that valgrind sees a read past them.
 *
 * calls [COUNT [SEED]]: 100000 and 1 if not given. */
#include <stdio.h>
#include <stdlib.h>
#include "dangsoviey.h"

/* ---- numbers that look random */
static uint64_t state;

static uint64_t next(void)
{
    state ^= state << 13;
    state ^= state >> 7;
    state ^= state << 17;
    return state;
}

static size_t below(size_t n)
{
    return (size_t)((next() >> 11) % n);
}

static int one_in(size_t n)
{
    return below(n) == 0;
}

/* ---- bytes to hand in: a block of exactly their length */
typedef struct piece {
    unsigned char *at;
    size_t length;
} piece;

static unsigned char scratch[8192];
static size_t filled;

static void add(const char *s)
{
    size_t n = strlen(s);
    memcpy(scratch + filled, s, n);
    filled += n;
}

static void add_byte(unsigned char b)
{
    scratch[filled++] = b;
}

static piece take(void)
{
    piece p;
    p.length = filled;
    p.at = filled ? (unsigned char *)malloc(filled) : NULL;
    if (filled)
        memcpy(p.at, scratch, filled);
    filled = 0;
    return p;
}

static const char *const words[] = {"now", "2024-01-31", "2024-02-29 23:59:59.999", "-4713-11-24 12:00", "9999-12-31 24:00", "24:00", "10:00:00.0625",
    "2024-01-01TT10:00Z", "2024-01-01 10:00+14:59", "1700000000", "0", "5373484.5", "-1", "1e3", "inf", "nan", "12345678901234567890", "subsec", "", " 2.5 "};
static const char *const steps[] = {"+1 month", "floor", "ceiling", "-1 day", "1.5 hours", "start of month", "start of year", "start of day", "weekday 0",
    "weekday 6", "subsec", "localtime", "utc", "unixepoch", "auto", "julianday", "+0001-02-03 04:05:06.789", "-00:00:01.001", "+5373484 days", "-14712 years",
    "1e23 days", "none", ""};
static const char letters[] = "deFfgGHIjJklmMpPRsSTuUVwWY%";
static const char alphabet[] = "0123456789-+:. TZtzeEnow";

static void add_number(uint64_t n, int digits)
{
    char s[32];
    sprintf(s, "%0*llu", digits, (unsigned long long)n);
    add(s);
}

/* Mostly a date, a time or a number that reads, or nearly does; now and then anything. */
static void add_value(void)
{
    size_t n;
    switch (below(6)) {
    case 0:
        add(words[below(sizeof words / sizeof *words)]);
        break;
    case 1:
        for (n = below(one_in(20) ? 300 : 24); n > 0; n--)
            add_byte(alphabet[below(sizeof alphabet - 1)]);
        break;
    case 2:
        add_number(below(6000000), 1);
        break;
    default:
        if (one_in(4))
            add("-");
        add_number(below(10000), 4);
        add("-");
        add_number(1 + below(12), 2);
        add("-");
        add_number(1 + below(31), 2);
        if (one_in(2)) {
            add(" ");
            add_number(below(25), 2);
            add(":");
            add_number(below(60), 2);
            add(":");
            add_number(below(60), 2);
            if (one_in(2)) {
                add(".");
                add_number(below(1000), 3);
            }
        }
        break;
    }
    if (filled && one_in(40))
        scratch[below(filled)] = (unsigned char)next();
}

static void add_modifiers(void)
{
    size_t n = one_in(3) ? 0 : below(one_in(20) ? 19 : 5);
    for (; n > 0; n--) {
        add(steps[below(sizeof steps / sizeof *steps)]);
        if (one_in(400))
            for (size_t i = 0; i < 250; i++)
                add_byte('x');
        add_byte(0);
    }
    if (one_in(60))
        add("day");
    if (filled && one_in(80))
        scratch[below(filled)] = (unsigned char)next();
}

static void add_format(void)
{
    size_t n = below(one_in(50) ? 520 : 12);
    for (; n > 0; n--) {
        add("%");
        add_byte(one_in(100) ? (unsigned char)next() : (unsigned char)letters[below(sizeof letters - 1)]);
        if (one_in(4))
            add(" ");
    }
}

/* ---- a call. The first six lend a buffer. */
enum { DATE, TIME, DATETIME, STRFTIME, TIMEDIFF, STAMP, JULIANDAY, UNIXEPOCH, MILLISECONDS, FUNCTIONS };

static const char *const names[] = {"date", "time", "datetime", "strftime", "timediff", "stamp", "julianday", "unixepoch", "milliseconds"};

static int lends(int function)
{
    return function <= STAMP;
}

typedef struct question {
    int function; /* by its place in `names` */
    uint64_t clock;
    int64_t offset;
    uint32_t given_a, given_b;
    int64_t integer_a, integer_b;
    double real_a, real_b;
    piece a, b, modifiers, format;
} question;

static dangsoviey_reply ask(const question *q, unsigned char *out, size_t room)
{
    switch (q->function) {
    case DATE:
        return dangsoviey_date(q->clock, q->offset, q->given_a, q->integer_a, q->real_a, q->a.at, q->a.length, q->modifiers.at, q->modifiers.length, out,
            room);
    case TIME:
        return dangsoviey_time(q->clock, q->offset, q->given_a, q->integer_a, q->real_a, q->a.at, q->a.length, q->modifiers.at, q->modifiers.length, out,
            room);
    case DATETIME:
        return dangsoviey_datetime(q->clock, q->offset, q->given_a, q->integer_a, q->real_a, q->a.at, q->a.length, q->modifiers.at, q->modifiers.length, out,
            room);
    case STRFTIME:
        return dangsoviey_strftime(q->clock, q->offset, q->format.at, q->format.length, q->given_a, q->integer_a, q->real_a, q->a.at, q->a.length,
            q->modifiers.at, q->modifiers.length, out, room);
    case TIMEDIFF:
        return dangsoviey_timediff(q->clock, q->offset, q->given_a, q->integer_a, q->real_a, q->a.at, q->a.length, q->given_b, q->integer_b, q->real_b,
            q->b.at, q->b.length, out, room);
    case STAMP:
        return dangsoviey_stamp(q->integer_a, out, room);
    case JULIANDAY:
        return dangsoviey_julianday(q->clock, q->offset, q->given_a, q->integer_a, q->real_a, q->a.at, q->a.length, q->modifiers.at, q->modifiers.length);
    case UNIXEPOCH:
        return dangsoviey_unixepoch(q->clock, q->offset, q->given_a, q->integer_a, q->real_a, q->a.at, q->a.length, q->modifiers.at, q->modifiers.length);
    default:
        return dangsoviey_milliseconds(q->clock, q->offset, q->given_a, q->integer_a, q->real_a, q->a.at, q->a.length, q->modifiers.at,
            q->modifiers.length);
    }
}

static question random_question(void)
{
    static const uint32_t kinds[] = {2, 2, 2, 2, 2, 2, 3, 4, 0, 1, 5, 4294967295u};
    question q;
    q.function = (int)below(FUNCTIONS);
    q.clock = one_in(30) ? next() : below(253402300800000u);
    q.offset = one_in(30) ? (int64_t)next() : (int64_t)below(172799) - 86399;
    q.given_a = kinds[below(sizeof kinds / sizeof *kinds)];
    q.given_b = kinds[below(sizeof kinds / sizeof *kinds)];
    q.integer_a = one_in(2) ? (int64_t)next() : (int64_t)below(5373486);
    if (q.function == STAMP && !one_in(20))
        q.integer_a = (int64_t)below(464269060800000u) - 210866760000000;
    q.integer_b = one_in(2) ? (int64_t)next() : (int64_t)below(5373486);
    q.real_a = one_in(2) ? (double)next() : (double)below(5373486) / 7;
    q.real_b = one_in(2) ? -(double)next() : (double)below(5373486) / 7;
    add_value();
    q.a = take();
    add_value();
    q.b = take();
    add_modifiers();
    q.modifiers = take();
    add_format();
    q.format = take();
    return q;
}

static void drop(question *q)
{
    free(q->a.at);
    free(q->b.at);
    free(q->modifiers.at);
    free(q->format.at);
}

/* ---- what must hold */
static unsigned long asked;

static void fail(const char *what, const question *q)
{
    printf("calls: question %lu, %s: %s\n", asked, names[q->function], what);
    exit(1);
}

static int same(dangsoviey_reply r, dangsoviey_reply s)
{
    return r.kind == s.kind && r.refusal == s.refusal && r.length == s.length && r.integer == s.integer && memcmp(&r.real, &s.real, sizeof r.real) == 0;
}

static void check_fields(const question *q, dangsoviey_reply r, size_t room)
{
    double none = 0;
    int real_zero = memcmp(&r.real, &none, sizeof none) == 0;
    int well;
    switch (r.kind) {
    case DANGSOVIEY_KIND_REFUSED:
        well = r.refusal >= 1 && r.refusal <= 7 && (r.refusal == 7 ? r.length > room : r.length == 0) && r.integer == 0 && real_zero;
        break;
    case DANGSOVIEY_KIND_TEXT:
        well = r.refusal == 0 && r.length <= room && r.integer == 0 && real_zero && lends(q->function);
        break;
    case DANGSOVIEY_KIND_INTEGER:
        well = r.refusal == 0 && r.length == 0 && real_zero && (q->function == UNIXEPOCH || q->function == MILLISECONDS);
        break;
    case DANGSOVIEY_KIND_REAL:
        well = r.refusal == 0 && r.length == 0 && r.integer == 0 && (q->function == JULIANDAY || q->function == UNIXEPOCH);
        break;
    default:
        well = 0;
    }
    if (!well)
        fail("fields of the reply", q);
}

enum { AROUND = 32, MOST = 17 * 1600 };

static unsigned char block[AROUND + MOST + AROUND];

/* A call in a buffer of `room` bytes, with a pattern in it and around it: the bytes that stay are looked at. The text, if there is one,
 * stands at block + AROUND. */
static dangsoviey_reply ask_within(const question *q, size_t room)
{
    unsigned char pattern = (unsigned char)next();
    size_t all = AROUND + room + AROUND;
    size_t from = AROUND, to = AROUND;
    dangsoviey_reply r;
    for (size_t i = 0; i < all; i++)
        block[i] = (unsigned char)(pattern + i * 7);
    r = ask(q, block + AROUND, room);
    check_fields(q, r, lends(q->function) ? room : 0);
    if (r.kind == DANGSOVIEY_KIND_TEXT)
        to += r.length;
    for (size_t i = 0; i < all; i++)
        if ((i < from || i >= to) && block[i] != (unsigned char)(pattern + i * 7))
            fail("a byte that is not the answer's was changed", q);
    return r;
}

static unsigned long counts[FUNCTIONS][4];

static void check(const question *q)
{
    size_t large = 17 * q->format.length + DANGSOVIEY_ROOM;
    dangsoviey_reply r, s;
    unsigned char *text;
    if (large > MOST)
        large = MOST;
    r = ask_within(q, large);
    counts[q->function][r.kind]++;
    if (r.refusal == 7)
        fail("no room where any answer has room", q);
    s = ask(q, NULL, 0);
    if (r.kind != DANGSOVIEY_KIND_TEXT) {
        if (!same(r, s))
            fail("another reply without a buffer", q);
        if (!same(r, ask_within(q, below(40))))
            fail("another reply in another buffer", q);
        return;
    }
    if (r.length > 0 && !(s.kind == 0 && s.refusal == 7 && s.length == r.length))
        fail("without a buffer: not 7 with the length needed", q);
    if (r.length == 0 && !same(r, s))
        fail("an empty text without a buffer", q);
    text = (unsigned char *)malloc(r.length + 1);
    memcpy(text, block + AROUND, r.length);
    if (!same(r, ask_within(q, r.length)) || memcmp(text, block + AROUND, r.length) != 0)
        fail("another answer in a buffer that is exactly full", q);
    if (r.length > 0) {
        unsigned char *tight = (unsigned char *)malloc(r.length);
        s = ask(q, tight, r.length);
        if (!same(r, s) || memcmp(text, tight, r.length) != 0)
            fail("another answer in a block of its own", q);
        free(tight);
        s = ask_within(q, r.length - 1);
        if (!(s.kind == 0 && s.refusal == 7 && s.length == r.length))
            fail("one byte less: not 7 with the same length", q);
        s = ask_within(q, below(r.length + 9));
        if (s.kind == 0 ? !(s.refusal == 7 && s.length == r.length) : !(same(r, s) && memcmp(text, block + AROUND, r.length) == 0))
            fail("another answer in another buffer", q);
    }
    if (q->function == STAMP) {
        s = dangsoviey_milliseconds_of(dangsoviey_at(0, 0), dangsoviey_bytes(text, r.length), dangsoviey_none());
        if (s.kind != DANGSOVIEY_KIND_INTEGER || s.integer != q->integer_a)
            fail("read back, other milliseconds", q);
    }
    free(text);
}

/* ---- document 01's marked examples, by the shorter names */
static void expect(const char *row, dangsoviey_reply r, const char *text, const char *wanted)
{
    size_t n = strlen(wanted);
    if (r.kind != DANGSOVIEY_KIND_TEXT || r.length != n || memcmp(text, wanted, n) != 0) {
        printf("calls: %s: not %s\n", row, wanted);
        exit(1);
    }
}

static void expect_refusal(const char *row, dangsoviey_reply r, uint32_t wanted)
{
    if (r.kind != DANGSOVIEY_KIND_REFUSED || r.refusal != wanted) {
        printf("calls: %s: not refusal %u\n", row, (unsigned)wanted);
        exit(1);
    }
}

static void marked(void)
{
    char buf[64];
    size_t n = sizeof buf;
    dangsoviey_setting set = dangsoviey_at(1700000000000u, 0);
    dangsoviey_modifiers none = dangsoviey_none();
    expect("m1", dangsoviey_datetime_of(set, dangsoviey_integer(0), none, buf, n), buf, "-4713-11-24 12:00:00");
    expect("m2", dangsoviey_date_of(set, dangsoviey_text("2023-02-31"), none, buf, n), buf, "2023-03-03");
    expect("m3", dangsoviey_time_of(set, dangsoviey_text("24:00"), none, buf, n), buf, "24:00:00");
    expect_refusal("m4", dangsoviey_date_of(set, dangsoviey_text("9999-12-31 24:00"), none, buf, n), DANGSOVIEY_NULL);
    expect("m5", dangsoviey_datetime_of(set, dangsoviey_real(1700000000), DANGSOVIEY_MODIFIERS("unixepoch"), buf, n), buf, "2023-11-14 22:13:20");
    expect("m6", dangsoviey_date_of(set, dangsoviey_text("2024-01-31"), DANGSOVIEY_MODIFIERS("+1 month\0floor"), buf, n), buf, "2024-02-29");
    expect("m7", dangsoviey_date_of(set, dangsoviey_text("2024-01-01"), DANGSOVIEY_MODIFIERS("weekday 0"), buf, n), buf, "2024-01-07");
    expect("m8", dangsoviey_timediff_of(set, dangsoviey_text("2023-03-01"), dangsoviey_text("2023-01-31"), buf, n), buf, "+0000-00-29 00:00:00.000");
    expect("m9", dangsoviey_timediff_of(set, dangsoviey_text("2023-01-31"), dangsoviey_text("2023-03-01"), buf, n), buf, "-0000-01-01 00:00:00.000");
    expect("m10", dangsoviey_datetime_of(set, dangsoviey_text("2024-01-01 00:00:00.999"), DANGSOVIEY_MODIFIERS("+00:00:01.001"), buf, n), buf,
        "2024-01-01 00:00:02");
    expect("m11", dangsoviey_strftime_of(set, "%G %V %U %W", dangsoviey_text("2021-01-03"), none, buf, n), buf, "2020 53 01 00");
    expect_refusal("m12", dangsoviey_strftime_of(set, "%F", dangsoviey_text("9999-12-31"), DANGSOVIEY_MODIFIERS("+1 day"), buf, n), DANGSOVIEY_NULL);
}

int main(int count, char **words_given)
{
    unsigned long total = count > 1 ? strtoul(words_given[1], NULL, 10) : 100000;
    state = 0x9e3779b97f4a7c15u ^ (count > 2 ? strtoul(words_given[2], NULL, 10) : 1);
    marked();
    for (asked = 0; asked < total; asked++) {
        question q = random_question();
        check(&q);
        drop(&q);
    }
    for (int f = 0; f < FUNCTIONS; f++)
        printf("%s: %lu refused, %lu texts, %lu integers, %lu reals\n", names[f], counts[f][0], counts[f][1], counts[f][2], counts[f][3]);
    printf("calls: %lu questions, each asked in several buffers: as promised\n", total);
    return 0;
}
