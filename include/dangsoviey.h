/* Dangsoviey: SQLite's date and time functions, each proved to give exactly the answer that the rules define, on all inputs.
 *
 * Link with target/staticlib/libdangsoviey.a (`tools/build dangsoviey` writes it; x86-64 Linux). C99 and C++.
 *
 * Rules of use
 * - Nothing is kept, nothing is allocated, there is no state: every function may be called from any thread at any time.
 * - A slice is a pointer and a length. With length 0 the pointer may be null; otherwise it must point to that many bytes.
 * - Bytes handed in are only read. `out` must not overlap them.
 * - An answer changes the first `length` bytes of `out` and no other byte. A refusal changes none. No zero byte is put after a text.
 * - The clock and the offset are arguments: no function asks the system for the time or the zone.
 * - docs/CALLS.md has the forms of time values, the modifiers and the letters of strftime. A day past its month's end and hour 24 can stand
 *   in a text as they were written; the modifier "+0 days" renews them. Numbers don't depend on it.
 *
 * What is promised of every call, in the words of crates/rules/specs:
 *     A   = answer { clock, offset } call          the outcome: a text, an integer, an f64, or a refusal
 *     the reply is reply_of (answered A room)       room is the length of out, and 0 where no buffer is lent
 *     out then holds after A (what out held)
 * The line "call: .." of each function below says which call. reply_of and the given numbers stand in crates/dangsoviey/specs.
 */
#ifndef DANGSOVIEY_H
#define DANGSOVIEY_H

#include <stddef.h>
#include <stdint.h>
#include <string.h>

#ifdef __cplusplus
extern "C" {
#endif

/* What is given as a time value. Any other number is null. */
enum dangsoviey_given {
    DANGSOVIEY_GIVEN_ABSENT = 0,  /* read as now; in timediff as null */
    DANGSOVIEY_GIVEN_NULL = 1,
    DANGSOVIEY_GIVEN_BYTES = 2,   /* the slice beside it; what stands there is looked at in no other case */
    DANGSOVIEY_GIVEN_INTEGER = 3,
    DANGSOVIEY_GIVEN_REAL = 4
};

/* What comes back. */
enum dangsoviey_kind {
    DANGSOVIEY_KIND_REFUSED = 0,
    DANGSOVIEY_KIND_TEXT = 1,
    DANGSOVIEY_KIND_INTEGER = 2,
    DANGSOVIEY_KIND_REAL = 3
};

/* Why there is no answer. 2, 3, 4 are tested first, in that order, over all arguments, whether used or not; 1, 5 and 6 as reading meets
 * them; 7 is last. */
enum dangsoviey_refusal {
    DANGSOVIEY_ANSWERED = 0,
    DANGSOVIEY_NULL = 1,    /* null: the arguments name no time, or one outside -4713-11-24 12:00 to the end of 9999, or the format has an
                               unknown letter or ends in % */
    DANGSOVIEY_SHAPE = 2,   /* shape: a time value or modifier has over 255 bytes, a format over 1,024, there are over 16 modifiers,
                               or the last is not ended */
    DANGSOVIEY_BYTES = 3,   /* bytes: a time value, modifier or format holds a byte above 127 */
    DANGSOVIEY_SETTING = 4, /* setting: clock above 253402300799999, or offset outside -86399 to 86399 */
    DANGSOVIEY_DECIMAL = 5, /* decimal: a number with over 19 digits (leading zeros don't count, trailing ones do, zero always fits), or
                               whose last digit's power of ten is outside -22 to 22 */
    DANGSOVIEY_EARLY = 6,   /* early: %J is met with under 86400000000000 ms, so before Julian day 1000000 */
    DANGSOVIEY_BUFFER = 7   /* buffer: the answer is longer than the buffer; `length` is the length needed */
};

typedef struct dangsoviey_reply {
    uint32_t kind;    /* enum dangsoviey_kind */
    uint32_t refusal; /* enum dangsoviey_refusal: 0 exactly when kind is not 0 */
    size_t length;    /* of the text; with refusal 7 the length needed; else 0 */
    int64_t integer;  /* of kind INTEGER; else 0 */
    double real;      /* of kind REAL; else 0 */
} dangsoviey_reply;

/* Room that suffices: for every text but strftime's (timediff's, with a year of five digits, is the longest), and for strftime's by the
 * length of its format. */
#define DANGSOVIEY_ROOM 25
#define DANGSOVIEY_FORMAT_ROOM(format_length) (17 * (size_t)(format_length))

/* ---- The functions.
 * clock      milliseconds from 1970-01-01 UTC: what `now` reads
 * offset     seconds east of UTC: what `localtime` and `utc` use
 * given ..   the time value: enum dangsoviey_given, and the integer, the f64 and the bytes of which it picks one
 * modifiers  each ended by a zero byte; the empty slice holds none, a lone zero byte is one empty modifier
 */

/* YYYY-MM-DD, with a minus before a year below 0.
 * call: call Date (value_of (given_of given integer real) value) modifiers */
dangsoviey_reply dangsoviey_date(uint64_t clock, int64_t offset,
    uint32_t given, int64_t integer, double real, const unsigned char *value, size_t value_length,
    const unsigned char *modifiers, size_t modifiers_length,
    unsigned char *out, size_t out_length);

/* HH:MM:SS, and three decimals with subsec, as a modifier or as the time value.
 * call: call Time (value_of (given_of given integer real) value) modifiers */
dangsoviey_reply dangsoviey_time(uint64_t clock, int64_t offset,
    uint32_t given, int64_t integer, double real, const unsigned char *value, size_t value_length,
    const unsigned char *modifiers, size_t modifiers_length,
    unsigned char *out, size_t out_length);

/* The date, a space and the time.
 * call: call Datetime (value_of (given_of given integer real) value) modifiers */
dangsoviey_reply dangsoviey_datetime(uint64_t clock, int64_t offset,
    uint32_t given, int64_t integer, double real, const unsigned char *value, size_t value_length,
    const unsigned char *modifiers, size_t modifiers_length,
    unsigned char *out, size_t out_length);

/* The Julian day, an f64.
 * call: call Julianday (value_of (given_of given integer real) value) modifiers */
dangsoviey_reply dangsoviey_julianday(uint64_t clock, int64_t offset,
    uint32_t given, int64_t integer, double real, const unsigned char *value, size_t value_length,
    const unsigned char *modifiers, size_t modifiers_length);

/* Seconds since 1970-01-01 UTC: an integer, rounded down; with subsec, as a modifier or as the time value, an f64.
 * call: call Unixepoch (value_of (given_of given integer real) value) modifiers */
dangsoviey_reply dangsoviey_unixepoch(uint64_t clock, int64_t offset,
    uint32_t given, int64_t integer, double real, const unsigned char *value, size_t value_length,
    const unsigned char *modifiers, size_t modifiers_length);

/* What a format says: % and one of d e F f g G H I j J k l m M p P R s S T u U V w W Y %.
 * call: strftime format (value_of (given_of given integer real) value) modifiers */
dangsoviey_reply dangsoviey_strftime(uint64_t clock, int64_t offset,
    const unsigned char *format, size_t format_length,
    uint32_t given, int64_t integer, double real, const unsigned char *value, size_t value_length,
    const unsigned char *modifiers, size_t modifiers_length,
    unsigned char *out, size_t out_length);

/* How far, and which way, b is moved to reach a: (+|-)YYYY-MM-DD HH:MM:SS.SSS.
 * call: timediff (value_of (given_of given_a integer_a real_a) a) (value_of (given_of given_b integer_b real_b) b) */
dangsoviey_reply dangsoviey_timediff(uint64_t clock, int64_t offset,
    uint32_t given_a, int64_t integer_a, double real_a, const unsigned char *a, size_t a_length,
    uint32_t given_b, int64_t integer_b, double real_b, const unsigned char *b, size_t b_length,
    unsigned char *out, size_t out_length);

/* ---- For loggers: whole milliseconds from 1970-01-01 UTC, exact. Their definitions stand in crates/dangsoviey/specs. */

/* The moment that a call is about, an integer.
 * the reply is reply_of (answered (milliseconds { clock, offset } (value_of (given_of given integer real) value) modifiers) 0) */
dangsoviey_reply dangsoviey_milliseconds(uint64_t clock, int64_t offset,
    uint32_t given, int64_t integer, double real, const unsigned char *value, size_t value_length,
    const unsigned char *modifiers, size_t modifiers_length);

/* YYYY-MM-DD HH:MM:SS.SSS; refusal 1 below -210866760000000 and above 253402300799999. From the year 0 on, dangsoviey_milliseconds of the
 * text is ms again.
 * the reply is reply_of (answered (stamp ms) out_length), and out then holds after (stamp ms) (what out held) */
dangsoviey_reply dangsoviey_stamp(int64_t ms, unsigned char *out, size_t out_length);

/* ---- The same, shorter.
 *
 *     char buf[DANGSOVIEY_ROOM];
 *     dangsoviey_setting set = dangsoviey_at(1700000000000, 0);
 *     dangsoviey_value v = dangsoviey_text("2024-01-31 10:00");
 *     dangsoviey_reply r = dangsoviey_datetime_of(set, v, DANGSOVIEY_MODIFIERS("+1 month\0floor"), buf, sizeof buf);
 *     if (r.kind == DANGSOVIEY_KIND_TEXT) printf("%.*s\n", (int)r.length, buf);       (2024-02-29 10:00:00)
 */
typedef struct dangsoviey_setting {
    uint64_t clock;
    int64_t offset;
} dangsoviey_setting;

typedef struct dangsoviey_value {
    uint32_t given;
    int64_t integer;
    double real;
    const unsigned char *bytes;
    size_t length;
} dangsoviey_value;

typedef struct dangsoviey_modifiers {
    const unsigned char *bytes;
    size_t length;
} dangsoviey_modifiers;

static inline dangsoviey_setting dangsoviey_at(uint64_t clock, int64_t offset)
{
    dangsoviey_setting set;
    set.clock = clock;
    set.offset = offset;
    return set;
}

static inline dangsoviey_value dangsoviey_value_of(uint32_t given, int64_t integer, double real, const void *bytes, size_t length)
{
    dangsoviey_value v;
    v.given = given;
    v.integer = integer;
    v.real = real;
    v.bytes = (const unsigned char *)bytes;
    v.length = length;
    return v;
}

/* The moment of the clock. */
static inline dangsoviey_value dangsoviey_now(void)
{
    return dangsoviey_value_of(DANGSOVIEY_GIVEN_ABSENT, 0, 0, 0, 0);
}

static inline dangsoviey_value dangsoviey_null(void)
{
    return dangsoviey_value_of(DANGSOVIEY_GIVEN_NULL, 0, 0, 0, 0);
}

/* The characters before the zero byte. */
static inline dangsoviey_value dangsoviey_text(const char *text)
{
    return dangsoviey_value_of(DANGSOVIEY_GIVEN_BYTES, 0, 0, text, strlen(text));
}

static inline dangsoviey_value dangsoviey_bytes(const void *bytes, size_t length)
{
    return dangsoviey_value_of(DANGSOVIEY_GIVEN_BYTES, 0, 0, bytes, length);
}

static inline dangsoviey_value dangsoviey_integer(int64_t integer)
{
    return dangsoviey_value_of(DANGSOVIEY_GIVEN_INTEGER, integer, 0, 0, 0);
}

static inline dangsoviey_value dangsoviey_real(double real)
{
    return dangsoviey_value_of(DANGSOVIEY_GIVEN_REAL, 0, real, 0, 0);
}

static inline dangsoviey_modifiers dangsoviey_modifiers_of(const void *bytes, size_t length)
{
    dangsoviey_modifiers m;
    m.bytes = (const unsigned char *)bytes;
    m.length = length;
    return m;
}

/* Modifiers as one string literal, "+1 month\0floor": the zero byte with which C ends the literal ends the last of them. Where a modifier
 * begins with a digit, close the literal first, since \01 is one byte: "floor\0" "1 day". */
#define DANGSOVIEY_MODIFIERS(literal) dangsoviey_modifiers_of("" literal, sizeof(literal))

/* None at all. (DANGSOVIEY_MODIFIERS("") is one empty modifier, which refusal 1 answers.) */
static inline dangsoviey_modifiers dangsoviey_none(void)
{
    return dangsoviey_modifiers_of(0, 0);
}

/* A refusal's word. */
static inline const char *dangsoviey_refusal_name(uint32_t refusal)
{
    static const char *const names[] = {"answered", "null", "shape", "bytes", "setting", "decimal", "early", "buffer"};
    return refusal < 8 ? names[refusal] : "unknown";
}

static inline dangsoviey_reply dangsoviey_date_of(dangsoviey_setting set, dangsoviey_value v, dangsoviey_modifiers m,
    char *out, size_t room)
{
    return dangsoviey_date(set.clock, set.offset, v.given, v.integer, v.real, v.bytes, v.length,
        m.bytes, m.length, (unsigned char *)out, room);
}

static inline dangsoviey_reply dangsoviey_time_of(dangsoviey_setting set, dangsoviey_value v, dangsoviey_modifiers m,
    char *out, size_t room)
{
    return dangsoviey_time(set.clock, set.offset, v.given, v.integer, v.real, v.bytes, v.length,
        m.bytes, m.length, (unsigned char *)out, room);
}

static inline dangsoviey_reply dangsoviey_datetime_of(dangsoviey_setting set, dangsoviey_value v, dangsoviey_modifiers m,
    char *out, size_t room)
{
    return dangsoviey_datetime(set.clock, set.offset, v.given, v.integer, v.real, v.bytes, v.length,
        m.bytes, m.length, (unsigned char *)out, room);
}

static inline dangsoviey_reply dangsoviey_julianday_of(dangsoviey_setting set, dangsoviey_value v, dangsoviey_modifiers m)
{
    return dangsoviey_julianday(set.clock, set.offset, v.given, v.integer, v.real, v.bytes, v.length,
        m.bytes, m.length);
}

static inline dangsoviey_reply dangsoviey_unixepoch_of(dangsoviey_setting set, dangsoviey_value v, dangsoviey_modifiers m)
{
    return dangsoviey_unixepoch(set.clock, set.offset, v.given, v.integer, v.real, v.bytes, v.length,
        m.bytes, m.length);
}

static inline dangsoviey_reply dangsoviey_milliseconds_of(dangsoviey_setting set, dangsoviey_value v, dangsoviey_modifiers m)
{
    return dangsoviey_milliseconds(set.clock, set.offset, v.given, v.integer, v.real, v.bytes, v.length,
        m.bytes, m.length);
}

static inline dangsoviey_reply dangsoviey_stamp_of(int64_t ms, char *out, size_t room)
{
    return dangsoviey_stamp(ms, (unsigned char *)out, room);
}

static inline dangsoviey_reply dangsoviey_strftime_of(dangsoviey_setting set, const char *format, dangsoviey_value v,
    dangsoviey_modifiers m, char *out, size_t room)
{
    return dangsoviey_strftime(set.clock, set.offset, (const unsigned char *)format, strlen(format),
        v.given, v.integer, v.real, v.bytes, v.length,
        m.bytes, m.length, (unsigned char *)out, room);
}

static inline dangsoviey_reply dangsoviey_timediff_of(dangsoviey_setting set, dangsoviey_value a, dangsoviey_value b,
    char *out, size_t room)
{
    return dangsoviey_timediff(set.clock, set.offset, a.given, a.integer, a.real, a.bytes, a.length,
        b.given, b.integer, b.real, b.bytes, b.length, (unsigned char *)out, room);
}

#ifdef __cplusplus
}
#endif

#endif
