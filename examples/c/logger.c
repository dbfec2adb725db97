/* A small logger: it stamps its lines, names its file, says what is old enough to go, and reads its own stamps back.
 * The times of the lines are fixed here, so that what it writes is always the same; a real one asks its clock. */
#include <stdio.h>
#include "dangsoviey.h"

typedef struct entry {
    int64_t ms; /* from 1970-01-01 UTC */
    const char *text;
} entry;

static const entry entries[] = {
    {1709164799250, "started"},
    {1709164800000, "a leap day begins"},
    {1709251199999, "and ends"},
    {253402300800000, "past the year 9999"},
};

enum { COUNT = sizeof entries / sizeof *entries, OFFSET = 3600 /* seconds east of UTC */ };

static void show(const char *what, dangsoviey_reply r, const char *text)
{
    switch (r.kind) {
    case DANGSOVIEY_KIND_TEXT:
        printf("%s: %.*s\n", what, (int)r.length, text);
        break;
    case DANGSOVIEY_KIND_INTEGER:
        printf("%s: %lld\n", what, (long long)r.integer);
        break;
    case DANGSOVIEY_KIND_REAL:
        printf("%s: %.3f\n", what, r.real);
        break;
    default:
        printf("%s: refused, %s (%u)", what, dangsoviey_refusal_name(r.refusal), (unsigned)r.refusal);
        if (r.refusal == DANGSOVIEY_BUFFER)
            printf(": %zu bytes are needed", r.length);
        printf("\n");
    }
}

int main(void)
{
    char stamps[COUNT][DANGSOVIEY_ROOM];
    size_t lengths[COUNT];
    char buf[64];
    dangsoviey_setting set = dangsoviey_at((uint64_t)entries[0].ms, OFFSET);

    /* The file's name, from the day on which it was begun, in local time. */
    show("file", dangsoviey_strftime_of(set, "app-%F.log", dangsoviey_now(), DANGSOVIEY_MODIFIERS("localtime"), buf, sizeof buf), buf);

    /* A line for each entry: UTC, with milliseconds. A time that has no stamp is refused, and the line says so. */
    for (size_t i = 0; i < COUNT; i++) {
        dangsoviey_reply r = dangsoviey_stamp_of(entries[i].ms, stamps[i], sizeof stamps[i]);
        lengths[i] = r.length;
        show(entries[i].text, r, stamps[i]);
    }

    /* Read back to the milliseconds that were stamped, and how long the first lines are apart. */
    for (size_t i = 0; i + 1 < COUNT; i++)
        show("read back", dangsoviey_milliseconds_of(set, dangsoviey_bytes(stamps[i], lengths[i]), dangsoviey_none()), buf);
    show("took", dangsoviey_timediff_of(set, dangsoviey_bytes(stamps[2], lengths[2]), dangsoviey_bytes(stamps[0], lengths[0]), buf, sizeof buf), buf);

    /* Files from before this day may go: the first of the month that was a year ago. */
    show("keep from", dangsoviey_date_of(set, dangsoviey_now(), DANGSOVIEY_MODIFIERS("-1 year\0start of month"), buf, sizeof buf), buf);

    /* Rotate next at the coming local midnight that begins a Monday. */
    show("rotate", dangsoviey_datetime_of(set, dangsoviey_now(), DANGSOVIEY_MODIFIERS("localtime\0+1 day\0weekday 1\0start of day"), buf, sizeof buf), buf);

    /* A line that is damaged, and a buffer that is too small. */
    show("damaged", dangsoviey_datetime_of(set, dangsoviey_text("2024-02-3x 10:00"), dangsoviey_none(), buf, sizeof buf), buf);
    show("small", dangsoviey_datetime_of(set, dangsoviey_now(), DANGSOVIEY_MODIFIERS("subsec"), buf, 10), buf);
    return 0;
}
