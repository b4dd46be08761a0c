/* Reads, writes and compares the dates of bibliographies, counts their days and
 * seconds, keeps a chronology of entries, and reads and writes page ranges. The
 * functions are in libknobstream.a, for x86-64 and Arm (aarch64) Linux; their
 * contracts are in crates/knobstream/src/, and each is proved.
 *
 * Who owns what. All memory is the caller's. A slice is a pointer and a number
 * of elements, and is lent for the one call: nothing of it is kept, and nothing
 * is handed out that would have to be given back. An empty slice may have any
 * pointer, NULL too.
 *
 * What is stored to: `out`, `answer`, and the count and the columns of a
 * chronology that is added to or removed from; nothing else. An answer is
 * stored into a struct that is lent, every byte of it, so that it need not have
 * values before. A struct of at most 16 bytes goes in or comes out by value.
 *
 * What may overlap: slices that are only read may overlap each other. What is
 * stored to overlaps nothing else that is lent to the same call.
 *
 * Padding is not to be compared. knobstream_written, knobstream_period,
 * knobstream_seconds, knobstream_entries and knobstream_reply have bytes behind
 * `refusal` that no call determines: compare the members, and not the whole by
 * memcmp. The other structs have no padding, and every byte of them has a
 * value.
 *
 * No call allocates, keeps state, takes a lock or traps: every number and every
 * byte has an answer. A call uses at most KNOBSTREAM_STACK bytes of stack, the
 * one that reads six fields at most KNOBSTREAM_SIX_FIELDS_STACK, the one that
 * answers a frame at most KNOBSTREAM_FRAME_STACK; this is measured, not proved.
 * Calls may run at once in any number of threads, if nothing that one of them
 * stores to is lent to another.
 *
 * What the caller owes, beside this: a pointer is readable (writable for what
 * is stored to) for as many elements as are said, and aligned as its type is;
 * `answer`, a count and a column are never NULL; and what goes in has values,
 * all 512 numbers of a column too.
 */
#ifndef KNOBSTREAM_H
#define KNOBSTREAM_H

#include <stddef.h>
#include <stdint.h>

#ifdef __cplusplus
extern "C" {
#endif

/* The version of the calls and structs below, and of those in the library: a
 * program that finds them different was made for another library. */
enum { KNOBSTREAM_VERSION = 5 };
uint32_t knobstream_version(void);

/* Why a call refuses. 0 is no refusal. */
enum {
    KNOBSTREAM_OK = 0,
    KNOBSTREAM_UNDEFINED_RANGE = 1,       /* a range that is open on both sides */
    KNOBSTREAM_DAY_OUT_OF_RANGE = 2,      /* no day of a month, or not of its month */
    KNOBSTREAM_MONTH_OUT_OF_RANGE = 3,    /* not one of twelve */
    KNOBSTREAM_INVALID_NUMBER = 4,        /* no number, or not in its range */
    KNOBSTREAM_MISSING_NUMBER = 5,
    KNOBSTREAM_WRONG_NUMBER_OF_DIGITS = 6,
    KNOBSTREAM_INVALID_FORMAT = 7,        /* none of the forms that are read */
    KNOBSTREAM_YEAR_ZERO_CE = 8,          /* a year zero with an era */
    KNOBSTREAM_RUST_PANICS = 9,           /* the ported code panics on this */
    KNOBSTREAM_BAD_UTF8 = 10,
    KNOBSTREAM_UNSUPPORTED_CHAR = 11,     /* a character outside U+0000..00FF and U+2000..206F */
    KNOBSTREAM_NOT_STRICT = 12,           /* no text of the strict grammar */
    KNOBSTREAM_NO_ROOM = 13,              /* `out` is too short */
    KNOBSTREAM_BAD_FRAME = 14,
    KNOBSTREAM_BAD_CHUNKS = 15,           /* the table does not fit the bytes */
    KNOBSTREAM_TOO_LONG = 16,             /* over 64 chunks or pieces, or 4,096 bytes */
    KNOBSTREAM_NOT_A_CALENDAR_DATE = 17,  /* no date of the years -9999 to 9999, or a day without a month */
    KNOBSTREAM_BAD_PERIOD = 18,           /* last day before the first, or none of those years */
    KNOBSTREAM_DUPLICATE_ENTRY = 19,      /* the identifier is in the chronology */
    KNOBSTREAM_CHRONOLOGY_FULL = 20,      /* 512 entries */
    KNOBSTREAM_UNKNOWN_ENTRY = 21,        /* the identifier is not in the chronology */
    KNOBSTREAM_BAD_TIME = 22,             /* no time of a clock, or without a day */
    KNOBSTREAM_NOT_LEVEL_ONE = 23,        /* no text of the grammar of level one */
    KNOBSTREAM_HAS_SEASON = 24,           /* a season, in a call that knows none */
    KNOBSTREAM_NO_INSTANT = 25,           /* no day, no time or no offset */
    KNOBSTREAM_BAD_CHRONOLOGY = 26        /* what was lent is no chronology */
};

/* The name of a refusal; "" for a number that is none. */
static inline const char *knobstream_refusal_name(unsigned refusal)
{
    static const char *const names[] = {
        "",
        "UndefinedRange",
        "DayOutOfRange",
        "MonthOutOfRange",
        "InvalidNumber",
        "MissingNumber",
        "WrongNumberOfDigits",
        "InvalidFormat",
        "YearZeroCE",
        "RustPanics",
        "BadUtf8",
        "UnsupportedChar",
        "NotStrict",
        "NoRoom",
        "BadFrame",
        "BadChunks",
        "TooLong",
        "NotACalendarDate",
        "BadPeriod",
        "DuplicateEntry",
        "ChronologyFull",
        "UnknownEntry",
        "BadTime",
        "NotLevelOne",
        "HasSeason",
        "NoInstant",
        "BadChronology",
    };
    return refusal < sizeof names / sizeof *names ? names[refusal] : "";
}

/* Limits: the chunks and the bytes of a chunk list, and the pieces that are
 * read as page ranges at once. Room that is always enough: for the text of a
 * date, its fields, its text of level one, its text with times, a page range,
 * the answer to a frame, and the list of a chronology (in numbers). The entries
 * that a chronology has room for. The stack that a call uses at most, that of
 * the one that reads six fields, and that of the one that answers a frame. */
enum {
    KNOBSTREAM_MAX_CHUNKS = 64,
    KNOBSTREAM_MAX_BYTES = 4096,
    KNOBSTREAM_MAX_PIECES = 64,
    KNOBSTREAM_TEXT_ROOM = 40,
    KNOBSTREAM_FIELDS_ROOM = 79,
    KNOBSTREAM_LEVEL_ONE_ROOM = 42,
    KNOBSTREAM_TIMED_ROOM = 70,
    KNOBSTREAM_RANGE_ROOM = 21,
    KNOBSTREAM_LINE_ROOM = 147,
    KNOBSTREAM_LIST_ROOM = 1536,
    KNOBSTREAM_ENTRIES = 512,
    KNOBSTREAM_STACK = 8192,
    KNOBSTREAM_SIX_FIELDS_STACK = 16384,
    KNOBSTREAM_FRAME_STACK = 65536
};

/* The kinds of a chunk. */
enum { KNOBSTREAM_NORMAL = 0, KNOBSTREAM_VERBATIM = 1, KNOBSTREAM_MATH = 2 };

/* The offset of a time. A number above 3 counts as KNOBSTREAM_BEHIND_UTC. */
enum {
    KNOBSTREAM_NO_OFFSET = 0,
    KNOBSTREAM_UTC = 1,
    KNOBSTREAM_AHEAD_OF_UTC = 2,
    KNOBSTREAM_BEHIND_UTC = 3
};

/* The season of a year. A number that is none of these counts as
 * KNOBSTREAM_WINTER. */
enum {
    KNOBSTREAM_NO_SEASON = 0,
    KNOBSTREAM_SPRING = 21,
    KNOBSTREAM_SUMMER = 22,
    KNOBSTREAM_AUTUMN = 23,
    KNOBSTREAM_WINTER = 24
};

/* A year, and a month, a day and a time, or a season, as far as they are there.
 * A part is absent if its `has_` is 0; what then stands in it is not looked at,
 * and a reader puts 0 there. Only knobstream_parse_level_one gives a season,
 * and never beside a month, a day or a time. */
typedef struct {
    int32_t year; /* 1 BC is 0, 2 BC is -1 */
    uint8_t has_month, month; /* January is 0 */
    uint8_t has_day, day; /* the first is 0 */
    uint8_t has_time, hour, minute, second;
    uint8_t offset, offset_hours, offset_minutes;
    uint8_t season; /* 0 none, 21 to 24 spring to winter; any other number counts as winter */
} knobstream_datetime;

/* The shape of a date: a point, a range with an open end, one with an open
 * start, one with both ends. A number above 3 counts as KNOBSTREAM_BETWEEN. */
enum {
    KNOBSTREAM_AT = 0,
    KNOBSTREAM_AFTER = 1,
    KNOBSTREAM_BEFORE = 2,
    KNOBSTREAM_BETWEEN = 3
};

/* A date or a range of dates. Only KNOBSTREAM_BETWEEN has a `second`; in any
 * other it is not looked at, and a reader puts zeros there. A mark is set if it
 * is not 0. */
typedef struct {
    knobstream_datetime first, second;
    uint8_t shape, uncertain, approximate;
    uint8_t reserved; /* 0 */
} knobstream_date;

/* What a reader answers. If `refusal` is 0, `date` is the date and the place is
 * 0, 0. Else `refusal` says why there is none and [start, end) where, in bytes
 * of the file: the start of the list's span and a place in its formatted text,
 * added up, so that it is exact where the list stands in the file as its text
 * does. Of 10 and 11 it counts from the list's first byte, and of a day that a
 * month field holds from the start of that field's formatted text. `date` is all
 * zeros. 9 and all from 12 on name no place: 0, 0. */
typedef struct {
    uint64_t start, end;
    knobstream_date date;
    uint8_t refusal;
    uint8_t unused[3]; /* 0 */
} knobstream_answer;

/* What a writer answers. If `refusal` is 0, the first `length` bytes of `out`
 * are the text, without a NUL, and the bytes behind it are as they were. Else
 * `length` is 0 and `out` is as it was. Measuring, which has no `out`, answers
 * the length of the text in the same way. */
typedef struct {
    size_t length;
    uint8_t refusal;
} knobstream_written;

/* The days that a datetime covers, from the first to the last: those of its
 * year, of its month, or its one day. If `refusal` is not 0, both are 0. */
typedef struct {
    int32_t first, last;
    uint8_t refusal;
} knobstream_period;

/* The seconds from the start of day 0 in UTC to an instant; 0 if `refusal` is
 * not 0. Every day has 86,400 of them. */
typedef struct {
    int64_t seconds;
    uint8_t refusal;
} knobstream_seconds;

/* What reading page ranges answers. If `refusal` is 0, `ranges` is how many
 * there are, and the first 2 * `ranges` numbers of `out` are their starts and
 * ends in turn. Else it is 0, `out` is as it was, and [start, end) is the place
 * as in knobstream_answer, of the first piece that is refused; which one that is
 * is not said, and 10 and 11 count from its first byte. Of what stands behind the
 * second number of a range it starts there in the piece's text, and ends where
 * the piece ends in the file. */
typedef struct {
    uint64_t ranges;
    uint64_t start, end;
    uint64_t refusal;
} knobstream_pages;

/* A chronology: up to 512 entries, each with an identifier and its days from a
 * first to a last, in list order: by first day, last day, identifier. Day 0 is
 * 0000-01-01; a day is one of the years -9999 to 9999, from -3652059 to
 * 3652424. The caller keeps it. One that is all zeros is empty, and one is
 * emptied by the count 0: what stands behind the count is no entry, but must
 * have values. */
typedef struct {
    size_t count;
    int32_t firsts[KNOBSTREAM_ENTRIES];
    int32_t lasts[KNOBSTREAM_ENTRIES];
    uint32_t ids[KNOBSTREAM_ENTRIES];
} knobstream_chronology;

/* What a call on a chronology answers. If `refusal` is 0, `entries` is how many
 * there are now, or were listed; else it is 0, and nothing was changed or
 * stored. */
typedef struct {
    size_t entries;
    uint8_t refusal;
} knobstream_entries;

/* Whether anything is dated in a period. If `refusal` is 0, `found` is 1 if an
 * entry has a day in common with it and else 0, and `read` is how many entries
 * were read to tell; else both are 0. */
typedef struct {
    size_t read;
    uint8_t found;
    uint8_t refusal;
} knobstream_reply;

/* The layout, of which the contracts speak: an answer is seven words of eight
 * bytes, the lowest first, and a datetime two of them. */
#if defined __BYTE_ORDER__ && __BYTE_ORDER__ != __ORDER_LITTLE_ENDIAN__
#error "the library is for processors that store the lowest byte first"
#endif
#if defined __cplusplus && __cplusplus >= 201103L
#define KNOBSTREAM_HOLDS(fact) static_assert(fact, #fact)
#elif defined __STDC_VERSION__ && __STDC_VERSION__ >= 201112L
#define KNOBSTREAM_HOLDS(fact) _Static_assert(fact, #fact)
#endif
#ifdef KNOBSTREAM_HOLDS
KNOBSTREAM_HOLDS(sizeof(knobstream_datetime) == 16 && offsetof(knobstream_datetime, has_month) == 4);
KNOBSTREAM_HOLDS(offsetof(knobstream_datetime, has_time) == 8 && offsetof(knobstream_datetime, season) == 15);
KNOBSTREAM_HOLDS(sizeof(knobstream_date) == 36 && offsetof(knobstream_date, second) == 16);
KNOBSTREAM_HOLDS(offsetof(knobstream_date, shape) == 32 && offsetof(knobstream_date, approximate) == 34);
KNOBSTREAM_HOLDS(sizeof(knobstream_answer) == 56 && offsetof(knobstream_answer, date) == 16);
KNOBSTREAM_HOLDS(offsetof(knobstream_answer, refusal) == 52 && sizeof(knobstream_written) == 16);
KNOBSTREAM_HOLDS(sizeof(knobstream_chronology) == 6152 && offsetof(knobstream_chronology, ids) == 4104);
KNOBSTREAM_HOLDS(sizeof(knobstream_entries) == 16 && sizeof(knobstream_reply) == 16);
KNOBSTREAM_HOLDS(offsetof(knobstream_reply, found) == 8 && offsetof(knobstream_reply, refusal) == 9);
KNOBSTREAM_HOLDS(sizeof(knobstream_period) == 12 && offsetof(knobstream_period, refusal) == 8);
KNOBSTREAM_HOLDS(sizeof(knobstream_seconds) == 16 && offsetof(knobstream_seconds, refusal) == 8);
KNOBSTREAM_HOLDS(sizeof(knobstream_pages) == 32 && offsetof(knobstream_pages, refusal) == 24);
#undef KNOBSTREAM_HOLDS
#endif

/* A chunk list is its text, chunk behind chunk, and a table of four numbers a
 * chunk: kind, length in bytes, and where it starts and ends in the file. So
 * the text "2000" at 7 to 11 of a file is the bytes "2000" and the table
 * { KNOBSTREAM_NORMAL, 4, 7, 11 }; `table_len` counts numbers, 4 here. */

/* A date field, as the Rust crate biblatex reads it: "49" is 2049, "0049" is
 * the year 49. */
void knobstream_parse(
    const uint8_t *bytes, size_t bytes_len,
    const uint64_t *table, size_t table_len,
    knobstream_answer *answer);

/* A date field by the strict grammar alone: "49" is refused. */
void knobstream_parse_strict(
    const uint8_t *bytes, size_t bytes_len,
    const uint64_t *table, size_t table_len,
    knobstream_answer *answer);

/* A date field by the grammar of level one: the strict texts, seasons and long
 * years. "2000-21" is the spring of 2000, "-0044-24" the winter of the year
 * -44, "Y12345" the year 12345, "Y-123456789" a negative one; "49" is
 * refused. */
void knobstream_parse_level_one(
    const uint8_t *bytes, size_t bytes_len,
    const uint64_t *table, size_t table_len,
    knobstream_answer *answer);

/* The fields year, month and day: the year field "49" is the year 49. If
 * `has_month` or `has_day` is 0, that field is absent, and what is passed for
 * it is not looked at; nor is a day field without a month field. */
void knobstream_parse_three_fields(
    const uint8_t *year, size_t year_len,
    const uint64_t *year_table, size_t year_table_len,
    uint8_t has_month,
    const uint8_t *month, size_t month_len,
    const uint64_t *month_table, size_t month_table_len,
    uint8_t has_day,
    const uint8_t *day, size_t day_len,
    const uint64_t *day_table, size_t day_table_len,
    knobstream_answer *answer);

/* The fields year, month, day, endyear, endmonth and endday: the first three as
 * above, and, if there is an end year list, a range. One that is blank leaves
 * the range open; with any other text the end is read like the start. What is
 * passed for a list whose `has_` is 0 is not looked at, nor is a list of the
 * end before the start was read. No mark is set. */
void knobstream_parse_six_fields(
    const uint8_t *year, size_t year_len,
    const uint64_t *year_table, size_t year_table_len,
    uint8_t has_month,
    const uint8_t *month, size_t month_len,
    const uint64_t *month_table, size_t month_table_len,
    uint8_t has_day,
    const uint8_t *day, size_t day_len,
    const uint64_t *day_table, size_t day_table_len,
    uint8_t has_end_year,
    const uint8_t *end_year, size_t end_year_len,
    const uint64_t *end_year_table, size_t end_year_table_len,
    uint8_t has_end_month,
    const uint8_t *end_month, size_t end_month_len,
    const uint64_t *end_month_table, size_t end_month_table_len,
    uint8_t has_end_day,
    const uint8_t *end_day, size_t end_day_len,
    const uint64_t *end_day_table, size_t end_day_table_len,
    knobstream_answer *answer);

/* How long the text of a date is, for whoever must reserve room before it is
 * written: `length` is what the next call stores. It refuses what that call
 * refuses, apart from NoRoom. The date is passed part by part, so that it goes
 * in registers. This call and the next two know no season: a date with one is
 * refused as HasSeason, before all else. */
knobstream_written knobstream_measure_date(
    knobstream_datetime first, knobstream_datetime second,
    uint8_t shape, uint8_t uncertain, uint8_t approximate);

/* The text of a date, at the front of `out`: "2000-02-29", "1999/2003~". */
knobstream_written knobstream_write_date(
    knobstream_datetime first, knobstream_datetime second,
    uint8_t *out, size_t out_len,
    uint8_t shape, uint8_t uncertain, uint8_t approximate);

/* The fields of a date, likewise: lines "year=2000", "month=02", "day=29", for
 * a range with both ends also "endyear=2003" and so on, each with a line
 * feed. */
knobstream_written knobstream_write_fields(
    knobstream_datetime first, knobstream_datetime second,
    uint8_t *out, size_t out_len,
    uint8_t shape, uint8_t uncertain, uint8_t approximate);

/* How long the text of a date is by the writer of level one, and that text. It
 * is the text above, but that a year of more than four digits has a Y before
 * it, and that a season stands in the place of the month and the day, which are
 * then not looked at: "2000-21", "Y-123456789~". */
knobstream_written knobstream_measure_level_one(
    knobstream_datetime first, knobstream_datetime second,
    uint8_t shape, uint8_t uncertain, uint8_t approximate);

knobstream_written knobstream_write_level_one(
    knobstream_datetime first, knobstream_datetime second,
    uint8_t *out, size_t out_len,
    uint8_t shape, uint8_t uncertain, uint8_t approximate);

/* How long the text of a date with its times is, and that text:
 * "2000-02-29T12:30:00Z". Both refuse HasSeason, then RustPanics, then BadTime
 * of either end; the second then NoRoom. */
knobstream_written knobstream_measure_timed(
    knobstream_datetime first, knobstream_datetime second,
    uint8_t shape, uint8_t uncertain, uint8_t approximate);

knobstream_written knobstream_write_timed(
    knobstream_datetime first, knobstream_datetime second,
    uint8_t *out, size_t out_len,
    uint8_t shape, uint8_t uncertain, uint8_t approximate);

/* The same of a date as it was read. */
static inline knobstream_written knobstream_date_length(const knobstream_date *date)
{
    return knobstream_measure_date(date->first, date->second,
                                   date->shape, date->uncertain, date->approximate);
}

static inline knobstream_written knobstream_date_text(
    const knobstream_date *date, uint8_t *out, size_t out_len)
{
    return knobstream_write_date(date->first, date->second, out, out_len,
                                 date->shape, date->uncertain, date->approximate);
}

static inline knobstream_written knobstream_date_fields(
    const knobstream_date *date, uint8_t *out, size_t out_len)
{
    return knobstream_write_fields(date->first, date->second, out, out_len,
                                   date->shape, date->uncertain, date->approximate);
}

static inline knobstream_written knobstream_date_level_one_length(const knobstream_date *date)
{
    return knobstream_measure_level_one(date->first, date->second,
                                        date->shape, date->uncertain, date->approximate);
}

static inline knobstream_written knobstream_date_level_one_text(
    const knobstream_date *date, uint8_t *out, size_t out_len)
{
    return knobstream_write_level_one(date->first, date->second, out, out_len,
                                      date->shape, date->uncertain, date->approximate);
}

static inline knobstream_written knobstream_date_timed_length(const knobstream_date *date)
{
    return knobstream_measure_timed(date->first, date->second,
                                    date->shape, date->uncertain, date->approximate);
}

static inline knobstream_written knobstream_date_timed_text(
    const knobstream_date *date, uint8_t *out, size_t out_len)
{
    return knobstream_write_timed(date->first, date->second, out, out_len,
                                  date->shape, date->uncertain, date->approximate);
}

/* The first and the last day that a datetime covers, as a chronology counts
 * them. Refuses HasSeason, then NotACalendarDate. Its time is not looked at. */
knobstream_period knobstream_days(knobstream_datetime datetime);

/* The instant of a datetime. Refuses HasSeason, then NotACalendarDate, then
 * BadTime, then NoInstant where there is no day, no time or no offset. */
knobstream_seconds knobstream_instant(knobstream_datetime datetime);

/* How the first instant stands to the second: -1 before it, 0 at once with it,
 * 1 after it; or the number of the refusal, of the first before the second. */
int32_t knobstream_compare_instants(knobstream_datetime first, knobstream_datetime second);

/* How the first stands to the second: -1 less, 0 equal, 1 greater, 2 none of
 * these, as 2000 and 2000-02, or times of which one has an offset. Where one of
 * them has a season it is KNOBSTREAM_HAS_SEASON, 24. */
int32_t knobstream_compare(knobstream_datetime first, knobstream_datetime second);

/* The answer to a frame, which is a line of hexadecimal digits without its line
 * feed, as the program dateframes gives it: a line of digits with a line feed,
 * at the front of `out`. A line that is no frame is answered too, by the number
 * 14 and the place 0, 0. docs/RULES.md, section 15, has the format. */
knobstream_written knobstream_answer_frame(
    const uint8_t *line, size_t line_len,
    uint8_t *out, size_t out_len);

/* Page ranges: pieces of a pages field, one behind the other, each a chunk
 * list, and how many chunks each of them has. A piece is a number, or two
 * numbers with a hyphen, an en dash or an em dash between them; a number has 32
 * bits. Refuses TooLong above 64 pieces, BadChunks where counts, table and
 * bytes do not make each other up, NoRoom where `out` has not two numbers a
 * piece; then what the first refused piece is refused for. */
void knobstream_parse_pages(
    const uint8_t *bytes, size_t bytes_len,
    const uint64_t *table, size_t table_len,
    const size_t *counts, size_t counts_len,
    uint32_t *out, size_t out_len,
    knobstream_pages *answer);

/* The text of a page range, at the front of `out`: "7-12", "7-7". */
knobstream_written knobstream_write_range(
    uint32_t start, uint32_t end,
    uint8_t *out, size_t out_len);

/* The calls on a chronology, on its count and its three columns of
 * KNOBSTREAM_ENTRIES numbers. Each first refuses with BadChronology what is
 * none: a count above 512, entries out of list order, an identifier twice, days
 * that are no period. A period is days of those years, the last not before the
 * first. */

/* Adds an entry. Refuses BadPeriod, then DuplicateEntry, then
 * ChronologyFull. */
knobstream_entries knobstream_add_entry(
    size_t *count, int32_t *firsts, int32_t *lasts, uint32_t *ids,
    int32_t first, int32_t last, uint32_t id);

/* Removes the entry of an identifier. Refuses UnknownEntry. */
knobstream_entries knobstream_remove_entry(
    size_t *count, int32_t *firsts, int32_t *lasts, uint32_t *ids,
    uint32_t id);

/* How many entries there are. */
knobstream_entries knobstream_count_entries(
    const size_t *count, const int32_t *firsts, const int32_t *lasts, const uint32_t *ids);

/* The entries in list order at the front of `out`, three numbers each: first
 * day, last day, identifier. Refuses NoRoom below three numbers an entry. */
knobstream_entries knobstream_list_entries(
    const size_t *count, const int32_t *firsts, const int32_t *lasts, const uint32_t *ids,
    int64_t *out, size_t out_len);

/* Whether anything is dated in a period. The entries are read in list order up
 * to the first that touches the period or begins after it, or all of them.
 * Refuses BadPeriod. */
knobstream_reply knobstream_any_dated(
    const size_t *count, const int32_t *firsts, const int32_t *lasts, const uint32_t *ids,
    int32_t first, int32_t last);

/* The same of a chronology as a struct. */
static inline knobstream_entries knobstream_chronology_add(
    knobstream_chronology *c, int32_t first, int32_t last, uint32_t id)
{
    return knobstream_add_entry(&c->count, c->firsts, c->lasts, c->ids, first, last, id);
}

static inline knobstream_entries knobstream_chronology_remove(knobstream_chronology *c, uint32_t id)
{
    return knobstream_remove_entry(&c->count, c->firsts, c->lasts, c->ids, id);
}

static inline knobstream_entries knobstream_chronology_count(const knobstream_chronology *c)
{
    return knobstream_count_entries(&c->count, c->firsts, c->lasts, c->ids);
}

static inline knobstream_entries knobstream_chronology_list(
    const knobstream_chronology *c, int64_t *out, size_t out_len)
{
    return knobstream_list_entries(&c->count, c->firsts, c->lasts, c->ids, out, out_len);
}

static inline knobstream_reply knobstream_chronology_any_dated(
    const knobstream_chronology *c, int32_t first, int32_t last)
{
    return knobstream_any_dated(&c->count, c->firsts, c->lasts, c->ids, first, last);
}

#ifdef __cplusplus
}
#endif

#endif
