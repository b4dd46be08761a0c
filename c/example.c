/* Reads each argument as a date field and prints what the ported reader, the
 * strict reader and the reader of level one say of it: `example 49 2000-02-30`.
 * It ends with 0 if one of them takes each. With no arguments it checks each
 * call on a few values, and ends with 0 if all is as it should be.
 *
 * It is C99 and C++17 in one. */
#include "knobstream.h"

#include <stdio.h>
#include <string.h>

typedef void reader(
    const uint8_t *bytes, size_t bytes_len,
    const uint64_t *table, size_t table_len,
    knobstream_answer *answer);

/* What a reader says of a text that begins its file. */
static knobstream_answer read_by(reader *read, const char *text)
{
    const size_t n = strlen(text);
    const uint64_t table[4] = { KNOBSTREAM_NORMAL, n, 0, n };
    knobstream_answer a;
    read((const uint8_t *)text, n, table, 4, &a);
    return a;
}

static knobstream_answer read_text(const char *text)
{
    return read_by(knobstream_parse, text);
}

/* The same by the reader that knows seasons and long years. */
static knobstream_answer read_level_one(const char *text)
{
    return read_by(knobstream_parse_level_one, text);
}

/* Prints the date with its times, or with its seasons; or why there is none. */
static int show_by(const char *name, reader *read, const char *text)
{
    const knobstream_answer a = read_by(read, text);
    uint8_t out[KNOBSTREAM_TIMED_ROOM];
    knobstream_written w;
    if (a.refusal == KNOBSTREAM_OK) {
        w = knobstream_date_timed_text(&a.date, out, sizeof out);
        if (w.refusal != KNOBSTREAM_OK)
            w = knobstream_date_level_one_text(&a.date, out, sizeof out);
        printf("  %-10s %.*s\n", name, (int)w.length, (const char *)out);
    } else if (a.refusal == KNOBSTREAM_RUST_PANICS || a.refusal >= KNOBSTREAM_NOT_STRICT) { /* these name no place */
        printf("  %-10s %s\n", name, knobstream_refusal_name(a.refusal));
    } else {
        printf("  %-10s %s at %llu to %llu\n", name, knobstream_refusal_name(a.refusal),
               (unsigned long long)a.start, (unsigned long long)a.end);
    }
    return a.refusal == KNOBSTREAM_OK;
}

static int show(const char *text)
{
    puts(text);
    const int ported = show_by("ported", knobstream_parse, text);
    const int strict = show_by("strict", knobstream_parse_strict, text);
    const int level_one = show_by("level one", knobstream_parse_level_one, text);
    return ported || strict || level_one;
}

static int failures;

static void check(int holds, const char *what)
{
    if (!holds) {
        printf("wrong: %s\n", what);
        failures++;
    }
}

/* Whether a writer gave this text and left the byte behind it alone. */
static int gave(knobstream_written w, const uint8_t *out, const char *text)
{
    const size_t n = strlen(text);
    return w.refusal == KNOBSTREAM_OK && w.length == n && memcmp(out, text, n) == 0 && out[n] == 0xAA;
}

/* Whether a text of level one is read, measured and written as itself. */
static int stays(const char *text)
{
    uint8_t out[KNOBSTREAM_LEVEL_ONE_ROOM + 1];
    const knobstream_answer a = read_level_one(text);
    const knobstream_written n = knobstream_date_level_one_length(&a.date);
    memset(out, 0xAA, sizeof out);
    return a.refusal == KNOBSTREAM_OK && n.refusal == KNOBSTREAM_OK && n.length == strlen(text)
        && gave(knobstream_date_level_one_text(&a.date, out, strlen(text)), out, text);
}

/* Whether one reader refuses a text so, with no place and no date. */
static int refuses(knobstream_answer a, unsigned refusal)
{
    static knobstream_date none; /* all zeros */
    return a.refusal == refusal && a.start == 0 && a.end == 0 && memcmp(&a.date, &none, sizeof none) == 0;
}

static void self_check_level_one(void)
{
    knobstream_answer a = read_level_one("2000-21");
    check(a.refusal == 0 && a.date.shape == KNOBSTREAM_AT && a.date.first.year == 2000
              && a.date.first.season == KNOBSTREAM_SPRING && a.date.first.has_month == 0,
          "2000-21 is a spring");
    a = read_level_one("-0044-24");
    check(a.refusal == 0 && a.date.first.year == -44 && a.date.first.season == 24, "-0044-24 is a winter");
    a = read_level_one("Y12345");
    check(a.refusal == 0 && a.date.first.year == 12345 && a.date.first.season == 0, "a long year");
    a = read_level_one("Y-123456789~");
    check(a.refusal == 0 && a.date.first.year == -123456789 && a.date.approximate == 1, "a negative one, marked");
    a = read_level_one("2000-22/2001-23?");
    check(a.refusal == 0 && a.date.shape == KNOBSTREAM_BETWEEN && a.date.first.season == KNOBSTREAM_SUMMER
              && a.date.second.year == 2001 && a.date.second.season == KNOBSTREAM_AUTUMN && a.date.uncertain == 1,
          "a range of seasons");
    check(stays("2000-21") && stays("-0044-24") && stays("Y12345") && stays("Y-123456789~")
              && stays("2000-22/2001-23?") && stays("2000-02-29") && stays("../2000-24%"),
          "texts of level one");
    check(refuses(read_level_one("2000-25"), KNOBSTREAM_NOT_LEVEL_ONE) && refuses(read_level_one("49"), 23)
              && refuses(read_level_one("Y1234"), 23),
          "no texts of level one");
    check(read_text("2000-21").refusal == KNOBSTREAM_MONTH_OUT_OF_RANGE, "no other reader takes a season");

    /* the calls that know no season */
    uint8_t out[KNOBSTREAM_FIELDS_ROOM], before[sizeof out];
    memset(out, 0xAA, sizeof out);
    memset(before, 0xAA, sizeof before);
    a = read_level_one("2000/2000-21");
    a.date.first.has_month = 1;
    a.date.first.month = 255;
    const knobstream_written w[] = { knobstream_date_length(&a.date), knobstream_date_text(&a.date, out, sizeof out),
                                     knobstream_date_text(&a.date, out, 0),
                                     knobstream_date_fields(&a.date, out, sizeof out) };
    for (size_t i = 0; i < sizeof w / sizeof *w; i++)
        check(w[i].refusal == KNOBSTREAM_HAS_SEASON && w[i].length == 0, "an old writer on a season");
    check(memcmp(out, before, sizeof out) == 0, "nothing of a season is stored");
    check(knobstream_compare(a.date.first, a.date.second) == KNOBSTREAM_HAS_SEASON
              && knobstream_compare(a.date.second, a.date.first) == 24
              && knobstream_compare(a.date.second, a.date.second) == 24,
          "a season is not compared");

    /* the new writer: beside a season it looks at no month, without one it refuses as the old one does */
    const knobstream_written panics = knobstream_date_level_one_text(&a.date, out, 0);
    check(panics.refusal == KNOBSTREAM_RUST_PANICS && knobstream_date_level_one_length(&a.date).refusal == 9,
          "month 255 without a season");
    a.date.first.season = 255;
    memset(out, 0xAA, sizeof out);
    check(gave(knobstream_date_level_one_text(&a.date, out, 15), out, "2000-24/2000-21"), "any other number is winter");
    memset(out, 0xAA, sizeof out);
    check(knobstream_date_level_one_text(&a.date, out, 14).refusal == KNOBSTREAM_NO_ROOM && out[0] == 0xAA,
          "one byte too few for a season");
}

/* A list of one Normal chunk that begins at this place of its file. */
typedef struct {
    const char *text;
    uint64_t table[4];
} field;

static field at(const char *text, uint64_t start)
{
    const size_t n = strlen(text);
    const field f = { text, { KNOBSTREAM_NORMAL, n, start, start + n } };
    return f;
}

#define LENT(f) (const uint8_t *)(f).text, strlen((f).text), (f).table, 4
#define ABSENT NULL, 7, NULL, 9 /* what is absent is not looked at */

static void self_check_six_fields(void)
{
    const field y = at("2000", 10), m = at("feb", 20), d = at("29", 30);
    const field end = at("2001", 40), blank = at(" \n", 40), none = at("x", 50), month = at("3", 60), day = at("31", 70);
    knobstream_answer a;
    knobstream_parse_six_fields(LENT(y), 1, LENT(m), 1, LENT(d), 1, LENT(end), 1, LENT(month), 1, LENT(day), &a);
    check(a.refusal == 0 && a.date.shape == KNOBSTREAM_BETWEEN && a.date.first.month == 1 && a.date.first.day == 28
              && a.date.second.year == 2001 && a.date.second.month == 2 && a.date.second.day == 30,
          "six fields");
    knobstream_parse_six_fields(LENT(y), 0, ABSENT, 0, ABSENT, 0, ABSENT, 0, ABSENT, 0, ABSENT, &a);
    check(a.refusal == 0 && a.date.shape == KNOBSTREAM_AT && a.date.first.has_month == 0, "a year field alone");
    knobstream_parse_six_fields(LENT(y), 0, ABSENT, 0, ABSENT, 1, LENT(blank), 1, LENT(none), 0, ABSENT, &a);
    check(a.refusal == 0 && a.date.shape == KNOBSTREAM_AFTER && a.date.first.year == 2000, "a blank end year");
    knobstream_parse_six_fields(LENT(y), 0, ABSENT, 0, ABSENT, 1, LENT(none), 0, ABSENT, 0, ABSENT, &a);
    check(a.refusal == KNOBSTREAM_INVALID_FORMAT && a.start == 50 && a.end == 50, "an end year that is none");
    knobstream_parse_six_fields(LENT(none), 0, ABSENT, 0, ABSENT, 1, LENT(end), 0, ABSENT, 0, ABSENT, &a);
    check(a.refusal == KNOBSTREAM_INVALID_FORMAT && a.start == 50, "the start is refused first");
}

static void self_check_times(void)
{
    static const char both[] = "2000-02-29T23:59:59+23:59/2000-03-01T00:00:00Z%";
    uint8_t out[KNOBSTREAM_TIMED_ROOM + 1];
    knobstream_answer a = read_text(both);
    knobstream_written w = knobstream_date_timed_length(&a.date);
    check(w.refusal == 0 && w.length == strlen(both), "the length of a text with times");
    memset(out, 0xAA, sizeof out);
    check(gave(knobstream_date_timed_text(&a.date, out, strlen(both)), out, both), "a text with times");
    memset(out, 0xAA, sizeof out);
    w = knobstream_date_timed_text(&a.date, out, strlen(both) - 1);
    check(w.refusal == KNOBSTREAM_NO_ROOM && w.length == 0 && out[0] == 0xAA, "one byte too few for times");
    a.date.second.minute = 60;
    w = knobstream_date_timed_text(&a.date, NULL, 0);
    check(w.refusal == KNOBSTREAM_BAD_TIME && knobstream_date_timed_length(&a.date).refusal == 22, "minute 60");
    a.date.first.month = 255;
    check(knobstream_date_timed_length(&a.date).refusal == KNOBSTREAM_RUST_PANICS, "month 255 comes before it");
    a.date.second.season = KNOBSTREAM_SPRING;
    check(knobstream_date_timed_length(&a.date).refusal == KNOBSTREAM_HAS_SEASON, "a season before both");
    a = read_text("1999");
    memset(out, 0xAA, sizeof out);
    check(gave(knobstream_date_timed_text(&a.date, out, sizeof out), out, "1999"), "a text without times");
}

/* Whether these are the days of a text. */
static int covers(const char *text, unsigned refusal, int32_t first, int32_t last)
{
    const knobstream_period p = knobstream_days(read_level_one(text).date.first);
    return p.refusal == refusal && p.first == first && p.last == last;
}

/* Whether this is the instant of a text. */
static int instant(const char *text, unsigned refusal, int64_t seconds)
{
    const knobstream_seconds s = knobstream_instant(read_level_one(text).date.first);
    return s.refusal == refusal && s.seconds == seconds;
}

static int32_t instants(const char *one, const char *other)
{
    return knobstream_compare_instants(read_level_one(one).date.first, read_level_one(other).date.first);
}

static void self_check_moments(void)
{
    check(covers("0000-01-01", 0, 0, 0) && covers("2000", 0, 730485, 730850) && covers("1900-02", 0, 693992, 694019)
              && covers("2000-02-29T23:59:59", 0, 730544, 730544) && covers("-9999-01-01", 0, -3652059, -3652059)
              && covers("9999-12-31", 0, 3652424, 3652424),
          "days");
    check(covers("Y12345", KNOBSTREAM_NOT_A_CALENDAR_DATE, 0, 0) && covers("2000-21", KNOBSTREAM_HAS_SEASON, 0, 0),
          "no days");
    check(instant("0000-01-01T00:00:00Z", 0, 0) && instant("2000-01-01T23:00:00Z", 0, 63113986800)
              && instant("2000-01-02T00:30:00+02:00", 0, 63113985000) && instant("0000-01-01T00:00:00+00:01", 0, -60),
          "instants");
    check(instant("2000-21", KNOBSTREAM_HAS_SEASON, 0) && instant("Y12345", KNOBSTREAM_NOT_A_CALENDAR_DATE, 0)
              && instant("2000-01-01T10:20:30", KNOBSTREAM_NO_INSTANT, 0) && instant("2000", KNOBSTREAM_NO_INSTANT, 0),
          "no instants");
    knobstream_datetime d = read_text("2000-01-01T10:20:30Z").date.first;
    d.hour = 24;
    check(knobstream_instant(d).refusal == KNOBSTREAM_BAD_TIME && knobstream_instant(d).seconds == 0, "hour 24");
    check(instants("2000-01-01T23:00:00Z", "2000-01-02T00:30:00+02:00") == 1
              && instants("2000-01-02T00:30:00+02:00", "2000-01-01T23:00:00Z") == -1
              && instants("2000-01-01T01:00:00+01:00", "2000-01-01T00:00:00Z") == 0,
          "the order of instants");
    check(instants("2000", "Y12345") == KNOBSTREAM_NO_INSTANT && instants("2000-01-01T00:00:00Z", "Y12345") == 17,
          "instants that are none");
}

static void self_check_pages(void)
{
    /* "7", "12" with an en dash and "15", the hyphen of the third in a chunk of its own */
    static const char text[] = "712\xE2\x80\x93" "153-5";
    static const uint64_t table[] = { 0, 1, 10, 11, 0, 7, 13, 20, 0, 1, 22, 23, 0, 1, 23, 24, 0, 1, 24, 25 };
    static const size_t counts[] = { 1, 1, 3 };
    static const uint32_t ranges[] = { 7, 7, 12, 15, 3, 5 };
    const uint8_t *bytes = (const uint8_t *)text;
    uint32_t out[7] = { 0, 0, 0, 0, 0, 0, 99 };
    knobstream_pages p;
    knobstream_parse_pages(bytes, strlen(text), table, 20, counts, 3, out, 6, &p);
    check(p.refusal == 0 && p.ranges == 3 && p.start == 0 && p.end == 0, "three page ranges");
    check(memcmp(out, ranges, sizeof ranges) == 0 && out[6] == 99, "their numbers");
    knobstream_parse_pages(NULL, 0, NULL, 0, NULL, 0, NULL, 0, &p);
    check(p.refusal == 0 && p.ranges == 0, "no pieces, by null pointers");

    memset(out, 0, sizeof out);
    knobstream_parse_pages(bytes, strlen(text), table, 20, counts, 3, out, 5, &p);
    check(p.refusal == KNOBSTREAM_NO_ROOM && p.ranges == 0 && p.start == 0 && p.end == 0, "no room for the third");
    knobstream_parse_pages(bytes, strlen(text), table, 20, counts, 2, out, 6, &p);
    check(p.refusal == KNOBSTREAM_BAD_CHUNKS, "counts that leave a chunk over");
    static const size_t many[65] = { 0 };
    knobstream_parse_pages(NULL, 0, NULL, 0, many, 65, out, 6, &p);
    check(p.refusal == KNOBSTREAM_TOO_LONG, "65 pieces");
    static const uint64_t two[] = { 0, 1, 10, 11, 0, 2, 20, 22 };
    knobstream_parse_pages((const uint8_t *)"75x", 3, two, 8, counts, 2, out, 6, &p);
    check(p.refusal == KNOBSTREAM_INVALID_NUMBER && p.start == 20 && p.end == 22, "no page range");
    check(out[0] == 0 && out[1] == 0, "a refusal stores no number");

    uint8_t room[KNOBSTREAM_RANGE_ROOM + 1];
    memset(room, 0xAA, sizeof room);
    check(gave(knobstream_write_range(7, 12, room, 4), room, "7-12"), "a page range as text");
    memset(room, 0xAA, sizeof room);
    check(knobstream_write_range(7, 12, room, 3).refusal == KNOBSTREAM_NO_ROOM && room[0] == 0xAA, "no room for it");
    check(gave(knobstream_write_range(UINT32_MAX, UINT32_MAX, room, KNOBSTREAM_RANGE_ROOM), room, "4294967295-4294967295"),
          "the longest page range");
}

/* Whether a call on a chronology answered so. */
static int answered(knobstream_entries e, unsigned refusal, size_t entries)
{
    return e.refusal == refusal && e.entries == entries;
}

/* Whether the question was answered so. */
static int told(knobstream_reply r, unsigned refusal, unsigned found, size_t read)
{
    return r.refusal == refusal && r.found == found && r.read == read;
}

static void self_check_chronology(void)
{
    static knobstream_chronology c, before;
    static int64_t out[KNOBSTREAM_LIST_ROOM];
    check(answered(knobstream_chronology_count(&c), KNOBSTREAM_OK, 0), "zeros are an empty chronology");
    check(told(knobstream_chronology_any_dated(&c, 0, 0), KNOBSTREAM_OK, 0, 0), "nothing is dated in it");
    /* 2000-01-01 is day 730485 */
    check(answered(knobstream_chronology_add(&c, 730485, 730850, 7), 0, 1)
              && answered(knobstream_chronology_add(&c, -5, -1, 4000000000u), 0, 2)
              && answered(knobstream_chronology_add(&c, 730485, 730485, 9), 0, 3),
          "three entries are added");
    check(answered(knobstream_chronology_list(&c, out, 9), 0, 3), "just enough room for the list");
    static const int64_t list[9] = { -5, -1, 4000000000, 730485, 730485, 9, 730485, 730850, 7 };
    check(memcmp(out, list, sizeof list) == 0 && out[9] == 0, "the list is in order");

    before = c;
    memset(out, 0, sizeof out);
    check(answered(knobstream_chronology_list(&c, out, 8), KNOBSTREAM_NO_ROOM, 0) && out[0] == 0, "no room for the list");
    check(answered(knobstream_chronology_list(&c, NULL, 0), KNOBSTREAM_NO_ROOM, 0), "no room, by a null pointer");
    check(answered(knobstream_chronology_add(&c, 1, 0, 7), KNOBSTREAM_BAD_PERIOD, 0)
              && answered(knobstream_chronology_add(&c, 0, 3652425, 8), KNOBSTREAM_BAD_PERIOD, 0)
              && answered(knobstream_chronology_add(&c, -3652060, 0, 8), KNOBSTREAM_BAD_PERIOD, 0),
          "bad periods");
    check(answered(knobstream_chronology_add(&c, 0, 0, 7), KNOBSTREAM_DUPLICATE_ENTRY, 0), "an identifier twice");
    check(answered(knobstream_chronology_remove(&c, 8), KNOBSTREAM_UNKNOWN_ENTRY, 0), "an unknown identifier");
    check(memcmp(&c, &before, sizeof c) == 0, "a refusal changes nothing");

    check(told(knobstream_chronology_any_dated(&c, -9, -5), 0, 1, 1), "the first entry touches");
    check(told(knobstream_chronology_any_dated(&c, 0, 730484), 0, 0, 2), "the second begins after");
    check(told(knobstream_chronology_any_dated(&c, 730486, 730486), 0, 1, 3), "the third touches");
    check(told(knobstream_chronology_any_dated(&c, 730851, 730851), 0, 0, 3), "none touches");
    check(told(knobstream_chronology_any_dated(&c, 1, 0), KNOBSTREAM_BAD_PERIOD, 0, 0), "no period is asked about");

    check(answered(knobstream_chronology_remove(&c, 4000000000u), 0, 2)
              && answered(knobstream_chronology_count(&c), 0, 2) && c.ids[0] == 9 && c.ids[1] == 7,
          "an entry is removed");

    /* full, and room that was freed is used again */
    c.count = 0;
    int all = 1;
    for (uint32_t i = 0; i < KNOBSTREAM_ENTRIES; i++)
        all &= answered(knobstream_chronology_add(&c, -(int32_t)i, (int32_t)i, i), 0, i + 1);
    check(all, "512 entries are added");
    check(answered(knobstream_chronology_add(&c, 0, 0, 512), KNOBSTREAM_CHRONOLOGY_FULL, 0)
              && answered(knobstream_chronology_add(&c, 0, 0, 511), KNOBSTREAM_DUPLICATE_ENTRY, 0),
          "there is no room for more");
    check(answered(knobstream_chronology_list(&c, out, KNOBSTREAM_LIST_ROOM), 0, 512) && out[0] == -511 && out[1] == 511
              && out[2] == 511 && out[1533] == 0,
          "the full list");
    check(answered(knobstream_chronology_remove(&c, 300), 0, 511)
              && answered(knobstream_chronology_add(&c, 3, 3, 600), 0, 512),
          "room is used again");

    /* what is no chronology */
    before = c;
    c.ids[1] = c.ids[0];
    check(answered(knobstream_chronology_count(&c), KNOBSTREAM_BAD_CHRONOLOGY, 0), "an identifier twice in the store");
    c = before;
    c.firsts[511] = c.firsts[0];
    check(answered(knobstream_chronology_list(&c, out, KNOBSTREAM_LIST_ROOM), KNOBSTREAM_BAD_CHRONOLOGY, 0), "out of order");
    c = before;
    c.lasts[0] = c.firsts[0] - 1;
    check(told(knobstream_chronology_any_dated(&c, 1, 0), KNOBSTREAM_BAD_CHRONOLOGY, 0, 0), "a bad period in the store");
    c = before;
    c.count = 513;
    check(answered(knobstream_chronology_add(&c, 1, 0, 0), KNOBSTREAM_BAD_CHRONOLOGY, 0)
              && answered(knobstream_chronology_remove(&c, 0), KNOBSTREAM_BAD_CHRONOLOGY, 0) && c.count == 513,
          "a count of 513");
}

static void self_check(void)
{
    check(knobstream_version() == KNOBSTREAM_VERSION, "the library is that of the header");
    knobstream_answer a = read_text("49");
    check(a.refusal == 0 && a.date.shape == KNOBSTREAM_AT && a.date.first.year == 2049, "49 is 2049");
    check(a.date.first.has_month == 0 && a.start == 0 && a.end == 0, "49 has no month and no place");

    a = read_text("2000-02-29T10:20:30+02:30~");
    check(a.refusal == 0 && a.date.approximate == 1 && a.date.uncertain == 0, "a mark");
    check(a.date.first.month == 1 && a.date.first.day == 28, "month and day count from zero");
    check(a.date.first.has_time == 1 && a.date.first.hour == 10 && a.date.first.second == 30, "a time");
    check(a.date.first.offset == KNOBSTREAM_AHEAD_OF_UTC && a.date.first.offset_hours == 2
              && a.date.first.offset_minutes == 30,
          "an offset");

    const uint64_t at_100[4] = { KNOBSTREAM_NORMAL, 15, 100, 115 };
    knobstream_parse((const uint8_t *)"2000/1900-02-29", 15, at_100, 4, &a);
    check(a.refusal == KNOBSTREAM_DAY_OUT_OF_RANGE && a.start == 105 && a.end == 115, "the second half's place");

    const uint64_t two[4] = { KNOBSTREAM_NORMAL, 2, 0, 2 };
    knobstream_parse_strict((const uint8_t *)"49", 2, two, 4, &a);
    check(a.refusal == KNOBSTREAM_NOT_STRICT && a.start == 0 && a.end == 0, "49 is not strict");

    knobstream_parse(NULL, 0, NULL, 0, &a);
    check(a.refusal == KNOBSTREAM_INVALID_FORMAT, "the empty list, by null pointers");
    knobstream_parse(NULL, 0, two, 3, &a);
    check(a.refusal == KNOBSTREAM_BAD_CHUNKS, "a table of three numbers");

    const uint64_t four[4] = { KNOBSTREAM_NORMAL, 4, 0, 4 }, three[4] = { KNOBSTREAM_NORMAL, 3, 5, 8 },
                   one[4] = { KNOBSTREAM_NORMAL, 1, 9, 10 };
    knobstream_parse_three_fields((const uint8_t *)"49BC", 4, four, 4, 1, (const uint8_t *)"jul", 3, three, 4, 1,
                                  (const uint8_t *)"4", 1, one, 4, &a);
    check(a.refusal == 0 && a.date.first.year == -48 && a.date.first.month == 6 && a.date.first.day == 3, "three fields");
    knobstream_parse_three_fields((const uint8_t *)"49BC", 4, four, 4, 0, NULL, 0, NULL, 7, 1, NULL, 0, NULL, 9, &a);
    check(a.refusal == 0 && a.date.first.has_month == 0 && a.date.first.has_day == 0, "absent lists are not looked at");

    uint8_t out[128];
    a = read_text("1999/2000-02~");
    memset(out, 0xAA, sizeof out);
    check(gave(knobstream_date_text(&a.date, out, sizeof out), out, "1999/2000-02~"), "the text of a range");
    knobstream_written w = knobstream_date_length(&a.date);
    check(w.refusal == 0 && w.length == 13, "its length");
    memset(out, 0xAA, sizeof out);
    check(gave(knobstream_date_fields(&a.date, out, sizeof out), out, "year=1999\nendyear=2000\nendmonth=02\n"), "its fields");
    memset(out, 0xAA, sizeof out);
    check(gave(knobstream_date_text(&a.date, out, 13), out, "1999/2000-02~"), "just enough room");
    memset(out, 0xAA, sizeof out);
    w = knobstream_date_text(&a.date, out, 12);
    check(w.refusal == KNOBSTREAM_NO_ROOM && w.length == 0 && out[0] == 0xAA, "one byte too few");
    w = knobstream_date_fields(&a.date, NULL, 0);
    check(w.refusal == KNOBSTREAM_NO_ROOM && w.length == 0, "no room, by a null pointer");
    a.date.first.has_month = 255;
    a.date.first.month = 255;
    w = knobstream_date_text(&a.date, out, sizeof out);
    check(w.refusal == KNOBSTREAM_RUST_PANICS && out[0] == 0xAA, "month 255");
    w = knobstream_date_length(&a.date);
    check(w.refusal == KNOBSTREAM_RUST_PANICS && w.length == 0, "month 255 has no length");

    self_check_level_one();
    self_check_six_fields();
    self_check_times();
    self_check_moments();
    self_check_pages();
    self_check_chronology();

    const knobstream_datetime year = read_text("2000").date.first, month = read_text("2000-02").date.first,
                              later = read_text("2000-03").date.first;
    check(knobstream_compare(month, later) == -1 && knobstream_compare(later, month) == 1, "less and greater");
    check(knobstream_compare(month, month) == 0 && knobstream_compare(year, month) == 2, "equal and none");

    static const char frame[] = "04010003000000000000000334393f";
    uint8_t line[KNOBSTREAM_LINE_ROOM];
    memset(line, 0xAA, sizeof line);
    check(gave(knobstream_answer_frame((const uint8_t *)frame, strlen(frame), line, sizeof line), line,
               "00000100000801ffff00000000000000323034393f\n"),
          "the answer to a frame");
    memset(line, 0xAA, sizeof line);
    check(gave(knobstream_answer_frame(NULL, 0, line, 35), line, "0e00000000000000000000000000000000\n"), "no frame");
    static const char spring[] = "050100070000000000000007323030302d3231";
    memset(line, 0xAA, sizeof line);
    check(gave(knobstream_answer_frame((const uint8_t *)spring, strlen(spring), line, sizeof line), line,
               "000000000007d0ffff0000000000000015323030302d3231\n"),
          "the answer to a frame of level one");
    w = knobstream_answer_frame(NULL, 0, line, 34);
    check(w.refusal == KNOBSTREAM_NO_ROOM && w.length == 0, "no room for the answer");

    check(strcmp(knobstream_refusal_name(KNOBSTREAM_TOO_LONG), "TooLong") == 0 && *knobstream_refusal_name(99) == 0
              && strcmp(knobstream_refusal_name(23), "NotLevelOne") == 0
              && strcmp(knobstream_refusal_name(24), "HasSeason") == 0
              && strcmp(knobstream_refusal_name(26), "BadChronology") == 0,
          "the names of refusals");
}

int main(int argc, char **argv)
{
    if (argc > 1) {
        int taken = 1;
        for (int i = 1; i < argc; i++)
            taken &= show(argv[i]);
        return !taken;
    }
    self_check();
    if (failures == 0)
        puts("the C example: all as it should be");
    return failures != 0;
}
