/* Random calls over all calls of the library, each held to what must be so:
 *   a reader says what the answer to its frame says, where a frame can ask it
 *   six fields are three fields twice; pages are their pieces one by one
 *   a writer writes what printf writes, as long as the measure says, and only there
 *   days, instants, orders and chronologies are those of the plain models below
 *   what is lent to be read, what stands around what is lent, and after a refusal what is lent to be stored to, stay
 * Each slice ends before or begins behind a page that can not be touched; an empty one is often NULL, or on that page.
 *   fuzz [CALLS [SEED]]
 * It ends with 0 if nothing differs; a difference is printed with the call, its number and the seed. */
#define _DEFAULT_SOURCE
#include "../c/knobstream.h"

#include <stdarg.h>
#include <stdio.h>
#include <stdlib.h>
#include <string.h>
#include <sys/mman.h>

/* ---- chance */

static uint64_t seed = 1, state;

static uint64_t draw(void) /* splitmix64 */
{
    uint64_t z = state += 0x9E3779B97F4A7C15u;
    z = (z ^ z >> 30) * 0xBF58476D1CE4E5B9u;
    z = (z ^ z >> 27) * 0x94D049BB133111EBu;
    return z ^ z >> 31;
}

static size_t below(size_t n) { return (size_t)(draw() % n); }
static int one_in(size_t n) { return below(n) == 0; }
static uint8_t byte(void) { return (uint8_t)draw(); }

#define COUNT(array) (sizeof(array) / sizeof *(array))
#define ANY(array) ((array)[below(COUNT(array))])

/* ---- the calls, counted by name */

enum { CALLS = 25 };
static struct { const char *name; unsigned long long times; } tally[32];
static const char *present = "";
static unsigned long long calls;

static void counted(const char *name)
{
    size_t i = 0;
    while (tally[i].name != NULL && strcmp(tally[i].name, name) != 0)
        i++;
    tally[i].name = name;
    tally[i].times++;
    present = name;
    calls++;
}

static unsigned long long refusals[256]; /* how often each number was answered */

#define CALL(function, ...) (counted(#function), function(__VA_ARGS__))

static void show_lent(void);

static void must(int holds, const char *what)
{
    if (holds)
        return;
    printf("%s, call %llu by seed %llu: %s\n", present, calls, (unsigned long long)seed, what);
    show_lent();
    exit(1);
}

/* ---- lent memory */

/* a page is at most so large on either processor */
enum { PAGE = 65536, ROOM = 5 * PAGE, SLOTS = 24, GUARD = 64, CANARY = 0xC5 };

static struct slot {
    uint8_t *low, *at, *copy; /* the room, what is lent of it, and what was there */
    size_t size;
    int stored; /* whether it may be stored to */
} slots[SLOTS];
static size_t used;

static void make_slots(void)
{
    for (size_t i = 0; i < SLOTS; i++) {
        uint8_t *all = (uint8_t *)mmap(NULL, ROOM + 2 * PAGE, PROT_NONE, MAP_PRIVATE | MAP_ANONYMOUS, -1, 0);
        slots[i].low = all + PAGE;
        slots[i].copy = (uint8_t *)malloc(ROOM);
        if (all == MAP_FAILED || mprotect(slots[i].low, ROOM, PROT_READ | PROT_WRITE) != 0 || slots[i].copy == NULL) {
            fputs("no memory\n", stderr);
            exit(2);
        }
    }
}

static uint8_t *canaries(struct slot *s, int behind)
{
    return behind ? s->at + s->size : s->at - GUARD;
}

/* Lends bytes, with these values or any; the address fits any number if the size is of such. */
static void *lend(const void *values, size_t size, int stored)
{
    struct slot *s = &slots[used++];
    const int last = one_in(2);
    s->at = last ? s->low + ROOM - size : s->low;
    s->size = size;
    s->stored = stored;
    if (values != NULL)
        memcpy(s->at, values, size);
    else
        for (size_t i = 0; i < size; i++)
            s->at[i] = byte();
    memcpy(s->copy, s->at, size);
    memset(canaries(s, !last), CANARY, GUARD);
    if (size == 0 && one_in(2))
        return NULL;
    return s->at;
}

/* Looks at all that is lent. */
static void settled(void)
{
    static const uint8_t guard[GUARD] = {
#define C8 CANARY, CANARY, CANARY, CANARY, CANARY, CANARY, CANARY, CANARY
        C8, C8, C8, C8, C8, C8, C8, C8
    };
    for (size_t i = 0; i < used; i++) {
        struct slot *s = &slots[i];
        const int last = s->at != s->low || s->size == ROOM;
        must(memcmp(canaries(s, !last), guard, GUARD) == 0, "something beside what was lent is changed");
        must(s->stored || memcmp(s->at, s->copy, s->size) == 0, "something that was lent to be read is changed");
    }
}

/* Whether what was lent at this address is as it was from this byte on. */
static int kept_from(const void *at, size_t from)
{
    for (size_t i = 0; i < used; i++)
        if (slots[i].at == at)
            return from >= slots[i].size || memcmp(slots[i].at + from, slots[i].copy + from, slots[i].size - from) == 0;
    return at == NULL;
}

static void show_lent(void)
{
    for (size_t i = 0; i < used; i++) {
        printf("lent %zu bytes%s:", slots[i].size, slots[i].stored ? " to be stored to" : "");
        for (size_t k = 0; k < slots[i].size && k < 200; k++)
            printf(" %02x", slots[i].copy[k]);
        putchar('\n');
    }
}

/* ---- texts */

static const char *const dates[] = {
    "", "2000", "49", "-0049", "2000-02-29", " 2000 - 2 - 9 ~", "2000-02-29T10:20:30Z", "2000-02-29T10:20:30+02:30%",
    "2000-2-9 T 1:2:3 - 2 : 3", "1999/2003", "1999-07-01/2003-08-31", "2000/..", "../2000", "../..", "19XX", "199X",
    "19XX/2005", "2000-XX-XX", "2000-02-XX", "1900-02-29", "2000/1900-02-29", "2000-13", "2000-02-29T10", "forthcoming",
    "2000-02-29T10:20:30+02:30/2003-08-31T10:20:30-02:30~", "2000-21", "-0044-24~", "Y12345", "Y-123456789",
    "2000-22/2001-23?", "Y-12345/..", "../2000-24%", "2000-25", "Y1234", "2000-12-31T23:59:59-00:00", "0000-01-01?",
};
static const char *const years[] = { "2000", "49", "1000 BC", "5 AD", "5 BCE", "- 5", "+5 CE", "12345", "0 AD", "-1", " 7 ", "" };
static const char *const months[] = { "July", "jul-4", "sept", "07", "13", "jul-999", "jul-32", "x", "may\xC2\xA0\x35", "0", "nov-", "255" };
static const char *const days_of[] = { "1", "31", "32", "0", " 4 ", "x", "", "255", "256", "+7" };
static const char *const blanks[] = { "", " ", "\n", " \t\r\n", "\xE2\x80\x89", "\xC2\xA0\xC2\x85", "\xE2\x80\xA8 " };
static const char *const ranges_of[] = {
    "7", "7-12", " 7 \xE2\x80\x93 12 ", "7\xE2\x80\x94--12", "5x", "5-7x", "x", "5-", "4294967295-4294967295", "4294967296", "7--12", "",
};
static const char *const bits[] = {
    "0", "1", "2", "9", "-", "-", "/", ".", "..", "T", "X", "XX", "Z", ":", "+", "~", "?", "%", "Y", " ", "\n", "A", "b", "BC", "$",
    "\xC3\xA9", "\xC2\xA0", "\xC2\xBD", "\xC3\x9F", "\xE2\x80\x93", "\xE2\x80\x89", "\xE2\x81\xB0", "\xE2\x82\xAC", "\xF0\x9F\x98\x80",
    "\xFF", "\xC2", "\x80", "\xED\xA0\x80",
};

enum { LONGEST = 5000 };

/* A text of a few: as it stands, or damaged, or filled up with spaces. */
static size_t any_text(uint8_t *text, const char *const *few, size_t number)
{
    const char *base = few[below(number)];
    size_t n = strlen(base);
    memcpy(text, base, n);
    for (size_t edits = one_in(2) ? 0 : 1 + below(3); edits > 0; edits--) {
        const char *bit = ANY(bits);
        const size_t m = strlen(bit), at = below(n + 1), gone = one_in(2) ? 0 : below(n - at + 1) % 3;
        memmove(text + at + m, text + at + gone, n - at - gone);
        memcpy(text + at, bit, m);
        n += m - gone;
    }
    if (one_in(60)) {
        static const size_t lengths[] = { 50, 64, 255, 256, 4095, 4096, 4097, 4200 };
        const size_t length = ANY(lengths);
        for (; n < length; n++)
            text[n] = ' ';
    }
    return n;
}

/* ---- chunk lists */

enum { MOST_CHUNKS = 70 };

static struct list {
    uint8_t bytes[LONGEST];
    uint64_t table[4 * MOST_CHUNKS];
    size_t length, rows;
    const uint8_t *lent_bytes;
    const uint64_t *lent_table;
} lists[6];

/* A list with this text, in one chunk or more; sometimes no list at all. */
static void any_list(struct list *l, const char *const *few, size_t number)
{
    static const size_t numbers[] = { 0, 2, 3, 4, 63, 64, 65, 70 };
    l->length = any_text(l->bytes, few, number);
    const size_t chunks = one_in(4) ? ANY(numbers) : 1;
    uint64_t at = one_in(50) ? draw() : one_in(4) ? draw() % 0xFFFFFFFFu : draw() % 1000;
    size_t done = 0;
    for (size_t i = 0; i < chunks; i++) {
        const size_t n = i + 1 == chunks ? l->length - done : below(l->length - done + 1);
        const uint64_t row[4] = { one_in(200) ? draw() % 300 : one_in(8) ? 1 + below(2) : 0, n, at, at + n };
        memcpy(l->table + 4 * i, row, sizeof row);
        at += n + below(3);
        done += n;
    }
    l->rows = 4 * chunks;
    if (chunks == 0 && !one_in(4))
        l->length = 0;
    if (one_in(60) && l->rows > 0) /* damage */
        switch (below(4)) {
        case 0: l->table[below(l->rows)] = draw(); break;
        case 1: l->rows -= 1 + below(3); break;
        case 2: l->table[1] += 1 + below(3); break;
        default: l->table[1] = UINT64_MAX - below(3); break;
        }
}

static void lend_list(struct list *l)
{
    l->lent_bytes = (const uint8_t *)lend(l->bytes, l->length, 0);
    l->lent_table = (const uint64_t *)lend(l->table, 8 * l->rows, 0);
}

#define LENT(l) (l)->lent_bytes, (l)->length, (l)->lent_table, (l)->rows

/* ---- frames and their answers, as docs/RULES.md has them */

static uint8_t line[2 * 9000];
static size_t digits;

static void put(uint64_t value)
{
    const char *set = one_in(2) ? "0123456789abcdef" : "0123456789ABCDEF";
    if (digits + 2 <= sizeof line) {
        line[digits++] = (uint8_t)set[value / 16 % 16];
        line[digits++] = (uint8_t)set[value % 16];
    }
}

static void put_place(uint64_t place, int bytes)
{
    for (int shift = 8 * (bytes - 1); shift >= 0; shift -= 8)
        put(place >> shift);
}

/* Puts a list, if a frame can say it. */
static int put_list(const struct list *l)
{
    size_t at = 0;
    put(l->rows / 4);
    for (size_t i = 0; i + 4 <= l->rows; i += 4) {
        const uint64_t *row = l->table + i;
        if (row[0] > 255 || row[1] > 255 || row[1] > l->length - at || row[2] > UINT32_MAX || row[3] > UINT32_MAX)
            return 0;
        put(row[0]);
        put(row[1]);
        put_place(row[2], 4);
        put_place(row[3], 4);
        for (size_t k = 0; k < row[1]; k++)
            put(l->bytes[at++]);
    }
    return l->rows % 4 == 0 && at == l->length && digits <= 2 * 8192;
}

static char expected[512];
static size_t expects;

static void expect(uint64_t value, int bytes)
{
    for (int shift = 8 * (bytes - 1); shift >= 0; shift -= 8)
        expects += (size_t)snprintf(expected + expects, 3, "%02x", (unsigned)(value >> shift & 255));
}

static void expect_refusal(unsigned refusal, uint64_t start, uint64_t end)
{
    expects = 0;
    expect(refusal, 1);
    expect(start, 8);
    expect(end, 8);
    expected[expects++] = '\n';
}

/* The line that says what a reader answered. */
static void expect_answer(const knobstream_answer *a, int level_one)
{
    uint8_t text[KNOBSTREAM_LEVEL_ONE_ROOM];
    if (a->refusal != 0) {
        expect_refusal(a->refusal, a->start, a->end);
        return;
    }
    const knobstream_written w = level_one ? knobstream_date_level_one_text(&a->date, text, sizeof text)
                                           : knobstream_date_text(&a->date, text, sizeof text);
    must(w.refusal == 0, "a date that was read is not written");
    expects = 0;
    expect(0, 1);
    expect(a->date.shape, 1);
    expect(a->date.uncertain | (unsigned)a->date.approximate << 1, 1);
    for (int end = 0; end < (a->date.shape == KNOBSTREAM_BETWEEN ? 2 : 1); end++) {
        const knobstream_datetime *d = end == 0 ? &a->date.first : &a->date.second;
        const uint8_t parts[] = { d->has_month ? d->month : (uint8_t)255, d->has_day ? d->day : (uint8_t)255, d->has_time, d->hour,
                                  d->minute, d->second, d->offset, d->offset_hours, d->offset_minutes, d->season };
        expect((uint32_t)d->year, 4);
        for (size_t i = 0; i < (level_one ? 10 : 9); i++)
            expect(parts[i], 1);
    }
    for (size_t i = 0; i < w.length; i++)
        expect(text[i], 1);
    expected[expects++] = '\n';
}

/* The frame has the answer that is expected; or one digit less of room, and stores nothing. */
static void frame_answers(const uint8_t *digits_lent)
{
    const size_t room = one_in(8) ? below(expects) : one_in(2) ? expects : expects + below(200);
    uint8_t *out = (uint8_t *)lend(NULL, room, 1);
    const knobstream_written w = CALL(knobstream_answer_frame, digits_lent, digits, out, room);
    refusals[KNOBSTREAM_BAD_FRAME] += expects > 2 && memcmp(expected, "0e", 2) == 0;
    if (room < expects) {
        must(w.refusal == KNOBSTREAM_NO_ROOM && w.length == 0 && kept_from(out, 0), "room for an answer that has none");
    } else {
        must(w.refusal == 0 && w.length == expects && memcmp(out, expected, expects) == 0, "another answer to the frame");
        must(kept_from(out, expects), "something behind the answer is changed");
    }
}

/* ---- readers */

static int zeros(const void *at, size_t size)
{
    const uint8_t *bytes = (const uint8_t *)at;
    while (size > 0 && bytes[size - 1] == 0)
        size--;
    return size == 0;
}

/* What holds of a Datetime that a reader gives: what is absent is zeros. */
static int clean(const knobstream_datetime *d)
{
    return d->has_month <= 1 && d->has_day <= 1 && d->has_time <= 1 && d->offset <= 3 && (d->has_month || d->month == 0)
        && (d->has_day || d->day == 0) && (d->has_time || zeros(&d->hour, 6)) && (d->offset > 1 || zeros(&d->offset_hours, 2))
        && (d->season == 0 || (d->season >= 21 && d->season <= 24 && zeros(&d->has_month, 11)));
}

/* What holds of every answer. */
static void answer_holds(const knobstream_answer *a)
{
    settled();
    refusals[a->refusal]++;
    must(zeros(a->unused, 3) && a->date.reserved == 0, "spare bytes that are not zero");
    if (a->refusal != 0) {
        must(zeros(&a->date, sizeof a->date), "a date beside a refusal");
        must((a->refusal >= 1 && a->refusal <= 8) || a->refusal == 10 || a->refusal == 11 || (a->start == 0 && a->end == 0),
             "a place beside a refusal that names none");
        must(a->refusal <= 12 || a->refusal == 15 || a->refusal == 16 || a->refusal == 23, "a refusal that no reader gives");
    } else {
        must(a->start == 0 && a->end == 0, "a place beside a date");
        must(a->date.shape <= 3 && a->date.uncertain <= 1 && a->date.approximate <= 1, "a shape or a mark that is none");
        must(clean(&a->date.first) && clean(&a->date.second), "something in what is absent");
        must(a->date.shape == KNOBSTREAM_BETWEEN || zeros(&a->date.second, sizeof a->date.second), "a second end in a date without");
    }
}

static knobstream_date last_read; /* for the writers */

static void kept_for_writers(const knobstream_answer *a)
{
    if (a->refusal == 0)
        last_read = a->date;
}

static void fields_of_dates(void)
{
    static const uint8_t operations[] = { 4, 1, 2, 5 };
    struct list *l = &lists[0];
    any_list(l, dates, COUNT(dates));
    lend_list(l);
    knobstream_answer *a = (knobstream_answer *)lend(NULL, sizeof *a, 1);
    const uint8_t operation = ANY(operations);
    if (operation == 4)
        CALL(knobstream_parse, LENT(l), a);
    else if (operation == 5)
        CALL(knobstream_parse_level_one, LENT(l), a);
    else
        CALL(knobstream_parse_strict, LENT(l), a);
    answer_holds(a);
    kept_for_writers(a);
    digits = 0;
    put(operation);
    if (put_list(l)) {
        expect_answer(a, operation == 5);
        frame_answers((const uint8_t *)lend(line, digits, 0));
        settled();
    }
}

/* Which lists are given, by a number that is not 0. */
static uint8_t flag(int given)
{
    return (uint8_t)(given ? one_in(4) ? 1 + below(255) : 1 : 0);
}

/* A list that is absent: its pointers are to what can not be touched. */
static struct list absent_list(void)
{
    struct list l;
    l.lent_bytes = one_in(2) ? NULL : slots[0].low - PAGE;
    l.lent_table = (const uint64_t *)(const void *)(one_in(2) ? NULL : slots[0].low - PAGE);
    l.length = below(9);
    l.rows = below(9);
    return l;
}

/* Three lists from this one on, lent or absent: the year is always there. */
static void any_fields(struct list *l, const uint8_t has[3])
{
    any_list(&l[0], years, COUNT(years));
    any_list(&l[1], months, COUNT(months));
    any_list(&l[2], days_of, COUNT(days_of));
    for (size_t i = 0; i < 3; i++)
        if (has[i])
            lend_list(&l[i]);
        else
            l[i] = absent_list();
}

static void three_fields(void)
{
    const uint8_t has[3] = { 1, flag(!one_in(4)), flag(one_in(2)) };
    any_fields(lists, has);
    knobstream_answer *a = (knobstream_answer *)lend(NULL, sizeof *a, 1);
    CALL(knobstream_parse_three_fields, LENT(&lists[0]), has[1], LENT(&lists[1]), has[2], LENT(&lists[2]), a);
    answer_holds(a);
    kept_for_writers(a);
    digits = 0;
    put(3);
    int framed = put_list(&lists[0]);
    for (size_t i = 1; i < 3; i++) {
        put(has[i] != 0);
        framed = framed && (has[i] == 0 || put_list(&lists[i]));
    }
    if (framed) {
        expect_answer(a, 0);
        frame_answers((const uint8_t *)lend(line, digits, 0));
        settled();
    }
}

/* Whether a list that is none for no reason of its own has nothing but white space in it. */
static int blank(const struct list *l)
{
    for (size_t i = 0; i < l->rows; i += 4)
        if (l->table[i] == KNOBSTREAM_MATH)
            return 0;
    for (size_t i = 0; i < l->length; i++) {
        const uint8_t *b = l->bytes + i;
        if ((*b >= 9 && *b <= 13) || *b == 32)
            continue;
        if (b[0] == 0xC2 && (b[1] == 0x85 || b[1] == 0xA0))
            i += 1;
        else if (b[0] == 0xE2 && b[1] == 0x80 && ((b[2] >= 0x80 && b[2] <= 0x8A) || b[2] == 0xA8 || b[2] == 0xA9 || b[2] == 0xAF))
            i += 2;
        else if (b[0] == 0xE2 && b[1] == 0x81 && b[2] == 0x9F)
            i += 2;
        else
            return 0;
    }
    return 1;
}

static void six_fields(void)
{
    const uint8_t has[6] = { 1, flag(one_in(2)), flag(one_in(3)), flag(!one_in(5)), flag(one_in(2)), flag(one_in(3)) };
    any_fields(lists, has);
    any_fields(lists + 3, has + 3);
    if (has[3] && one_in(4)) {
        any_list(&lists[3], blanks, COUNT(blanks));
        lend_list(&lists[3]);
    }
    knobstream_answer *a = (knobstream_answer *)lend(NULL, sizeof *a, 1), start, end;
    CALL(knobstream_parse_six_fields, LENT(&lists[0]), has[1], LENT(&lists[1]), has[2], LENT(&lists[2]), has[3], LENT(&lists[3]), has[4],
         LENT(&lists[4]), has[5], LENT(&lists[5]), a);
    answer_holds(a);
    kept_for_writers(a);
    CALL(knobstream_parse_three_fields, LENT(&lists[0]), has[1], LENT(&lists[1]), has[2], LENT(&lists[2]), &start);
    if (start.refusal == 0 && has[3]) {
        knobstream_parse_strict(LENT(&lists[3]), &end);
        const int listed = end.refusal != 10 && end.refusal != 11 && end.refusal != 15 && end.refusal != 16;
        if (listed && blank(&lists[3])) {
            start.date.shape = KNOBSTREAM_AFTER;
        } else {
            CALL(knobstream_parse_three_fields, LENT(&lists[3]), has[4], LENT(&lists[4]), has[5], LENT(&lists[5]), &end);
            start.date.shape = KNOBSTREAM_BETWEEN;
            start.date.second = end.date.first;
            if (end.refusal != 0)
                start = end;
        }
    }
    present = "knobstream_parse_six_fields";
    must(memcmp(a, &start, sizeof start) == 0, "six fields are not three fields twice");
}

/* ---- frames that may be none */

static int digit_of(uint8_t c)
{
    return c >= '0' && c <= '9' ? c - '0' : c >= 'a' && c <= 'f' ? c - 'a' + 10 : c >= 'A' && c <= 'F' ? c - 'A' + 10 : -1;
}

/* Takes a list off a frame, from a place on: the place behind it, or 0 if the frame ends before. */
static size_t take_list(const uint8_t *frame, size_t n, size_t at, struct list *l)
{
    l->length = l->rows = 0;
    if (at >= n)
        return 0;
    const size_t chunks = frame[at++];
    for (size_t i = 0; i < chunks; i++) {
        if (at + 10 > n || at + 10 + frame[at + 1] > n)
            return 0;
        if (l->rows < 4 * MOST_CHUNKS) { /* what is more is TooLong in any case */
            uint64_t row[4] = { frame[at], frame[at + 1], 0, 0 };
            for (size_t k = 0; k < 4; k++) {
                row[2] = row[2] << 8 | frame[at + 2 + k];
                row[3] = row[3] << 8 | frame[at + 6 + k];
            }
            memcpy(l->table + l->rows, row, sizeof row);
            l->rows += 4;
            if (l->length + row[1] <= LONGEST)
                memcpy(l->bytes + l->length, frame + at + 10, row[1]);
            l->length += row[1];
        }
        at += 10u + frame[at + 1];
    }
    return at;
}

/* The answer to any line, by the calls of the readers; 0 where the lists are too large for this program. */
static int expect_line(void)
{
    static uint8_t frame[sizeof line / 2];
    const size_t n = digits / 2;
    knobstream_answer a;
    expect_refusal(KNOBSTREAM_BAD_FRAME, 0, 0);
    if (digits == 0 || digits % 2 != 0 || n > 8192)
        return 1;
    for (size_t i = 0; i < n; i++) {
        const int high = digit_of(line[2 * i]), low = digit_of(line[2 * i + 1]);
        if (high < 0 || low < 0)
            return 1;
        frame[i] = (uint8_t)(16 * high + low);
    }
    if (frame[0] < 1 || frame[0] > 5)
        return 1;
    uint8_t has[3] = { 1, 0, 0 };
    size_t at = take_list(frame, n, 1, &lists[0]);
    for (size_t i = 1; frame[0] == 3 && i < 3 && at != 0; i++) {
        if (at >= n || frame[at] > 1)
            return 1;
        has[i] = frame[at++];
        if (has[i])
            at = take_list(frame, n, at, &lists[i]);
    }
    if (at != n)
        return 1;
    for (size_t i = 0; i < 3; i++) {
        if (has[i] && lists[i].length > LONGEST)
            return 0;
        lists[i].lent_bytes = lists[i].bytes;
        lists[i].lent_table = lists[i].table;
    }
    if (frame[0] == 3)
        knobstream_parse_three_fields(LENT(&lists[0]), has[1], LENT(&lists[1]), has[2], LENT(&lists[2]), &a);
    else
        (frame[0] == 4 ? knobstream_parse : frame[0] == 5 ? knobstream_parse_level_one : knobstream_parse_strict)(LENT(&lists[0]), &a);
    expect_answer(&a, frame[0] == 5);
    return 1;
}

static void damaged_frames(void)
{
    digits = 0;
    any_list(&lists[0], dates, COUNT(dates));
    put(one_in(20) ? byte() : 1 + below(5));
    put_list(&lists[0]);
    if (line[1] == '3' || one_in(10)) {
        put(below(2));
        if (one_in(2))
            put_list(&lists[0]);
        put(0);
    }
    for (size_t edits = below(3); edits > 0 && digits > 0; edits--)
        switch (below(6)) {
        case 0: line[below(digits)] = byte(); break;
        case 1: digits = below(digits + 1); break;
        case 2: put(byte()); break;
        case 3: if (one_in(40)) while (digits < sizeof line) line[digits++] = '0'; break;
        default: line[below(digits)] = (uint8_t)"0123456789abcdefABCDEF"[below(22)]; break;
        }
    if (expect_line())
        frame_answers((const uint8_t *)lend(line, digits, 0));
    settled();
}

/* ---- writers */

static uint8_t any_part(void)
{
    static const uint8_t parts[] = { 0, 1, 11, 12, 23, 24, 28, 30, 31, 59, 60, 99, 253, 254, 255 };
    return one_in(4) ? byte() : ANY(parts);
}

static knobstream_datetime any_datetime(void)
{
    static const int32_t some[] = { 0, 1, -1, 4, 49, 1900, 2000, 9999, 10000, -9999, -10000, 12345, INT32_MIN, INT32_MAX };
    knobstream_datetime d;
    d.year = one_in(6) ? (int32_t)(uint32_t)draw() : one_in(2) ? (int32_t)below(20100) - 10050 : ANY(some);
    d.has_month = flag(!one_in(4));
    d.month = one_in(3) ? any_part() : (uint8_t)below(12);
    d.has_day = flag(!one_in(4));
    d.day = one_in(3) ? any_part() : (uint8_t)below(31);
    d.has_time = flag(one_in(2));
    d.hour = one_in(4) ? any_part() : (uint8_t)below(24);
    d.minute = one_in(6) ? any_part() : (uint8_t)below(60);
    d.second = one_in(6) ? any_part() : (uint8_t)below(60);
    d.offset = one_in(6) ? byte() : (uint8_t)below(4);
    d.offset_hours = one_in(6) ? any_part() : (uint8_t)below(24);
    d.offset_minutes = one_in(6) ? any_part() : (uint8_t)below(60);
    d.season = one_in(5) ? one_in(3) ? byte() : (uint8_t)(21 + below(4)) : 0;
    return d;
}

static knobstream_date any_date(void)
{
    knobstream_date d = last_read;
    if (one_in(3))
        return d;
    d.first = any_datetime();
    d.second = one_in(4) ? d.first : any_datetime();
    d.shape = one_in(10) ? byte() : (uint8_t)below(4);
    d.uncertain = flag(one_in(3));
    d.approximate = flag(one_in(3));
    return d;
}

static char model[256];
static size_t modelled;

static void say(const char *format, ...)
{
    va_list list;
    va_start(list, format);
    modelled += (size_t)vsnprintf(model + modelled, sizeof model - modelled, format, list);
    va_end(list);
}

static int calendar(const knobstream_datetime *d);

static int bad_time(const knobstream_datetime *d)
{
    return d->has_time && (!d->has_month || !d->has_day || d->hour > 23 || d->minute > 59 || d->second > 59
                           || (d->offset > 1 && (d->offset_hours > 23 || d->offset_minutes > 59)));
}

static int panics(const knobstream_datetime *d)
{
    return d->has_month && (d->month == 255 || (d->has_day && d->day == 255));
}

enum style { PLAIN, LEVEL_ONE, TIMED, FIELDS };

static void say_end(const knobstream_datetime *d, enum style style)
{
    if (style == LEVEL_ONE && (d->year > 9999 || d->year < -9999))
        say("Y");
    say(d->year < 0 ? "%05d" : "%04d", (int)d->year);
    if (style == LEVEL_ONE && d->season != 0) {
        say("-%d", d->season >= 21 && d->season <= 23 ? d->season : 24);
        return;
    }
    if (d->has_month)
        say("-%02d", d->month + 1);
    if (d->has_month && d->has_day)
        say("-%02d", d->day + 1);
    if (style != TIMED || !d->has_time)
        return;
    say("T%02d:%02d:%02d", d->hour, d->minute, d->second);
    if (d->offset == 1)
        say("Z");
    else if (d->offset > 1)
        say("%c%02d:%02d", d->offset == 2 ? '+' : '-', d->offset_hours, d->offset_minutes);
}

static void say_fields(const knobstream_datetime *d, const char *before)
{
    say(d->year < 0 ? "%syear=%05d\n" : "%syear=%04d\n", before, (int)d->year);
    if (d->has_month)
        say("%smonth=%02d\n", before, d->month + 1);
    if (d->has_month && d->has_day)
        say("%sday=%02d\n", before, d->day + 1);
}

/* The refusal of a date for a writer, or 0 and its text. */
static unsigned said(const knobstream_date *d, enum style style)
{
    const knobstream_datetime *a = &d->first, *b = d->shape >= 3 ? &d->second : &d->first;
    modelled = 0;
    if (style != LEVEL_ONE && (a->season != 0 || b->season != 0))
        return KNOBSTREAM_HAS_SEASON;
    if ((panics(a) && (style != LEVEL_ONE || a->season == 0)) || (panics(b) && (style != LEVEL_ONE || b->season == 0)))
        return KNOBSTREAM_RUST_PANICS;
    if (style == TIMED && (bad_time(a) || bad_time(b)))
        return KNOBSTREAM_BAD_TIME;
    if (style == FIELDS) {
        say_fields(a, "");
        if (d->shape >= 3)
            say_fields(b, "end");
        return 0;
    }
    if (d->shape == KNOBSTREAM_BEFORE)
        say("../");
    say_end(a, style);
    if (d->shape == KNOBSTREAM_AFTER)
        say("/..");
    if (d->shape >= 3) {
        say("/");
        say_end(b, style);
    }
    say("%s", d->uncertain && d->approximate ? "%" : d->uncertain ? "?" : d->approximate ? "~" : "");
    return 0;
}

/* A writer's answer and what it left, beside the model. */
static void wrote(knobstream_written w, unsigned refusal, const uint8_t *out, size_t room)
{
    settled();
    if (refusal == 0 && room < modelled)
        refusal = KNOBSTREAM_NO_ROOM;
    must(w.refusal == refusal, "another refusal by a writer");
    refusals[refusal]++;
    if (refusal != 0) {
        must(w.length == 0 && kept_from(out, 0), "a refusal that stores something");
    } else {
        must(w.length == modelled && memcmp(out, model, modelled) == 0, "another text");
        must(kept_from(out, modelled), "something behind the text is changed");
    }
}

static size_t any_room(void)
{
    return one_in(3) ? modelled : one_in(3) ? below(modelled + 1) : modelled + below(80);
}

/* A Datetime of the calendar as a reader gives it. */
static knobstream_datetime plain(knobstream_datetime d)
{
    if (!d.has_time)
        d.hour = d.minute = d.second = d.offset = 0;
    if (d.offset > 3)
        d.offset = 3;
    if (d.offset < 2)
        d.offset_hours = d.offset_minutes = 0;
    d.month = d.has_month ? d.month : 0;
    d.day = d.has_day ? d.day : 0;
    d.has_month = d.has_month != 0;
    d.has_day = d.has_day != 0;
    d.has_time = d.has_time != 0;
    return d;
}

/* The strict and the ported reader read the text with times of a date of the calendar back. */
static void read_back(const knobstream_date *d)
{
    const int between = d->shape >= 3;
    if (!calendar(&d->first) || (between && !calendar(&d->second)))
        return;
    const uint64_t table[4] = { KNOBSTREAM_NORMAL, modelled, 0, modelled };
    knobstream_answer a, b;
    CALL(knobstream_parse_strict, (const uint8_t *)model, modelled, table, 4, &a);
    CALL(knobstream_parse, (const uint8_t *)model, modelled, table, 4, &b);
    must(memcmp(&a, &b, sizeof a) == 0, "the readers differ on a text that was written");
    const knobstream_datetime first = plain(d->first), second = plain(d->second);
    must(a.refusal == 0 && a.date.shape == (between ? 3 : d->shape) && a.date.uncertain == (d->uncertain != 0)
             && a.date.approximate == (d->approximate != 0) && memcmp(&a.date.first, &first, sizeof first) == 0
             && (!between || memcmp(&a.date.second, &second, sizeof second) == 0),
         "a text that was written is not read back");
}

static void writers(void)
{
    const knobstream_date d = any_date();
    const enum style style = (enum style)below(4);
    const unsigned refusal = said(&d, style);
    const size_t room = any_room();
    uint8_t *out = (uint8_t *)lend(NULL, room, 1);
    knobstream_written w = { 0, 0 }, n = { 0, 0 };
#define PARTS d.first, d.second
#define MARKS d.shape, d.uncertain, d.approximate
    switch (style) {
    case PLAIN:
        n = CALL(knobstream_measure_date, PARTS, MARKS);
        w = CALL(knobstream_write_date, PARTS, out, room, MARKS);
        break;
    case LEVEL_ONE:
        n = CALL(knobstream_measure_level_one, PARTS, MARKS);
        w = CALL(knobstream_write_level_one, PARTS, out, room, MARKS);
        break;
    case TIMED:
        n = CALL(knobstream_measure_timed, PARTS, MARKS);
        w = CALL(knobstream_write_timed, PARTS, out, room, MARKS);
        break;
    case FIELDS:
        w = CALL(knobstream_write_fields, PARTS, out, room, MARKS);
        break;
    }
    wrote(w, refusal, out, room);
    must(style == FIELDS || (n.refusal == refusal && n.length == (refusal == 0 ? modelled : 0)), "another length");
    if (style == TIMED && refusal == 0)
        read_back(&d);
}

/* ---- days and instants */

static const uint8_t lengths_of[12] = { 31, 28, 31, 30, 31, 30, 31, 31, 30, 31, 30, 31 };

static int leap(int64_t y) { return y % 4 == 0 && (y % 100 != 0 || y % 400 == 0); }

static int32_t length_of(int64_t y, unsigned month) { return lengths_of[month] + (month == 1 && leap(y)); }

/* Whether it is one of the years -9999 to 9999 and the calendar, with no season and no bad time. */
static int dated(const knobstream_datetime *d)
{
    return d->year >= -9999 && d->year <= 9999 && (!d->has_month || d->month < 12)
        && (!d->has_day || (d->has_month && d->day < length_of(d->year, d->month)));
}

static int calendar(const knobstream_datetime *d) { return d->season == 0 && dated(d) && !bad_time(d); }

/* The days from 0000-01-01 to a year's first, counted year by year of four centuries. */
static int32_t new_year(int32_t year)
{
    static int32_t starts[401];
    if (starts[1] == 0)
        for (int i = 0; i < 400; i++)
            starts[i + 1] = starts[i] + 365 + leap(i);
    const int32_t cycle = (year + 400 * 100) / 400 - 100;
    return cycle * starts[400] + starts[year - 400 * cycle];
}

static knobstream_period model_days(const knobstream_datetime *d)
{
    knobstream_period p = { 0, 0, 0 };
    if (d->season != 0 || !dated(d)) {
        p.refusal = d->season != 0 ? KNOBSTREAM_HAS_SEASON : KNOBSTREAM_NOT_A_CALENDAR_DATE;
        return p;
    }
    p.first = new_year(d->year);
    p.last = p.first + 364 + leap(d->year);
    if (d->has_month) {
        for (unsigned m = 0; m < d->month; m++)
            p.first += length_of(d->year, m);
        p.last = p.first + length_of(d->year, d->month) - 1;
    }
    if (d->has_day)
        p.first = p.last = p.first + d->day;
    return p;
}

static int64_t utc_seconds(const knobstream_datetime *d)
{
    const int64_t shift = d->offset < 2 ? 0 : (d->offset_hours * 60 + d->offset_minutes) * 60;
    return d->hour * 3600 + d->minute * 60 + d->second - (d->offset == 2 ? shift : -shift);
}

static knobstream_seconds model_instant(const knobstream_datetime *d)
{
    const knobstream_period p = model_days(d);
    knobstream_seconds s = { 0, p.refusal };
    if (s.refusal == 0 && bad_time(d))
        s.refusal = KNOBSTREAM_BAD_TIME;
    else if (s.refusal == 0 && (!d->has_day || !d->has_time || d->offset == 0))
        s.refusal = KNOBSTREAM_NO_INSTANT;
    if (s.refusal == 0)
        s.seconds = (int64_t)p.first * 86400 + utc_seconds(d);
    return s;
}

static int32_t sign(int64_t a, int64_t b) { return a < b ? -1 : a > b; }

/* The ported order. */
static int32_t model_order(const knobstream_datetime *a, const knobstream_datetime *b)
{
    if (a->season != 0 || b->season != 0)
        return KNOBSTREAM_HAS_SEASON;
    if (a->year != b->year)
        return sign(a->year, b->year);
    if (!a->has_month != !b->has_month)
        return 2;
    if (!a->has_month || a->month != b->month)
        return a->has_month ? sign(a->month, b->month) : 0;
    if (!a->has_day != !b->has_day)
        return 2;
    if (!a->has_day || a->day != b->day)
        return a->has_day ? sign(a->day, b->day) : 0;
    if (!a->has_time != !b->has_time || (a->has_time && (a->offset == 0) != (b->offset == 0)))
        return 2;
    return a->has_time ? sign(utc_seconds(a), utc_seconds(b)) : 0;
}

static void moments(void)
{
    const knobstream_datetime a = one_in(4) ? last_read.first : any_datetime();
    knobstream_datetime b = one_in(3) ? any_datetime() : a;
    if (one_in(3))
        b.day = (uint8_t)(b.day + below(3));
    if (one_in(3))
        b.offset_hours = any_part();
    const knobstream_period p = CALL(knobstream_days, a), days = model_days(&a);
    must(p.first == days.first && p.last == days.last && p.refusal == days.refusal, "other days");
    const knobstream_seconds s = CALL(knobstream_instant, a), one = model_instant(&a), other = model_instant(&b);
    must(s.seconds == one.seconds && s.refusal == one.refusal, "another instant");
    refusals[p.refusal]++;
    refusals[s.refusal]++;
    const int32_t order = one.refusal != 0 ? one.refusal : other.refusal != 0 ? other.refusal : sign(one.seconds, other.seconds);
    must(CALL(knobstream_compare_instants, a, b) == order, "another order of instants");
    must(CALL(knobstream_compare, a, b) == model_order(&a, &b), "another order");
}

/* ---- page ranges */

static int is_space(uint8_t b) { return (b >= 9 && b <= 13) || b == 32; }

/* A number of a text, from a place on. */
static int number(const uint8_t *text, size_t n, size_t *at, uint64_t start, uint32_t *value, knobstream_pages *p)
{
    uint64_t v = 0;
    while (*at < n && is_space(text[*at]))
        (*at)++;
    const size_t from = *at;
    for (; *at < n && text[*at] >= '0' && text[*at] <= '9'; (*at)++)
        v = v > UINT32_MAX ? v : 10 * v + text[*at] - '0';
    *value = (uint32_t)v;
    if (*at > from && v <= UINT32_MAX)
        return 1;
    p->refusal = KNOBSTREAM_INVALID_NUMBER;
    p->start = start + from;
    p->end = start + *at;
    return 0;
}

/* A piece of one Normal chunk of ASCII as a range; 0 where this knows no answer. */
static int model_range(const struct list *l, knobstream_pages *p, uint32_t range[2])
{
    const uint8_t *text = l->bytes;
    const size_t n = l->length;
    size_t at = 0;
    memset(p, 0, sizeof *p);
    if (l->rows != 4 || l->table[0] != 0 || l->table[1] != n || n > 4096 || l->table[2] > UINT32_MAX || l->table[3] > UINT32_MAX)
        return 0;
    for (size_t i = 0; i < n; i++)
        if (text[i] > 126 || text[i] == '\n' || text[i] == '\r')
            return 0;
    if (!number(text, n, &at, l->table[2], &range[0], p))
        return 1;
    range[1] = range[0];
    while (at < n && is_space(text[at]))
        at++;
    if (at < n && text[at] == '-') {
        while (at < n && text[at] == '-')
            at++;
        while (at < n && is_space(text[at]))
            at++;
        p->start = at;
        if (!number(text, n, &at, l->table[2], &range[1], p))
            return 1;
    } else {
        p->start = l->table[2];
    }
    p->ranges = at == n;
    p->refusal = at == n ? 0 : KNOBSTREAM_INVALID_NUMBER;
    p->start = at == n ? 0 : p->start;
    p->end = at == n ? 0 : l->table[3];
    return 1;
}

enum { MOST_PIECES = 66 };

static void pages(void)
{
    static struct list piece;
    static uint8_t bytes[MOST_PIECES * LONGEST];
    static uint64_t table[MOST_PIECES * 4 * MOST_CHUNKS];
    size_t counts[MOST_PIECES], length = 0, rows = 0;
    uint32_t ranges[2 * MOST_PIECES];
    const size_t pieces = one_in(30) ? 60 + below(7) : below(5);
    knobstream_pages expected_pages = { pieces, 0, 0, 0 };
    int whole = 1;
    for (size_t i = 0; i < pieces; i++) {
        uint32_t two[2] = { 7, 7 }, model_two[2] = { 0, 0 };
        knobstream_pages one, by_model;
        any_list(&piece, ranges_of, COUNT(ranges_of));
        if (length + piece.length > ROOM / 2 || rows + piece.rows > ROOM / 16)
            piece.length = piece.rows = 0;
        counts[i] = piece.rows / 4;
        uint64_t sum = 0;
        for (size_t k = 0; k < piece.rows / 4 * 4; k += 4)
            sum = piece.table[k + 1] > LONGEST ? UINT64_MAX / 2 : sum + piece.table[k + 1];
        whole = whole && piece.rows % 4 == 0 && sum == piece.length;
        memcpy(bytes + length, piece.bytes, piece.length);
        memcpy(table + rows, piece.table, 8 * piece.rows);
        length += piece.length;
        rows += piece.rows;
        CALL(knobstream_parse_pages, piece.bytes, piece.length, piece.table, piece.rows, &counts[i], 1, two, 2, &one);
        must(one.refusal == 0 ? one.ranges == 1 && one.start == 0 && one.end == 0 : one.ranges == 0 && two[0] == 7 && two[1] == 7,
             "a refused piece that stores something, or a place beside a range");
        if (model_range(&piece, &by_model, model_two))
            must(memcmp(&one, &by_model, sizeof one) == 0 && (one.refusal != 0 || memcmp(two, model_two, sizeof two) == 0),
                 "another range than the model's");
        memcpy(ranges + 2 * i, two, sizeof two);
        if (expected_pages.refusal == 0 && one.refusal != 0)
            expected_pages = one;
    }
    /* a piece whose lengths are wrong may be made good by the next: what is said then is not known */
    int known = whole;
    if (one_in(40) && pieces > 0) {
        const uint64_t damage[] = { 1, UINT64_MAX, UINT64_MAX / 4 + 1 };
        counts[below(pieces)] += ANY(damage);
        whole = 0;
        known = 1;
    }
    const size_t room = one_in(4) ? below(2 * pieces + 1) : 2 * pieces + below(3);
    if (pieces > KNOBSTREAM_MAX_PIECES)
        expected_pages.refusal = KNOBSTREAM_TOO_LONG, known = 1;
    else if (!whole)
        expected_pages.refusal = KNOBSTREAM_BAD_CHUNKS;
    else if (room < 2 * pieces)
        expected_pages.refusal = KNOBSTREAM_NO_ROOM;
    if (pieces > KNOBSTREAM_MAX_PIECES || !whole || room < 2 * pieces)
        expected_pages.ranges = expected_pages.start = expected_pages.end = 0;
    const uint8_t *b = (const uint8_t *)lend(bytes, length, 0);
    const uint64_t *t = (const uint64_t *)lend(table, 8 * rows, 0);
    const size_t *c = (const size_t *)lend(counts, sizeof *counts * pieces, 0);
    uint32_t *out = (uint32_t *)lend(NULL, 4 * room, 1);
    knobstream_pages *p = (knobstream_pages *)lend(NULL, sizeof *p, 1);
    CALL(knobstream_parse_pages, b, length, t, rows, c, pieces, out, room, p);
    settled();
    refusals[p->refusal & 255]++;
    if (known)
        must(memcmp(p, &expected_pages, sizeof *p) == 0, "another answer than the pieces give one by one");
    if (p->refusal == 0)
        must((pieces == 0 || memcmp(out, ranges, 8 * pieces) == 0) && kept_from(out, 8 * pieces), "other ranges");
    else
        must(kept_from(out, 0), "a refusal that stores a range");
}

static void range_texts(void)
{
    const uint32_t start = (uint32_t)(draw() >> below(32)), end = one_in(3) ? start : (uint32_t)(draw() >> below(32));
    modelled = 0;
    say("%u-%u", start, end);
    const size_t room = any_room();
    uint8_t *out = (uint8_t *)lend(NULL, room, 1);
    wrote(CALL(knobstream_write_range, start, end, out, room), 0, out, room);
    const uint64_t table[4] = { KNOBSTREAM_NORMAL, modelled, 0, modelled };
    const size_t one = 1;
    uint32_t two[2];
    knobstream_pages p;
    CALL(knobstream_parse_pages, (const uint8_t *)model, modelled, table, 4, &one, 1, two, 2, &p);
    must(p.refusal == 0 && p.ranges == 1 && two[0] == start && two[1] == end, "a written range is not read back");
}

/* ---- a chronology */

static knobstream_chronology kept; /* by the library's calls */
static struct entry { int32_t first, last; uint32_t id; } live[KNOBSTREAM_ENTRIES + 1]; /* the same, by the model */
static size_t lives;

static int before(struct entry a, struct entry b)
{
    return a.first != b.first ? a.first < b.first : a.last != b.last ? a.last < b.last : a.id < b.id;
}

static int period(int32_t first, int32_t last) { return first >= -3652059 && first <= last && last <= 3652424; }

static int is_chronology(const knobstream_chronology *c)
{
    if (c->count > KNOBSTREAM_ENTRIES)
        return 0;
    for (size_t i = 0; i < c->count; i++) {
        const struct entry e = { c->firsts[i], c->lasts[i], c->ids[i] };
        if (!period(e.first, e.last))
            return 0;
        for (size_t k = 0; k < i; k++)
            if (c->ids[k] == e.id)
                return 0;
        if (i > 0) {
            const struct entry f = { c->firsts[i - 1], c->lasts[i - 1], c->ids[i - 1] };
            if (!before(f, e))
                return 0;
        }
    }
    return 1;
}

static int holds_model(const knobstream_chronology *c)
{
    int same = c->count == lives;
    for (size_t i = 0; same && i < lives; i++)
        same = c->firsts[i] == live[i].first && c->lasts[i] == live[i].last && c->ids[i] == live[i].id;
    return same;
}

static int32_t any_day(void)
{
    static const int32_t edges[] = { -3652060, -3652059, 3652424, 3652425, INT32_MIN, INT32_MAX, 0 };
    return one_in(12) ? ANY(edges) : one_in(2) ? (int32_t)below(200) - 100 : (int32_t)below(7304484) - 3652059;
}

static void chronology(void)
{
    static int shrinks; /* it fills up and is emptied in turn */
    static const uint8_t sorts[2][8] = { { 0, 0, 0, 0, 1, 2, 3, 4 }, { 1, 1, 1, 1, 0, 2, 3, 4 } };
    shrinks ^= one_in(2500);
    const uint8_t sort = ANY(sorts[shrinks]);
    knobstream_chronology given = kept;
    if (one_in(20)) /* some of it, damaged */
        given.count = below(6);
    const int damaged = given.count != kept.count || one_in(40);
    if (damaged && one_in(2))
        switch (below(5)) {
        case 0: given.count = one_in(2) ? KNOBSTREAM_ENTRIES + 1 + below(9) : (size_t)draw(); break;
        case 1: given.firsts[below(given.count + 1) % KNOBSTREAM_ENTRIES] = any_day(); break;
        case 2: given.lasts[below(given.count + 1) % KNOBSTREAM_ENTRIES] = any_day(); break;
        default: given.ids[below(given.count + 1) % KNOBSTREAM_ENTRIES] = given.ids[0]; break;
        }
    knobstream_chronology *c = (knobstream_chronology *)lend(&given, sizeof given, 1);
    const int32_t first = any_day(), last = one_in(4) ? any_day() : first > INT32_MAX - 60 ? first : first + (int32_t)below(60);
    const uint32_t id = one_in(sort == 0 ? 6 : 2) && lives > 0 ? live[below(lives)].id : one_in(2) ? (uint32_t)draw() : (uint32_t)below(700);
    const size_t room = one_in(4) ? below(3 * lives + 1) : 3 * lives + below(3);
    int64_t *out = sort == 3 ? (int64_t *)lend(NULL, 8 * room, 1) : NULL;
    knobstream_entries e = { 0, 0 };
    knobstream_reply r = { 0, 0, 0 };
    switch (sort) {
    case 0: e = CALL(knobstream_add_entry, &c->count, c->firsts, c->lasts, c->ids, first, last, id); break;
    case 1: e = CALL(knobstream_remove_entry, &c->count, c->firsts, c->lasts, c->ids, id); break;
    case 2: e = CALL(knobstream_count_entries, &c->count, c->firsts, c->lasts, c->ids); break;
    case 3: e = CALL(knobstream_list_entries, &c->count, c->firsts, c->lasts, c->ids, out, room); break;
    default: r = CALL(knobstream_any_dated, &c->count, c->firsts, c->lasts, c->ids, first, last); break;
    }
    settled();
    const unsigned refusal = sort == 4 ? r.refusal : e.refusal;
    refusals[refusal]++;
    if (refusal != 0 || sort >= 2)
        must(kept_from(c, 0), "a chronology is changed that should not be");
    if (refusal != 0)
        must(sort == 4 ? r.found == 0 && r.read == 0 : e.entries == 0, "a number beside a refusal");
    if (refusal != 0 && sort == 3)
        must(kept_from(out, 0), "a refused list stores something");
    if (damaged) {
        must((refusal == KNOBSTREAM_BAD_CHRONOLOGY) == !is_chronology(&given), "what is no chronology is taken, or one is not");
        must(refusal != 0 || is_chronology(c), "what is left is no chronology");
        return;
    }
    size_t at = 0, stop = 0, found = 0;
    while (at < lives && live[at].id != id)
        at++;
    switch (sort) {
    case 0:
        must(refusal == (!period(first, last) ? KNOBSTREAM_BAD_PERIOD : at < lives ? KNOBSTREAM_DUPLICATE_ENTRY
                             : lives == KNOBSTREAM_ENTRIES ? KNOBSTREAM_CHRONOLOGY_FULL : 0), "another answer to adding");
        if (refusal == 0) {
            const struct entry entry = { first, last, id };
            for (at = lives++; at > 0 && before(entry, live[at - 1]); at--)
                live[at] = live[at - 1];
            live[at] = entry;
            must(e.entries == lives && holds_model(c), "another chronology behind adding");
            kept = *c;
        }
        break;
    case 1:
        must(refusal == (at == lives ? KNOBSTREAM_UNKNOWN_ENTRY : 0), "another answer to removing");
        if (refusal == 0) {
            for (lives--; at < lives; at++)
                live[at] = live[at + 1];
            must(e.entries == lives && holds_model(c), "another chronology behind removing");
            kept = *c;
        }
        break;
    case 2:
        must(refusal == 0 && e.entries == lives, "another count");
        break;
    case 3:
        must(refusal == (room < 3 * lives ? KNOBSTREAM_NO_ROOM : 0), "another answer to listing");
        for (size_t i = 0; refusal == 0 && i < lives; i++)
            must(out[3 * i] == live[i].first && out[3 * i + 1] == live[i].last && out[3 * i + 2] == live[i].id, "another list");
        must(refusal != 0 || (e.entries == lives && kept_from(out, 24 * lives)), "something behind the list is changed");
        break;
    default:
        for (; !found && stop < lives && live[stop].first <= last; stop++)
            found = live[stop].last >= first;
        must(refusal == (period(first, last) ? 0 : KNOBSTREAM_BAD_PERIOD), "another answer to asking");
        must(refusal != 0 || (r.found == found && r.read == (found || stop == lives ? stop : stop + 1)), "another reply");
    }
}

int main(int argc, char **argv)
{
    static void (*const sorts[])(void) = {
        fields_of_dates, fields_of_dates, three_fields, six_fields, damaged_frames, writers, writers, moments, pages, range_texts, chronology,
        chronology, chronology,
    };
    const unsigned long long wanted = argc > 1 ? strtoull(argv[1], NULL, 10) : 1000000;
    seed = argc > 2 ? strtoull(argv[2], NULL, 10) : 1;
    state = seed;
    make_slots();
    counted("knobstream_version");
    must(knobstream_version() == KNOBSTREAM_VERSION, "the library is not that of the header");
    while (calls < wanted) {
        used = 0;
        ANY(sorts)();
    }
    for (size_t i = 0; tally[i].name != NULL; i++)
        printf("%10llu %s\n", tally[i].times, tally[i].name);
    for (unsigned i = 0; i < 256; i++)
        if (refusals[i] != 0)
            printf("%10llu %u %s\n", refusals[i], i, i == 0 ? "no refusal" : knobstream_refusal_name(i));
    /* so many calls are of every sort, and are refused for every reason */
    if (wanted >= 50000) {
        must(tally[CALLS - 1].name != NULL, "a call was not made");
        for (unsigned i = 0; i <= KNOBSTREAM_BAD_CHRONOLOGY; i++)
            must(refusals[i] != 0, "a refusal did not come");
    }
    printf("%llu calls by seed %llu, no difference\n", calls, (unsigned long long)seed);
    return 0;
}
