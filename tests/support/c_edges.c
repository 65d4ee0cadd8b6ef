/* Tries the library for C at its edges, on each line of standard input: arrays and rooms of each size from 0 to one
 * more than is needed, wrong arguments, bytes that are no UTF-8, large and odd lines, and four threads at once.
 *
 *   c_edges            all of these
 *   c_edges LINE       each call once, on this line: a refusal of memory leaves all as it was. Status 4 where one was
 *                      refused, and 0 where none was. (It asks for no memory itself.)
 *
 * A call that breaks what syslog_loose.h says ends the program, by its line in this file.
 */
#include "syslog_loose.h"

#include <pthread.h>
#include <stdio.h>
#include <stdlib.h>
#include <string.h>

#define CHECK(holds)                                                  \
    do {                                                              \
        if (!(holds)) {                                               \
            fprintf(stderr, "c_edges: line %d: %s\n", __LINE__, #holds); \
            abort();                                                  \
        }                                                             \
    } while (0)

enum { LINES = 200, MOST = 64, ROOM = 4096 };

static const struct syslog_options OPTIONS = { .year = 2026 };
static const char STOOD[] = "what stood here before";

static struct syslog_text stood(void)
{
    return (struct syslog_text){ STOOD, sizeof STOOD - 1, 9 };
}

static int same_text(const struct syslog_text *one, const struct syslog_text *other)
{
    return one->start == other->start && one->length == other->length && one->present == other->present;
}

/* The arrays with one thing after their last one, and the message. */
struct place {
    struct syslog_message message;
    struct syslog_element elements[MOST + 2];
    struct syslog_param params[MOST + 2];
};

static void set(struct place *place)
{
    memset(place, 0, sizeof *place);
    place->message = (struct syslog_message){ .protocol = 7, .host = stood(), .app = stood(), .msgid = stood(),
                                              .process = { .name = stood() }, .msg = stood(), .elements = 77,
                                              .params = 78, .dialect = 79, .unparsed = stood() };
    for (size_t i = 0; i < MOST + 2; i++) {
        place->elements[i].id = stood();
        place->params[i].name = place->params[i].value = stood();
    }
}

static int is_set(const struct place *place)
{
    const struct syslog_message *it = &place->message;
    struct syslog_text text = stood();
    return it->protocol == 7 && it->version == 0 && it->dialect == 79 && it->facility == 0 && it->severity == 0
        && !it->timestamp.present && same_text(&it->host, &text) && same_text(&it->app, &text)
        && same_text(&it->process.name, &text)
        && same_text(&it->msgid, &text) && same_text(&it->msg, &text) && it->elements == 77 && it->params == 78
        && same_text(&it->unparsed, &text);
}

/* How many of each stand there. */
static size_t elements_put(const struct place *place)
{
    struct syslog_text text = stood();
    size_t put = 0;
    while (put < MOST + 2 && !same_text(&place->elements[put].id, &text))
        put++;
    for (size_t i = put; i < MOST + 2; i++)
        CHECK(same_text(&place->elements[i].id, &text) && place->elements[i].params == 0);
    return put;
}

static size_t params_put(const struct place *place)
{
    struct syslog_text text = stood();
    size_t put = 0;
    while (put < MOST + 2 && !same_text(&place->params[put].name, &text))
        put++;
    for (size_t i = put; i < MOST + 2; i++)
        CHECK(same_text(&place->params[i].name, &text) && same_text(&place->params[i].value, &text));
    return put;
}

/* What follows after so many places of each array is as it was set. */
static void untouched(const struct place *place, size_t elements, size_t params)
{
    struct syslog_text text = stood();
    for (size_t i = elements; i < MOST + 2; i++)
        CHECK(same_text(&place->elements[i].id, &text) && place->elements[i].params == 0);
    for (size_t i = params; i < MOST + 2; i++)
        CHECK(same_text(&place->params[i].name, &text) && same_text(&place->params[i].value, &text));
}

static void same_fields(const struct syslog_message *it, const struct syslog_message *whole)
{
    CHECK(it->protocol == whole->protocol && it->version == whole->version);
    CHECK(it->facility == whole->facility && it->severity == whole->severity);
    CHECK(it->timestamp.seconds == whole->timestamp.seconds && it->timestamp.offset == whole->timestamp.offset);
    CHECK(it->timestamp.nanoseconds == whole->timestamp.nanoseconds);
    CHECK(same_text(&it->host, &whole->host) && same_text(&it->app, &whole->app));
    CHECK(same_text(&it->process.name, &whole->process.name) && it->process.number == whole->process.number);
    CHECK(same_text(&it->msgid, &whole->msgid) && same_text(&it->msg, &whole->msg));
    CHECK(it->elements == whole->elements && it->params == whole->params && it->dialect == whole->dialect);
    CHECK(same_text(&it->unparsed, &whole->unparsed));
}

/* The fields alone are those that are read with the arrays. */
static void fields_alone(const char *line, size_t length, const struct syslog_message *whole, uint32_t outcome)
{
    static struct place place;
    set(&place);
    CHECK(syslog_read_fields(line, length, &OPTIONS, &place.message) == outcome);
    if (outcome == SYSLOG_DONE)
        same_fields(&place.message, whole);
    else
        CHECK(is_set(&place));
}

/* A line that is known to be UTF-8 is read as any line. */
static void known_as_utf8(const char *line, size_t length, const struct place *whole, uint32_t outcome)
{
    static struct place place;
    set(&place);
    CHECK(syslog_read_utf8(line, length, &OPTIONS, &place.message, place.elements, MOST, place.params, MOST)
          == outcome);
    if (outcome == SYSLOG_DONE)
        same_fields(&place.message, &whole->message);
    else
        CHECK(is_set(&place));
    CHECK(elements_put(&place) == elements_put(whole) && params_put(&place) == params_put(whole));
}

static void each_array(const char *line, size_t length)
{
    static struct place whole, place;
    set(&whole);
    uint32_t outcome = syslog_read(line, length, &OPTIONS, &whole.message, whole.elements, MOST, whole.params, MOST);
    fields_alone(line, length, &whole.message, outcome);
    known_as_utf8(line, length, &whole, outcome);
    if (outcome != SYSLOG_DONE) {
        CHECK(outcome == SYSLOG_NO_READING && is_set(&whole) && !elements_put(&whole) && !params_put(&whole));
        return;
    }
    size_t elements = whole.message.elements, params = whole.message.params;
    CHECK(elements_put(&whole) == elements && params_put(&whole) == params);
    for (size_t i = 0; i <= elements + 1; i++)
        for (size_t k = 0; k <= params + 1; k++) {
            set(&place);
            outcome = syslog_read(line, length, &OPTIONS, &place.message, place.elements, i, place.params, k);
            int fits = i >= elements && k >= params;
            CHECK(outcome == (fits ? SYSLOG_DONE : SYSLOG_NO_ROOM));
            CHECK(place.message.elements == elements && place.message.params == params);
            CHECK(same_text(&place.message.msg, &whole.message.msg));
            CHECK(same_text(&place.message.host, &whole.message.host));
            if (fits)
                CHECK(elements_put(&place) == elements && params_put(&place) == params);
            else
                untouched(&place, i, k);
            for (size_t n = 0; fits && n < elements; n++)
                CHECK(same_text(&place.elements[n].id, &whole.elements[n].id)
                      && place.elements[n].params == whole.elements[n].params);
            for (size_t n = 0; fits && n < params; n++)
                CHECK(same_text(&place.params[n].name, &whole.params[n].name)
                      && same_text(&place.params[n].value, &whole.params[n].value));
        }
}

/* The same answer where nothing was set before, which syslog_loose.h asks for. */
static void unset(const char *line, size_t length)
{
    static struct place whole;
    struct place *place = malloc(sizeof *place);
    CHECK(place);
    set(&whole);
    uint32_t outcome = syslog_read(line, length, &OPTIONS, &whole.message, whole.elements, MOST, whole.params, MOST);
    CHECK(syslog_read(line, length, &OPTIONS, &place->message, place->elements, MOST, place->params, MOST) == outcome);
    CHECK(outcome != SYSLOG_DONE || same_text(&place->message.msg, &whole.message.msg));
    free(place);
}

typedef uint32_t writer(const char *, size_t, char *, size_t, size_t *);

static uint32_t normalise(const char *line, size_t length, char *room, size_t size, size_t *needed)
{
    return syslog_normalise(line, length, &OPTIONS, room, size, needed);
}

static uint32_t settle(const char *line, size_t length, char *room, size_t size, size_t *needed)
{
    return syslog_settle(line, length, &OPTIONS, room, size, needed);
}

static uint32_t strict(const char *line, size_t length, char *room, size_t size, size_t *needed)
{
    return syslog_to_rfc5424(line, length, &OPTIONS, room, size, needed);
}

static uint32_t object(const char *line, size_t length, char *room, size_t size, size_t *needed)
{
    return syslog_json(line, length, &OPTIONS, 0, room, size, needed);
}

static uint32_t object_with_line(const char *line, size_t length, char *room, size_t size, size_t *needed)
{
    return syslog_json(line, length, &OPTIONS, 1, room, size, needed);
}

static void each_room(writer *write, const char *line, size_t length)
{
    static char whole[ROOM], room[ROOM + 1], stood_here[ROOM + 1];
    memset(stood_here, '#', sizeof stood_here);
    memset(whole, '#', sizeof whole);
    size_t needed = 77, again;
    uint32_t outcome = write(line, length, whole, ROOM, &needed);
    if (outcome != SYSLOG_DONE) {
        CHECK(outcome == SYSLOG_NO_READING && needed == 0 && !memcmp(whole, stood_here, ROOM));
        return;
    }
    CHECK(!memcmp(whole + needed, stood_here, ROOM - needed));
    for (size_t size = 0; size <= needed + 1; size++) {
        memset(room, '#', sizeof room);
        again = 77;
        outcome = write(line, length, room, size, &again);
        CHECK(again == needed && outcome == (size >= needed ? SYSLOG_DONE : SYSLOG_NO_ROOM));
        if (size >= needed)
            CHECK(!memcmp(room, whole, needed) && !memcmp(room + needed, stood_here, sizeof room - needed));
        else
            CHECK(!memcmp(room + size, stood_here, sizeof room - size));
    }
}

/* A call that refuses its arguments or its line leaves all as it was. */
static void refused(const char *line, size_t length, const struct syslog_options *options, uint32_t code)
{
    static struct place place;
    char room[8] = "#######";
    size_t needed = 77;
    uint32_t canonical = 77;
    set(&place);
    CHECK(syslog_read(line, length, options, &place.message, place.elements, MOST, place.params, MOST) == code);
    CHECK(is_set(&place) && !elements_put(&place) && !params_put(&place));
    CHECK(syslog_read_fields(line, length, options, &place.message) == code && is_set(&place));
    CHECK(syslog_normalise(line, length, options, room, sizeof room, &needed) == code && needed == 0);
    needed = 77;
    CHECK(syslog_settle(line, length, options, room, sizeof room, &needed) == code && needed == 0);
    needed = 77;
    CHECK(syslog_to_rfc5424(line, length, options, room, sizeof room, &needed) == code && needed == 0);
    needed = 77;
    CHECK(syslog_json(line, length, options, 1, room, sizeof room, &needed) == code && needed == 0);
    CHECK(!strcmp(room, "#######"));
    CHECK(syslog_is_canonical(line, length, options, &canonical) == code && canonical == 0);
}

/* A rule as long as they get: each name has at most fifteen bytes, and each number at most its digits. */
#define LONGEST_RULE \
    "<STANDARD-TIME-0>-24:59:59<SUMMER-TIME-000>-23:59:59,M12.5.0/-167:59:59,M12.5.0/-167:59:59"

static void wrong_arguments(void)
{
    static const char line[] = "1 - - - - - [a b=\"c\"] x", latin[] = "1 - - - - - - gr\xfc\xdf";
    static const struct syslog_options wrong[] = {
        { .variant = 1, .year = 2026 },
        { .variant = 3163, .year = 2026 },
        { .variant = 5425, .year = 2026 },
        { .year = -10000 },
        { .year = 10000 },
        { .year = INT32_MIN, .month = 1 },
        { .year = INT32_MAX, .no_dialects = 1 },
        { .year = 2026, .month = 13 },
        { .year = 2026, .month = UINT32_MAX },
        { .year = 2026, .offset = 93600 },
        { .year = 2026, .offset = -93600, .no_dialects = 1 },
        { .year = 2026, .offset = INT32_MIN },
        /* (no such day, also where a number is taken modulo 256 or 65,536) */
        { .year = 2026, .day = 1 },
        { .year = 2026, .month = 1, .day = 32 },
        { .year = 2026, .month = 2, .day = 29 },
        { .year = 2026, .month = 11, .day = 31 },
        { .year = 2026, .month = 13, .day = 1 },
        { .year = 10000, .month = 1, .day = 1 },
        { .year = -10000, .month = 12, .day = 31 },
        { .year = 2026, .month = 12, .day = UINT32_MAX },
        { .year = 2026, .month = 1, .day = 257 },
        { .year = 2026, .month = 257, .day = 1 },
        { .year = 67562, .month = 1, .day = 1 },
        { .year = 2026, .month = 1, .offset = 93600, .day = 1 },
        /* (zones that are no rules, and a rule beside an offset) */
        { .year = 2026, .zone = "EST5EDT" },
        { .year = 2026, .zone = "Europe/Berlin" },
        { .year = 2026, .zone = "UTC" },
        { .year = 2026, .zone = " " },
        { .year = 2026, .zone = "CET-1 " },
        { .year = 2026, .zone = "CET-1CEST,M3.5.0,M10.5.0/3x" },
        { .year = 2026, .zone = "CET-1CEST,M3.5.0,M13.5.0" },
        { .year = 2026, .zone = "\xc3\x89ST5" },
        { .year = 2026, .zone = "\xff" },
        { .year = 2026, .offset = 3600, .zone = "CET-1" },
        { .year = 2026, .offset = INT32_MIN, .zone = "CET-1" },
    };
    for (size_t i = 0; i < sizeof wrong / sizeof *wrong; i++) {
        refused(line, sizeof line - 1, &wrong[i], SYSLOG_BAD_ARGUMENT);
        refused(latin, sizeof latin - 1, &wrong[i], SYSLOG_BAD_ARGUMENT);
    }
    static const struct syslog_options right[] = {
        { .year = -9999, .month = 1, .offset = -93599 },
        { .variant = 5424, .year = 9999, .month = 12, .offset = 93599 },
        { .variant = 3164, .no_dialects = UINT32_MAX },
        { .year = 2024, .month = 2, .day = 29 },
        { .year = -9999, .month = 1, .day = 1 },
        { .year = 9999, .month = 12, .offset = -93599, .day = 31 },
        { .year = 2026, .zone = "CET-1" },
        { .year = 2026, .month = 11, .day = 28, .zone = "CET-1CEST,M3.5.0,M10.5.0/3" },
        { .year = 2026, .zone = "UTC0\0and what comes after a text" },
        { .year = 2026, .zone = LONGEST_RULE },
    };
    CHECK(sizeof LONGEST_RULE == 91);
    for (size_t i = 0; i < sizeof right / sizeof *right; i++)
        refused(latin, sizeof latin - 1, &right[i], SYSLOG_NOT_UTF8);
    /* A text that fills the array is longer than any rule; so is one that snprintf cut. */
    struct syslog_options full = { .year = 2026 };
    memset(full.zone, 'A', sizeof full.zone);
    refused(line, sizeof line - 1, &full, SYSLOG_BAD_ARGUMENT);
    full.zone[sizeof full.zone - 1] = 0;
    refused(line, sizeof line - 1, &full, SYSLOG_BAD_ARGUMENT);
    refused("gobbledegook", 12, &OPTIONS, SYSLOG_NO_READING);
    refused("gobbledegook", 12, &right[2], SYSLOG_NO_READING);
    refused("", 0, &OPTIONS, SYSLOG_NO_READING);
    char room[8] = "#######";
    size_t needed = 77;
    CHECK(syslog_unescape(latin, sizeof latin - 1, room, sizeof room, &needed) == SYSLOG_NOT_UTF8 && needed == 0);
    CHECK(!strcmp(room, "#######"));
}

static void values(void)
{
    static const char *const rows[][2] = {
        { "", "" },           { "a\\nb", "a\nb" }, { "\\\"\\]\\\\", "\"]\\" }, { "\\a", "\\a" },
        { "lone\\", "lone" }, { "\\\\n", "\\n" },  { "gr\xc3\xbc\xc3\x9f", "gr\xc3\xbc\xc3\x9f" },
    };
    for (size_t i = 0; i < sizeof rows / sizeof *rows; i++) {
        char room[32];
        size_t needed = 77;
        CHECK(syslog_unescape(rows[i][0], strlen(rows[i][0]), room, sizeof room, &needed) == SYSLOG_DONE);
        CHECK(needed == strlen(rows[i][1]) && !memcmp(room, rows[i][1], needed));
        each_room(syslog_unescape, rows[i][0], strlen(rows[i][0]));
    }
}

/* Bytes as the text that they are taken for: with U+FFFD, and as ISO 8859-1. */
static void decoded(void)
{
    static const char *const rows[][3] = {
        { "", "", "" },
        { "gr\xc3\xbc\xc3\x9f", "gr\xc3\xbc\xc3\x9f", "gr\xc3\xbc\xc3\x9f" },
        { "gr\xfc\xdf", "gr\xef\xbf\xbd\xef\xbf\xbd", "gr\xc3\xbc\xc3\x9f" },
        { "\xe2\x82, \xc3\xbc", "\xef\xbf\xbd, \xc3\xbc", "\xc3\xa2\xc2\x82, \xc3\x83\xc2\xbc" },
    };
    for (size_t i = 0; i < sizeof rows / sizeof *rows; i++)
        for (uint32_t latin1 = 0; latin1 < 2; latin1++) {
            const char *wanted = rows[i][1 + latin1];
            char room[32];
            size_t needed = 77;
            CHECK(syslog_decode(rows[i][0], strlen(rows[i][0]), latin1, room, sizeof room, &needed) == SYSLOG_DONE);
            CHECK(needed == strlen(wanted) && !memcmp(room, wanted, needed));
            for (size_t space = 0; space < strlen(wanted); space++) {
                needed = 77;
                CHECK(syslog_decode(rows[i][0], strlen(rows[i][0]), latin1, room, space, &needed) == SYSLOG_NO_ROOM);
                CHECK(needed == strlen(wanted));
            }
        }
}

/* What is written of a line that is read by these options. The raw line is in its object as its last member. */
static void written(const char *line, const struct syslog_options *options, const char *strict_text, const char *json,
                    const char *raw)
{
    char room[ROOM], with_line[ROOM];
    size_t length = strlen(line), needed;
    CHECK(syslog_to_rfc5424(line, length, options, room, sizeof room, &needed) == SYSLOG_DONE);
    CHECK(needed == strlen(strict_text) && !memcmp(room, strict_text, needed));
    CHECK(syslog_json(line, length, options, 0, room, sizeof room, &needed) == SYSLOG_DONE);
    CHECK(needed == strlen(json) && !memcmp(room, json, needed));
    snprintf(with_line, sizeof with_line, "%.*s,\"raw\":%s}", (int)needed - 1, json, raw);
    CHECK(syslog_json(line, length, options, UINT32_MAX, room, sizeof room, &needed) == SYSLOG_DONE);
    CHECK(needed == strlen(with_line) && !memcmp(room, with_line, needed));
}

static void converted(void)
{
    static const struct syslog_options january = { .year = 2020, .month = 1, .offset = -5400 };
    written("<34>1 - h a - - [e b=\"\\]\" b=\"2\"][e] x", &OPTIONS, "<34>1 - h a - - [e b=\"\\]\" b=\"2\"] x",
            "{\"protocol\":\"RFC5424\",\"version\":1,\"facility\":\"auth\",\"facility_code\":4,"
            "\"severity\":\"crit\",\"severity_code\":2,\"hostname\":\"h\",\"appname\":\"a\","
            "\"structured_data\":{\"e\":[{\"b\":[\"]\",\"2\"]},{}]},\"message\":\"x\"}",
            "\"<34>1 - h a - - [e b=\\\"\\\\]\\\" b=\\\"2\\\"][e] x\"");
    written("Dec 31 23:59:59 h a[7]: x\ty", &january, "<13>1 2019-12-31T23:59:59-01:30 h a 7 - - x\ty",
            "{\"protocol\":\"RFC3164\",\"timestamp\":\"2019-12-31T23:59:59-01:30\",\"hostname\":\"h\","
            "\"appname\":\"a\",\"procid\":\"7\",\"message\":\"x\\ty\"}",
            "\"Dec 31 23:59:59 h a[7]: x\\ty\"");
}

static void says(struct syslog_text text, const char *wanted)
{
    CHECK(wanted ? text.present == 1 && text.length == strlen(wanted) && !memcmp(text.start, wanted, text.length)
                 : text.present == 0 && text.length == 0);
}

/* A line of a dialect, as docs/SENDERS.md has it: in the dialect, and by the protocols alone. */
static void dialects(void)
{
    static const char line[] = "<166>Mar 01 2026 18:48:50 asa1 : %ASA-6-302013: Built outbound TCP connection";
    static const struct syslog_options without = { .year = 2026, .no_dialects = UINT32_MAX };
    static const struct syslog_options loose = { .variant = 3164, .year = 2026 };
    struct syslog_message m = SYSLOG_MESSAGE_INIT;
    struct syslog_element element = SYSLOG_ELEMENT_INIT;
    struct syslog_param param = SYSLOG_PARAM_INIT;
    char room[ROOM], other[ROOM];
    size_t needed, again;
    CHECK(syslog_read(line, sizeof line - 1, &OPTIONS, &m, &element, 0, &param, 0) == SYSLOG_DONE && m.dialect == 25);
    says(m.host, "asa1"), says(m.app, "%ASA-6-302013"), says(m.process.name, NULL);
    says(m.msg, "Built outbound TCP connection");
    CHECK(m.timestamp.seconds == 1772390930 && m.timestamp.nanoseconds == 0 && m.timestamp.offset == 0);
    CHECK(m.timestamp.present == 1 && m.timestamp.shows_year == 1 && !m.timestamp.shows_offset);
    CHECK(!m.elements && !m.params);
    for (int i = 0; i < 2; i++) {
        struct syslog_message port = SYSLOG_MESSAGE_INIT;
        const struct syslog_options *options = i ? &loose : &without;
        CHECK(syslog_read_fields(line, sizeof line - 1, options, &port) == SYSLOG_DONE && port.dialect == 0);
        CHECK(port.msg.length > m.msg.length);
    }
    CHECK(syslog_json(line, sizeof line - 1, &OPTIONS, 0, room, ROOM, &needed) == SYSLOG_DONE);
    CHECK(syslog_json(line, sizeof line - 1, &without, 0, other, ROOM, &again) == SYSLOG_DONE);
    CHECK(needed != again || memcmp(room, other, needed));
    /* README.md's switch. */
    static const char from_switch[] =
        "<187>4211: core-sw1: Mar  1 18:48:50.483 CET: %LINK-3-UPDOWN: Interface Gi1/0/3, changed state to down";
    static const char strict_text[] =
        "<187>1 2026-03-01T18:48:50.483+00:00 core-sw1 %LINK-3-UPDOWN - - - Interface Gi1/0/3, changed state to down";
    size_t length = sizeof from_switch - 1;
    CHECK(syslog_to_rfc5424(from_switch, length, &OPTIONS, room, ROOM, &needed) == SYSLOG_DONE);
    CHECK(needed == sizeof strict_text - 1 && !memcmp(room, strict_text, needed));
    CHECK(syslog_to_rfc5424(from_switch, length, &without, room, ROOM, &needed) == SYSLOG_NO_READING && !needed);
    CHECK(syslog_to_rfc5424(from_switch, length, &loose, room, ROOM, &needed) == SYSLOG_NO_READING && !needed);
    /* The only dialect with an element: its id is the library's text. */
    static const char paired[] =
        "<134>1 2026-03-02T06:33:04+00:00 h CheckPoint 12 - [src:\"10.0.0.3\"; rule:\"a\\]b\"] text";
    static const char equal[] =
        "<134>1 2026-03-02T06:33:04+00:00 h CheckPoint 12 - [checkpoint@2620 src=\"10.0.0.3\" rule=\"a\\]b\"] text";
    struct syslog_param params[2] = { SYSLOG_PARAM_INIT, SYSLOG_PARAM_INIT };
    length = sizeof paired - 1;
    CHECK(syslog_read(paired, length, &OPTIONS, &m, &element, 0, params, 2) == SYSLOG_NO_ROOM);
    CHECK(m.elements == 1 && m.params == 2);
    CHECK(syslog_read(paired, length, &OPTIONS, &m, &element, 1, params, 1) == SYSLOG_NO_ROOM);
    CHECK(syslog_read(paired, length, &OPTIONS, &m, &element, 1, params, 2) == SYSLOG_DONE && m.dialect == 62);
    CHECK(m.elements == 1 && m.params == 2 && element.params == 2);
    says(element.id, "checkpoint@2620"), says(m.msg, "text"), says(m.unparsed, NULL);
    says(params[0].name, "src"), says(params[0].value, "10.0.0.3");
    says(params[1].name, "rule"), says(params[1].value, "a\\]b");
    CHECK(params[1].value.start > paired && params[1].value.start < paired + length);
    CHECK(syslog_to_rfc5424(paired, length, &OPTIONS, room, ROOM, &needed) == SYSLOG_DONE);
    CHECK(needed == sizeof equal - 1 && !memcmp(room, equal, needed));
    CHECK(syslog_read(paired, length, &without, &m, &element, 0, params, 0) == SYSLOG_DONE && m.dialect == 0);
    CHECK(!m.elements && !m.params);
    /* What prints a line has no dialects. */
    CHECK(syslog_normalise(line, sizeof line - 1, &OPTIONS, room, ROOM, &needed) == SYSLOG_DONE);
    CHECK(syslog_normalise(line, sizeof line - 1, &without, other, ROOM, &again) == SYSLOG_DONE);
    CHECK(needed == again && !memcmp(room, other, needed));
}

/* Each number's name, and none past the last. */
static void names(void)
{
    static const char *const facilities[] = {
        "kern", "user", "mail", "daemon", "auth", "syslog", "lpr", "news", "uucp", "cron", "authpriv", "ftp", "ntp",
        "audit", "alert", "clockd", "local0", "local1", "local2", "local3", "local4", "local5", "local6", "local7",
        NULL,
    };
    static const char *const severities[] = {
        "emerg", "alert", "crit", "err", "warning", "notice", "info", "debug", NULL,
    };
    static const char *const outcomes[] = {
        [SYSLOG_DONE] = "done", [SYSLOG_NO_READING] = "no message", [SYSLOG_NOT_UTF8] = "no UTF-8",
        [SYSLOG_NO_MEMORY] = "out of memory", [SYSLOG_NO_ROOM] = "more room is needed",
        [SYSLOG_BAD_ARGUMENT] = "an option is out of its range", [SYSLOG_BAD_ARGUMENT + 1] = NULL,
    };
    struct syslog_text text = SYSLOG_TEXT_INIT;
    for (uint32_t i = 0; i <= 24; i++)
        syslog_facility_name(i, &text), says(text, facilities[i]);
    for (uint32_t i = 0; i <= 8; i++)
        syslog_severity_name(i, &text), says(text, severities[i]);
    for (uint32_t i = 0; i <= SYSLOG_BAD_ARGUMENT + 1; i++)
        syslog_outcome_text(i, &text), says(text, outcomes[i]);
    syslog_facility_name((uint32_t)-1, &text), says(text, NULL);
    syslog_severity_name((uint32_t)-1, &text), says(text, NULL);
    syslog_dialect_name(1, &text), says(text, "priority-alone");
    syslog_dialect_name(23, &text), says(text, "cisco-ios");
    for (uint32_t i = 2; i < 20; i++)
        syslog_dialect_name(i, &text), says(text, NULL);
    syslog_dialect_name(0, &text), says(text, NULL);
    syslog_dialect_name(UINT32_MAX, &text), says(text, NULL);
    char version[16];
    snprintf(version, sizeof version, "%d.%d.%d", SYSLOG_VERSION_MAJOR, SYSLOG_VERSION_MINOR, SYSLOG_VERSION_PATCH);
    syslog_version_text(&text), says(text, version);
}

/* A line of 64 MB. Its printed form has +00:00 for the Z, and as strict RFC 5424 it is copied. */
static void long_line(void)
{
    static const char head[] = "<34>1 2003-10-11T22:14:15Z h a - - [e p=\"v\"] ";
    static struct place place;
    size_t size = (size_t)64 << 20, length = sizeof head - 1 + size, most = length + ROOM, needed = 77;
    char *line = malloc(length), *room = malloc(most);
    CHECK(line && room);
    memcpy(line, head, sizeof head - 1);
    memset(line + sizeof head - 1, 'x', size);
    set(&place);
    CHECK(syslog_read(line, length, &OPTIONS, &place.message, place.elements, 1, place.params, 1) == SYSLOG_DONE);
    CHECK(place.message.msg.length == size && place.message.elements == 1 && place.params[0].value.length == 1);
    CHECK(syslog_read_fields(line, length, &OPTIONS, &place.message) == SYSLOG_DONE);
    CHECK(normalise(line, length, room, length + 4, &needed) == SYSLOG_NO_ROOM && needed == length + 5);
    writer *calls[] = { normalise, settle, strict };
    size_t longer[] = { 5, 5, 0 };
    for (int i = 0; i < 3; i++) {
        memset(room, 0, length + 5);
        CHECK(calls[i](line, length, room, length + longer[i], &needed) == SYSLOG_DONE && needed == length + longer[i]);
        CHECK(!memcmp(room + needed - size, line + length - size, size));
    }
    CHECK(object(line, length, room, most, &needed) == SYSLOG_DONE);
    CHECK(!memcmp(room + needed - 2 - size, line + length - size, size) && !memcmp(room + needed - 2, "\"}", 2));
    free(line);
    free(room);
}

/* A line of many pieces. In a piece, # is its number. */
struct shape {
    const char *head, *piece, *tail;
};

/* The line of so many pieces, in memory of its own. */
static char *made(const struct shape *shape, size_t pieces, size_t *length)
{
    size_t most = strlen(shape->head) + pieces * (strlen(shape->piece) + 20) + strlen(shape->tail) + 1;
    char *line = malloc(most), *end = line;
    CHECK(line);
    end += sprintf(end, "%s", shape->head);
    for (size_t i = 0; i < pieces; i++)
        for (const char *it = shape->piece; *it; it++)
            end += *it == '#' ? sprintf(end, "%zu", i) : sprintf(end, "%c", *it);
    end += sprintf(end, "%s", shape->tail);
    *length = (size_t)(end - line);
    return line;
}

/* With memory at hand each call that writes a text does so, also of lines of many pieces. */
static void large_and_odd(void)
{
    static const struct shape shapes[] = {
        { "1 - - - - - [i]", "[e# p=\"v\"]", " x" },
        { "1 - - - - - [i]", "[e p=\"v\"]", " x" },
        { "1 - - - - - [i]", "[e]", " x" },
        { "1 - - - - - [i", " p#=\"v\"", "] x" },
        { "1 - - - - - [i", " p=\"\\n\\]\"", "] x" },
        { "1 - - - - - [i", " \xc3\xa9#=\"\x01\xc3\xa9\"", "] x" },
        { "1 - - - - - [i p=\"", "\\\\", "\"] x" },
        { "1 - - - - - [i]", "[a\" b=\"]", " x" },
        { "1 - - - - - [i]", "[]", " x" },
        { "1 - - - - - - x", "\"\\\x01", "" },
        { "1 - h", "\xc3\xa9", " a - - - x" },
        { "1 - - - ", "7", "0 - - x" },
        { "Mar  2 06:35:05 h a: ", "[e# p=\"v\"]", " x" },
        { "Mar  2 06:35:05 h a: ", "- ", "x" },
        { "Mar  2 06:35:05 h", ":", " x" },
        { "Mar  2 06:35:05 a", "\xc3\xa9", "[7]: x" },
        { "Mar  2 06:35:05 h a: ", " ", "x" },
    };
    static const size_t counts[] = {
        0, 1, 2, 7, 8, 9, 15, 16, 17, 31, 32, 33, 34, 63, 64, 65, 127, 128, 129, 255, 256, 257, 4096
    };
    writer *calls[] = { normalise, settle, strict, object, object_with_line };
    for (size_t i = 0; i < sizeof shapes / sizeof *shapes; i++)
        for (size_t k = 0; k < sizeof counts / sizeof *counts; k++) {
            size_t length, needed, again;
            char *line = made(&shapes[i], counts[k], &length);
            for (size_t n = 0; n < sizeof calls / sizeof *calls; n++) {
                size_t most = 16 * length + ROOM;
                char *room = malloc(most);
                CHECK(room && calls[n](line, length, room, most, &needed) == SYSLOG_DONE && needed > 0);
                CHECK(calls[n](line, length, room, needed, &again) == SYSLOG_DONE && again == needed);
                CHECK(calls[n](line, length, room, needed - 1, &again) == SYSLOG_NO_ROOM && again == needed);
                free(room);
            }
            free(line);
        }
}

static char *lines[LINES];
static size_t lines_read;

/* A sum over what is read of each line, many times over. */
static void *sum_of_lines(void *sum)
{
    static _Thread_local struct place place;
    uint64_t total = 0;
    set(&place);
    for (int round = 0; round < 200; round++)
        for (size_t i = 0; i < lines_read; i++) {
            char room[ROOM];
            const char *line = lines[i];
            size_t length = strlen(line), needed;
            const struct syslog_message *it = &place.message;
            total = total * 31
                + syslog_read(line, length, &OPTIONS, &place.message, place.elements, MOST, place.params, MOST);
            total = total * 31 + it->host.length + it->msg.length + (uint64_t)it->timestamp.seconds;
            total = total * 31 + settle(line, length, room, sizeof room, &needed) + needed;
            total = total * 31 + strict(line, length, room, sizeof room, &needed) + needed;
            total = total * 31 + object(line, length, room, sizeof room, &needed) + needed;
        }
    *(uint64_t *)sum = total;
    return NULL;
}

static void threads(void)
{
    uint64_t alone, sums[4];
    pthread_t ids[4];
    sum_of_lines(&alone);
    for (int i = 0; i < 4; i++)
        CHECK(!pthread_create(&ids[i], NULL, sum_of_lines, &sums[i]));
    for (int i = 0; i < 4; i++)
        CHECK(!pthread_join(ids[i], NULL) && sums[i] == alone);
}

/* Bytes of ISO 8859-1, whatever the line. */
static uint32_t latin1_bytes(const char *line, size_t length, char *room, size_t space, size_t *needed)
{
    (void)line, (void)length;
    return syslog_decode("gr\xfc\xdf", 4, 1, room, space, needed);
}

/* Each call once: one of the four that ask for memory returns SYSLOG_NO_MEMORY where a request was refused. */
static int with_memory_refused(const char *line)
{
    static struct place place;
    static char room[ROOM];
    size_t length = strlen(line), needed = 77;
    uint32_t canonical = 77;
    int failed = 0;
    set(&place);
    CHECK(syslog_read(line, length, &OPTIONS, &place.message, place.elements, MOST, place.params, MOST) == SYSLOG_DONE);
    CHECK(syslog_read_fields(line, length, &OPTIONS, &place.message) == SYSLOG_DONE);
    CHECK(syslog_is_canonical(line, length, &OPTIONS, &canonical) == SYSLOG_DONE && canonical <= 1);
    CHECK(normalise(line, length, room, sizeof room, &needed) == SYSLOG_DONE && needed > length);
    CHECK(syslog_unescape(line, length, room, sizeof room, &needed) == SYSLOG_DONE && needed <= length);
    writer *calls[] = { settle, strict, object, latin1_bytes };
    for (int i = 0; i < 4; i++) {
        memset(room, 0, sizeof room);
        uint32_t code = calls[i](line, length, room, sizeof room, &needed);
        CHECK(code == SYSLOG_DONE ? needed == strlen(room) : code == SYSLOG_NO_MEMORY && needed == 0 && !room[0]);
        failed += code == SYSLOG_NO_MEMORY;
    }
    CHECK(failed <= 1);
    return failed ? 4 : 0;
}

int main(int count, char **words)
{
    if (count > 1)
        return with_memory_refused(words[1]);
    char text[ROOM];
    while (lines_read < LINES && fgets(text, sizeof text, stdin)) {
        text[strcspn(text, "\n")] = 0;
        lines[lines_read++] = strdup(text);
    }
    CHECK(lines_read > 0);
    for (size_t i = 0; i < lines_read; i++) {
        each_array(lines[i], strlen(lines[i]));
        unset(lines[i], strlen(lines[i]));
        each_room(normalise, lines[i], strlen(lines[i]));
        each_room(settle, lines[i], strlen(lines[i]));
        each_room(strict, lines[i], strlen(lines[i]));
        each_room(object, lines[i], strlen(lines[i]));
        each_room(object_with_line, lines[i], strlen(lines[i]));
    }
    wrong_arguments();
    values();
    decoded();
    converted();
    dialects();
    names();
    long_line();
    large_and_odd();
    threads();
    for (size_t i = 0; i < lines_read; i++)
        free(lines[i]);
    printf("%zu lines\n", lines_read);
    return 0;
}
