/* Prints what the library for C makes of each line of standard input, a JSON object a line.
 *
 *   c_fields VARIANT YEAR MONTH OFFSET DAY ZONE [nul] [dialects]
 *
 * nul: a zero byte ends a line, and not a line feed. dialects: a line is read in the dialect that it is in.
 *
 * Each line, each array and each room ends where a page begins that can't be read or written, so that a call which goes
 * past one ends the program.
 * The status is 3 where an answer isn't as syslog_loose.h says: a text outside of its line, or a number that is not
 * what was needed.
 */
#include "syslog_loose.h"

#include <stdio.h>
#include <stdlib.h>
#include <string.h>
#include <sys/mman.h>
#include <unistd.h>

static const char *begin, *end; /* of the line */

static void fault(const char *what)
{
    fprintf(stderr, "c_fields: %s: %.*s\n", what, (int)(end - begin), begin);
    exit(3);
}

/* What there are rooms for at a time. */
enum room { LINE, ELEMENTS, PARAMS, WRITTEN, ROOMS };

/* So many bytes, all zero, before a page that can't be touched. Each line gets the same pages while they suffice:
 * mapping them anew took most of the time. */
static void *room_of(enum room which, size_t size)
{
    static struct { char *end; size_t size; } rooms[ROOMS];
    size_t page = (size_t)sysconf(_SC_PAGESIZE), whole = (size / page + 1) * page;
    if (rooms[which].size <= size) {
        char *room = mmap(NULL, whole + page, PROT_READ | PROT_WRITE, MAP_PRIVATE | MAP_ANONYMOUS, -1, 0);
        if (room == MAP_FAILED || mprotect(room + whole, page, PROT_NONE))
            fault("no memory");
        if (rooms[which].end)
            munmap(rooms[which].end - rooms[which].size, rooms[which].size + page);
        rooms[which].end = room + whole;
        rooms[which].size = whole;
    }
    return memset(rooms[which].end - size, 0, size);
}

static void print_bytes(const char *bytes, size_t length)
{
    putchar('"');
    for (size_t i = 0; i < length; i++) {
        unsigned char byte = (unsigned char)bytes[i];
        if (byte == '"' || byte == '\\')
            printf("\\%c", byte);
        else if (byte < 0x20)
            printf("\\u%04x", byte);
        else
            putchar(byte);
    }
    putchar('"');
}

static void print_text(const char *key, const struct syslog_text *text)
{
    printf(",\"%s\":", key);
    if (text->present != 1) {
        if (text->present || text->length)
            fault("an absent text has bytes");
        printf("null");
        return;
    }
    if (text->start < begin || text->length > (size_t)(end - text->start))
        fault("a text lies outside of the line");
    print_bytes(text->start, text->length);
}

/* An element's id: a piece of the line, but for the one that a dialect has for an element without one. */
static void print_id(const struct syslog_text *id)
{
    static const char given[] = "checkpoint@2620";
    if (id->present == 1 && (id->start < begin || id->start >= end) && id->length == sizeof given - 1
        && !memcmp(id->start, given, sizeof given - 1)) {
        printf(",\"id\":");
        print_bytes(id->start, id->length);
    } else
        print_text("id", id);
}

typedef uint32_t writer(const char *, size_t, const struct syslog_options *, char *, size_t, size_t *);

/* What the call writes, at the end of a key; null where the line has no reading. */
static void print_written(const char *key, writer *write, const struct syslog_options *options)
{
    size_t needed = 77, again = 78;
    char none = 'x';
    uint32_t outcome = write(begin, (size_t)(end - begin), options, &none, 0, &needed);
    printf(",\"%s\":", key);
    if (outcome == SYSLOG_NO_READING || outcome == SYSLOG_NOT_UTF8) {
        if (needed)
            fault("a length of nothing");
        printf("null");
        return;
    }
    char *room = room_of(WRITTEN, needed);
    if (outcome != (needed ? SYSLOG_NO_ROOM : SYSLOG_DONE) || none != 'x')
        fault("no length is told");
    if (write(begin, (size_t)(end - begin), options, room, needed, &again) != SYSLOG_DONE || again != needed)
        fault("the room that was asked for is not enough");
    print_bytes(room, needed);
}

static void print_value(const struct syslog_text *value)
{
    size_t needed = 77;
    char *room = room_of(WRITTEN, value->length);
    uint32_t outcome = syslog_unescape(value->start, value->length, room, value->length, &needed);
    if (outcome != SYSLOG_DONE || needed > value->length)
        fault("a value is longer without its escapes");
    printf(",\"plain\":");
    print_bytes(room, needed);
}

static void print_elements(const struct syslog_message *message, const struct syslog_element *elements,
                           const struct syslog_param *params)
{
    size_t at = 0;
    printf(",\"structured_data\":[");
    for (size_t i = 0; i < message->elements; i++) {
        printf("%s{\"params\":[", i ? "," : "");
        for (size_t k = 0; k < elements[i].params; k++, at++) {
            if (at >= message->params)
                fault("more parameters than are told");
            printf("%s{\"of\":%zu", k ? "," : "", i);
            print_text("name", &params[at].name);
            print_text("raw", &params[at].value);
            print_value(&params[at].value);
            putchar('}');
        }
        putchar(']');
        print_id(&elements[i].id);
        putchar('}');
    }
    putchar(']');
    if (at != message->params)
        fault("fewer parameters than are told");
}

static void print_dialect(uint32_t dialect)
{
    struct syslog_text name = SYSLOG_TEXT_INIT;
    syslog_dialect_name(dialect, &name);
    if (name.present != (dialect != 0))
        fault("a dialect has no name");
    printf(",\"dialect\":");
    if (dialect)
        print_bytes(name.start, name.length);
    else
        printf("null");
}

static void print_head(const struct syslog_message *message)
{
    printf("\"protocol\":%u,\"version\":%u,\"facility\":%d,\"severity\":%d", message->protocol, message->version,
           message->facility, message->severity);
    const struct syslog_timestamp *at = &message->timestamp;
    if (at->nanoseconds < 0 || at->nanoseconds > 999999999)
        fault("nanoseconds of more than a second");
    if (at->present == 1)
        printf(",\"timestamp\":{\"seconds\":%lld,\"nanoseconds\":%d,\"offset\":%d}", (long long)at->seconds,
               at->nanoseconds, at->offset);
    else if (at->present || at->seconds || at->nanoseconds || at->offset)
        fault("an absent timestamp has numbers");
    else
        printf(",\"timestamp\":null");
    print_text("hostname", &message->host);
    print_text("appname", &message->app);
    print_text("process_name", &message->process.name);
    if (message->process.is_number == 1)
        printf(",\"process_number\":%d", message->process.number);
    else if (message->process.is_number || message->process.number)
        fault("a process without a number has one");
    else
        printf(",\"process_number\":null");
    print_text("msgid", &message->msgid);
    print_text("msg", &message->msg);
    print_dialect(message->dialect);
    print_text("unparsed", &message->unparsed);
}

static void print_line(const struct syslog_options *options)
{
    struct syslog_message message = SYSLOG_MESSAGE_INIT;
    struct syslog_element element = SYSLOG_ELEMENT_INIT, *elements = &element;
    struct syslog_param param = SYSLOG_PARAM_INIT, *params = &param;
    uint32_t canonical = 77;
    size_t length = (size_t)(end - begin);
    uint32_t outcome = syslog_read(begin, length, options, &message, elements, 0, params, 0);
    if (outcome == SYSLOG_NO_ROOM) {
        elements = room_of(ELEMENTS, message.elements * sizeof *elements);
        params = room_of(PARAMS, message.params * sizeof *params);
        for (size_t i = 0; i < message.elements; i++)
            elements[i] = element;
        for (size_t i = 0; i < message.params; i++)
            params[i] = param;
        outcome = syslog_read(begin, length, options, &message, elements, message.elements, params, message.params);
    }
    /* (a call that prints a line reads it by the protocols alone) */
    uint32_t by_protocols = syslog_is_canonical(begin, length, options, &canonical);
    if ((options->no_dialects && by_protocols != outcome) || canonical > 1)
        fault("two calls differ on whether the line is read");
    printf("{\"outcome\":%u,\"canonical\":%u", outcome, canonical);
    if (outcome == SYSLOG_DONE) {
        putchar(',');
        print_head(&message);
        print_elements(&message, elements, params);
    }
    print_written("printed", syslog_normalise, options);
    print_written("settled", syslog_settle, options);
    printf("}\n");
}

int main(int count, char **words)
{
    if (count < 7 || syslog_version() != SYSLOG_VERSION)
        return 2;
    struct syslog_options options = { .variant = (uint32_t)atol(words[1]), .year = atoi(words[2]),
                                      .month = (uint32_t)atol(words[3]), .offset = atoi(words[4]), .no_dialects = 1,
                                      .day = (uint32_t)atol(words[5]) };
    snprintf(options.zone, sizeof options.zone, "%s", words[6]);
    char *text = NULL;
    size_t size = 0;
    int closing = '\n';
    for (int i = 7; i < count; i++)
        if (!strcmp(words[i], "nul"))
            closing = 0;
        else
            options.no_dialects = strcmp(words[i], "dialects") != 0;
    for (ssize_t read; (read = getdelim(&text, &size, closing, stdin)) >= 0;) {
        size_t length = (size_t)read - (read > 0 && text[read - 1] == closing);
        char *line = room_of(LINE, length);
        memcpy(line, text, length);
        begin = line, end = line + length;
        print_line(&options);
    }
    free(text);
    return fflush(stdout) || ferror(stdin) ? 1 : 0;
}
