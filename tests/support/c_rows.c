/* Reads standard input by syslog_read_lines, with space for so many rows at a time, and compares each row with what
 * syslog_read returns of the line. It does so for each number of rows from 1 to 300 that is a power of three, for the
 * whole at once, and for blocks that are cut anywhere, within lines and characters too.
 *
 *   c_rows YEAR      prints how many lines there are, and how many of them are messages
 *
 * Input and rows end where memory does that was asked for, so the sanitizers see a call that goes past one.
 */
#include "syslog_loose.h"

#include <stdio.h>
#include <stdlib.h>
#include <string.h>

static void fault(const char *what, size_t line)
{
    fprintf(stderr, "c_rows: line %zu: %s\n", line, what);
    exit(3);
}

static int same_text(const struct syslog_text *one, const struct syslog_text *other)
{
    return one->present == other->present && one->length == other->length
        && (!one->length || one->start == other->start);
}

static int same_message(const struct syslog_message *one, const struct syslog_message *other)
{
    const struct syslog_timestamp *at = &one->timestamp, *when = &other->timestamp;
    return one->protocol == other->protocol && one->version == other->version && one->facility == other->facility &&
           one->severity == other->severity && at->seconds == when->seconds && at->nanoseconds == when->nanoseconds &&
           at->offset == when->offset && at->present == when->present && at->shows_year == when->shows_year &&
           at->shows_offset == when->shows_offset && same_text(&one->host, &other->host) &&
           same_text(&one->app, &other->app) && same_text(&one->process.name, &other->process.name) &&
           one->process.number == other->process.number && one->process.is_number == other->process.is_number &&
           same_text(&one->msgid, &other->msgid) && same_text(&one->msg, &other->msg) &&
           one->elements == other->elements && one->params == other->params && one->dialect == other->dialect &&
           same_text(&one->unparsed, &other->unparsed);
}

/* Compares a row with its line, which begins there, and returns where the next one begins. */
static const char *compare(const struct syslog_row *row, const char *at, const char *end,
                           const struct syslog_options *options, size_t number)
{
    static struct syslog_element elements[64];
    static struct syslog_param params[512];
    struct syslog_message m = SYSLOG_MESSAGE_INIT;
    m.facility = m.severity = -1;
    const char *feed = memchr(at, '\n', (size_t)(end - at));
    size_t length = (size_t)((feed ? feed : end) - at);
    if (row->line.length != length || (length && row->line.start != at) || row->line.present != 1)
        fault("the row has another line", number);
    uint32_t outcome = syslog_read(at, length, options, &m, elements, 64, params, 512);
    if (row->outcome != (outcome == SYSLOG_NO_ROOM ? SYSLOG_DONE : outcome))
        fault("the row has another outcome", number);
    if (!same_message(&row->message, &m))
        fault("the row has another message", number);
    return feed ? feed + 1 : end;
}

/* Reads all with so much room, and returns how many lines are messages. */
static size_t read_all(const char *begin, const char *end, const struct syslog_options *options, size_t room,
                       size_t *lines)
{
    struct syslog_row *rows = malloc(room * sizeof *rows);
    size_t messages = 0, read = 0;
    uint32_t outcome;
    if (!rows)
        fault("no memory", 0);
    *lines = 0;
    do {
        for (size_t i = 0; i < room; i++)
            rows[i] = (struct syslog_row)SYSLOG_ROW_INIT;
        outcome = syslog_read_lines(begin, (size_t)(end - begin), options, rows, room, &read);
        if (read > room || (outcome == SYSLOG_NO_ROOM ? read != room : outcome != SYSLOG_DONE))
            fault("the call ends in another way", *lines);
        for (size_t i = 0; i < read; i++, ++*lines) {
            begin = compare(&rows[i], begin, end, options, *lines);
            messages += rows[i].outcome == SYSLOG_DONE;
        }
        for (size_t i = read; i < room; i++)
            if (rows[i].line.present || rows[i].message.protocol)
                fault("a row past the last was written", *lines);
    } while (outcome == SYSLOG_NO_ROOM);
    if (begin != end)
        fault("lines are left", *lines);
    free(rows);
    return messages;
}

/* Reads all in blocks of any size up to 700 bytes, each in memory of its own. */
static void read_blocks(const char *begin, const char *end, const struct syslog_options *options)
{
    uint64_t chance = 17;
    size_t lines;
    while (begin < end) {
        chance = chance * 6364136223846793005u + 1442695040888963407u;
        size_t size = 1 + (size_t)(chance >> 33) % 700;
        if (size > (size_t)(end - begin))
            size = (size_t)(end - begin);
        char *block = malloc(size);
        if (!block)
            fault("no memory", 0);
        memcpy(block, begin, size);
        read_all(block, block + size, options, 5, &lines);
        free(block);
        begin += size;
    }
}

int main(int count, char **words)
{
    struct syslog_options options = { .year = count > 1 ? atoi(words[1]) : 0 };
    size_t size = 0, room = 1 << 16, lines = 0, read = 1;
    char *given = malloc(room);
    while (given && (read = fread(given + size, 1, room - size, stdin)) > 0) {
        size += read;
        if (size == room)
            given = realloc(given, room *= 2);
    }
    char *text = given ? malloc(size + !size) : NULL;
    if (!text)
        fault("no memory", 0);
    memcpy(text, given, size);
    size_t most = 2, again;
    for (size_t i = 0; i < size; i++)
        most += text[i] == '\n';
    size_t messages = read_all(text, text + size, &options, most, &lines);
    for (size_t at = 1; at < 300; at *= 3)
        if (read_all(text, text + size, &options, at, &again) != messages || again != lines)
            fault("another room gives other rows", lines);
    read_blocks(text, text + size, &options);
    options.month = 13;
    struct syslog_row row = SYSLOG_ROW_INIT;
    if (syslog_read_lines(text, size, &options, &row, 1, &read) != SYSLOG_BAD_ARGUMENT || read || row.line.present)
        fault("wrong options are taken", 0);
    printf("%zu lines, %zu messages\n", lines, messages);
    free(text);
    free(given);
    return 0;
}
