/* The lines of a buffer, by the column. */
#define _DEFAULT_SOURCE
#include "columns.h"
#include <sys/mman.h>

#define NO_TIME INT64_MIN

/* Nanoseconds since 1970, or NO_TIME of an absent one and outside of the years 1678 to 2261. */
static int64_t time_of(const struct syslog_timestamp *at)
{
    if (!at->present || at->seconds < -9223372036 || at->seconds >= 9223372036)
        return NO_TIME;
    return at->seconds * 1000000000 + at->nanoseconds;
}

static void put_text(char *const *columns, enum column at, size_t row, const char *buffer,
                     const struct syslog_text *text)
{
    ((int64_t *)columns[at])[row] = text->present ? text->start - buffer : -1;
    ((int64_t *)columns[at + 1])[row] = (int64_t)text->length;
}

static void put_row(char *const *columns, size_t row, const char *buffer, const struct syslog_row *it)
{
    const struct syslog_message *m = &it->message;
    columns[OUTCOME][row] = (char)it->outcome;
    ((int64_t *)columns[TIME])[row] = time_of(&m->timestamp);
    ((int32_t *)columns[NANOSECOND])[row] = m->timestamp.nanoseconds;
    ((int32_t *)columns[OFFSET])[row] = m->timestamp.offset;
    columns[SHOWN][row] = (char)(m->timestamp.shows_year + 2 * m->timestamp.shows_offset);
    ((uint16_t *)columns[COLUMN_PROTOCOL])[row] = (uint16_t)m->protocol;
    columns[COLUMN_FACILITY][row] = (char)m->facility;
    columns[COLUMN_SEVERITY][row] = (char)m->severity;
    ((int32_t *)columns[NUMBER])[row] = m->process.number;
    columns[IS_NUMBER][row] = (char)m->process.is_number;
    ((uint32_t *)columns[ELEMENT_COUNT])[row] = (uint32_t)m->elements;
    ((uint16_t *)columns[COLUMN_DIALECT])[row] = (uint16_t)m->dialect;
    put_text(columns, LINE_AT, row, buffer, &it->line);
    put_text(columns, HOST_AT, row, buffer, &m->host);
    put_text(columns, APP_AT, row, buffer, &m->app);
    put_text(columns, NAME_AT, row, buffer, &m->process.name);
    put_text(columns, MSGID_AT, row, buffer, &m->msgid);
    put_text(columns, MSG_AT, row, buffer, &m->msg);
}

/* How many lines the buffer has. */
static size_t lines_in(const char *buffer, size_t length)
{
    size_t count = 0;
    const char *end = buffer + length;
    for (const char *at = buffer; at < end; count++) {
        const char *feed = memchr(at, '\n', (size_t)(end - at));
        at = feed ? feed + 1 : end;
    }
    return count;
}

#define ROWS 256

/* Puts all lines into the columns, which have room for them. */
static uint32_t put_lines(char *const *columns, const char *buffer, size_t length, const struct syslog_options *options)
{
    struct syslog_row rows[ROWS];
    for (size_t i = 0; i < ROWS; i++)
        rows[i] = (struct syslog_row)SYSLOG_ROW_INIT;
    size_t at = 0, row = 0, count;
    uint32_t outcome;
    do {
        outcome = syslog_read_lines(buffer + at, length - at, options, rows, ROWS, &count);
        for (size_t i = 0; i < count; i++)
            put_row(columns, row++, buffer, &rows[i]);
        if (count)
            at = (size_t)(rows[count - 1].line.start - buffer) + rows[count - 1].line.length + 1;
    } while (outcome == SYSLOG_NO_ROOM);
    return outcome;
}

/* Asks the kernel for large pages, which come faster than many small ones, where the block has some. */
static void ask_for_large_pages(char *block, size_t length)
{
    const size_t page = 4096, few = 1 << 22;
    if (length >= few)
        madvise((void *)(((uintptr_t)block + page - 1) / page * page), length - page, MADV_HUGEPAGE);
}

/* The columns of a buffer's lines, as a bytearray. The lock is let go while the lines are read. */
PyObject *columns(PyObject *self, PyObject *words)
{
    const char *buffer;
    Py_ssize_t length;
    PyObject *zone;
    struct syslog_options options = {0};
    if (!PyArg_ParseTuple(words, "y#IiIIiOI", &buffer, &length, &options.variant, &options.year, &options.month,
                          &options.day, &options.offset, &zone, &options.no_dialects) ||
        take_zone(zone, &options))
        return NULL;
    size_t count = lines_in(buffer, (size_t)length);
    PyObject *made = PyByteArray_FromStringAndSize(NULL, (Py_ssize_t)(count * BYTES_A_LINE));
    if (!made)
        return NULL;
    char *block = PyByteArray_AsString(made), *places[COLUMNS];
    uint32_t outcome;
    place_columns(block, count, places);
    Py_BEGIN_ALLOW_THREADS
    ask_for_large_pages(block, count * BYTES_A_LINE);
    outcome = put_lines(places, buffer, (size_t)length, &options);
    Py_END_ALLOW_THREADS
    if (outcome != SYSLOG_DONE) {
        Py_DECREF(made);
        return refuse(outcome, Py_None);
    }
    return made;
}
