/* The arguments of the calls for one line, and their refusals. */
#include "native.h"

enum key { YEAR, MONTH, DAY, OFFSET, ZONE, VARIANT, ERRORS, DIALECTS, RAW, KEYS };
static const char *const key_names[KEYS] = {"year", "month", "day", "offset", "zone", "variant", "errors", "dialects",
                                            "raw"};
static PyObject *interned[KEYS];

/* Callers' names of arguments are interned, so most are told by their place. */
int set_keys(void)
{
    for (int i = 0; i < KEYS; i++)
        if (!interned[i] && !(interned[i] = PyUnicode_InternFromString(key_names[i])))
            return -1;
    return 0;
}

static int key_of(PyObject *name, int keys)
{
    for (int i = 0; i < keys; i++)
        if (name == interned[i])
            return i;
    for (int i = 0; i < keys; i++)
        if (PyUnicode_Compare(name, interned[i]) == 0)
            return i;
    PyErr_Format(PyExc_TypeError, "there is no argument %R", name);
    return -1;
}

static void no_message(const char *why, PyObject *line)
{
    PyObject *fault = PyObject_CallFunction(given.error, "sO", why, line);
    if (fault) {
        PyErr_SetObject(given.error, fault);
        Py_DECREF(fault);
    }
}

void *refuse(uint32_t outcome, PyObject *line)
{
    if (outcome == SYSLOG_NO_READING)
        no_message("the line is no message", line);
    else if (outcome == SYSLOG_NOT_UTF8)
        no_message("the line is no UTF-8", line);
    else if (outcome == SYSLOG_NO_MEMORY)
        PyErr_NoMemory();
    else
        PyErr_SetString(PyExc_ValueError, "there is no such year, month, day, offset or zone");
    return NULL;
}

/* The number, in 32 bits. */
static int32_t number_of(PyObject *word)
{
    long number = PyLong_AsLong(word);
    if (number == -1 && PyErr_ExceptionMatches(PyExc_OverflowError))
        PyErr_Clear();
    else if (number >= INT32_MIN && number <= INT32_MAX)
        return (int32_t)number;
    refuse(SYSLOG_BAD_ARGUMENT, NULL);
    return -1;
}

/* Takes the rule of a zone, or None, for options that have no zone yet. */
int take_zone(PyObject *rule, struct syslog_options *options)
{
    Py_ssize_t length;
    if (rule == Py_None)
        return 0;
    const char *text = PyUnicode_AsUTF8AndSize(rule, &length);
    if (!text)
        return -1;
    /* (no rule is as long, and the library takes an empty one for none) */
    if (length == 0 || (size_t)length >= sizeof options->zone || memchr(text, 0, (size_t)length)) {
        refuse(SYSLOG_BAD_ARGUMENT, NULL);
        return -1;
    }
    memcpy(options->zone, text, (size_t)length);
    return 0;
}

/* A word that an argument may be, and its number. */
struct choice {
    const char *name;
    uint32_t number;
};

static uint32_t chosen(const struct choice *choices, size_t count, const char *what, PyObject *word)
{
    for (size_t i = 0; PyUnicode_Check(word) && i < count; i++)
        if (PyUnicode_CompareWithASCIIString(word, choices[i].name) == 0)
            return choices[i].number;
    PyErr_Format(PyExc_ValueError, "there is no such %s: %R", what, word);
    return 0;
}

static const struct choice variants[] = {{"either", 0}, {"3164", 3164}, {"5424", 5424}};
static const struct choice handlings[] = {{"strict", STRICT}, {"replace", REPLACE}, {"latin-1", LATIN1}};

/* Takes an argument that has a name. */
static void take_word(enum key key, PyObject *word, struct call *call)
{
    if (key == YEAR)
        call->options.year = number_of(word);
    else if (key == MONTH)
        call->options.month = word == Py_None ? 0 : (uint32_t)number_of(word);
    else if (key == DAY)
        call->options.day = word == Py_None ? 0 : (uint32_t)number_of(word);
    else if (key == OFFSET)
        call->options.offset = number_of(word);
    else if (key == ZONE)
        take_zone(word, &call->options);
    else if (key == VARIANT)
        call->options.variant = chosen(variants, COUNT_OF(variants), "variant", word);
    else if (key == ERRORS)
        call->errors = chosen(handlings, COUNT_OF(handlings), "handling of errors", word);
    else if (key == DIALECTS)
        call->options.no_dialects = PyObject_IsTrue(word) == 0;
    else
        call->raw = (uint32_t)PyObject_IsTrue(word);
}

static int take_text(PyObject *text, struct line *line)
{
    line->text = text;
    line->start = PyUnicode_AsUTF8AndSize(text, &line->length);
    if (line->start) {
        line->is_ascii = PyUnicode_GetLength(text) == line->length;
        return 0;
    }
    if (PyErr_ExceptionMatches(PyExc_UnicodeEncodeError)) {
        PyErr_Clear();
        refuse(SYSLOG_NOT_UTF8, line->given);
    }
    return -1;
}

/* Takes bytes as a text. Those that are not UTF-8 are decoded. */
static int take_decoded(struct line *line, int latin1)
{
    line->made = PyUnicode_DecodeUTF8(line->start, line->length, NULL);
    if (!line->made && PyErr_ExceptionMatches(PyExc_UnicodeDecodeError)) {
        PyErr_Clear();
        line->made = decoded_text(line->start, line->length, latin1);
        line->is_replaced = !latin1;
    }
    if (line->made && take_text(line->made, line) == 0)
        return 0;
    Py_CLEAR(line->made);
    return -1;
}

static int take_line(PyObject *word, uint32_t errors, struct line *line)
{
    *line = (struct line){.given = word};
    if (PyUnicode_Check(word))
        return take_text(word, line);
    if (PyBytes_AsStringAndSize(word, (char **)&line->start, &line->length))
        return -1;
    return errors == STRICT ? 0 : take_decoded(line, errors == LATIN1);
}

void end_call(struct call *call)
{
    Py_CLEAR(call->line.made);
}

/* Takes a line, and by their names the first of the keys, of which the year has to be there. A call that was taken has
 * to be ended. */
int take_call(PyObject *const *words, Py_ssize_t count, PyObject *names, int keys, struct call *call)
{
    Py_ssize_t named = names ? PyTuple_Size(names) : 0;
    int has_year = 0;
    call->options = (struct syslog_options){0};
    call->errors = STRICT;
    call->raw = 0;
    if (count != 1) {
        PyErr_SetString(PyExc_TypeError, "one line is taken, and the other arguments by their names");
        return -1;
    }
    for (Py_ssize_t i = 0; i < named; i++) {
        int key = key_of(PyTuple_GetItem(names, i), keys);
        if (key < 0)
            return -1;
        take_word((enum key)key, words[count + i], call);
        if (PyErr_Occurred())
            return -1;
        has_year |= key == YEAR;
    }
    if (!has_year) {
        PyErr_SetString(PyExc_TypeError, "there is no year: year=2026, say");
        return -1;
    }
    return take_line(words[0], call->errors, &call->line);
}
