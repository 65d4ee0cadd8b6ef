/* The message of a line, as an object. */
#include "native.h"

/* What the module datetime hands to C, as far as it is used here: so it has been since Python 3.7. (A call by its name
 * would take as long as all else that is done for a line.) */
static const struct {
    PyTypeObject *date, *datetime, *time, *delta, *zone;
    PyObject *utc;
    PyObject *(*make_date)(int, int, int, PyTypeObject *);
    PyObject *(*make)(int, int, int, int, int, int, int, PyObject *, PyTypeObject *);
} *dates;

/* The fields of a Message, in its order. */
enum field { PROTOCOL, VERSION, FACILITY, SEVERITY, TIMESTAMP, NANOSECOND, TIMESTAMP_TEXT, SHOWS_YEAR, SHOWS_OFFSET,
             HOSTNAME, APPNAME, PROCID, MSGID, STRUCTURED_DATA, MESSAGE, RAW, DIALECT, UNPARSED, FIELDS };

/* Members of Facility and of Severity, by their numbers, and other values that many messages share. */
static PyObject *facilities[24], *severities[8], *numbers[2], *nothing;

/* Room for the elements of a line: most have no more. One line at a time has it, and another meanwhile gets its own. */
static struct rooms {
    struct syslog_element elements[8];
    struct syslog_param params[32];
    int are_taken;
} rooms;

static int take_members(PyObject *members, PyObject **array, Py_ssize_t count)
{
    for (Py_ssize_t i = 0; i < count; i++)
        if (!(array[i] = PyTuple_GetItem(members, i)))
            return -1;
    return 0;
}

int set_message(void)
{
    for (size_t i = 0; i < COUNT_OF(rooms.elements); i++)
        rooms.elements[i] = (struct syslog_element)SYSLOG_ELEMENT_INIT;
    for (size_t i = 0; i < COUNT_OF(rooms.params); i++)
        rooms.params[i] = (struct syslog_param)SYSLOG_PARAM_INIT;
    numbers[0] = PyLong_FromLong(3164);
    numbers[1] = PyLong_FromLong(5424);
    nothing = PyTuple_New(0);
    dates = PyCapsule_Import("datetime.datetime_CAPI", 0);
    if (!dates || !numbers[0] || !numbers[1] || !nothing)
        return -1;
    if (take_members(given.facilities, facilities, COUNT_OF(facilities)))
        return -1;
    return take_members(given.severities, severities, COUNT_OF(severities));
}

static PyObject *counted(PyObject *object)
{
    Py_INCREF(object);
    return object;
}

/* A text of the line: a piece of the text that the whole line is, which is not looked at again if it is ASCII. */
static PyObject *text_of(const struct line *line, const struct syslog_text *text)
{
    if (!text->present)
        return counted(Py_None);
    if (!line->is_ascii)
        return PyUnicode_FromStringAndSize(text->start, (Py_ssize_t)text->length);
    Py_ssize_t at = text->length ? text->start - line->start : 0;
    return PyUnicode_Substring(line->text, at, at + (Py_ssize_t)text->length);
}

/* The id of an element: a text of the line, but for the one that a dialect gives an element without one. */
static PyObject *id_of(const struct line *line, const struct syslog_text *text)
{
    uintptr_t at = (uintptr_t)text->start, start = (uintptr_t)line->start;
    if (at < start || at - start >= (uintptr_t)line->length)
        return PyUnicode_FromStringAndSize(text->start, (Py_ssize_t)text->length);
    return text_of(line, text);
}

/* The year, the month and the day of so many days since 1970. */
static void date_of(int64_t days, int *year, int *month, int *day)
{
    /* Days since 0000-03-01, in eras of 400 years, and in years that end with February. */
    int64_t shifted = days + 719468, era = (shifted >= 0 ? shifted : shifted - 146096) / 146097;
    int within = (int)(shifted - era * 146097);
    int years = (within - within / 1460 + within / 36524 - within / 146096) / 365;
    int of_year = within - (365 * years + years / 4 - years / 100), shifted_month = (5 * of_year + 2) / 153;
    *day = of_year - (153 * shifted_month + 2) / 5 + 1;
    *month = shifted_month < 10 ? shifted_month + 3 : shifted_month - 9;
    *year = (int)(era * 400) + years + (*month <= 2);
}

/* The zone of a clock that is so many seconds ahead of UTC: a new reference. */
static PyObject *zone_of(int32_t ahead)
{
    if (!ahead)
        return counted(dates->utc);
    PyObject *key = PyLong_FromLong(ahead), *zone = key ? PyDict_GetItemWithError(given.zones, key) : NULL;
    if (zone) {
        Py_INCREF(zone);
    } else if (key && !PyErr_Occurred()) {
        zone = PyObject_CallFunctionObjArgs(given.zone, key, NULL);
        if (zone && PyDict_SetItem(given.zones, key, zone))
            Py_CLEAR(zone);
    }
    Py_XDECREF(key);
    return zone;
}

/* The datetime of a timestamp: None where datetime holds no such year or offset. */
static PyObject *datetime_of(const struct syslog_timestamp *at)
{
    int64_t shown = at->seconds + at->offset, days = shown / 86400;
    int second = (int)(shown - days * 86400), year, month, day;
    if (second < 0) {
        second += 86400;
        days--;
    }
    date_of(days, &year, &month, &day);
    if (year < 1 || year > 9999 || at->offset <= -86400 || at->offset >= 86400)
        return counted(Py_None);
    PyObject *zone = zone_of(at->offset);
    if (!zone)
        return NULL;
    PyObject *made = dates->make(year, month, day, second / 3600, second / 60 % 60, second % 60, at->nanoseconds / 1000,
                                 zone, dates->datetime);
    Py_DECREF(zone);
    return made;
}

/* The part of a text after a mark or before it, which is there. */
static PyObject *part_of(PyObject *text, const char *mark, Py_ssize_t part)
{
    PyObject *parts = text ? PyObject_CallMethod(text, "partition", "s", mark) : NULL;
    PyObject *found = parts ? PyTuple_GetItem(parts, part) : NULL;
    Py_XINCREF(found);
    Py_XDECREF(parts);
    return found;
}

/* The printed timestamp, as the line's object has it. No text of the line comes before it there. */
static PyObject *stamp_text(const struct line *line, const struct syslog_options *options)
{
    PyObject *object = written(object_of, line, options);
    PyObject *after = part_of(object, "\"timestamp\":\"", 2), *text = part_of(after, "\"", 0);
    Py_XDECREF(object);
    Py_XDECREF(after);
    return text;
}

/* The name of the dialect that has this number: None where none has. */
static PyObject *name_of(uint32_t number)
{
    struct syslog_text name = SYSLOG_TEXT_INIT;
    syslog_dialect_name(number, &name);
    return name.present ? PyUnicode_FromStringAndSize(name.start, (Py_ssize_t)name.length) : counted(Py_None);
}

PyObject *dialect_name(PyObject *self, PyObject *number)
{
    unsigned long value = PyLong_AsUnsignedLong(number);
    if (value == (unsigned long)-1 && PyErr_Occurred())
        return NULL;
    return name_of(value > UINT32_MAX ? 0 : (uint32_t)value);
}

/* The value of a parameter without its escapes. */
static PyObject *plain_of(const struct line *line, const struct syslog_text *value)
{
    if (!memchr(value->start, '\\', value->length))
        return text_of(line, value);
    size_t needed;
    char *room = PyMem_Malloc(value->length + 1);
    if (!room)
        return PyErr_NoMemory();
    syslog_unescape(value->start, value->length, room, value->length, &needed);
    PyObject *text = PyUnicode_FromStringAndSize(room, (Py_ssize_t)needed);
    PyMem_Free(room);
    return text;
}

static PyObject *params_of(const struct line *line, const struct syslog_param *params, size_t count)
{
    PyObject *list = PyTuple_New((Py_ssize_t)count);
    for (size_t i = 0; list && i < count; i++) {
        PyObject *pair = PyTuple_New(2);
        if (pair) {
            PyTuple_SetItem(pair, 0, text_of(line, &params[i].name));
            PyTuple_SetItem(pair, 1, plain_of(line, &params[i].value));
        }
        PyTuple_SetItem(list, (Py_ssize_t)i, pair);
    }
    return list;
}

/* A new tuple of one of the package's classes, with so many places. */
static PyObject *new_tuple(PyObject *class, Py_ssize_t places)
{
    allocfunc allocate = (allocfunc)PyType_GetSlot((PyTypeObject *)class, Py_tp_alloc);
    return allocate((PyTypeObject *)class, places);
}

static PyObject *elements_of(const struct line *line, const struct syslog_element *elements, size_t count,
                             const struct syslog_param *params)
{
    if (!count)
        return counted(nothing);
    PyObject *list = PyTuple_New((Py_ssize_t)count);
    for (size_t i = 0; list && i < count; i++) {
        PyObject *element = new_tuple(given.element, 2);
        if (element) {
            PyTuple_SetItem(element, 0, id_of(line, &elements[i].id));
            PyTuple_SetItem(element, 1, params_of(line, params, elements[i].params));
        }
        params += elements[i].params;
        PyTuple_SetItem(list, (Py_ssize_t)i, element);
    }
    return list;
}

static PyObject *process_of(const struct line *line, const struct syslog_process *process)
{
    return process->is_number ? PyLong_FromLong(process->number) : text_of(line, &process->name);
}

/* The message of a line that is a text. */
static PyObject *fields_of(const struct line *line, const struct syslog_options *options,
                           const struct syslog_message *m, const struct syslog_element *elements,
                           const struct syslog_param *params)
{
    const struct syslog_timestamp *at = &m->timestamp;
    PyObject *made = new_tuple(given.message, FIELDS);
    if (!made)
        return NULL;
    PyObject *when = at->present ? datetime_of(at) : counted(Py_None);
    PyObject *text = at->present && when == Py_None ? stamp_text(line, options) : counted(Py_None);
    PyTuple_SetItem(made, PROTOCOL, counted(numbers[m->protocol == 5424]));
    PyTuple_SetItem(made, VERSION, m->protocol == 5424 ? PyLong_FromUnsignedLong(m->version) : counted(Py_None));
    PyTuple_SetItem(made, FACILITY, counted(m->facility < 0 ? Py_None : facilities[m->facility]));
    PyTuple_SetItem(made, SEVERITY, counted(m->severity < 0 ? Py_None : severities[m->severity]));
    PyTuple_SetItem(made, TIMESTAMP, when);
    PyTuple_SetItem(made, NANOSECOND, PyLong_FromLong(at->nanoseconds));
    PyTuple_SetItem(made, TIMESTAMP_TEXT, text);
    PyTuple_SetItem(made, SHOWS_YEAR, counted(at->shows_year ? Py_True : Py_False));
    PyTuple_SetItem(made, SHOWS_OFFSET, counted(at->shows_offset ? Py_True : Py_False));
    PyTuple_SetItem(made, HOSTNAME, text_of(line, &m->host));
    PyTuple_SetItem(made, APPNAME, text_of(line, &m->app));
    PyTuple_SetItem(made, PROCID, process_of(line, &m->process));
    PyTuple_SetItem(made, MSGID, text_of(line, &m->msgid));
    PyTuple_SetItem(made, STRUCTURED_DATA, elements_of(line, elements, m->elements, params));
    PyTuple_SetItem(made, MESSAGE, text_of(line, &m->msg));
    PyTuple_SetItem(made, RAW, counted(line->text));
    PyTuple_SetItem(made, DIALECT, m->dialect ? name_of(m->dialect) : counted(Py_None));
    PyTuple_SetItem(made, UNPARSED, text_of(line, &m->unparsed));
    /* A field that could not be made is missing, and this says why. */
    if (PyErr_Occurred())
        Py_CLEAR(made);
    return made;
}

static PyObject *message_of(const struct line *line, const struct syslog_options *options,
                            const struct syslog_message *m, const struct syslog_element *elements,
                            const struct syslog_param *params)
{
    if (line->text)
        return fields_of(line, options, m, elements, params);
    struct line text = *line;
    text.text = PyUnicode_FromStringAndSize(line->start, line->length);
    if (!text.text)
        return NULL;
    text.is_ascii = PyUnicode_GetLength(text.text) == line->length;
    PyObject *made = fields_of(&text, options, m, elements, params);
    Py_DECREF(text.text);
    return made;
}

/* Reads a line whose elements the rooms don't hold, or while another line has the rooms. */
static PyObject *read_large(const struct line *line, const struct syslog_options *options, struct syslog_message *m)
{
    struct syslog_element *elements = PyMem_Calloc(m->elements + 1, sizeof *elements);
    struct syslog_param *params = PyMem_Calloc(m->params + 1, sizeof *params);
    PyObject *made = NULL;
    for (size_t i = 0; elements && i < m->elements; i++)
        elements[i] = (struct syslog_element)SYSLOG_ELEMENT_INIT;
    for (size_t i = 0; params && i < m->params; i++)
        params[i] = (struct syslog_param)SYSLOG_PARAM_INIT;
    if (!elements || !params)
        PyErr_NoMemory();
    else if (syslog_read(line->start, (size_t)line->length, options, m, elements, m->elements, params, m->params)
             == SYSLOG_DONE)
        made = message_of(line, options, m, elements, params);
    PyMem_Free(elements);
    PyMem_Free(params);
    return made;
}

static PyObject *parse_line(const struct line *line, const struct syslog_options *options)
{
    struct syslog_message m = SYSLOG_MESSAGE_INIT;
    size_t element_room = rooms.are_taken ? 0 : COUNT_OF(rooms.elements);
    size_t param_room = rooms.are_taken ? 0 : COUNT_OF(rooms.params);
    uint32_t outcome = syslog_read(line->start, (size_t)line->length, options, &m, rooms.elements, element_room,
                                   rooms.params, param_room);
    if (outcome == SYSLOG_NO_ROOM)
        return read_large(line, options, &m);
    if (outcome != SYSLOG_DONE)
        return refuse(outcome, line->given);
    /* While the message is made, Python may collect garbage, and run code that comes here again, of another thread too.
     * Who has taken the rooms gives them back, and nobody else. */
    int takes = m.elements > 0;
    if (takes)
        rooms.are_taken = 1;
    PyObject *made = message_of(line, options, &m, rooms.elements, rooms.params);
    if (takes)
        rooms.are_taken = 0;
    return made;
}

PyObject *parse(PyObject *self, PyObject *const *words, Py_ssize_t count, PyObject *names)
{
    struct call call;
    if (take_call(words, count, names, READING_KEYS, &call))
        return NULL;
    PyObject *made = parse_line(&call.line, &call.options);
    end_call(&call);
    return made;
}
