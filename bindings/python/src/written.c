/* The calls that write a text of one line. */
#include "native.h"

/* The object of a line, and with the line itself in it, as writers. */
uint32_t object_of(const char *line, size_t length, const struct syslog_options *options, char *room, size_t size,
                   size_t *needed)
{
    return syslog_json(line, length, options, 0, room, size, needed);
}

static uint32_t raw_object_of(const char *line, size_t length, const struct syslog_options *options, char *room,
                              size_t size, size_t *needed)
{
    return syslog_json(line, length, options, 1, room, size, needed);
}

/* The text that a call writes of a line. */
PyObject *written(writer *call, const struct line *line, const struct syslog_options *options)
{
    char most[4096], *room = most;
    size_t size = sizeof most, needed;
    uint32_t outcome = call(line->start, (size_t)line->length, options, room, size, &needed);
    if (outcome == SYSLOG_NO_ROOM) {
        size = needed;
        room = PyMem_Malloc(size);
        if (!room)
            return PyErr_NoMemory();
        outcome = call(line->start, (size_t)line->length, options, room, size, &needed);
    }
    PyObject *text =
        outcome == SYSLOG_DONE ? PyUnicode_FromStringAndSize(room, (Py_ssize_t)needed) : refuse(outcome, line->given);
    if (room != most)
        PyMem_Free(room);
    return text;
}

static PyObject *write_by(writer *writes, int keys, PyObject *const *words, Py_ssize_t count, PyObject *names)
{
    struct call call;
    if (take_call(words, count, names, keys, &call))
        return NULL;
    PyObject *text = written(writes, &call.line, &call.options);
    end_call(&call);
    return text;
}

PyObject *normalise(PyObject *self, PyObject *const *words, Py_ssize_t count, PyObject *names)
{
    return write_by(syslog_normalise, PRINTING_KEYS, words, count, names);
}

PyObject *settle(PyObject *self, PyObject *const *words, Py_ssize_t count, PyObject *names)
{
    return write_by(syslog_settle, PRINTING_KEYS, words, count, names);
}

PyObject *to_rfc5424(PyObject *self, PyObject *const *words, Py_ssize_t count, PyObject *names)
{
    return write_by(syslog_to_rfc5424, READING_KEYS, words, count, names);
}

/* The object as one that says that its line is not UTF-8. */
static PyObject *marked(PyObject *object)
{
    PyObject *front = PyUnicode_Substring(object, 0, PyUnicode_GetLength(object) - 1);
    PyObject *made = front ? PyUnicode_FromFormat("%U,\"invalid_utf8\":true}", front) : NULL;
    Py_XDECREF(front);
    Py_DECREF(object);
    return made;
}

PyObject *json(PyObject *self, PyObject *const *words, Py_ssize_t count, PyObject *names)
{
    struct call call;
    if (take_call(words, count, names, OBJECT_KEYS, &call))
        return NULL;
    PyObject *object = written(call.raw ? raw_object_of : object_of, &call.line, &call.options);
    int is_replaced = call.line.is_replaced;
    end_call(&call);
    return object && is_replaced ? marked(object) : object;
}
