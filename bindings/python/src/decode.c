/* Bytes that are not UTF-8. */
#include "native.h"

/* The bytes as UTF-8 in a buffer of its own, which PyMem_Free gives back, and its length. */
static char *decoded_bytes(const char *bytes, Py_ssize_t length, int latin1, size_t *needed)
{
    /* (no byte gives more than the three of U+FFFD) */
    size_t size = 3 * (size_t)length + 1;
    char *room = PyMem_Malloc(size);
    if (!room || syslog_decode(bytes, (size_t)length, (uint32_t)latin1, room, size, needed) != SYSLOG_DONE) {
        PyMem_Free(room);
        PyErr_NoMemory();
        return NULL;
    }
    return room;
}

PyObject *decoded_text(const char *bytes, Py_ssize_t length, int latin1)
{
    size_t needed;
    char *room = decoded_bytes(bytes, length, latin1, &needed);
    PyObject *text = room ? PyUnicode_FromStringAndSize(room, (Py_ssize_t)needed) : NULL;
    PyMem_Free(room);
    return text;
}

/* A line of bytes as UTF-8. */
PyObject *decoded(PyObject *self, PyObject *words)
{
    const char *bytes;
    Py_ssize_t length;
    int latin1;
    size_t needed;
    if (!PyArg_ParseTuple(words, "y#p", &bytes, &length, &latin1))
        return NULL;
    char *room = decoded_bytes(bytes, length, latin1, &needed);
    PyObject *line = room ? PyBytes_FromStringAndSize(room, (Py_ssize_t)needed) : NULL;
    PyMem_Free(room);
    return line;
}
