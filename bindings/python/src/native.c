/* The extension: what syslog_loose asks of the library for C, for Python 3.9 and later. */
#include "native.h"

struct given given;

/* Keeps what the package hands over. */
static PyObject *set_up(PyObject *self, PyObject *words)
{
    if (!PyArg_ParseTuple(words, "OOOOOO", &given.error, &given.message, &given.element, &given.facilities,
                          &given.severities, &given.zone))
        return NULL;
    Py_INCREF(words);
    given.zones = PyDict_New();
    if (!given.zones || set_keys() || set_message())
        return NULL;
    Py_RETURN_NONE;
}

static PyObject *version(PyObject *self, PyObject *none)
{
    return PyLong_FromUnsignedLong(syslog_version());
}

#define OF_A_LINE(name, more, text) \
    {#name, (PyCFunction)(void (*)(void))name, METH_FASTCALL | METH_KEYWORDS, \
     #name "($module, line, /, *, year, month=None, day=None, offset=0, zone=None, variant='either', errors='strict'" \
     more ")\n--\n\n" text}

static PyMethodDef methods[] = {
    OF_A_LINE(parse, ", dialects=True", "Returns the message of a line. Raises ParseError if it is no message."),
    OF_A_LINE(normalise, "", "Returns the line in printed form. Raises ParseError if it is no message."),
    OF_A_LINE(settle, "",
              "Returns the line, printed again and again until it no longer changes. Raises ParseError if it, or such "
              "a text, is no message."),
    OF_A_LINE(to_rfc5424, ", dialects=True",
              "Returns the line as strict RFC 5424, as syslog_5424 writes it: unchanged if it is in the RFC's grammar, "
              "and otherwise its message, converted.\n"
              "Raises ParseError if it is neither."),
    OF_A_LINE(json, ", dialects=True, raw=False",
              "Returns the message of a line as the text of one JSON object, as syslog_json writes it; with `raw` it "
              "has the line too.\n"
              "Raises ParseError if the line is no message."),
    {"dialect_name", dialect_name, METH_O,
     "dialect_name($module, number, /)\n--\n\nReturns the name of the dialect that has this number; None if none has."},
    {"set_up", set_up, METH_VARARGS, NULL},
    {"version", version, METH_NOARGS, NULL},
    {"decoded", decoded, METH_VARARGS, NULL},
    {"columns", columns, METH_VARARGS, NULL},
    {"texts", texts, METH_VARARGS, NULL},
    {"categories", categories, METH_VARARGS, NULL},
    {NULL, NULL, 0, NULL},
};

static struct PyModuleDef definition = {PyModuleDef_HEAD_INIT, "_native", NULL, -1, methods, NULL, NULL, NULL, NULL};

PyMODINIT_FUNC PyInit__native(void)
{
    return PyModule_Create(&definition);
}
