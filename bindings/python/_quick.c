/* Questions about images of sets and tables, without ctypes, whose calls take several times as long as the library's.
 *
 * Each function decides the plain cases, and leaves the others and all errors to the Python code, which reads the same
 * text again. Without this module the package gives the same answers, more slowly. It is linked to the library that
 * the package has loaded: both have the name libipnet.so.1. */
#define PY_SSIZE_T_CLEAN
#define Py_LIMITED_API 0x030A0000
#include <Python.h>

#include "ipnet.h"

#include <string.h>

/* room for the longest text of a network and "/128" */
enum { ROOM = 64, LONGEST = ROOM - 5 };

static PyObject *ipv4_address, *ipv6_address, *packed_name, *scope_name;

/* Writes the byte form of the network or address of a text, and returns its length; 0 if Python has to read it. */
static size_t parsed(const char *given, size_t len, uint8_t *network)
{
    char text[ROOM];
    size_t count = 0;
    if (len > LONGEST) {
        return 0;
    }
    memcpy(text, given, len);
    if (memchr(text, '/', len) == NULL) {
        const char *full = memchr(text, ':', len) != NULL ? "/128" : "/32";
        memcpy(text + len, full, strlen(full));
        len += strlen(full);
    }
    return ipnet_parse(text, len, network, IPNET_MAX_BYTES, &count) == IPNET_OK ? count : 0;
}

/* Writes the byte form of an address object, and returns its length; 0 if Python has to read it. */
static size_t packed(PyObject *address, uint8_t *network)
{
    PyObject *octets, *scope = NULL;
    size_t count = 0;
    char *bytes;
    Py_ssize_t len;
    if ((PyObject *)Py_TYPE(address) == ipv6_address) {
        scope = PyObject_GetAttr(address, scope_name);
        Py_XDECREF(scope);
    }
    octets = scope == NULL || scope == Py_None ? PyObject_GetAttr(address, packed_name) : NULL;
    if (octets != NULL && PyBytes_AsStringAndSize(octets, &bytes, &len) == 0 && (len == 4 || len == 16)) {
        network[0] = len == 16;
        memcpy(network + 1, bytes, (size_t)len);
        network[len + 1] = (uint8_t)(8 * len);
        count = (size_t)len + 2;
    }
    Py_XDECREF(octets);
    PyErr_Clear();
    return count;
}

/* Writes the byte form of what is asked for, and returns its length; 0 if Python has to read it. */
static size_t wanted(PyObject *given, uint8_t *network)
{
    const char *text;
    Py_ssize_t len;
    if (PyUnicode_Check(given)) {
        text = PyUnicode_AsUTF8AndSize(given, &len);
        if (text == NULL) {
            PyErr_Clear();
            return 0;
        }
        return parsed(text, (size_t)len, network);
    }
    if ((PyObject *)Py_TYPE(given) == ipv4_address || (PyObject *)Py_TYPE(given) == ipv6_address) {
        return packed(given, network);
    }
    return 0;
}

/* The bytes of the image, which is the first of two arguments. */
static const char *image_of(PyObject *const *args, Py_ssize_t count, Py_ssize_t *len)
{
    char *bytes;
    if (count != 2) {
        PyErr_SetString(PyExc_TypeError, "takes an image and an address or a network");
        return NULL;
    }
    return PyBytes_AsStringAndSize(args[0], &bytes, len) == 0 ? bytes : NULL;
}

static PyObject *contains(PyObject *module, PyObject *const *args, Py_ssize_t count)
{
    uint8_t network[IPNET_MAX_BYTES];
    Py_ssize_t image_len;
    const char *image = image_of(args, count, &image_len);
    size_t len;
    uint32_t answer;
    (void)module;
    if (image == NULL) {
        return NULL;
    }
    len = wanted(args[1], network);
    answer = len == 0 ? IPNET_WRONG_LENGTH : ipnet_set_covers(image, (size_t)image_len, network, len);
    return Py_NewRef(answer == 1 ? Py_True : answer == 0 ? Py_False : Py_None);
}

static PyObject *longest_match(PyObject *module, PyObject *const *args, Py_ssize_t count)
{
    uint8_t network[IPNET_MAX_BYTES];
    Py_ssize_t image_len;
    const char *image = image_of(args, count, &image_len);
    size_t len;
    uint32_t answer = IPNET_WRONG_LENGTH, value = 0;
    (void)module;
    if (image == NULL) {
        return NULL;
    }
    len = wanted(args[1], network);
    if (len != 0 && network[len - 1] == 8 * (len - 2)) {
        answer = ipnet_table_longest_match(image, (size_t)image_len, network + 1, len - 2, &value);
    }
    if (answer == 1) {
        return PyLong_FromUnsignedLong(value);
    }
    return Py_NewRef(answer == 0 ? Py_None : Py_NotImplemented);
}

static PyObject *longest_covering(PyObject *module, PyObject *const *args, Py_ssize_t count)
{
    uint8_t network[IPNET_MAX_BYTES], covering[IPNET_MAX_BYTES];
    Py_ssize_t image_len;
    const char *image = image_of(args, count, &image_len);
    size_t len;
    uint32_t answer = IPNET_WRONG_LENGTH, value = 0;
    (void)module;
    if (image == NULL) {
        return NULL;
    }
    len = wanted(args[1], network);
    if (len != 0) {
        answer = ipnet_table_longest_covering(image, (size_t)image_len, network, len, covering, sizeof covering,
                                              &value);
    }
    if (answer == 1) {
        return Py_BuildValue("(y#k)", (const char *)covering, (Py_ssize_t)len, (unsigned long)value);
    }
    return Py_NewRef(answer == 0 ? Py_None : Py_NotImplemented);
}

static PyMethodDef methods[] = {
    {"contains", (PyCFunction)(void (*)(void))contains, METH_FASTCALL,
     "Whether the set contains the address or network; None if Python has to read it."},
    {"longest_match", (PyCFunction)(void (*)(void))longest_match, METH_FASTCALL,
     "The value of the longest match, or None; NotImplemented if Python has to read the address."},
    {"longest_covering", (PyCFunction)(void (*)(void))longest_covering, METH_FASTCALL,
     "The longest network that contains the network, in byte form, and its value; else as longest_match."},
    {NULL, NULL, 0, NULL},
};

static struct PyModuleDef definition = {
    PyModuleDef_HEAD_INIT, "_quick", "Questions about images, without ctypes.", -1, methods, NULL, NULL, NULL, NULL,
};

/* The interface above is stable from Python 3.10 on. An older Python might load the module too, and is refused. */
static int is_old(void)
{
    PyObject *version = PySys_GetObject("hexversion");
    return version == NULL || PyLong_AsLong(version) < Py_LIMITED_API;
}

PyMODINIT_FUNC PyInit__quick(void)
{
    PyObject *addresses;
    if (is_old()) {
        PyErr_SetString(PyExc_ImportError, "_quick needs Python 3.10");
        return NULL;
    }
    addresses = PyImport_ImportModule("ipaddress");
    if (addresses == NULL) {
        return NULL;
    }
    ipv4_address = PyObject_GetAttrString(addresses, "IPv4Address");
    ipv6_address = PyObject_GetAttrString(addresses, "IPv6Address");
    Py_DECREF(addresses);
    packed_name = PyUnicode_InternFromString("packed");
    scope_name = PyUnicode_InternFromString("scope_id");
    if (ipv4_address == NULL || ipv6_address == NULL || packed_name == NULL || scope_name == NULL) {
        return NULL;
    }
    return PyModule_Create(&definition);
}
