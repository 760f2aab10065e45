/*
 * jwt_verifier_decode for Python without ctypes, which passes the arguments in about as long as the library needs for a token.
 *
 *     decode(call, handle, verdict, token, now, holds)
 *
 * The first three are addresses: of the call, and of a struct jwt_handle and a struct jwt_verdict that no other call has. Returns the
 * claims as a str, or the status as an int. Other threads of Python run in the meantime, unless it holds the interpreter's lock.
 */
#define PY_SSIZE_T_CLEAN
#include <Python.h>
#include <jwtproved.h>

/* The room for claims, which is that of _handles.py. */
#define ROOM 8192

static PyObject *decode(PyObject *module, PyObject *const *arguments, Py_ssize_t count) {
    __typeof__(&jwt_verifier_decode) call;
    PyThreadState *thread = NULL;
    void *addresses[3];
    char room[ROOM], *token;
    struct jwt_verdict *said;
    Py_ssize_t token_len;
    uint64_t now;
    int holds;
    uint32_t status;

    (void)module;
    if (count != 6 || PyBytes_AsStringAndSize(arguments[3], &token, &token_len) != 0) {
        return PyErr_Occurred() ? NULL : PyErr_Format(PyExc_TypeError, "decode takes 6 arguments");
    }
    for (int i = 0; i < 3; i++) {
        addresses[i] = PyLong_AsVoidPtr(arguments[i]);
    }
    now = PyLong_AsUnsignedLongLong(arguments[4]);
    holds = PyObject_IsTrue(arguments[5]);
    if (PyErr_Occurred()) {
        return NULL;
    }
    call = (__typeof__(call))addresses[0];
    said = addresses[2];
    if (!holds) {
        thread = PyEval_SaveThread();
    }
    status = call(addresses[1], token, (size_t)token_len, now, room, ROOM, said);
    if (thread != NULL) {
        PyEval_RestoreThread(thread);
    }
    return status == JWT_OK ? PyUnicode_DecodeUTF8(room, (Py_ssize_t)said->len, NULL) : PyLong_FromUnsignedLong(status);
}

static PyMethodDef methods[] = {{"decode", (PyCFunction)(void (*)(void))decode, METH_FASTCALL, NULL}, {NULL, NULL, 0, NULL}};

static struct PyModuleDef definition = {.m_base = PyModuleDef_HEAD_INIT, .m_name = "_fast", .m_methods = methods};

PyMODINIT_FUNC PyInit__fast(void) {
    return PyModuleDef_Init(&definition);
}
