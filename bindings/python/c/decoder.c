/* Decoders of messages that arrive in pieces. */
#include "common.h"

#include <structmember.h>

PyObject *decoder_type;

typedef struct {
    PyObject_HEAD
    struct mb_decoder handle;
    bool is_feeding; /* a call uses the handle without the global lock */
    size_t received; /* about how many bytes the message has */
    MessageType *type;
} Decoder;

const char decoder_doc[] =
"decoder($self, /, *, max_bytes=2147483647, max_depth=100)\n--\n\n"
"Returns a Decoder for a message that arrives in pieces. The limits are for the whole message. While one thread feeds the decoder, another"
"\nthread that uses it gets RuntimeError.";

PyObject *type_decoder(PyObject *self, PyObject *args, PyObject *kwargs)
{
    static char *names[] = {"max_bytes", "max_depth", NULL};
    Py_ssize_t max_bytes = MB_MAX_BYTES, max_depth = MB_MAX_DEPTH;
    MessageType *type = (MessageType *)self;
    struct limits limits;

    if (!PyArg_ParseTupleAndKeywords(args, kwargs, "|$nn:decoder", names, &max_bytes, &max_depth) || !set_limits(max_bytes, max_depth, &limits))
        return NULL;
    Decoder *decoder = PyObject_New(Decoder, (PyTypeObject *)decoder_type);
    if (decoder == NULL)
        return NULL;
    decoder->handle = (struct mb_decoder){NULL, false};
    decoder->is_feeding = false;
    decoder->received = 0;
    Py_INCREF(type);
    decoder->type = type;
    uint32_t answer = mb_decoder_new(&type->pool->handle, type->number, limits.max_bytes, limits.max_depth, &decoder->handle);
    if (answer != MB_DONE) {
        Py_DECREF(decoder);
        return refuse(answer, NULL);
    }
    return (PyObject *)decoder;
}

/* The handle of a decoder, or NULL, with an exception, while another thread feeds it. */
static struct mb_decoder *handle_of(PyObject *self)
{
    if (!((Decoder *)self)->is_feeding)
        return &((Decoder *)self)->handle;
    PyErr_SetString(PyExc_RuntimeError, "another thread is feeding this decoder");
    return NULL;
}

PyDoc_STRVAR(feed_doc,
"feed($self, data, /)\n--\n\n"
"Gives the next piece to the decoder: bytes, or any other buffer. Raises Refused as soon as the bytes received have a fault that further"
"\nbytes cannot repair; the byte of the fault counts from the first piece on. After Refused or MemoryError the decoder is finished: each further call raises ValueError.");

static PyObject *decoder_feed(PyObject *self, PyObject *data)
{
    struct mb_decoder *handle;
    struct report report;
    struct input in;

    if (!take_input(data, &in))
        return NULL;
    if ((handle = handle_of(self)) == NULL) {
        drop_input(&in);
        return NULL;
    }
    /* No other thread may use the decoder meanwhile. */
    ((Decoder *)self)->is_feeding = true;
    PyThreadState *state = in.is_fixed && in.len >= LONG_INPUT ? PyEval_SaveThread() : NULL;
    uint32_t answer = mb_decoder_feed(handle, in.at, in.len, &report.fault, report.path, MB_MAX_STEPS);
    if (state != NULL)
        PyEval_RestoreThread(state);
    ((Decoder *)self)->is_feeding = false;
    ((Decoder *)self)->received += in.len;
    drop_input(&in);
    if (answer != MB_DONE)
        return refuse_message(answer, &report, (PyObject *)((Decoder *)self)->type);
    Py_RETURN_NONE;
}

PyDoc_STRVAR(finish_doc,
"finish($self, /)\n--\n\n"
"Returns the message that all pieces encode, as decode does, or raises Refused. Then the decoder is finished: each further call raises ValueError.");

static PyObject *decoder_finish(PyObject *self, PyObject *Py_UNUSED(ignored))
{
    Node *message = new_message(((Decoder *)self)->type);
    struct mb_decoder *handle = message == NULL ? NULL : handle_of(self);
    struct report report;

    if (handle == NULL) {
        Py_XDECREF(message);
        return NULL;
    }
    message->hint = ((Decoder *)self)->received;
    uint32_t answer = mb_decoder_finish(handle, &message->handle, &report.fault, report.path, MB_MAX_STEPS);
    if (answer == MB_DONE)
        return (PyObject *)message;
    Py_DECREF(message);
    return refuse_message(answer, &report, (PyObject *)((Decoder *)self)->type);
}

static PyObject *decoder_get_pending(PyObject *self, void *Py_UNUSED(which))
{
    struct mb_decoder *handle = handle_of(self);
    size_t pending = 0;

    if (handle == NULL)
        return NULL;
    uint32_t answer = mb_decoder_pending(handle, &pending);
    return answer == MB_DONE ? PyLong_FromSize_t(pending) : refuse(answer, NULL);
}

static PyObject *decoder_repr(PyObject *self)
{
    return PyUnicode_FromFormat("<mabristu.Decoder of %U>", ((Decoder *)self)->type->name);
}

static void decoder_dealloc(PyObject *self)
{
    PyTypeObject *of = Py_TYPE(self);
    Decoder *decoder = (Decoder *)self;

    mb_decoder_free(&decoder->handle);
    Py_CLEAR(decoder->type);
    PyObject_Free(self);
    Py_DECREF(of);
}

PyObject *make_decoder_type(void)
{
    static PyMemberDef members[] = {
        {"type", T_OBJECT, offsetof(Decoder, type), READONLY, "The type of the message."},
        {NULL, 0, 0, 0, NULL},
    };
    static PyGetSetDef getset[] = {
        {"pending", decoder_get_pending, NULL,
         "The number of bytes that the decoder keeps as they came: the beginning of a tag, a length, a number, a string, bytes or an unknown field. 0 if the"
         "\ndecoder is finished.", NULL},
        {NULL, NULL, NULL, NULL, NULL},
    };
    static PyMethodDef methods[] = {
        {"feed", decoder_feed, METH_O, feed_doc},
        {"finish", decoder_finish, METH_NOARGS, finish_doc},
        {NULL, NULL, 0, NULL},
    };
    static PyType_Slot slots[] = {
        {Py_tp_doc, "A decoder of a message that arrives in pieces, as Order.decoder() makes one."},
        {Py_tp_new, no_new},
        {Py_tp_dealloc, decoder_dealloc},
        {Py_tp_repr, decoder_repr},
        {Py_tp_members, members},
        {Py_tp_getset, getset},
        {Py_tp_methods, methods},
        {0, NULL},
    };
    static PyType_Spec spec = {"mabristu.Decoder", sizeof(Decoder), 0, Py_TPFLAGS_DEFAULT, slots};
    return PyType_FromSpec(&spec);
}
