/* A line of a session, answered by the C library in one call from Python: what fact_graph/_answering.py does by ctypes, in less time.
 *
 * The library isn't linked: its functions come as addresses, so one module serves whatever library is loaded. What is used of Python is
 * its stable ABI of version 3.11.
 */
#define Py_LIMITED_API 0x030B0000
#include <Python.h>
#include <stdint.h>

/* As fact_graph.h declares them. */
typedef struct session {
  void *at;
} session;
typedef uint32_t answer_function(session graph, const uint8_t *line, size_t line_size, size_t *text_size, session *back);
typedef size_t read_function(session graph, size_t from, uint8_t *out, size_t out_size, session *back);

/* What the addresses that are given are of, in their order. */
typedef struct places {
  answer_function *answer;
  read_function *read;
  session *graph;
  size_t *text_size;
} places;

enum { SAID = 0, ADDRESSES = 4, ROOM = 1280 };

/* Whether the numbers are addresses; else an exception is set. */
static int took_places(PyObject *const *numbers, places *found) {
  void *at[ADDRESSES];
  for (int k = 0; k < ADDRESSES; k += 1) {
    at[k] = PyLong_AsVoidPtr(numbers[k]);
    if (at[k] == NULL) {
      if (!PyErr_Occurred()) PyErr_SetString(PyExc_ValueError, "an address is 0");
      return 0;
    }
  }
  found->answer = (answer_function *)(uintptr_t)at[0];
  found->read = (read_function *)(uintptr_t)at[1];
  found->graph = at[2];
  found->text_size = at[3];
  return 1;
}

/* The bytes of a line, which is a str or bytes and keeps them; NULL where it is neither, and an exception is set. */
static const char *bytes_of(PyObject *line, Py_ssize_t *size) {
  char *bytes = NULL;
  if (PyUnicode_Check(line)) return PyUnicode_AsUTF8AndSize(line, size);
  return PyBytes_AsStringAndSize(line, &bytes, size) == 0 ? bytes : NULL;
}

/* The text of the last call. */
static PyObject *text_of(const places *it) {
  uint8_t room[ROOM];
  const size_t size = *it->text_size;
  uint8_t *bytes = size <= ROOM ? room : PyMem_Malloc(size);
  if (bytes == NULL) return PyErr_NoMemory();
  const size_t count = it->read(*it->graph, 0, bytes, size, it->graph);
  PyObject *text = PyUnicode_DecodeUTF8((const char *)bytes, (Py_ssize_t)count, NULL);
  if (bytes != room) PyMem_Free(bytes);
  return text;
}

/* Other threads run while the library answers: the caller sees to it that none of them calls the same session. */
static PyObject *answer(PyObject *module, PyObject *const *given, Py_ssize_t count) {
  (void)module;
  if (count != ADDRESSES + 1) return PyErr_Format(PyExc_TypeError, "%d are given, and not %zd", ADDRESSES + 1, count);
  places it;
  Py_ssize_t size = 0;
  if (!took_places(given, &it)) return NULL;
  const char *line = bytes_of(given[ADDRESSES], &size);
  if (line == NULL) return NULL;
  uint32_t how = SAID;
  Py_BEGIN_ALLOW_THREADS
  how = it.answer(*it.graph, (const uint8_t *)line, (size_t)size, it.text_size, it.graph);
  Py_END_ALLOW_THREADS
  return how == SAID ? text_of(&it) : PyLong_FromUnsignedLong(how);
}

PyDoc_STRVAR(answer_says, "The text that the library says to a line, or how the call ended where it says none.");

static PyMethodDef functions[] = {
    {"answer", (PyCFunction)(void (*)(void))answer, METH_FASTCALL, answer_says},
    {NULL, NULL, 0, NULL},
};

static PyModuleDef_Slot slots[] = {{0, NULL}};

static PyModuleDef definition = {
    PyModuleDef_HEAD_INIT, .m_name = "fact_graph._compiled", .m_size = 0, .m_methods = functions, .m_slots = slots,
};

PyMODINIT_FUNC PyInit__compiled(void);

PyMODINIT_FUNC PyInit__compiled(void) { return PyModuleDef_Init(&definition); }
