/* The module gaffsilver._native: Pattern and Match over the proved engine, with little overhead per call. */
#include "native.h"

State *state_of(PyObject *module) {
  State *state = PyModule_GetState(module);
  if (state && state->is_whole)
    return state;
  PyErr_SetString(PyExc_SystemError, "gaffsilver._native is not initialized");
  return NULL;
}

/* ---- the type of Pattern and Match ---- */

/* The type of `re` whose instances count as those of a type, since patterns that were compiled before remain valid. */
static PyObject *twin_of(const State *state, PyObject *type) {
  if (type == (PyObject *)state->pattern)
    return state->twins[0];
  return type == (PyObject *)state->match ? state->twins[1] : NULL;
}

static PyObject *is_instance(PyObject *type, PyObject *object) {
  const State *state = PyType_GetModuleState(Py_TYPE(type));
  if (!state)
    return NULL;
  bool is_own = PyObject_TypeCheck(object, (PyTypeObject *)type);
  return PyBool_FromLong(is_own || (PyObject *)Py_TYPE(object) == twin_of(state, type));
}

/* `type` does not visit the type of a type, which it takes for a static one. */
static int traverse_type(PyObject *self, visitproc visit, void *arg) {
  Py_VISIT(Py_TYPE(self));
  return PyType_Type.tp_traverse(self, visit, arg);
}

/* Who defines one of the two has to define both. */
static int clear_type(PyObject *self) { return PyType_Type.tp_clear(self); }

static PyMethodDef type_methods[] = {
    {"__instancecheck__", is_instance, METH_O, "Whether an object is of this type, or of that for which it stands."},
    {NULL},
};

static PyType_Slot type_slots[] = {
    {Py_tp_doc, "The type of Pattern and Match."},
    {Py_tp_traverse, traverse_type},
    {Py_tp_clear, clear_type},
    {Py_tp_methods, type_methods},
    {0, NULL},
};

/* Its size is that of `type`. */
static PyType_Spec type_spec = {.name = "gaffsilver.Type", .flags = TYPE_FLAGS, .slots = type_slots};

/* ---- functions ---- */

static PyObject *set_twins(PyObject *module, PyObject *args) {
  PyObject *pattern, *match;
  State *state = state_of(module);
  if (!state || !PyArg_ParseTuple(args, "OO:set_twins", &pattern, &match))
    return NULL;
  Py_XSETREF(state->twins[0], pattern == Py_None ? NULL : Py_NewRef(pattern));
  Py_XSETREF(state->twins[1], match == Py_None ? NULL : Py_NewRef(match));
  Py_RETURN_NONE;
}

static PyMethodDef functions[] = {
    {"compile", pattern_compile, METH_VARARGS,
     "compile($module, pattern, flags, code, groups, groupindex, indexgroup, /)\n--\n\n"
     "A pattern of compiled words, as _sre.compile gives one."},
    {"set_default_max_steps", set_default_max_steps, METH_O,
     "set_default_max_steps($module, max_steps, /)\n--\n\nSets the step limit of a call that has none."},
    {"get_default_max_steps", get_default_max_steps, METH_NOARGS,
     "get_default_max_steps($module, /)\n--\n\nThe step limit of a call that has none, or None."},
    {"set_twins", set_twins, METH_VARARGS,
     "set_twins($module, pattern, match, /)\n--\n\nThe types whose instances count as Pattern and Match, or None."},
    {NULL},
};

/* ---- initialization ---- */

/* The archive and the header may come from two builds. */
static bool has_abi_of_header(void) {
  uint32_t abi = sre_abi();
  if (abi != SRE_ABI)
    PyErr_Format(PyExc_ImportError, "the library in gaffsilver._native has the ABI %u, and this package needs %u",
                 (unsigned)abi, (unsigned)SRE_ABI);
  return abi == SRE_ABI;
}

/* Stores an attribute of a module. */
static bool read_one(const char *name, const char *attribute, PyObject **into) {
  PyObject *module = PyImport_ImportModule(name);
  *into = module ? PyObject_GetAttrString(module, attribute) : NULL;
  Py_XDECREF(module);
  return *into;
}

static bool read_functions(State *state) {
  const char *own = "gaffsilver._shared";
  return read_one(own, "exceeded", &state->exceeded) && read_one(own, "parts_of", &state->parts_of) &&
         read_one(own, "parts_of_text", &state->parts_of_text) && read_one(own, "repr_of", &state->repr_of) &&
         read_one("gaffsilver._unicode", "lists", &state->unicode_lists);
}

/* Makes a type, over a base if there is one. */
static bool make_type(const State *state, PyType_Spec *spec, PyTypeObject *base, PyTypeObject **into) {
  *into = (PyTypeObject *)PyType_FromModuleAndSpec(state->module, spec, (PyObject *)base);
  return *into;
}

/* Makes a type whose type is `state->type`. */
static bool make_instance(const State *state, PyType_Spec *spec, PyTypeObject **into) {
#if PY_VERSION_HEX >= 0x030C0000
  *into = (PyTypeObject *)PyType_FromMetaclass(state->type, state->module, spec, NULL);
#else
  if (make_type(state, spec, NULL, into))
    Py_SET_TYPE(*into, (PyTypeObject *)Py_NewRef(state->type)); /* before it was `type`, which is static */
#endif
  return *into;
}

static bool make_types(PyObject *module, State *state) {
  return make_type(state, &type_spec, &PyType_Type, &state->type) &&
         make_instance(state, &pattern_spec, &state->pattern) && make_instance(state, &match_spec, &state->match) &&
         make_type(state, &matches_spec, NULL, &state->matches) &&
         make_type(state, &scanner_spec, NULL, &state->scanner) &&
         PyModule_AddObjectRef(module, "Pattern", (PyObject *)state->pattern) == 0 &&
         PyModule_AddObjectRef(module, "Match", (PyObject *)state->match) == 0;
}

/* Initializes a module, whose state is zero before. The types come last, so what Python runs meanwhile sees none. */
static int fill(PyObject *module) {
  State *state = PyModule_GetState(module);
  state->module = module;
  state->ascii = (sre_table)SRE_ASCII;
  state->default_max_steps = UINT64_MAX;
  state->is_whole = has_abi_of_header() && read_functions(state) && make_types(module, state);
  return state->is_whole ? 0 : -1;
}

/* ---- its end ---- */

/* The lists are not visited, or the collector would empty them while a pattern can still be called. */
static int traverse(PyObject *module, visitproc visit, void *arg) {
  State *state = PyModule_GetState(module);
  Py_VISIT(state->type);
  Py_VISIT(state->pattern);
  Py_VISIT(state->match);
  Py_VISIT(state->matches);
  Py_VISIT(state->scanner);
  Py_VISIT(state->twins[0]);
  Py_VISIT(state->twins[1]);
  Py_VISIT(state->exceeded);
  Py_VISIT(state->parts_of);
  Py_VISIT(state->parts_of_text);
  Py_VISIT(state->repr_of);
  Py_VISIT(state->unicode_lists);
  return 0;
}

/* Breaks cycles. The types remain for the same reason. A call of a function that is null raises SystemError. */
static int clear(PyObject *module) {
  State *state = PyModule_GetState(module);
  Py_CLEAR(state->twins[0]);
  Py_CLEAR(state->twins[1]);
  Py_CLEAR(state->exceeded);
  Py_CLEAR(state->parts_of);
  Py_CLEAR(state->parts_of_text);
  Py_CLEAR(state->repr_of);
  Py_CLEAR(state->unicode_lists);
  return 0;
}

static void end(void *module) {
  State *state = PyModule_GetState(module);
  clear(module);
  Py_CLEAR(state->pattern);
  Py_CLEAR(state->match);
  Py_CLEAR(state->matches);
  Py_CLEAR(state->scanner);
  Py_CLEAR(state->type);
  Py_CLEAR(state->lists);
}

/* ---- the module ---- */

static PyModuleDef_Slot slots[] = {
    {Py_mod_exec, fill},
#if PY_VERSION_HEX >= 0x030C0000
    {Py_mod_multiple_interpreters, Py_MOD_PER_INTERPRETER_GIL_SUPPORTED},
#endif
    {0, NULL},
};

static struct PyModuleDef definition = {
    PyModuleDef_HEAD_INIT,
    .m_name = "gaffsilver._native",
    .m_doc = "Pattern and Match over the proved engine.",
    .m_size = sizeof(State),
    .m_methods = functions,
    .m_slots = slots,
    .m_traverse = traverse,
    .m_clear = clear,
    .m_free = end,
};

PyMODINIT_FUNC PyInit__native(void) { return PyModuleDef_Init(&definition); }
