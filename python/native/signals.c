/* Signals during a call of the engine. A run of its machine makes a small memory request once for some thousand steps.
 * These functions stand before malloc and realloc in the extension: they run the handlers of signals, and if one of
 * them raises an exception, they refuse all requests from then on, which ends the call. */
#include "native.h"

#include <time.h>

/* A call looks for signals once for so many requests, so a short one does not; and if it has to wait for the lock, once
 * in so many nanoseconds. */
#define REQUESTS_A_LOOK 16
#define BETWEEN_LOOKS 10000000

void *__real_malloc(size_t size);
void *__real_realloc(void *block, size_t size);
void *__wrap_malloc(size_t size);
void *__wrap_realloc(void *block, size_t size);

/* The call that this thread makes, if signals may end it. By this model no function is called to find it. */
static _Thread_local EngineCall *current __attribute__((tls_model("initial-exec")));

static int64_t now(void) {
  struct timespec time;
  clock_gettime(CLOCK_MONOTONIC, &time);
  return (int64_t)time.tv_sec * 1000000000 + time.tv_nsec;
}

/* Whether Python runs the handlers of signals in this thread: in the oldest one of the main interpreter. The list of
 * threads begins with the newest, and an entry behind the own one is only compared with null. */
static bool runs_handlers(void) {
  PyThreadState *own = PyThreadState_Get();
  return PyThreadState_GetInterpreter(own) == PyInterpreterState_Main() && !PyThreadState_Next(own);
}

void engine_call_begin(EngineCall *call, const Text *text, bool others_run) {
  *call = (EngineCall){.outer = current};
  /* A handler might change a text that is not fixed. A thread without handlers need not wait for the lock. */
  current = text->is_fixed && (!others_run || runs_handlers()) ? call : NULL;
  if (others_run) {
    call->looked = now();
    call->saved = PyEval_SaveThread();
  }
}

bool engine_call_end(EngineCall *call) {
  current = call->outer;
  if (call->saved)
    PyEval_RestoreThread(call->saved);
  return call->is_stopped;
}

/* Runs the handlers of signals that came. A handler may call the engine again. */
static void look(EngineCall *call) {
  if (call->saved) {
    int64_t time = now();
    if (time - call->looked < BETWEEN_LOOKS)
      return;
    call->looked = time;
    PyEval_RestoreThread(call->saved);
  }
  current = NULL;
  call->is_stopped = PyErr_CheckSignals() < 0;
  current = call;
  if (call->saved)
    call->saved = PyEval_SaveThread();
}

static bool is_refused(void) {
  EngineCall *call = current;
  if (!call)
    return false;
  if (!call->is_stopped && ++call->requests % REQUESTS_A_LOOK == 0)
    look(call);
  return call->is_stopped;
}

void *__wrap_malloc(size_t size) { return is_refused() ? NULL : __real_malloc(size); }

void *__wrap_realloc(void *block, size_t size) { return is_refused() ? NULL : __real_realloc(block, size); }
