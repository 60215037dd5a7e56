/* Open registries: their references, whose turn it is, and scratch memory. */
#include "native.h"
#include <pthread.h>
#include <sched.h>

enum { SHALLOW = 64, DEEP_STACK = 1 << 21 };

/* All interpreters read it, and it only changes while the process has one thread. */
static unsigned forks;

/* A child process begins, whose one thread makes no call. */
void note_fork(void) {
    forks++;
}

/* Forgets the calls of the parent process, which go on there. */
static void forget_calls_of_parent(struct shared *shared) {
    if (shared->forks == forks) return;
    shared->forks = forks;
    shared->is_torn |= shared->is_written;
    shared->is_written = false;
    shared->readers = 0;
    shared->first = NULL;
}

/* Returns whether no session of the registry may be used. */
bool is_torn(struct shared *shared) {
    forget_calls_of_parent(shared);
    return shared->is_torn;
}

struct shared *open_shared(PyObject *module, const struct source *source) {
    size_t length = source->length;
    struct shared *shared = calloc(1, sizeof *shared);
    if (!shared) return (struct shared *)PyErr_NoMemory();
    scaleview_answer answer;
    PyThreadState *state = length >= LONG_INPUT ? PyEval_SaveThread() : NULL;
    uint32_t code =
        scaleview_open(source->bytes, length, source->flags, &shared->registry, &answer);
    if (state) PyEval_RestoreThread(state);
    if (code != SCALEVIEW_OK) {
        free(shared);
        raise_unopened(state_of(module), &answer, source->before);
        return NULL;
    }
    shared->references = 1;
    shared->module = new_ref(module);
    shared->state = state_of(module);
    shared->forks = forks;
    shared->count = (uint32_t)answer.length;
    shared->version = answer.from;
    shared->has_bits = source->flags & SCALEVIEW_BITS;
    shared->end = source->before + answer.at;
    shared->infos = calloc(answer.length + 1, sizeof *shared->infos);
    if (!shared->infos) {
        release(shared);
        return (struct shared *)PyErr_NoMemory();
    }
    return shared;
}

struct shared *retain(struct shared *shared) {
    shared->references++;
    return shared;
}

static void free_dropped(struct shared *shared) {
    while (shared->dropped && !shared->is_torn) {
        struct held *held = shared->dropped;
        shared->dropped = held->next;
        scaleview_free(&held->session);
        free(held);
    }
}

void release(struct shared *shared) {
    if (--shared->references > 0) return;
    /* A call under way has a reference, so there is none. A torn registry keeps its sessions, and isn't closed. */
    forget_calls_of_parent(shared);
    free_dropped(shared);
    if (!shared->is_torn) scaleview_close(&shared->registry);
    for (uint32_t type = 0; shared->infos && type < shared->count; type++) free_info(shared->infos[type]);
    free(shared->infos);
    free(shared->scratch.nodes);
    free(shared->scratch.bytes);
    Py_DECREF(shared->module);
    free(shared);
}

static bool has_room_for(const struct shared *shared, bool writes) {
    return !shared->is_written && !(writes && shared->readers > 0);
}

static void admit(struct shared *shared, bool writes) {
    if (writes)
        shared->is_written = true;
    else
        shared->readers++;
}

/* Begins a call of the library on a registry or one of its sessions, which `leave` ends. Between the two no function of
 * Python may be called that can run a finalizer, since that could wait for this call. */
void enter(struct shared *shared, bool writes) {
    forget_calls_of_parent(shared);
    if (!shared->first && has_room_for(shared, writes)) {
        admit(shared, writes);
        return;
    }
    struct waiter waiter = {PyThread_allocate_lock(), writes, NULL};
    if (!waiter.lock) {
        while (shared->first || !has_room_for(shared, writes)) {
            Py_BEGIN_ALLOW_THREADS
            sched_yield();
            Py_END_ALLOW_THREADS
        }
        admit(shared, writes);
        return;
    }
    PyThread_acquire_lock(waiter.lock, WAIT_LOCK);
    if (shared->first)
        shared->last->next = &waiter;
    else
        shared->first = &waiter;
    shared->last = &waiter;
    /* Who leaves admits this thread, and then unlocks it. */
    Py_BEGIN_ALLOW_THREADS
    PyThread_acquire_lock(waiter.lock, WAIT_LOCK);
    Py_END_ALLOW_THREADS
    PyThread_release_lock(waiter.lock);
    PyThread_free_lock(waiter.lock);
}

void leave(struct shared *shared) {
    if (shared->is_written)
        shared->is_written = false;
    else
        shared->readers--;
    if (shared->readers == 0) free_dropped(shared);
    while (shared->first && has_room_for(shared, shared->first->writes)) {
        struct waiter *waiter = shared->first;
        shared->first = waiter->next;
        admit(shared, waiter->writes);
        PyThread_release_lock(waiter->lock);
    }
}

/* Frees a session, at once or after the calls under way: a finalizer doesn't wait. */
void drop(struct shared *shared, struct held *held) {
    forget_calls_of_parent(shared);
    held->next = shared->dropped;
    shared->dropped = held;
    if (has_room_for(shared, true)) free_dropped(shared);
}

/* Takes the registry's scratch memory, which is empty if another call has it. */
struct scratch take_scratch(struct shared *shared) {
    struct scratch scratch = shared->scratch;
    shared->scratch = (struct scratch){0};
    return scratch;
}

void give_scratch(struct shared *shared, struct scratch scratch) {
    struct scratch *kept = &shared->scratch;
    if (!kept->nodes && scratch.node_room * sizeof *scratch.nodes <= KEPT_SCRATCH) {
        kept->nodes = scratch.nodes;
        kept->node_room = scratch.node_room;
        scratch.nodes = NULL;
    }
    if (!kept->bytes && scratch.byte_room <= KEPT_SCRATCH) {
        kept->bytes = scratch.bytes;
        kept->byte_room = scratch.byte_room;
        scratch.bytes = NULL;
    }
    free(scratch.nodes);
    free(scratch.bytes);
}

/* Makes room for this many nodes and bytes. What was there is lost. */
int make_room(struct scratch *scratch, size_t nodes, size_t bytes) {
    if (nodes > scratch->node_room) {
        free(scratch->nodes);
        scratch->node_room = 0;
        scratch->nodes = nodes <= SIZE_MAX / sizeof *scratch->nodes ? malloc(nodes * sizeof *scratch->nodes) : NULL;
        if (!scratch->nodes) goto failed;
        scratch->node_room = nodes;
    }
    if (bytes > scratch->byte_room) {
        free(scratch->bytes);
        scratch->byte_room = 0;
        scratch->bytes = malloc(bytes);
        if (!scratch->bytes) goto failed;
        scratch->byte_room = bytes;
    }
    return 0;
failed:
    PyErr_NoMemory();
    return -1;
}

struct stacked {
    uint32_t (*call)(void *);
    void *context;
    uint32_t code;
};

static void *run_stacked(void *context) {
    struct stacked *stacked = context;
    stacked->code = stacked->call(stacked->context);
    return NULL;
}

/* Makes a call that writes JSON of values of this depth. Up to depth 64 a stack of 128 KiB is enough for it; otherwise it
 * is made on a thread with a larger one. No Python function may be called in it. */
uint32_t with_stack(uint16_t depth, uint32_t (*call)(void *), void *context) {
    struct stacked stacked = {call, context, SCALEVIEW_MEMORY};
    pthread_attr_t attributes;
    pthread_t thread;
    if (depth <= SHALLOW) return call(context);
    if (pthread_attr_init(&attributes)) return SCALEVIEW_MEMORY;
    if (!pthread_attr_setstacksize(&attributes, DEEP_STACK) && !pthread_create(&thread, &attributes, run_stacked, &stacked))
        pthread_join(thread, NULL);
    pthread_attr_destroy(&attributes);
    return stacked.code;
}
