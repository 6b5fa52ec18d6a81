/* A heap that counts, and refuses what it is told to: it stands for the kit's lines over malloc, realloc and free. */
#include "heap.h"

#include <stddef.h>
#include <stdlib.h>

long heap_asked, heap_refused_at = -1, heap_live;
bool heap_refuses_on;

struct tried {
    bool ok;
    void *at;
};

static char nothing;

/* The next call is one that is refused. */
static bool refuses(void) {
    long number = heap_asked++;
    return heap_refused_at >= 0 && (heap_refuses_on ? number >= heap_refused_at : number == heap_refused_at);
}

struct tried rattle_alloc(size_t size, size_t align) {
    void *at = refuses() ? NULL : malloc(size ? size : align);
    heap_live += at != NULL;
    return (struct tried){ at != NULL, at ? at : &nothing };
}

struct tried rattle_realloc(void *from, size_t kept, size_t size, size_t align) {
    void *at = refuses() ? NULL : realloc(from, size ? size : align);
    (void)kept;
    return (struct tried){ at != NULL, at ? at : &nothing };
}

void rattle_dealloc(void *at) {
    heap_live--;
    free(at);
}
