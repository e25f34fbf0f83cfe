/* The hooks of the heap, for programs that have none: over malloc. */
#include "facing_heap.h"
#include <stdlib.h>

static facing_room room_at(void *at) {
    static char nowhere;
    facing_room room = {at != NULL, at != NULL ? at : &nowhere};
    return room;
}

facing_room facing_alloc(size_t size, size_t align) {
    return room_at(malloc(size != 0 ? size : align));
}

facing_room facing_realloc(void *at, size_t old_size, size_t size, size_t align) {
    (void)old_size;
    return room_at(realloc(at, size != 0 ? size : align));
}

void facing_dealloc(void *at) {
    free(at);
}
