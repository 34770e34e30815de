/* How much memory the library has, and had at most. */
#include <stddef.h>

extern size_t heap_now, heap_most;
/* From this number of requests on each is refused. */
extern size_t heap_refuses_from;
