/* The three calls by which the library takes memory, over malloc, for a processor for which the kit has none. That they
 * do what the library expects is trusted, as of the kit's own: a call tells whether there was memory, and where. */
#include <stdint.h>
#include <stdlib.h>

typedef struct {
    uint64_t there;
    void *at;
} tried;

static unsigned char nothing;

static tried tell(void *at)
{
    tried told = {at != NULL, at ? at : &nothing};
    return told;
}

tried rattle_alloc(size_t size, size_t align)
{
    return tell(malloc(size ? size : align));
}

tried rattle_realloc(void *at, size_t kept, size_t size, size_t align)
{
    (void)kept;
    return tell(realloc(at, size ? size : align));
}

void rattle_dealloc(void *at)
{
    free(at);
}
