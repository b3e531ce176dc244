/* What the library has beside the proved engine: the interface's version as the name of a function, and the version and
 * the commit to be told at run time. It has no data, and the engine calls none of it. */
#include "engine.h"

#ifndef ENGINE_COMMIT
#error "the Makefile tells the commit: -DENGINE_COMMIT=.."
#endif

void ENGINE_INTERFACE(void)
{
}

uint32_t engine_library_version(void)
{
    return ENGINE_VERSION;
}

const char *engine_library_commit(void)
{
    return ENGINE_COMMIT;
}
