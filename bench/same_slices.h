/* Whether two lists of slices with the same lengths have the same bytes; for programs with a C library. */
#ifndef SAME_SLICES_H
#define SAME_SLICES_H

#include "calls.h"

static int same_slices(const struct slice *a, const struct slice *b, int slices)
{
    for (int i = 0; i < slices; i++)
        if (memcmp(a[i].at, b[i].at, a[i].length))
            return 0;
    return 1;
}

#endif
