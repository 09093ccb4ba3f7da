/* What a search is refused for (01, "Finding alignment"). */
#ifndef BENCH_SEARCHING_H
#define BENCH_SEARCHING_H

#include "codes.h"

enum { SEARCH_SEEN = DELAMPUK_OCTETS_LINE + 8 };

static inline bool search_refused(size_t length, size_t start) {
    return length > DELAMPUK_OCTETS_RECORDING || start > length || length - start < SEARCH_SEEN;
}

#endif
