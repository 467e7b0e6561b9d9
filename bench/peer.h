/* The unproved DISTINCT that the proved one is measured against. It has the interface and the refusals
   of the library, so that both sides do the same work. */
#ifndef PEER_H
#define PEER_H

#include <stddef.h>
#include <stdint.h>

/* A view is `rows` sets of values, each a number read as bits; every value is below d. The positions of the
   kept rows go to the front of the list, ascending, and their number is answered. SIZE_MAX is a refusal, with
   nothing written: d is 0 or above 64, there are more than 320 rows, the list has fewer places than the view has
   rows, or a row is empty or has a value d or above. */
size_t peer_distinct(size_t d, const uint64_t *view, size_t rows, size_t *list, size_t places);

#endif
