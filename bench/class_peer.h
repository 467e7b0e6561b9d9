/* The unproved desk call that the proved one is measured against: straightforward C, on a sheet in place. */
#ifndef CLASS_PEER_H
#define CLASS_PEER_H

#include "../include/foliokettle.h"

foliokettle_told peer_call(const uint64_t *table, size_t rows, size_t d, foliokettle_sheet *sheet, size_t desk,
                           uint64_t kind, uint64_t n, size_t *list, size_t places);

#endif
