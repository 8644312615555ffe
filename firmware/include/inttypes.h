/* Formats of the exact-width types of rv64. */
#ifndef FIRMWARE_INTTYPES_H
#define FIRMWARE_INTTYPES_H

#include <stdint.h>

#define PRIu32 "u"
#define PRIu64 "lu"
#define PRIx64 "lx"

#endif
