/*
 * The C interface of the controller pair, declared for one function prefix.
 *
 * Define PREFIX before including this header to choose the prefix (plain_ if
 * it is not defined). The header may be included several times with different
 * prefixes. ../include/cbqri.h says what each function does.
 */
#include <stddef.h>
#include <stdint.h>

#ifndef PREFIX
#define PREFIX plain_
#endif

#ifndef PLAIN_H_MACROS
#define PLAIN_H_MACROS

#define JOIN_NOW(a, b) a##b
#define JOIN(a, b) JOIN_NOW(a, b)
#define NAME(function) JOIN(PREFIX, function)

/* The slices of a call as parameters; Q is const or nothing. */
#define BANDWIDTH_SLICES(Q)                                                    \
    Q uint8_t *record, size_t record_len, Q uint8_t *active,                   \
        size_t active_len, Q uint8_t *configured, size_t configured_len,       \
        Q uint8_t *used, size_t used_len, Q uint8_t *counters,                 \
        size_t counters_len, Q uint8_t *events, size_t events_len,             \
        Q uint8_t *waiters, size_t waiters_len
#define CAPACITY_SLICES(Q)                                                     \
    Q uint8_t *record, size_t record_len, Q uint8_t *masks, size_t masks_len,  \
        Q uint8_t *counters, size_t counters_len, Q uint8_t *events,           \
        size_t events_len, Q uint8_t *owners, size_t owners_len

#endif

uint64_t NAME(bandwidth_reset)(uint64_t nbwblks, uint64_t mrbwb, uint64_t nr,
                               uint64_t na, uint64_t nm, uint64_t q, uint64_t w,
                               BANDWIDTH_SLICES());
uint64_t NAME(bandwidth_read)(BANDWIDTH_SLICES(const), uint64_t size,
                              uint64_t offset, uint64_t *value);
uint64_t NAME(bandwidth_write)(BANDWIDTH_SLICES(), uint64_t size,
                               uint64_t offset, uint64_t value);
uint64_t NAME(bandwidth_request)(BANDWIDTH_SLICES(), uint64_t rcid,
                                 uint64_t mcid, uint64_t at, uint64_t kind,
                                 uint32_t bytes, uint64_t *reserved, uint64_t *pool);
uint64_t NAME(bandwidth_device_request)(BANDWIDTH_SLICES(), uint64_t mode,
                                        uint64_t word, uint64_t at, uint64_t kind,
                                        uint32_t bytes, uint64_t *reserved, uint64_t *pool);
uint64_t NAME(bandwidth_wait)(BANDWIDTH_SLICES(), uint64_t rcid, uint64_t mcid,
                              uint64_t at, uint64_t kind, uint32_t bytes);
uint64_t NAME(bandwidth_need)(BANDWIDTH_SLICES(const), uint64_t rcid, uint64_t *need);
uint64_t NAME(bandwidth_end_window)(BANDWIDTH_SLICES());

uint64_t NAME(capacity_reset)(uint64_t ncblks, uint64_t nr, uint64_t na,
                              uint64_t nm, uint64_t w, uint64_t u, CAPACITY_SLICES());
uint64_t NAME(capacity_read)(CAPACITY_SLICES(const), uint64_t size,
                             uint64_t offset, uint64_t *value);
uint64_t NAME(capacity_write)(CAPACITY_SLICES(), uint64_t size, uint64_t offset,
                              uint64_t value);
uint64_t NAME(capacity_fill)(CAPACITY_SLICES(), uint64_t rcid, uint64_t mcid,
                             uint64_t at, uint64_t unit, uint64_t *allowed);
uint64_t NAME(capacity_evict)(CAPACITY_SLICES(), uint64_t unit);
