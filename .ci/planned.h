/* Goes before the source of a host (`-include`): notes each step that it makes on a 64-bit word, for .ci/planned.c. */
#ifndef PLANNED_H
#define PLANNED_H

#define _GNU_SOURCE
#include <stdatomic.h>
#include <stdint.h>

uint64_t noted_load(_Atomic uint64_t *at);
void noted_store(_Atomic uint64_t *at, uint64_t value);
_Bool noted_exchange(_Atomic uint64_t *at, uint64_t *expected, uint64_t value);

static inline uint32_t load_32(_Atomic uint32_t *at) {
    return atomic_load_explicit(at, memory_order_seq_cst);
}

static inline void store_32(_Atomic uint32_t *at, uint32_t value) {
    atomic_store_explicit(at, value, memory_order_seq_cst);
}

#undef atomic_load
#undef atomic_store
#undef atomic_compare_exchange_strong
#define atomic_load(at) _Generic((at), _Atomic uint64_t * : noted_load, _Atomic uint32_t * : load_32)(at)
#define atomic_store(at, value) _Generic((at), _Atomic uint64_t * : noted_store, _Atomic uint32_t * : store_32)(at, value)
#define atomic_compare_exchange_strong(at, expected, value) noted_exchange(at, expected, value)

#endif
