/* As much as the bindings use. The compiler's own has macros with names of the kernel's functions. */
#ifndef LINUX_STDATOMIC_H
#define LINUX_STDATOMIC_H
#define memory_order_relaxed __ATOMIC_RELAXED
#define memory_order_acquire __ATOMIC_ACQUIRE
#define memory_order_release __ATOMIC_RELEASE
#define memory_order_seq_cst __ATOMIC_SEQ_CST
#define atomic_load_explicit(at, order) __atomic_load_n(at, order)
#define atomic_store_explicit(at, is, order) __atomic_store_n(at, is, order)
#define atomic_exchange_explicit(at, is, order) __atomic_exchange_n(at, is, order)
#define atomic_load(at) __atomic_load_n(at, __ATOMIC_SEQ_CST)
#define atomic_store(at, is) __atomic_store_n(at, is, __ATOMIC_SEQ_CST)
#define atomic_exchange(at, is) __atomic_exchange_n(at, is, __ATOMIC_SEQ_CST)
#define atomic_compare_exchange_strong(at, was, is) \
    __atomic_compare_exchange_n(at, was, is, false, __ATOMIC_SEQ_CST, __ATOMIC_SEQ_CST)
#define atomic_compare_exchange_weak(at, was, is) \
    __atomic_compare_exchange_n(at, was, is, true, __ATOMIC_SEQ_CST, __ATOMIC_SEQ_CST)
#endif
