/* Types, bits, lists and error pointers. */
#ifndef SHIM_BASE_H
#define SHIM_BASE_H

#include <errno.h>
#include <limits.h>
#include <stdbool.h>
#include <stddef.h>
#include <stdint.h>
#include <string.h>

/* compile hands in the release as the kernel writes it. */
#define KERNEL_VERSION(a, b, c) (((a) << 16) + ((b) << 8) + (c))

typedef uint64_t u64;
typedef uint32_t u32;
typedef uint16_t u16;
typedef uint8_t u8;
typedef int64_t s64;
typedef int32_t s32;
typedef int8_t s8;
typedef u64 phys_addr_t;
typedef u64 kvm_pfn_t;
typedef struct {
	int counter;
} atomic_t;
typedef struct {
	s64 counter;
} atomic64_t;
#define atomic64_set(p, v) ((p)->counter = (v))

#define UL(x) x##UL
#define BIT(n) (1UL << (n))
#define BIT_ULL(n) BIT(n)
#define GENMASK(high, low) ((~0UL << (low)) & (~0UL >> (63 - (high))))
#define FIELD_PREP(mask, value) (((u64)(value) << __builtin_ctzll(mask)) & (u64)(mask))
#define FIELD_GET(mask, word) (((u64)(word) & (u64)(mask)) >> __builtin_ctzll(mask))
#define FIELD_FIT(mask, value) (!(((u64)(value) << __builtin_ctzll(mask)) & ~(u64)(mask)))
#define U32_MAX UINT32_MAX

#define ALIGN(x, size) ((__typeof__(x))(((u64)(x) + (size)-1) / (size) * (size)))
#define ALIGN_DOWN(x, size) ((__typeof__(x))((u64)(x) / (size) * (size)))
#define IS_ALIGNED(x, size) ((u64)(x) % (size) == 0)
#define PTR_ALIGN_DOWN(p, size) ((__typeof__(p))ALIGN_DOWN((unsigned long)(p), (size)))
#define DIV_ROUND_UP(n, by) (((n) + (by)-1) / (by))
#define min(a, b)                                                                                  \
	({                                                                                         \
		__typeof__(a) min_a = (a);                                                         \
		__typeof__(b) min_b = (b);                                                         \
		min_a < min_b ? min_a : min_b;                                                     \
	})
#define max(a, b)                                                                                  \
	({                                                                                         \
		__typeof__(a) max_a = (a);                                                         \
		__typeof__(b) max_b = (b);                                                         \
		max_a > max_b ? max_a : max_b;                                                     \
	})
#define container_of(p, type, member) ((type *)((char *)(p)-offsetof(type, member)))
#define size_add(a, b) ((a) + (b))
#define likely(x) (x)
#define unlikely(x) (x)
#define fallthrough __attribute__((fallthrough))
#define unreachable() __builtin_unreachable()
#undef __always_inline
#define __always_inline inline __attribute__((always_inline))
#define __noreturn __attribute__((noreturn))
#define __always_unused __attribute__((unused))
#define __ro_after_init
#define __percpu
#define __rcu
/* A word that other CPUs may read or write: the harness may let them go first. */
void shim_meet(bool is_written);
#define READ_ONCE(x)                                                                               \
	({                                                                                         \
		shim_meet(false);                                                                  \
		*(volatile __typeof__(x) *)&(x);                                                   \
	})
#define WRITE_ONCE(x, v)                                                                           \
	({                                                                                         \
		shim_meet(true);                                                                   \
		*(volatile __typeof__(x) *)&(x) = (v);                                             \
	})
/* Locks order what CPUs do at once. */
#define smp_store_release(p, v) WRITE_ONCE(*(p), v)
#define cmpxchg(p, old, new)                                                                       \
	({                                                                                         \
		shim_meet(true);                                                                   \
		__sync_val_compare_and_swap(p, old, new);                                          \
	})
#define BUILD_BUG_ON(x) _Static_assert(!(x), "")

/* 1 where the option is defined as 1: the name then becomes two arguments. */
#define IS_ENABLED(option) SHIM_ENABLED(option)
#define SHIM_ENABLED(value) SHIM_SECOND(SHIM_COMMA_##value)
#define SHIM_COMMA_1 0,
#define SHIM_SECOND(x) SHIM_TAKE_SECOND(x 1, 0, 0)
#define SHIM_TAKE_SECOND(a, b, ...) b

/* Numbers of errors that the C library may lack. */
#ifndef EHWPOISON
#define EHWPOISON 133
#endif

static inline void *ERR_PTR(long error)
{
	return (void *)error;
}

static inline long PTR_ERR(const void *p)
{
	return (long)p;
}

static inline bool IS_ERR(const void *p)
{
	return (unsigned long)p >= (unsigned long)-4095;
}

struct list_head {
	struct list_head *next, *prev;
};

static inline void INIT_LIST_HEAD(struct list_head *list)
{
	list->next = list->prev = list;
}

static inline void __list_del_entry(struct list_head *entry)
{
	entry->next->prev = entry->prev;
	entry->prev->next = entry->next;
}

static inline void list_add_tail(struct list_head *entry, struct list_head *list)
{
	entry->prev = list->prev;
	entry->next = list;
	list->prev->next = entry;
	list->prev = entry;
}

static inline bool list_empty(const struct list_head *list)
{
	return list->next == list;
}

struct rb_node {
	void *unused[3];
};
struct rb_root_cached {
	void *unused[2];
};

#endif
