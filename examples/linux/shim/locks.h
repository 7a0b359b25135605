/* Locks are real, between threads that stand for CPUs: where one waits for a lock it sleeps, since
 * the others want this machine's processors. One taken twice by a CPU, let go by another, or not
 * taken where the sources say that it is held, stops the machine.
 */
#ifndef SHIM_LOCKS_H
#define SHIM_LOCKS_H

#include <pthread.h>

typedef struct {
	pthread_mutex_t lock;
} hyp_spinlock_t;

#define DEFINE_HYP_SPINLOCK(name) hyp_spinlock_t name

/* This CPU's own: which locks it has. */
bool shim_has(const hyp_spinlock_t *lock);
void shim_take(hyp_spinlock_t *lock);
void shim_let_go(hyp_spinlock_t *lock);
/* For a planted bug: the CPU goes on as if it had the lock, and so do others. Where the harness
 * isn't told it records nothing, as where a lock isn't taken at all.
 */
void shim_leave_free(hyp_spinlock_t *lock, bool is_told);

static inline void hyp_spin_lock_init(hyp_spinlock_t *lock)
{
	pthread_mutex_init(&lock->lock, NULL);
}

static inline void hyp_spin_lock(hyp_spinlock_t *lock)
{
	BUG_ON(shim_has(lock));
	shim_take(lock);
}

static inline void hyp_spin_unlock(hyp_spinlock_t *lock)
{
	BUG_ON(!shim_has(lock));
	shim_let_go(lock);
}

/* While EL2 boots no lock is held, since no other CPU is there yet. */
#define hyp_assert_lock_held(lock) BUG_ON(shim_is_up && !shim_has(lock))

#endif
