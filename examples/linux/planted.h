/* What stands in Linux' place where a bug is planted (plants.txt). */
#define NOTHING(...) 0
#define ALWAYS(...) 1
#define THIRD(a, b, c) (c)
/* A lock that keeps nobody out, and one that isn't there. */
#define LEFT_FREE(lock) shim_leave_free(lock, true)
#define NOT_TAKEN(lock) shim_leave_free(lock, false)
/* The host's page stays as it is where a guest lent it to the host. */
#define UNLESS_LENT(phys, size, owner)                                                             \
	(get_host_state(hyp_phys_to_page(phys)) == PKVM_NOPAGE                                     \
		 ? host_stage2_set_owner_locked(phys, size, owner)                                 \
		 : 0)
