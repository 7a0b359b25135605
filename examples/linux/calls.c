/* Calls of EL2, and what it keeps. */
#include "kernel.h"
#include <mem_protect.c> /* as it is: the host's pool is static */

#include "harness.h"
#include "side.h"
#include <signal.h>
#include <stdio.h>
#include <stdlib.h>

_Thread_local u64 shim_fault;
_Thread_local bool shim_is_injected;
_Thread_local char shim_where[96];
_Thread_local jmp_buf side_back;
_Thread_local bool side_is_in_call;

/* --- How a call ends --- */

void shim_stop(const char *file, int line, const char *what)
{
	const char *name = strrchr(file, '/');

	snprintf(shim_where, sizeof(shim_where), "%s:%d %s", name ? name + 1 : file, line, what);
	if (!side_is_in_call)
		refuse("EL2 stopped outside a call: %s", shim_where);
	longjmp(side_back, 2);
}

/* EL2 would take a fault of its own, and stop. */
static void on_fault(int signal)
{
	(void)signal;
	shim_stop("EL2", 0, "fault");
}

static void catch_faults(void)
{
	static bool is_done;
	struct sigaction action = {.sa_handler = on_fault, .sa_flags = SA_NODEFER};

	if (is_done)
		return;
	is_done = true;
	sigaction(SIGSEGV, &action, NULL);
	sigaction(SIGBUS, &action, NULL);
}

/* --- Locks --- */

enum { MOST_HELD = 8 };
struct held {
	hyp_spinlock_t *lock;
	bool is_taken, is_told; /* each but where a bug is planted */
};
static _Thread_local struct held held[MOST_HELD];
static _Thread_local unsigned int held_len;

bool shim_has(const hyp_spinlock_t *lock)
{
	for (unsigned int i = 0; i < held_len; i++)
		if (held[i].lock == lock)
			return true;
	return false;
}

/* The tree that the lock guards: that of a pool, or of the table of VMs, guards none. */
static bool is_tree_of(const hyp_spinlock_t *lock, uint64_t *tree);

static void note(struct held it)
{
	uint64_t tree;

	BUG_ON(held_len == MOST_HELD);
	held[held_len++] = it;
	if (shim_is_up && it.is_told && is_tree_of(it.lock, &tree))
		tree_taken(tree);
}

void shim_take(hyp_spinlock_t *lock)
{
	/* Where CPUs take turns, the one that has the lock gets one. */
	while (pthread_mutex_trylock(&lock->lock)) {
		if (!lock_met()) {
			pthread_mutex_lock(&lock->lock);
			break;
		}
	}
	note((struct held){lock, true, true});
}

void shim_leave_free(hyp_spinlock_t *lock, bool is_told)
{
	note((struct held){lock, false, is_told});
}

void shim_let_go(hyp_spinlock_t *lock)
{
	unsigned int i = 0;
	uint64_t tree;

	while (held[i].lock != lock)
		i++;
	if (shim_is_up && held[i].is_told && is_tree_of(lock, &tree))
		tree_let_go(tree);
	if (held[i].is_taken)
		pthread_mutex_unlock(&lock->lock);
	held[i] = held[--held_len];
}

static void let_go_of_all(void)
{
	while (held_len)
		shim_let_go(held[held_len - 1].lock);
}

void shim_meet(bool is_written)
{
	word_met(is_written);
}

/* --- A call --- */

static struct ended ended_with(int result)
{
	return (struct ended){.error = -result};
}

/* The machine would stand still. Here the next call is made on what this one left. */
static struct ended ended_by_stop(void)
{
	struct ended ended = {.is_stopped = true};

	let_go_of_all();
	memcpy(ended.where, shim_where, sizeof(ended.where));
	return ended;
}

/* A statement that sets `result`, made as a call. */
#define CALL(statement)                                                                            \
	({                                                                                         \
		volatile int result = 0;                                                           \
		struct ended call_ended;                                                           \
                                                                                                   \
		catch_faults();                                                                    \
		side_is_in_call = true;                                                            \
		if (!setjmp(side_back)) {                                                          \
			statement;                                                                 \
			call_ended = ended_with(result);                                           \
		} else {                                                                           \
			call_ended = ended_by_stop();                                              \
		}                                                                                  \
		side_is_in_call = false;                                                           \
		call_ended;                                                                        \
	})

/* --- What EL2 keeps --- */

bool linux_is_text(uint64_t frame)
{
	phys_addr_t text = __hyp_pa(__hyp_text_start), end = __hyp_pa(__hyp_text_end);

	return frame >= text >> PAGE_SHIFT && frame < end >> PAGE_SHIFT;
}

const uint64_t *linux_table(uint64_t frame)
{
	return __hyp_va(frame << PAGE_SHIFT);
}

unsigned int linux_pins(uint64_t frame)
{
	return hyp_phys_to_page(frame << PAGE_SHIFT)->refcount;
}

void linux_pages(uint64_t tree, struct linux_page *pages, size_t len)
{
#if LINUX_HAS_GUESTS
	for (size_t r = 0, i = 0; r < machine.regions_len; r++) {
		const struct pkvm_region *it = &machine.regions[r];
		struct hyp_page *page = hyp_phys_to_page(it->first << PAGE_SHIFT);

		for (u64 k = 0; !it->kind && k < it->count && i < len; k++, i++, page++) {
			if (tree == HYP)
				pages[i] = (struct linux_page){.hyp = get_hyp_state(page)};
			else
				pages[i] = (struct linux_page){
					.host = get_host_state(page),
					.borrowers = page->host_share_guest_count};
		}
	}
#else
	(void)tree, (void)pages, (void)len;
#endif
}

static size_t free_of(struct hyp_pool *pool, uint64_t *frames, size_t room)
{
	size_t len = 0;

	for (int order = 0; order <= pool->max_order; order++) {
		struct list_head *list = &pool->free_area[order], *it;

		/* A list that a bug broke may have no end. */
		for (it = list->next; it != list && len < room; it = it->next)
			for (u64 k = 0; k < 1ul << order && len < room; k++)
				frames[len++] = hyp_virt_to_pfn(it) + k;
	}
	return len;
}

static struct ended abort_of(uint64_t page)
{
	struct ended ended;

	shim_fault = page << PAGE_SHIFT;
	shim_is_injected = false;
	ended = CALL(handle_host_mem_abort(NULL));
	if (shim_is_injected)
		ended.error = EPERM;
	return ended;
}

#if !LINUX_HAS_GUESTS

static bool is_tree_of(const hyp_spinlock_t *lock, uint64_t *tree)
{
	*tree = lock == &host_mmu.lock ? HOST : HYP;
	return lock == &host_mmu.lock || lock == &pkvm_pgd_lock;
}

struct linux_tree linux_tree(uint64_t tree)
{
	struct kvm_pgtable *it = tree == HOST ? &host_mmu.pgt : &pkvm_pgtable;

	return (struct linux_tree){__hyp_pa(it->pgd) >> PAGE_SHIFT, (uint64_t)it->start_level, 1};
}

size_t linux_free_frames(uint64_t tree, uint64_t *frames, size_t room)
{
	return free_of(tree == HOST ? &host_s2_pool : side_hyp_pool(), frames, room);
}

struct ended linux_call(const struct pkvm_step *step, uint64_t slot)
{
	const uint64_t *a = step->arguments;

	(void)slot;
	switch (step->call) {
	case PKVM_SHARE_HYP:
		return CALL(result = __pkvm_host_share_hyp(a[0]));
	case PKVM_UNSHARE_HYP:
		return CALL(result = __pkvm_host_unshare_hyp(a[0]));
	case PKVM_DONATE_HYP:
		return CALL(result = __pkvm_host_donate_hyp(a[0], a[1]));
	case PKVM_HYP_DONATE_HOST:
		return CALL(result = __pkvm_hyp_donate_host(a[0], a[1]));
	default:
		return abort_of(a[0]);
	}
}

struct ended linux_guest_make(uint64_t slot, bool is_protected, uint64_t root)
{
	(void)slot, (void)is_protected, (void)root;
	return ended_with(-EINVAL);
}

void linux_guest_give(uint64_t slot, uint64_t frame)
{
	(void)slot, (void)frame;
}

bool linux_guest_take(uint64_t slot, uint64_t frame)
{
	(void)slot, (void)frame;
	return false;
}

void linux_guest_gather(uint64_t slot)
{
	(void)slot;
}

struct ended linux_guest_end(uint64_t slot)
{
	(void)slot;
	return ended_with(-EINVAL);
}

unsigned long linux_guest_needs(void)
{
	return 0;
}

uint64_t linux_guest_leaf(uint64_t slot, uint64_t page)
{
	(void)slot, (void)page;
	return 0;
}

#else

/* --- Guests: one vCPU each stands for all, since a page list is all that a vCPU has here --- */

enum { HANDLE_OF_SLOT_0 = 0x1000 };

static struct pkvm_hyp_vm *vm_of[SLOTS];
static struct pkvm_hyp_vcpu vcpu_of[SLOTS];
hyp_spinlock_t vm_table_lock;

struct pkvm_hyp_vm *get_vm_by_handle(pkvm_handle_t handle)
{
	unsigned int slot = handle - HANDLE_OF_SLOT_0;

	return slot < SLOTS ? vm_of[slot] : NULL;
}

static bool is_tree_of(const hyp_spinlock_t *lock, uint64_t *tree)
{
	*tree = lock == &host_mmu.lock ? HOST : HYP;
	if (lock == &host_mmu.lock || lock == &pkvm_pgd_lock)
		return true;
	for (*tree = GUEST; *tree < TREES; ++*tree)
		if (vm_of[*tree - GUEST] && lock == &vm_of[*tree - GUEST]->lock)
			return true;
	return false;
}

struct linux_tree linux_tree(uint64_t tree)
{
	struct kvm_pgtable *it = tree == HOST ? &host_mmu.pgt
				 : tree == HYP ? &pkvm_pgtable
					       : &vm_of[tree - GUEST]->pgt;

	return (struct linux_tree){__hyp_pa(it->pgd) >> PAGE_SHIFT, (uint64_t)it->start_level, 1};
}

static struct kvm_hyp_memcache *list_of(uint64_t slot)
{
	return &vcpu_of[slot].vcpu.arch.pkvm_memcache;
}

size_t linux_free_frames(uint64_t tree, uint64_t *frames, size_t room)
{
	size_t len = 0;

	if (tree < GUEST)
		return free_of(tree == HOST ? &host_s2_pool : side_hyp_pool(), frames, room);
	if (!vm_of[tree - GUEST])
		return 0;
	len = free_of(&vm_of[tree - GUEST]->pool, frames, room);
	phys_addr_t at = list_of(tree - GUEST)->head;

	for (unsigned long n = list_of(tree - GUEST)->nr_pages; n && len < room; n--) {
		frames[len++] = at >> PAGE_SHIFT;
		at = *(phys_addr_t *)__hyp_va(at);
	}
	return len;
}

static enum kvm_pgtable_prot prot_of(uint64_t rights)
{
	return (rights & 4 ? KVM_PGTABLE_PROT_R : 0) | (rights & 2 ? KVM_PGTABLE_PROT_W : 0) |
	       (rights & 1 ? KVM_PGTABLE_PROT_X : 0);
}

struct ended linux_call(const struct pkvm_step *step, uint64_t slot)
{
	const uint64_t *a = step->arguments;
	struct pkvm_hyp_vcpu *vcpu = &vcpu_of[slot];

	switch (step->call) {
	case PKVM_SHARE_HYP:
		return CALL(result = __pkvm_host_share_hyp(a[0]));
	case PKVM_UNSHARE_HYP:
		return CALL(result = __pkvm_host_unshare_hyp(a[0]));
	case PKVM_DONATE_HYP:
		return CALL(result = __pkvm_host_donate_hyp(a[0], a[1]));
	case PKVM_HYP_DONATE_HOST:
		return CALL(result = __pkvm_hyp_donate_host(a[0], a[1]));
	case PKVM_SHARE_GUEST:
		return CALL(result =
				    __pkvm_host_share_guest(a[0], a[1], a[3], vcpu, prot_of(a[2])));
	case PKVM_UNSHARE_GUEST:
		return CALL(result = __pkvm_host_unshare_guest(a[2], 1, vm_of[slot]));
	case PKVM_DONATE_GUEST:
		return CALL(result = __pkvm_host_donate_guest(a[0], a[1], vcpu));
	case PKVM_GUEST_SHARE_HOST:
		return CALL(result = __pkvm_guest_share_host(vcpu, a[0]));
	case PKVM_GUEST_UNSHARE_HOST:
		return CALL(result = __pkvm_guest_unshare_host(vcpu, a[0]));
	case PKVM_GUEST_RELAX:
		return CALL(result = __pkvm_host_relax_perms_guest(a[0], vcpu, prot_of(a[1])));
	case PKVM_RECLAIM_PAGE:
		return CALL(result = __pkvm_host_reclaim_page_guest(a[2], vm_of[slot]));
	default:
		return abort_of(a[0]);
	}
}

static struct pkvm_hyp_vm *new_vm(uint64_t slot, bool is_protected)
{
	struct pkvm_hyp_vm *vm = calloc(1, sizeof(*vm));
	struct kvm_s2_mmu *mmu;

	if (!vm)
		refuse("out of memory");
	free(vm_of[slot]);
	vm_of[slot] = vm;
	mmu = &vm->kvm.arch.mmu;
	mmu->arch = &vm->kvm.arch;
	mmu->pgt = &vm->pgt;
	mmu->vtcr = host_mmu.arch.mmu.vtcr;
	vm->kvm.arch.pkvm.handle = (pkvm_handle_t)(HANDLE_OF_SLOT_0 + slot);
	vm->kvm.arch.pkvm.is_protected = is_protected;
	vcpu_of[slot] = (struct pkvm_hyp_vcpu){.vcpu.kvm = &vm->kvm, .vcpu.arch.hw_mmu = mmu};
	return vm;
}

struct ended linux_guest_make(uint64_t slot, bool is_protected, uint64_t root)
{
	struct pkvm_hyp_vm *vm = new_vm(slot, is_protected);

	return CALL(result = kvm_guest_prepare_stage2(vm, __hyp_va(root << PAGE_SHIFT)));
}

/* At the list's end: the frames that were there first are used first. */
void linux_guest_give(uint64_t slot, uint64_t frame)
{
	struct kvm_hyp_memcache *list = list_of(slot);
	phys_addr_t *last = &list->head;

	for (unsigned long n = list->nr_pages; n; n--)
		last = __hyp_va(*last);
	*last = frame << PAGE_SHIFT;
	*(phys_addr_t *)__hyp_va(*last) = 0;
	list->nr_pages++;
	hyp_phys_to_page(frame << PAGE_SHIFT)->refcount = 0;
}

bool linux_guest_take(uint64_t slot, uint64_t frame)
{
	struct kvm_hyp_memcache *list = list_of(slot);
	phys_addr_t *at = &list->head;

	for (unsigned long n = list->nr_pages; n; n--) {
		if (*at == frame << PAGE_SHIFT) {
			*at = *(phys_addr_t *)__hyp_va(*at);
			list->nr_pages--;
			return true;
		}
		at = __hyp_va(*at);
	}
	return false;
}

void linux_guest_gather(uint64_t slot)
{
	void *page;

	if (!vm_of[slot])
		return;
	while ((page = hyp_alloc_pages(&vm_of[slot]->pool, 0)))
		linux_guest_give(slot, hyp_virt_to_pfn(page));
}

struct ended linux_guest_end(uint64_t slot)
{
	struct ended ended = CALL(kvm_guest_destroy_stage2(vm_of[slot]));

	linux_guest_gather(slot);
	return ended;
}

#ifdef CONFIG_NVHE_EL2_DEBUG
/* The VM of Linux' own self-test, which the boot runs: pkvm.c makes it there. */
struct pkvm_hyp_vcpu *init_selftest_vm(void *base)
{
	WARN_ON(kvm_guest_prepare_stage2(new_vm(0, false), base));
	for (unsigned long i = 1; i < pkvm_selftest_pages(); i++)
		linux_guest_give(0, hyp_virt_to_pfn(base) + i);
	return &vcpu_of[0];
}

void teardown_selftest_vm(void)
{
	vm_of[0] = NULL;
}
#endif

unsigned long linux_guest_needs(void)
{
	return kvm_mmu_cache_min_pages(&host_mmu.arch.mmu);
}

uint64_t linux_guest_leaf(uint64_t slot, uint64_t page)
{
	kvm_pte_t word;
	s8 level;

	if (kvm_pgtable_get_leaf(&vm_of[slot]->pgt, page << PAGE_SHIFT, &word, &level) ||
	    !kvm_pte_valid(word))
		return 0;
	return kvm_granule_size(level) >> PAGE_SHIFT;
}

#endif

/* --- Calls that the model hasn't --- */

bool linux_has_other(const char *name)
{
	return !strcmp(name, "share_ffa") || !strcmp(name, "unshare_ffa") || !strcmp(name, "pin") ||
	       !strcmp(name, "unpin") || (LINUX_HAS_GUESTS && !strcmp(name, "force_reclaim"));
}

struct ended linux_other(const char *name, uint64_t frame, uint64_t count)
{
	char *at = __hyp_va(frame << PAGE_SHIFT);

	if (!strcmp(name, "share_ffa"))
		return CALL(result = __pkvm_host_share_ffa(frame, count));
	if (!strcmp(name, "unshare_ffa"))
		return CALL(result = __pkvm_host_unshare_ffa(frame, count));
	if (!strcmp(name, "pin"))
		return CALL(result = hyp_pin_shared_mem(at, at + PAGE_SIZE));
	if (!strcmp(name, "unpin"))
		return CALL(hyp_unpin_shared_mem(at, at + PAGE_SIZE));
#if LINUX_HAS_GUESTS
	return CALL(result = __pkvm_host_force_reclaim_page_guest(frame << PAGE_SHIFT));
#else
	return ended_with(-EINVAL);
#endif
}
