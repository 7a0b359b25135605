/* Calls of host and hypervisor, and of those on guests the loan of a page; the others refuse. */
#include <nvhe/stub.h>

struct host_mmu host_mmu;
static struct hyp_pool host_s2_pool;
static struct hyp_pool *hyp_pool = &host_s2_pool; /* one for both */

/* --- Locks: the host's before the others --- */

static void lock_host(void)
{
#ifndef STUB_UNLOCKED
	hyp_spin_lock(&host_mmu.lock);
#endif
}

static int unlock_host(int result)
{
#ifndef STUB_UNLOCKED
	hyp_spin_unlock(&host_mmu.lock);
#endif
	return result;
}

static void lock_both(void)
{
	lock_host();
#ifndef STUB_UNLOCKED
	hyp_spin_lock(&pkvm_pgd_lock);
#endif
}

static int unlock_both(int result)
{
#ifndef STUB_UNLOCKED
	hyp_spin_unlock(&pkvm_pgd_lock);
#endif
	return unlock_host(result);
}

/* --- Pages --- */

static void set_host(u64 phys, u64 word, int state)
{
	WRITE_ONCE(*stub_word(&host_mmu.pgt, &host_s2_pool, phys), word);
	hyp_phys_to_page(phys)->host = state;
}

static void set_hyp(u64 phys, u64 word, int state)
{
	WRITE_ONCE(*stub_word(&pkvm_pgtable, hyp_pool, (u64)__hyp_va(phys)), word);
	hyp_phys_to_page(phys)->hyp = state;
}

static int host_state(u64 phys)
{
	u64 word = *stub_word(&host_mmu.pgt, &host_s2_pool, phys);

	if (LINUX_HAS_GUESTS)
		return hyp_phys_to_page(phys)->host;
	return word && !(word & 1) ? NONE : (int)(word >> 55 & 3);
}

static int hyp_state(u64 phys)
{
	u64 word = *stub_word(&pkvm_pgtable, hyp_pool, (u64)__hyp_va(phys));

	if (LINUX_HAS_GUESTS)
		return hyp_phys_to_page(phys)->hyp;
	return word & 1 ? (int)(word >> 55 & 3) : NONE;
}

int stub_own(u64 phys, u64 pages)
{
	for (; pages--; phys += PAGE_SIZE) {
		set_host(phys, ANNOTATION, NONE);
		set_hyp(phys, HYP_PAGE | phys, OWNED);
	}
	return 0;
}

static void *stub_va(phys_addr_t phys)
{
	return __hyp_va(phys);
}

/* Both roots, and a pool of the rest. */
int stub_protect_init(void *first, unsigned long pages)
{
	INIT_LIST_HEAD(&host_s2_pool.free_area[0]);
	for (unsigned long i = 0; i < pages; i++)
		hyp_put_page(&host_s2_pool, first + i * PAGE_SIZE);
	host_mmu.pgt = (struct kvm_pgtable){hyp_alloc_pages(&host_s2_pool, 0), 1};
	pkvm_pgtable = (struct kvm_pgtable){hyp_alloc_pages(&host_s2_pool, 0), 1};
	for (unsigned int i = 0; i < hyp_memblock_nr; i++)
		for (u64 at = 0; at < hyp_memory[i].size; at += PAGE_SIZE)
			hyp_phys_to_page(hyp_memory[i].base + at)->hyp = NONE;
	return stub_own(__hyp_pa(first), pages);
}

static int host_share_hyp(u64 pfn)
{
	u64 phys = pfn << PAGE_SHIFT;
#ifdef STUB_BUG
	int state = OWNED; /* the owner's page isn't marked */
#else
	int state = SHARED;
#endif

	if (!stub_is_memory(phys) || host_state(phys) != OWNED || hyp_state(phys) != NONE)
		return -EPERM;
	set_host(phys, HOST_PAGE | phys | STATE(state), state);
	set_hyp(phys, HYP_PAGE | phys | STATE(BORROWED), BORROWED);
	return 0;
}

int __pkvm_host_share_hyp(u64 pfn)
{
	lock_both();
	return unlock_both(host_share_hyp(pfn));
}

static int host_unshare_hyp(u64 pfn)
{
	u64 phys = pfn << PAGE_SHIFT;

	if (!stub_is_memory(phys) || host_state(phys) != SHARED || hyp_state(phys) != BORROWED)
		return -EPERM;
	set_host(phys, HOST_PAGE | phys, OWNED);
	set_hyp(phys, 0, NONE);
	return 0;
}

int __pkvm_host_unshare_hyp(u64 pfn)
{
	lock_both();
	return unlock_both(host_unshare_hyp(pfn));
}

static int host_donate_hyp(u64 pfn, u64 pages)
{
	u64 phys = pfn << PAGE_SHIFT;

	for (u64 i = 0; i < pages; i++)
		if (!stub_is_memory(phys + i * PAGE_SIZE) ||
		    host_state(phys + i * PAGE_SIZE) != OWNED)
			return -EPERM;
	return stub_own(phys, pages);
}

int __pkvm_host_donate_hyp(u64 pfn, u64 pages)
{
	lock_both();
	return unlock_both(host_donate_hyp(pfn, pages));
}

static int hyp_donate_host(u64 pfn, u64 pages)
{
	u64 phys = pfn << PAGE_SHIFT;

	for (u64 i = 0; i < pages; i++)
		if (!stub_is_memory(phys + i * PAGE_SIZE) ||
		    hyp_state(phys + i * PAGE_SIZE) != OWNED)
			return -EPERM;
	for (; pages--; phys += PAGE_SIZE) {
		set_host(phys, HOST_PAGE | phys, OWNED);
		set_hyp(phys, 0, NONE);
	}
	return 0;
}

int __pkvm_hyp_donate_host(u64 pfn, u64 pages)
{
	lock_both();
	return unlock_both(hyp_donate_host(pfn, pages));
}

static void touch(void)
{
	u64 phys = shim_fault;

	if (!stub_is_memory(phys))
		*stub_word(&host_mmu.pgt, &host_s2_pool, phys) = BIT(54) | HOST_PAGE | phys;
	else if (host_state(phys) == NONE && LINUX_HAS_GUESTS)
		inject_host_exception(0);
	else if (host_state(phys) == NONE)
		BUG();
	else if (host_state(phys) == OWNED)
		set_host(phys, HOST_PAGE | phys, OWNED);
}

void handle_host_mem_abort(struct kvm_cpu_context *host)
{
	(void)host;
	lock_host();
	touch();
	unlock_host(0);
}

int __pkvm_host_share_ffa(u64 pfn, u64 pages)
{
	(void)pfn, (void)pages;
	return -EPERM;
}

int __pkvm_host_unshare_ffa(u64 pfn, u64 pages)
{
	(void)pfn, (void)pages;
	return -EPERM;
}

int hyp_pin_shared_mem(void *from, void *to)
{
	(void)from, (void)to;
	return -EPERM;
}

void hyp_unpin_shared_mem(void *from, void *to)
{
	(void)from, (void)to;
}

int kvm_guest_prepare_stage2(struct pkvm_hyp_vm *vm, void *pgd)
{
	vm->pgt = (struct kvm_pgtable){pgd, 1};
	INIT_LIST_HEAD(&vm->pool.free_area[0]);
	memset(pgd, 0, PAGE_SIZE);
	return 0;
}

static inline void kvm_guest_destroy_stage2(struct pkvm_hyp_vm *vm)
{
	hyp_put_page(&vm->pool, vm->pgt.pgd);
}

/* One page; its tables come from the vCPU's list. */
static int share_guest(u64 pfn, u64 gfn, u64 pages, struct pkvm_hyp_vcpu *vcpu,
		       enum kvm_pgtable_prot prot)
{
	struct pkvm_hyp_vm *vm = container_of(vcpu->vcpu.kvm, struct pkvm_hyp_vm, kvm);
	struct kvm_hyp_memcache *list = &vcpu->vcpu.arch.pkvm_memcache;
	u64 phys = pfn << PAGE_SHIFT, word = GUEST_PAGE | phys | (u64)BORROWED << 55;
	kvm_pte_t *at;

	while (list->nr_pages)
		hyp_put_page(&vm->pool, pop_hyp_memcache(list, stub_va));
	at = stub_word(&vm->pgt, &vm->pool, gfn << PAGE_SHIFT);
	if (pages != 1 || !stub_is_memory(phys) || host_state(phys) != OWNED || *at)
		return -EPERM;
	*at = word | (prot & KVM_PGTABLE_PROT_R ? BIT(6) : 0) |
	      (prot & KVM_PGTABLE_PROT_W ? BIT(7) : 0) | (prot & KVM_PGTABLE_PROT_X ? 0 : BIT(54));
	set_host(phys, HOST_PAGE | phys, SHARED);
	hyp_phys_to_page(phys)->host_share_guest_count = 1;
	return 0;
}

int __pkvm_host_share_guest(u64 pfn, u64 gfn, u64 pages, struct pkvm_hyp_vcpu *vcpu,
			    enum kvm_pgtable_prot prot)
{
	struct pkvm_hyp_vm *vm = container_of(vcpu->vcpu.kvm, struct pkvm_hyp_vm, kvm);
	int result;

	lock_host();
	hyp_spin_lock(&vm->lock);
	result = share_guest(pfn, gfn, pages, vcpu, prot);
	hyp_spin_unlock(&vm->lock);
	return unlock_host(result);
}

static int unshare_guest(u64 gfn, u64 pages, struct pkvm_hyp_vm *vm)
{
	kvm_pte_t *at = stub_word(&vm->pgt, &vm->pool, gfn << PAGE_SHIFT);
	u64 phys = *at & ADDRESS;

	if (pages != 1 || !*at)
		return -ENOENT;
	*at = 0;
	set_host(phys, HOST_PAGE | phys, OWNED);
	hyp_phys_to_page(phys)->host_share_guest_count = 0;
	return 0;
}

int __pkvm_host_unshare_guest(u64 gfn, u64 pages, struct pkvm_hyp_vm *vm)
{
	int result;

	lock_host();
	hyp_spin_lock(&vm->lock);
	result = unshare_guest(gfn, pages, vm);
	hyp_spin_unlock(&vm->lock);
	return unlock_host(result);
}

int __pkvm_host_donate_guest(u64 pfn, u64 gfn, struct pkvm_hyp_vcpu *vcpu)
{
	(void)pfn, (void)gfn, (void)vcpu;
	return -EPERM;
}

int __pkvm_guest_share_host(struct pkvm_hyp_vcpu *vcpu, u64 gfn)
{
	(void)vcpu, (void)gfn;
	return -ENOENT;
}

int __pkvm_guest_unshare_host(struct pkvm_hyp_vcpu *vcpu, u64 gfn)
{
	(void)vcpu, (void)gfn;
	return -ENOENT;
}

int __pkvm_host_relax_perms_guest(u64 gfn, struct pkvm_hyp_vcpu *vcpu, enum kvm_pgtable_prot prot)
{
	(void)gfn, (void)vcpu, (void)prot;
	return -EAGAIN;
}

int __pkvm_host_reclaim_page_guest(u64 gfn, struct pkvm_hyp_vm *vm)
{
	(void)gfn, (void)vm;
	return -ENOENT;
}

int __pkvm_host_force_reclaim_page_guest(phys_addr_t phys)
{
	(void)phys;
	return -EPERM;
}
