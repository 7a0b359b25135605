/* A small hypervisor in the place of Linux' files, with the names that examples/linux asks for:
 * pages, and no blocks. It keeps the states of pages as the release does that it stands for.
 */
#ifndef STUB_H
#define STUB_H

#include "kernel.h"

typedef u64 kvm_pte_t;

struct kvm_pgtable {
	kvm_pte_t *pgd;
	s8 start_level;
};

struct hyp_page {
	u16 refcount;
	u8 host, hyp;
	u32 host_share_guest_count;
};
#define get_host_state(page) ((page)->host)
#define get_hyp_state(page) ((page)->hyp)

struct hyp_pool {
	hyp_spinlock_t lock;
	struct list_head free_area[1];
	u8 max_order;
};

struct host_mmu {
	struct kvm_arch arch;
	struct kvm_pgtable pgt;
	hyp_spinlock_t lock;
};

struct pkvm_hyp_vm {
	struct kvm kvm;
	struct kvm_pgtable pgt;
	struct hyp_pool pool;
	hyp_spinlock_t lock;
};

struct pkvm_hyp_vcpu {
	struct kvm_vcpu vcpu;
};

enum kvm_pgtable_prot { KVM_PGTABLE_PROT_X = 1, KVM_PGTABLE_PROT_W = 2, KVM_PGTABLE_PROT_R = 4 };

/* Words of level 3: the host's own page, the hypervisor's, and what says that the hypervisor has
 * the host's.
 */
#define HOST_PAGE 0x7fful
#define HYP_PAGE (BIT(54) | 0x743)
#define GUEST_PAGE 0x73ful /* without rights */
#define ADDRESS GENMASK(47, 12)
#if LINUX_HAS_GUESTS
#define ANNOTATION (2ul << 60 | 1ul << 1)
#define STATE(state) 0ul
#else
#define ANNOTATION (1ul << 2)
#define STATE(state) ((u64)(state) << 55)
#endif
enum { OWNED, SHARED, BORROWED, NONE };

extern struct host_mmu host_mmu;
extern struct kvm_pgtable pkvm_pgtable;
extern hyp_spinlock_t pkvm_pgd_lock;
extern u64 __hyp_vmemmap;
extern struct memblock_region hyp_memory[];
extern unsigned int hyp_memblock_nr;

#define __hyp_va(phys) ((void *)((u64)(phys) - (u64)hyp_physvirt_offset))
#define hyp_virt_to_pfn(v) (__hyp_pa(v) >> PAGE_SHIFT)
#define hyp_phys_to_page(phys) (&((struct hyp_page *)__hyp_vmemmap)[(phys) >> PAGE_SHIFT])

static inline phys_addr_t hyp_virt_to_phys(void *v)
{
	return __hyp_pa(v);
}

static inline kvm_pte_t kvm_pte_valid(kvm_pte_t word)
{
	return word & 1;
}

#define kvm_granule_size(level) (PAGE_SIZE << 9 * (3 - (level)))
#define kvm_mmu_cache_min_pages(mmu) ((void)(mmu), 2ul)

bool stub_is_memory(phys_addr_t phys);
void *hyp_alloc_pages(struct hyp_pool *pool, u8 order);
void hyp_put_page(struct hyp_pool *pool, void *page);
/* The word of level 3, with tables on its path. */
kvm_pte_t *stub_word(struct kvm_pgtable *pgt, struct hyp_pool *pool, u64 address);
int kvm_pgtable_get_leaf(struct kvm_pgtable *pgt, u64 address, kvm_pte_t *word, s8 *level);
int kvm_guest_prepare_stage2(struct pkvm_hyp_vm *vm, void *pgd);
void pkvm_hyp_vm_table_init(void *table);
int stub_protect_init(void *first, unsigned long pages);
int stub_own(u64 first, u64 pages);

#endif
