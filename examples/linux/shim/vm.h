/* What the sources touch of the kernel's VMs and vCPUs. */
#ifndef SHIM_VM_H
#define SHIM_VM_H

typedef u16 pkvm_handle_t;
struct kvm_arch;
struct kvm_pgtable;

struct kvm_vmid {
	atomic64_t id;
};

/* Only blocks that are split ahead would come from here, which EL2 never does. */
struct kvm_mmu_memory_cache {
	int nobjs;
	void **objects;
};

static inline void *kvm_mmu_memory_cache_alloc(struct kvm_mmu_memory_cache *cache)
{
	return cache->objects[--cache->nobjs];
}

struct kvm_s2_mmu {
	struct kvm_mmu_memory_cache split_page_cache;
	struct kvm_vmid vmid;
	phys_addr_t pgd_phys;
	struct kvm_pgtable *pgt;
	u64 vtcr;
	struct kvm_arch *arch;
};

struct kvm_arch {
	struct kvm_s2_mmu mmu;
	struct {
		pkvm_handle_t handle;
		bool is_protected;
	} pkvm;
};

struct kvm {
	struct kvm_arch arch;
	unsigned int created_vcpus;
};

/* A list of free pages, each with the address of the next in its first word. */
struct kvm_hyp_memcache {
	phys_addr_t head;
	unsigned long nr_pages;
};

static inline void push_hyp_memcache(struct kvm_hyp_memcache *cache, phys_addr_t *page,
				     phys_addr_t (*to_pa)(void *))
{
	*page = cache->head;
	cache->head = to_pa(page);
	cache->nr_pages++;
}

static inline void *pop_hyp_memcache(struct kvm_hyp_memcache *cache, void *(*to_va)(phys_addr_t))
{
	phys_addr_t *page;

	if (!cache->nr_pages)
		return NULL;
	page = to_va(cache->head);
	cache->head = *page;
	cache->nr_pages--;
	return page;
}

static inline int __topup_hyp_memcache(struct kvm_hyp_memcache *cache, unsigned long min_pages,
				       void *(*alloc)(void *), phys_addr_t (*to_pa)(void *),
				       void *arg)
{
	while (cache->nr_pages < min_pages) {
		phys_addr_t *page = alloc(arg);

		if (!page)
			return -ENOMEM;
		push_hyp_memcache(cache, page, to_pa);
	}
	return 0;
}

struct kvm_vcpu {
	struct kvm *kvm;
	struct {
		struct kvm_hyp_memcache pkvm_memcache;
		struct kvm_s2_mmu *hw_mmu;
	} arch;
};

#define kvm_vm_is_protected(kvm) ((kvm)->arch.pkvm.is_protected)
#define vcpu_is_protected(vcpu) ((vcpu)->kvm->arch.pkvm.is_protected)
/* Asked of a guest's own fault alone, which the harness doesn't make. */
#define kvm_vcpu_trap_get_class(vcpu) ((void)(vcpu), 0)
#define kvm_vcpu_trap_is_translation_fault(vcpu) ((void)(vcpu), false)
#define kvm_vcpu_get_fault_ipa(vcpu) ((void)(vcpu), 0)
#define kvm_vcpu_get_hfar(vcpu) ((void)(vcpu), 0)
#define FAR_TO_FIPA_OFFSET(far) (far)
enum {
	KVM_CAP_IRQCHIP,
	KVM_CAP_ARM_PSCI,
	KVM_CAP_ARM_PSCI_0_2,
	KVM_CAP_NR_VCPUS,
	KVM_CAP_MAX_VCPUS,
	KVM_CAP_MAX_VCPU_ID,
	KVM_CAP_MSI_DEVID,
	KVM_CAP_ARM_VM_IPA_SIZE,
	KVM_CAP_ARM_PTRAUTH_ADDRESS,
	KVM_CAP_ARM_PTRAUTH_GENERIC,
	KVM_CAP_ARM_MTE,
	KVM_CAP_ARM_EAGER_SPLIT_CHUNK_SIZE,
	KVM_CAP_ARM_SUPPORTED_BLOCK_SIZES
};
struct kvm *pkvm_vcpu_get_kvm(struct kvm_vcpu *vcpu);
#define kvm_get_cap_for_kvm_ioctl(ioctl, cap) ((void)(ioctl), *(cap) = 0, -EINVAL)
int kvm_check_pvm_sysreg_table(void);

struct kvm_cpu_context {
	u64 regs[31];
};
#define cpu_reg(context, r) ((context)->regs[r])
struct cpu_sve_state {
	int unused;
};
struct arm64_sve_state {
	int unused;
};
struct kvm_host_data {
	struct kvm_cpu_context host_ctxt;
	struct cpu_sve_state *sve_state;
	struct arm64_sve_state *sve_regs;
};
extern struct kvm_host_data kvm_host_data[SHIM_CPUS];
#define host_data_ptr(member) (&this_cpu_ptr(&kvm_host_data)->member)

void __host_enter(struct kvm_cpu_context *context) __noreturn;
void __pkvm_init_switch_pgd(phys_addr_t pgd, unsigned long sp, void (*fn)(void));
int hyp_ffa_init(void *pages);
extern unsigned long hyp_nr_cpus;

#endif
