/* What the processor has, and what the sources do to it: registers, barriers, TLBs, caches. None of
 * these is part of the model, so all are empty but for those that the sources read back.
 */
#ifndef SHIM_MACHINE_H
#define SHIM_MACHINE_H

#define isb() ((void)0)
#define dsb(kind) ((void)0)
#define asm(...) ((void)0)
#define ALTERNATIVE(...)
#define __tlbi(...) ((void)0)
#define __tlbi_level(op, addr, level) ((void)(addr), (void)(level))
#define __TLBI_VADDR(addr, asid) (addr)
#define __tlbi_sync_s1ish_hyp() ((void)0)
#define TLBI_TTL_UNKNOWN (-1)
#define MAX_TLBI_RANGE_PAGES 512
#define kvm_call_hyp(f, ...) ((void)0)
#define kvm_flush_dcache_to_poc(addr, size) ((void)(addr), (void)(size))

static inline void dcache_clean_inval_poc(unsigned long from, unsigned long to)
{
	(void)from, (void)to;
}

static inline void __clean_dcache_guest_page(void *addr, size_t size)
{
	(void)addr, (void)size;
}

static inline void __invalidate_icache_guest_page(void *addr, size_t size)
{
	(void)addr, (void)size;
}

/* ID_AA64MMFR0_EL1.PARange is 36 or 48 bits: these roots are one page, as the model's. */
extern u64 shim_parange;
#define id_aa64mmfr0_el1_sys_val shim_parange
#define id_aa64mmfr1_el1_sys_val 0
#define ID_AA64MMFR0_EL1_PARANGE_SHIFT 0
#define ID_AA64MMFR0_EL1_PARANGE_36 1
#define ID_AA64MMFR0_EL1_PARANGE_48 5
#define ID_AA64MMFR0_EL1_PARANGE_52 6
#define cpuid_feature_extract_unsigned_field(reg, shift) (((reg) >> (shift)) & 15)

static inline u32 id_aa64mmfr0_parange_to_phys_shift(int parange)
{
	static const u32 bits[] = {32, 36, 40, 42, 44, 48, 52};

	return bits[parange];
}

#define get_vmid_bits(mmfr1) 8
#define system_supports_lpa2() false
#define system_supports_bti_kernel() false
#define system_supports_tlb_range() false
#define system_supports_sve() false
#define cpus_have_final_cap(cap) false
#define alternative_has_cap_unlikely(cap) false
#define SVE_SIG_REGS_SIZE(vq) 0
#define sve_vq_from_vl(vl) 0
#define kvm_host_sve_max_vl 0

/* A table has nine bits of an address, and a page twelve. */
#define ARM64_HW_PGTABLE_LEVELS(bits) DIV_ROUND_UP((bits)-12, 9)
#define ARM64_HW_PGTABLE_LEVEL_SHIFT(level) (12 + 9 * (3 - (level)))
#define MT_NORMAL 0
#define MT_DEVICE_nGnRE 4
#define MT_S2_NORMAL 0xf
#define MT_S2_AS_S1 0xf
#define MT_S2_NORMAL_NC 5
#define MT_S2_DEVICE_nGnRE 1
#define PAGE_S2_MEMATTR(attr, ...) ((u64)MT_S2_##attr << 2)

/* VTCR_EL2, as far as the sources read it back. 7.3 has masks where 6.12 has functions. */
#define VTCR_EL2_FLAGS 0UL
#define VTCR_EL2_HA 0
#define VTCR_EL2_DS 0
#define VTCR_EL2_SL0_MASK GENMASK(7, 6)
#define VTCR_EL2_TGRAN_SL0_BASE 2UL
#define VTCR_EL2_LVLS_TO_SL0(levels) FIELD_PREP(VTCR_EL2_SL0_MASK, (levels)-2)
#define VTCR_EL2_LVLS(vtcr) (FIELD_GET(VTCR_EL2_SL0_MASK, (vtcr)) + 2)
#define VTCR_EL2_IPA(vtcr) (64 - ((vtcr)&63))
#define kvm_phys_shift(mmu) (64 - ((mmu)->vtcr & 63))
#if LINUX_VERSION_CODE >= KERNEL_VERSION(7, 0, 0)
#define VTCR_EL2_PS GENMASK(18, 16)
#define VTCR_EL2_T0SZ GENMASK(5, 0)
#define VTCR_EL2_VS BIT(19)
#else
#define VTCR_EL2_PS_SHIFT 16
#define VTCR_EL2_T0SZ(x) (64 - (x))
#define VTCR_EL2_T0SZ_MASK 63
#define VTCR_EL2_SL0_SHIFT 6
#define VTCR_EL2_SL0_TO_LVLS(sl0) ((sl0) + 2)
#define VTCR_EL2_VS_16BIT 0
#define VTCR_EL2_VS_8BIT 0
#endif

/* Once EL2 is up, locks are looked at. */
extern bool shim_is_up;
#define static_branch_likely(key) shim_is_up

#define HCR_VM 1
#define HCR_FWB 0
#define write_sysreg(value, reg) ((void)(value))
#define write_sysreg_hcr(value) ((void)(value))
#define __load_stage2(...) ((void)0)
#define kvm_get_vttbr(mmu) ((mmu)->pgd_phys)
struct arm_smccc_res {
	u64 a0;
};
#define ARM_SMCCC_CPU_WORKAROUND_4193714 0
#define hyp_smccc_1_1_smc(f, res) ((void)(res))

/* A fault of the host: the harness says where, and sees whether an abort is injected. */
extern _Thread_local u64 shim_fault;
extern _Thread_local bool shim_is_injected;
struct kvm_vcpu_fault_info {
	u64 hpfar_el2;
};
#define SYS_ESR 0
#define SYS_SPSR 0
#define read_sysreg_el2(reg) 0
#define HPFAR_MASK (~15UL)
#define HPFAR_EL2_NS BIT(63)
#define HPFAR_EL2_FIPA GENMASK(43, 4)
#define inject_host_exception(esr) ((void)(esr), (void)(shim_is_injected = true))
enum {
	PSR_MODE_MASK = 15,
	PSR_MODE_EL0t = 0,
	ESR_ELx_EC_IABT_LOW = 0x20,
	ESR_ELx_EC_IABT_CUR = 0x21,
	ESR_ELx_EC_DABT_LOW = 0x24,
	ESR_ELx_EC_DABT_CUR = 0x25,
	ESR_ELx_EC_SHIFT = 26,
	ESR_ELx_S1PTW = 128
};
#define ESR_ELx_EC_MASK GENMASK(31, 26)
#define ESR_ELx_EC(esr) FIELD_GET(ESR_ELx_EC_MASK, esr)

static inline bool __get_fault_info(u64 esr, struct kvm_vcpu_fault_info *fault)
{
	(void)esr;
	/* 6.12 looks at all bits, and has none for the world. */
	fault->hpfar_el2 = FIELD_PREP(HPFAR_EL2_FIPA, shim_fault >> PAGE_SHIFT);
#if LINUX_VERSION_CODE >= KERNEL_VERSION(7, 0, 0)
	fault->hpfar_el2 |= HPFAR_EL2_NS;
#endif
	return true;
}

/* Where the hypervisor's vectors and its start are: boot only maps them. */
enum arm64_hyp_spectre_vector {
	HYP_VECTOR_DIRECT,
	HYP_VECTOR_SPECTRE_DIRECT,
	HYP_VECTOR_INDIRECT,
	HYP_VECTOR_SPECTRE_INDIRECT
};
#define __kvm_hyp_vector ((void *)shim_image)
#define __bp_harden_hyp_vecs ((void *)shim_image)
#define __BP_HARDEN_HYP_VECS_SZ PAGE_SIZE
#define __kvm_vector_slot2addr(base, slot) ((void)(slot), (base))
extern unsigned long kvm_hyp_vector[SHIM_CPUS];
#define kvm_system_needs_idmapped_vectors() false
#define NVHE_STACK_SIZE PAGE_SIZE
struct kvm_nvhe_init_params {
	u64 hcr_el2, vttbr, vtcr;
	phys_addr_t pgd_pa, stack_pa;
	unsigned long stack_hyp_va;
};
extern struct kvm_nvhe_init_params kvm_init_params[SHIM_CPUS];

#endif
