/* Pages, addresses, and where the kernel's image lies. */
#ifndef SHIM_MEMORY_H
#define SHIM_MEMORY_H

#define CONFIG_ARM64_4K_PAGES 1
#define PAGE_SHIFT 12
#define PAGE_SIZE (1UL << PAGE_SHIFT)
#define PAGE_MASK (-PAGE_SIZE)
#define PMD_SIZE (1UL << 21)
#define PTRS_PER_PTE 512
#define SZ_1G 0x40000000
#define SZ_2M 0x200000
#define PAGE_ALIGN(x) ALIGN((unsigned long)(x), PAGE_SIZE)
#define PAGE_ALIGNED(x) IS_ALIGNED((unsigned long)(x), PAGE_SIZE)
#define offset_in_page(p) ((unsigned long)(p) % PAGE_SIZE)
#define __phys_to_pfn(p) ((p) >> PAGE_SHIFT)
#define MAX_PAGE_ORDER 10
#define NR_PAGE_ORDERS 11

static inline int get_order(unsigned long size)
{
	int order = 0;

	while ((PAGE_SIZE << order) < size)
		order++;
	return order;
}

/* The hypervisor's linear map: the harness maps memory at the very addresses that it computes. */
extern s64 hyp_physvirt_offset;
#define __hyp_pa(v) ((phys_addr_t)(unsigned long)(v) + hyp_physvirt_offset)
#define kern_hyp_va(v) (v)

/* The image lies in memory, but its pages hold nothing: this program has the code. */
extern char *shim_image;
#define __hyp_idmap_text_start (shim_image)
#define __hyp_idmap_text_end (shim_image + PAGE_SIZE)
#define __hyp_text_start (shim_image)
#define __hyp_text_end (shim_image + 8 * PAGE_SIZE)
#define __hyp_rodata_start (shim_image + 8 * PAGE_SIZE)
#define __hyp_rodata_end (shim_image + 12 * PAGE_SIZE)
#define __hyp_bss_start (shim_image + 12 * PAGE_SIZE)
#define __hyp_bss_end (shim_image + 16 * PAGE_SIZE)
#define kvm_vgic_global_state (*(u64 *)(shim_image + 16 * PAGE_SIZE))
#define __hyp_data_start (shim_image + 17 * PAGE_SIZE)
#define __hyp_data_end (shim_image + 19 * PAGE_SIZE)
#define kvm_nvhe_sym(name) name

/* What is per CPU is an array, and a CPU a thread that knows its number. The pages of the kernel's
 * own per-CPU areas are only needed for the hypervisor to own them.
 */
#define SHIM_CPUS 8
extern _Thread_local unsigned int shim_cpu;
extern char *shim_percpu;
#define __per_cpu_start shim_percpu
#define __per_cpu_end (shim_percpu + 2 * PAGE_SIZE)
#define DEFINE_PER_CPU(type, name) __typeof__(type) name[SHIM_CPUS]
#define DECLARE_PER_CPU(type, name) extern __typeof__(type) name[SHIM_CPUS]
#define this_cpu_ptr(p) per_cpu_ptr(p, shim_cpu)
#define per_cpu_ptr(p, cpu) (&(*(p))[cpu])

#define MEMBLOCK_NOMAP 4
struct memblock_region {
	phys_addr_t base;
	phys_addr_t size;
	u32 flags;
};

/* The proxy of the firmware's calls gets its pages, and is never run. */
struct ffa_mem_region {
	char unused[48];
};
struct ffa_mem_region_attributes {
	char unused[16];
};
struct ffa_composite_mem_region {
	char unused[16];
};
struct ffa_mem_region_addr_range {
	char unused[16];
};
#define SG_MAX_SEGMENTS 128

#endif
