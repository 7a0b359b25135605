/* The boot: pages for hyp_vmemmap, and a pool. */
#include <nvhe/stub.h>

enum { POOL_PAGES = 1024 };
static void *vmemmap_base, *pool_base;
static struct hyp_pool hpool;
unsigned long hyp_nr_cpus;

#define hyp_s1_pgtable_pages() ((unsigned long)POOL_PAGES)
#define host_s2_pgtable_pages() 0ul
#define hyp_vm_table_pages() 0ul
#define hyp_ffa_proxy_pages() 0ul
#define pkvm_selftest_pages() 0ul

static unsigned long hyp_vmemmap_pages(size_t size)
{
	unsigned long pages = 0;

	for (unsigned int i = 0; i < hyp_memblock_nr; i++)
		pages += (hyp_memory[i].size / PAGE_SIZE * size) / PAGE_SIZE + 2;
	return pages;
}

static int divide_memory_pool(void *virt, unsigned long size)
{
	(void)size;
	vmemmap_base = virt;
	pool_base = virt + hyp_vmemmap_pages(sizeof(struct hyp_page)) * PAGE_SIZE;
	return 0;
}

static int recreate_hyp_mappings(phys_addr_t phys, unsigned long size, unsigned long *percpu,
				 u32 va_bits)
{
	(void)phys, (void)size, (void)percpu;
	INIT_LIST_HEAD(&hpool.free_area[0]);
	__hyp_vmemmap = BIT(va_bits - 2) | BIT(va_bits - 3);
	return 0;
}

static void update_nvhe_init_params(void)
{
}

static void __noreturn __pkvm_init_finalise(void)
{
	stub_protect_init(pool_base, POOL_PAGES);
	stub_own(__hyp_pa(vmemmap_base), (pool_base - vmemmap_base) / PAGE_SIZE);
	stub_own(__hyp_pa(__hyp_text_start), 19);
	stub_own(kvm_init_params[0].stack_pa, hyp_nr_cpus);
	cpu_reg(host_data_ptr(host_ctxt), 1) = 0;
	__host_enter(host_data_ptr(host_ctxt));
}
