/* Memory, and the boot of EL2: __pkvm_init and what it calls, but for the jump to the new tables.
 */
#include "kernel.h"
#include <setup.c> /* as it is: most of its functions are static */

#include "harness.h"
#include "side.h"
#include <stdio.h>
#include <sys/mman.h>
#include <unistd.h>

u64 shim_parange;
bool shim_is_up;
char *shim_image, *shim_percpu;
_Thread_local unsigned int shim_cpu;
struct kvm_host_data kvm_host_data[SHIM_CPUS];
struct kvm_nvhe_init_params kvm_init_params[SHIM_CPUS];
unsigned long kvm_hyp_vector[SHIM_CPUS];

const bool linux_has_guests = LINUX_HAS_GUESTS;

void linux_cpu(uint64_t cpu)
{
	shim_cpu = (unsigned int)cpu;
}

int kvm_check_pvm_sysreg_table(void)
{
	return 0;
}

int hyp_ffa_init(void *pages)
{
	(void)pages;
	return 0;
}

void pkvm_hyp_vm_table_init(void *table)
{
	(void)table;
}

/* The end of the boot: EL2 would return to the host. */
void __host_enter(struct kvm_cpu_context *context)
{
	(void)context;
	longjmp(side_back, 1);
}

void __pkvm_init_switch_pgd(phys_addr_t pgd, unsigned long sp, void (*fn)(void))
{
	(void)pgd, (void)sp, (void)fn;
}

static void *map_at(u64 address, u64 size, int flags, int file, u64 offset)
{
	void *at = mmap((void *)address, size, PROT_READ | PROT_WRITE, flags | MAP_FIXED_NOREPLACE,
			file, (off_t)offset);

	if (at == MAP_FAILED)
		refuse("no memory at 0x%lx, where EL2 looks for it", address);
	return at;
}

/* One file is all memory. Each region of it is where the linear map has it, at LINEAR. */
static int map_memory(void)
{
	int file = memfd_create("memory", 0);
	struct pkvm_region *end = &machine.regions[machine.regions_len - 1];

	hyp_physvirt_offset = -(s64)(LINEAR << PAGE_SHIFT);
	if (file < 0 || ftruncate(file, (off_t)((end->first + end->count) << PAGE_SHIFT)))
		refuse("no memory for the machine");
	hyp_memblock_nr = 0;
	for (size_t i = 0; i < machine.regions_len; i++) {
		struct pkvm_region *it = &machine.regions[i];
		u64 base = it->first << PAGE_SHIFT, size = it->count << PAGE_SHIFT;

		if (it->kind)
			continue;
		map_at(base + (LINEAR << PAGE_SHIFT), size, MAP_SHARED, file, base);
		hyp_memory[hyp_memblock_nr++] =
			(struct memblock_region){.base = base, .size = size};
	}
	return file;
}

/* hyp_vmemmap is in pages of the pool: they must be seen at its address too, as hyp_back_vmemmap
 * maps them.
 */
static void map_vmemmap(int file)
{
	u64 back = hyp_virt_to_phys(vmemmap_base), end = 0;

	for (unsigned int i = 0; i < hyp_memblock_nr; i++) {
		struct memblock_region *it = &hyp_memory[i];
		u64 start = ALIGN_DOWN((u64)hyp_phys_to_page(it->base), PAGE_SIZE);

		start = max(start, end);
		end = PAGE_ALIGN((u64)hyp_phys_to_page(it->base + it->size));
		if (start >= end)
			continue;
		map_at(start, end - start, MAP_SHARED, file, back);
		back += end - start;
	}
}

static u64 pages_needed(void)
{
	u64 pages = hyp_s1_pgtable_pages() + host_s2_pgtable_pages() + hyp_vm_table_pages() +
		    hyp_vmemmap_pages(sizeof(struct hyp_page)) + hyp_ffa_proxy_pages();

#if LINUX_HAS_GUESTS
	pages += pkvm_selftest_pages();
#endif
	return pages;
}

uint64_t linux_pool_pages(void)
{
	hyp_memblock_nr = 0;
	for (size_t i = 0; i < machine.regions_len; i++)
		if (!machine.regions[i].kind)
			hyp_memory[hyp_memblock_nr++] = (struct memblock_region){
				.base = machine.regions[i].first << PAGE_SHIFT,
				.size = machine.regions[i].count << PAGE_SHIFT};
	return pages_needed();
}

static void *va_of(uint64_t frame)
{
	return __hyp_va(frame << PAGE_SHIFT);
}

void linux_boot(void)
{
	u32 va_bits = (u32)machine.layout.address_bits;
	int file = map_memory(), ret, how;
	unsigned long percpu[SHIM_CPUS];

	shim_parange = va_bits == 48 ? ID_AA64MMFR0_EL1_PARANGE_48 : ID_AA64MMFR0_EL1_PARANGE_36;
	shim_image = va_of(machine.image);
	shim_percpu = va_of(machine.percpu);
	for (u64 cpu = 0; cpu < machine.cpus; cpu++) {
		kvm_init_params[cpu].stack_pa = (machine.stack + cpu) << PAGE_SHIFT;
		percpu[cpu] = (unsigned long)shim_percpu +
			      cpu * (unsigned long)(__per_cpu_end - __per_cpu_start);
	}
	hyp_nr_cpus = machine.cpus;
	hyp_spin_lock_init(&pkvm_pgd_lock);
	ret = divide_memory_pool(va_of(machine.pool), machine.pool_count << PAGE_SHIFT);
	if (!ret)
		ret = recreate_hyp_mappings(machine.pool << PAGE_SHIFT,
					    machine.pool_count << PAGE_SHIFT, percpu, va_bits);
	if (ret)
		refuse("Linux doesn't boot: error %d", -ret);
	map_vmemmap(file);
	/* What EL2 maps for a while to clear or clean it is seen here: the model has no contents.
	 */
	map_at(BIT(va_bits - 2), 64ul << 20, MAP_PRIVATE | MAP_ANONYMOUS | MAP_NORESERVE, -1, 0);
	update_nvhe_init_params();
	side_is_in_call = true;
	how = setjmp(side_back);
	if (!how)
		__pkvm_init_finalise();
	side_is_in_call = false;
	ret = (int)cpu_reg(host_data_ptr(host_ctxt), 1);
	if (how != 1 || ret)
		refuse("Linux doesn't boot: %s", how != 1 ? shim_where : strerror(-ret));
	shim_is_up = true;
}

struct hyp_pool *side_hyp_pool(void)
{
	return &hpool;
}
