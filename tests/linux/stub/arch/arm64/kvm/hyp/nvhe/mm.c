/* Memory, and the hypervisor's own map. */
#include <nvhe/stub.h>

struct kvm_pgtable pkvm_pgtable;
hyp_spinlock_t pkvm_pgd_lock;
struct memblock_region hyp_memory[128];
unsigned int hyp_memblock_nr;

bool stub_is_memory(phys_addr_t phys)
{
	for (unsigned int i = 0; i < hyp_memblock_nr; i++)
		if (phys - hyp_memory[i].base < hyp_memory[i].size)
			return true;
	return false;
}
