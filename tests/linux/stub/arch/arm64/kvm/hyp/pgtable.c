/* Tables of three levels. */
#include <nvhe/stub.h>

kvm_pte_t *stub_word(struct kvm_pgtable *pgt, struct hyp_pool *pool, u64 address)
{
	kvm_pte_t *table = pgt->pgd;

	for (int level = 1; level < 3; level++) {
		kvm_pte_t *word = &table[address >> (12 + 9 * (3 - level)) & 511];

		if (!READ_ONCE(*word))
			*word = __hyp_pa(hyp_alloc_pages(pool, 0)) | 3;
		table = __hyp_va(*word & ADDRESS);
	}
	return &table[address >> 12 & 511];
}

int kvm_pgtable_get_leaf(struct kvm_pgtable *pgt, u64 address, kvm_pte_t *word, s8 *level)
{
	(void)pgt, (void)address;
	*word = 0;
	*level = 3;
	return 0;
}
