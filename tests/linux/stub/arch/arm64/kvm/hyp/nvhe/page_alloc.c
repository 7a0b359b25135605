/* A list of free pages. */
#include <nvhe/stub.h>

u64 __hyp_vmemmap;

void *hyp_alloc_pages(struct hyp_pool *pool, u8 order)
{
	struct list_head *page = pool->free_area[0].next;

	if (order || list_empty(&pool->free_area[0]))
		return NULL;
	__list_del_entry(page);
	memset(page, 0, sizeof(*page));
	return page;
}

void hyp_put_page(struct hyp_pool *pool, void *page)
{
	memset(page, 0, PAGE_SIZE);
	list_add_tail(page, &pool->free_area[0]);
}
