/* The machine: the regions that were asked for, and one more of memory for Linux itself. */
#include "harness.h"
#include <stdlib.h>
#include <string.h>

struct machine machine = {.linear = LINEAR, .cpus = 1};

/* The host's input addresses have 36 bits where the root is at level 1, as with 39 bits in the
 * model.
 */
enum { BLOCK = 512, HOST_PAGES_39 = 1 << 24, LAST_PAGE = 1 << 26 };
enum { IMAGE = 32, PERCPU_AT = 24, PERCPU = 2, STACK_AT = 28, RESERVE = 512 };

static int by_first(const void *a, const void *b)
{
	const struct pkvm_region *x = a, *y = b;

	return x->first < y->first ? -1 : x->first > y->first;
}

const char *machine_make(uint64_t address_bits, uint64_t cpus, uint64_t carve_first,
			 uint64_t carve_count, const struct pkvm_region *regions,
			 size_t regions_len)
{
	struct pkvm_region *own = &machine.regions[regions_len];
	uint64_t end = 0, pages = 0;

	if (regions_len >= REGIONS)
		return "16 regions, and Linux itself needs one more";
	memcpy(machine.regions, regions, regions_len * sizeof(*regions));
	qsort(machine.regions, regions_len, sizeof(*regions), by_first);
	for (size_t i = 0; i < regions_len; i++) {
		end = regions[i].first + regions[i].count > end
			      ? regions[i].first + regions[i].count
			      : end;
		pages += regions[i].kind ? 0 : regions[i].count;
	}
	/* Past all others, and a block apart, so that no block of the host reaches from one to the
	 * other.
	 */
	*own = (struct pkvm_region){0, (end / BLOCK + 2) * BLOCK, 0};
	own->count = (0x1000 + pages / 64 + RESERVE) / BLOCK * BLOCK + BLOCK;
	machine.regions_len = regions_len + 1;
	if (own->first + own->count > (address_bits == 39 ? HOST_PAGES_39 : LAST_PAGE))
		return "a region so high that Linux has no room behind it";
	machine.image = own->first;
	machine.percpu = own->first + PERCPU_AT;
	machine.stack = own->first + STACK_AT;
	machine.reserve = own->first + IMAGE;
	machine.reserve_count = RESERVE;
	machine.pool = own->first + IMAGE + RESERVE;
	machine.pool_count = linux_pool_pages();
	if (machine.cpus > 1) {
		machine.percpu = machine.pool;
		machine.stack = machine.percpu + machine.cpus * PERCPU;
		machine.pool = machine.stack + machine.cpus;
		/* No page that isn't used: all are recorded at each call. */
		end = machine.pool + machine.pool_count - own->first;
		if (end < own->count)
			own->count = (end + BLOCK - 1) / BLOCK * BLOCK;
	}
	if (machine.pool + machine.pool_count > own->first + own->count)
		return "too much memory for the region of Linux itself";
	machine.layout = (struct pkvm_layout){
		.address_bits = address_bits,
		.cpus = cpus,
		.carve_first = carve_first,
		.carve_count = carve_count,
		.regions = machine.regions,
		.regions_len = machine.regions_len,
		.freedoms = FREEDOMS,
	};
	return NULL;
}

long memory_index(uint64_t frame)
{
	uint64_t before = 0;

	for (size_t i = 0; i < machine.regions_len; i++) {
		const struct pkvm_region *it = &machine.regions[i];

		if (it->kind)
			continue;
		if (frame - it->first < it->count)
			return (long)(before + (frame - it->first));
		before += it->count;
	}
	return -1;
}

uint64_t memory_frame(size_t index)
{
	for (size_t i = 0; i < machine.regions_len; i++) {
		const struct pkvm_region *it = &machine.regions[i];

		if (it->kind)
			continue;
		if (index < it->count)
			return it->first + index;
		index -= it->count;
	}
	abort();
}

size_t memory_pages(void)
{
	size_t pages = 0;

	for (size_t i = 0; i < machine.regions_len; i++)
		pages += machine.regions[i].kind ? 0 : machine.regions[i].count;
	return pages;
}

bool is_in_region(uint64_t page)
{
	for (size_t i = 0; i < machine.regions_len; i++)
		if (page - machine.regions[i].first < machine.regions[i].count)
			return true;
	return false;
}
