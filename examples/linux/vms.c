/* The table of VMs, what each CPU has, and the guests' frames. Linux has these in pkvm.c, which
 * isn't compiled: so the harness keeps them, as the model's steps leave them.
 */
#include "harness.h"
#include <string.h>

struct vms vms;
static uint64_t spare[1 << 12];
static size_t spare_len;

void vms_make(void)
{
	const struct pkvm_step donate = {PKVM_DONATE_HYP, {machine.reserve, machine.reserve_count}};

	for (uint64_t slot = 0; slot < SLOTS; slot++) {
		vms.slots[slot] = (struct pkvm_slot){slot, PKVM_VACANT, 1, PKVM_PLAIN, 0};
		vms.guests[slot] = (struct pkvm_guest){.slot = slot};
	}
	for (uint64_t cpu = 0; cpu < MAX_CPUS; cpu++)
		vms.cpus[cpu] = (struct pkvm_cpu){.cpu = cpu};
	if (!linux_has_guests)
		return;
	if (linux_call(&donate, 0).error)
		refuse("no pages for guests");
	for (uint64_t i = machine.reserve_count; i--;)
		spare[spare_len++] = machine.reserve + i;
}

void vms_adopt(const struct pkvm_state *state)
{
	memcpy(vms.slots, state->slots, sizeof(vms.slots));
	memcpy(vms.guests, state->guests, sizeof(vms.guests));
	memcpy(vms.cpus, state->cpus, machine.layout.cpus * sizeof(*vms.cpus));
	memcpy(vms.loads, state->loads, state->loads_len * sizeof(*vms.loads));
	vms.loads_len = state->loads_len;
}

bool vms_loaded(uint64_t cpu, uint64_t *slot)
{
	const struct pkvm_cpu *it = &vms.cpus[cpu];

	*slot = it->vcpu_slot;
	return it->has_vcpu;
}

/* Before a page is mapped the list of the vCPU must have some pages; the kernel sees to it, and
 * here the harness does, with pages of its own.
 */
void vms_fill(uint64_t slot)
{
	enum { FOR_A_RANGE = 8 }; /* a range of 512 pages meets two tables of each level */
	uint64_t frames[64];

	while (linux_free_frames(GUEST + slot, frames, 64) < linux_guest_needs() + FOR_A_RANGE) {
		if (!spare_len)
			refuse("no page is left for guests' tables");
		linux_guest_give(slot, spare[--spare_len]);
	}
}

/* Takes the pages back that are free again. */
void vms_sweep(uint64_t slot)
{
	static uint64_t frames[1 << 14];
	size_t len;

	linux_guest_gather(slot);
	len = linux_free_frames(GUEST + slot, frames, sizeof(frames) / sizeof(*frames));
	for (size_t i = 0; i < len; i++)
		if (frames[i] - machine.reserve < machine.reserve_count &&
		    linux_guest_take(slot, frames[i]))
			spare[spare_len++] = frames[i];
}
