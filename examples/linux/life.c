/* Random numbers, and lives of VMs, from their reservation to their release. */
#include "life.h"

static PER_CPU uint64_t random_state;

void any_from(uint64_t seed)
{
	random_state = seed;
}

uint64_t any(uint64_t below)
{
	random_state += 0x9e3779b97f4a7c15ull;
	uint64_t z = random_state;

	z = (z ^ z >> 30) * 0xbf58476d1ce4e5b9ull;
	z = (z ^ z >> 27) * 0x94d049bb133111ebull;
	return (z ^ z >> 31) % below;
}

uint64_t some_rights(void)
{
	static const uint64_t rights[] = {PKVM_R, PKVM_RX, PKVM_RW, PKVM_RWX};

	return rights[any(4)];
}

bool mapped_page(const struct recorded *now, uint64_t slot, uint64_t *page)
{
	size_t runs = 0, chosen;

	for (size_t i = 0; i < now->runs_len; i++)
		runs += now->runs[i].tree == GUEST + slot;
	if (!runs)
		return false;
	chosen = any(runs);
	for (size_t i = 0; i < now->runs_len; i++) {
		const struct pkvm_run *it = &now->runs[i];

		if (it->tree == GUEST + slot && !chosen--)
			*page = it->page + any(it->count);
	}
	return true;
}

struct pkvm_step next_of(struct life *life, uint64_t cpu, const struct recorded *now)
{
	uint64_t page = 0;
	struct pkvm_step step;

	switch (life->stage) {
	case RESERVE:
		return (struct pkvm_step){PKVM_VM_RESERVE, {life->kind, life->vcpus}};
	case FUND:
		return (struct pkvm_step){PKVM_FUND, {life->hand, HAND_COUNT}};
	case INSTALL:
		return (struct pkvm_step){PKVM_INSTALL, {0}};
	case OPEN:
		return (struct pkvm_step){PKVM_VM_OPEN, {0}};
	case LOAD:
		return (struct pkvm_step){PKVM_VCPU_LOAD, {life->slot, life->generation, 0}};
	case PUT:
		return (struct pkvm_step){PKVM_VCPU_PUT, {0}};
	case TEARDOWN:
		return (struct pkvm_step){PKVM_TEARDOWN, {life->slot, life->generation}};
	case DIE:
		return (struct pkvm_step){PKVM_MARK_DYING, {0}};
	case RECLAIM:
		if (mapped_page(now, life->slot, &page)) {
			step = (struct pkvm_step){PKVM_RECLAIM_PAGE,
						  {life->slot, life->generation, page}};
			/* A plain guest's pages come back by the other call; sometimes this one is
			 * tried.
			 */
			if (life->kind == PKVM_PLAIN && any(6))
				step.call = PKVM_UNSHARE_GUEST;
			return step;
		}
		life->stage = POOL;
		/* fallthrough */
	case POOL:
		step = (struct pkvm_step){PKVM_RECLAIM_POOL, {life->slot, life->generation}};
		if (!predicted_reply(now, cpu, &step).refusal)
			return step;
		life->stage = FINISH;
		/* fallthrough */
	case FINISH:
		return (struct pkvm_step){PKVM_FINISH_GUEST, {0}};
	default:
		return (struct pkvm_step){PKVM_VM_RELEASE, {0}};
	}
}

void went_on(struct life *life, const struct made *made)
{
	if (made->reply.refusal && life->stage != RECLAIM)
		refuse("a VM's life stands still: stage %d, %s", (int)life->stage,
		       refusal_name(made->reply.refusal));
	if (life->stage == RESERVE) {
		life->slot = made->reply.slot;
		life->generation = made->reply.generation;
	}
	if (life->stage == RELEASE)
		life->stage = RESERVE;
	else if (life->stage != RECLAIM && life->stage != POOL)
		life->stage++;
}
