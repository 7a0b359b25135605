/* Of random.c and cpus.c: numbers, and lives of VMs. */
#ifndef LIFE_H
#define LIFE_H

#include "harness.h"

/* The same seed gives a thread the same numbers. */
void any_from(uint64_t seed);
uint64_t any(uint64_t below);
uint64_t some_rights(void);

/* A VM's life, step by step. */
enum stage {
	RESERVE,
	FUND,
	INSTALL,
	OPEN,
	LOAD,
	LIVE,
	PUT,
	TEARDOWN,
	DIE,
	RECLAIM,
	POOL,
	FINISH,
	RELEASE
};

enum { HAND_COUNT = 0x10 }; /* frames that its tables are made of */
struct life {
	enum stage stage;
	uint64_t kind, vcpus, hand, slot, generation;
};
/* The step that it asks for on a CPU, in the state now. */
struct pkvm_step next_of(struct life *life, uint64_t cpu, const struct recorded *now);
void went_on(struct life *life, const struct made *made);
/* A page that the guest has mapped; false where it has none. */
bool mapped_page(const struct recorded *now, uint64_t slot, uint64_t *page);

#endif
