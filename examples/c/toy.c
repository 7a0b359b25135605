// A toy hypervisor of one CPU and two calls, share_hyp and unshare_hyp, with two bugs to be
// planted, and the oracle beside it: at each call it records its state before and after, and hands
// both to pkvm_judge.
#include "pkvm_oracle.h"
#include <inttypes.h>
#include <stdbool.h>
#include <stdio.h>
#include <string.h>

enum { MEMORY = 0x40000, PAGES = 0x800, CARVE = 0x40600, CARVED = 0x40, HYP = 0x4000000 };

enum bug { NO_BUG, FORGETS_OWNER, FREES_TWICE };

// The toy's own state: what it keeps for itself, as any hypervisor would.
struct toy {
	enum bug bug;
	bool is_host_mapped[PAGES]; // by page of memory
	bool is_shared[PAGES];	    // the owner's mark
	bool is_hyp_mapped[PAGES];  // borrowed by the hypervisor
	uint64_t free[CARVED + 1];
	size_t free_len;
	uint64_t host_table[PAGES / 512]; // the frame of the last-level table, or 0
	uint64_t hyp_table[PAGES / 512];
};

static void boot(struct toy *toy, enum bug bug)
{
	memset(toy, 0, sizeof *toy);
	toy->bug = bug;
	toy->host_table[3] = CARVE + 2; // the carve-out lies under the fourth table of each tree
	toy->hyp_table[3] = CARVE + 5;
	for (uint64_t frame = CARVE + 6; frame < CARVE + CARVED; frame++)
		toy->free[toy->free_len++] = frame;
}

// the lowest free frame
static uint64_t take(struct toy *toy)
{
	size_t lowest = 0;
	for (size_t i = 1; i < toy->free_len; i++)
		if (toy->free[i] < toy->free[lowest])
			lowest = i;
	uint64_t frame = toy->free[lowest];
	toy->free[lowest] = toy->free[--toy->free_len];
	return frame;
}

// The host shares a frame with the hypervisor. 0 or an error's number.
static uint64_t share_hyp(struct toy *toy, uint64_t frame)
{
	uint64_t i = frame - MEMORY;
	if (i >= PAGES)
		return PKVM_EINVALID;
	if (frame - CARVE < CARVED || toy->is_shared[i])
		return PKVM_EPERM;
	if (!toy->host_table[i / 512])
		toy->host_table[i / 512] = take(toy);
	if (!toy->hyp_table[i / 512])
		toy->hyp_table[i / 512] = take(toy);
	toy->is_host_mapped[i] = true;
	if (toy->bug != FORGETS_OWNER)
		toy->is_shared[i] = true;
	toy->is_hyp_mapped[i] = true;
	return 0;
}

// The host takes it back. 0 or an error's number.
static uint64_t unshare_hyp(struct toy *toy, uint64_t frame)
{
	uint64_t i = frame - MEMORY, first = i / 512 * 512;
	if (i >= PAGES)
		return PKVM_EINVALID;
	if (!toy->is_shared[i])
		return PKVM_EPERM;
	toy->is_shared[i] = false;
	toy->is_hyp_mapped[i] = false;
	bool is_empty = first / 512 != 3;
	for (uint64_t k = first; k < first + 512; k++)
		is_empty &= !toy->is_hyp_mapped[k];
	if (is_empty) {
		toy->free[toy->free_len++] = toy->hyp_table[first / 512];
		if (toy->bug == FREES_TWICE)
			toy->free[toy->free_len++] = toy->hyp_table[first / 512];
		toy->hyp_table[first / 512] = 0;
	}
	return 0;
}

// A recording of the state, in the words of the oracle.
struct recorded {
	struct pkvm_run runs[2 * PAGES + 2];
	struct pkvm_table tables[16];
	struct pkvm_frame frames[CARVED + 1];
	struct pkvm_slot slots[1]; // no slot was ever used, no guest made, and the CPU has nothing:
				   // none is listed
	struct pkvm_load loads[1];
	struct pkvm_guest guests[1];
	struct pkvm_cpu cpus[1];
	struct pkvm_row rows[PAGES];
	struct pkvm_state state;
};

static struct pkvm_word leaf(uint64_t frame, uint64_t rights, uint64_t state)
{
	return (struct pkvm_word){.says = PKVM_LEAF,
				  .frame = frame,
				  .rights = rights,
				  .kind = PKVM_NORMAL,
				  .state = state};
}

static void record(const struct toy *toy, struct recorded *out)
{
	memset(out, 0, sizeof *out);
	struct pkvm_run *run = out->runs;
	*run++ = (struct pkvm_run){0, CARVE, CARVED, {.says = PKVM_ANNOTATED, .owner = 1}};
	*run++ = (struct pkvm_run){1, HYP + CARVE, CARVED, leaf(CARVE, PKVM_RW, PKVM_OWNED)};
	struct pkvm_row *row = out->rows;
	*row++ = (struct pkvm_row){CARVE, CARVED, {.owner = 1, .usage = PKVM_USE_SHARED_POOL}};
	for (uint64_t i = 0; i < PAGES; i++) {
		uint64_t frame = MEMORY + i;
		if (toy->is_host_mapped[i])
			*run++ = (struct pkvm_run){
				0, frame, 1,
				leaf(frame, PKVM_RWX,
				     toy->is_shared[i] ? PKVM_SHARED_OWNED : PKVM_OWNED)};
		if (toy->is_hyp_mapped[i]) {
			*run++ = (struct pkvm_run){1, HYP + frame, 1,
						   leaf(frame, PKVM_RW, PKVM_SHARED_BORROWED)};
			*row++ = (struct pkvm_row){frame,
						   1,
						   {.owner = 0,
						    .is_lent = 1,
						    .borrower = 1,
						    .borrower_page = HYP + frame}};
		}
	}
	struct pkvm_table *table = out->tables;
	*table++ = (struct pkvm_table){0, 3, 0, CARVE};	    // the roots, at level 1
	*table++ = (struct pkvm_table){0, 2, 1, CARVE + 1}; // level 2
	*table++ = (struct pkvm_table){1, 3, 0, CARVE + 3};
	*table++ = (struct pkvm_table){1, 2, (HYP + MEMORY) >> 18, CARVE + 4};
	for (uint64_t i = 0; i < PAGES / 512; i++) {
		if (toy->host_table[i])
			*table++ = (struct pkvm_table){0, 1, (MEMORY >> 9) + i, toy->host_table[i]};
		if (toy->hyp_table[i])
			*table++ = (struct pkvm_table){1, 1, ((HYP + MEMORY) >> 9) + i,
						       toy->hyp_table[i]};
	}
	for (size_t i = 0; i < toy->free_len; i++)
		out->frames[i] = (struct pkvm_frame){1, toy->free[i]};
	out->state = (struct pkvm_state){
		out->runs,   (size_t)(run - out->runs),
		out->tables, (size_t)(table - out->tables),
		out->frames, toy->free_len,
		out->slots,  0,
		out->loads,  0,
		out->guests, 0,
		out->cpus,   0,
		out->rows,   (size_t)(row - out->rows),
	};
}

static const struct pkvm_region regions[] = {{0, MEMORY, PAGES}, {1, 0x9000, 0x10}};
static const struct pkvm_layout layout = {39, 1, CARVE, CARVED, regions, 2, 0};

// tester.c takes the toy up to here.
#ifndef TOY_IS_TESTED
// Makes a call under the hypervisor's lock, and asks the oracle.
static void made(struct toy *toy, uint64_t call, uint64_t frame)
{
	static struct recorded before, after;
	record(toy, &before);
	uint64_t refusal = call == PKVM_SHARE_HYP ? share_hyp(toy, frame) : unshare_hyp(toy, frame);
	record(toy, &after);

	struct pkvm_call told = {.cpu = 0,
				 .step = {.call = call, .arguments = {frame}},
				 .reply = {.refusal = refusal}};
	uint8_t text[512];
	size_t text_len = 0;
	struct pkvm_refused refused;
	int32_t status = pkvm_judge(&layout, &before.state, &told, &after.state, text, sizeof text,
				    &text_len, &refused);
	printf("  %s 0x%" PRIx64 " -> %" PRIu64 ": ",
	       call == PKVM_SHARE_HYP ? "share_hyp" : "unshare_hyp", frame, refusal);
	if (status == PKVM_AGREES)
		printf("agrees\n");
	else if (status == PKVM_DISAGREES)
		printf("%.*s\n", (int)text_len, text);
	else if (status == PKVM_BAD_AFTER && refused.fault == PKVM_FAULT_FRAME_TWICE)
		printf("the state after it is refused: a pool has a frame twice, 0x%" PRIx64 "\n",
		       after.frames[refused.index].frame);
	else
		printf("status %" PRId32 " fault %" PRIu64 " list %" PRIu64 " index %" PRIu64 "\n",
		       status, refused.fault, refused.list, refused.index);
}

int main(void)
{
	static const char *const names[] = {"no bug", "a share forgets to mark the owner's page",
					    "a table is freed twice"};
	for (enum bug bug = NO_BUG; bug <= FREES_TWICE; bug++) {
		static struct toy toy;
		boot(&toy, bug);
		printf("%s:\n", names[bug]);
		made(&toy, PKVM_SHARE_HYP, 0x40100);
		made(&toy, PKVM_SHARE_HYP, CARVE);
		made(&toy, PKVM_SHARE_HYP, 0x1000);
		if (bug != FORGETS_OWNER)
			made(&toy, PKVM_UNSHARE_HYP, 0x40100);
	}
	return 0;
}
#endif
