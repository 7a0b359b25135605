/* Random calls, chosen on the state: most succeed, and a given share of them is refused. The same
 * seed gives the same calls, as long as Linux answers the same.
 */
#include "life.h"
#include <inttypes.h>
#include <stdio.h>
#include <string.h>

/* --- The machine: two regions of memory, of which the second isn't whole blocks, and devices ---
 */

enum {
	MEMORY = 0x40000,
	MEMORY_COUNT = 0x4000,
	CARVE = 0x43e00,
	CARVE_COUNT = 0x40,
	HANDS = 0x43800, /* what guests' tables are made of */
	MORE_MEMORY = 0x48000,
	MORE_COUNT = 0x5e0,
	GUEST_PAGES = 0x80000
};

static const struct pkvm_region regions[] = {
	{1, 0, MEMORY},
	{0, MEMORY, MEMORY_COUNT},
	{1, MEMORY + MEMORY_COUNT, MORE_MEMORY - MEMORY - MEMORY_COUNT},
	{0, MORE_MEMORY, MORE_COUNT},
};

static struct recorded before, after;

/* --- Pages --- */

/* A few pages of several blocks, so that calls meet: tables come and go, and blocks break. */
static uint64_t some_frame(void)
{
	static const uint64_t blocks[] = {0x41000, 0x41200, 0x42400, 0x43000, 0x48000, 0x48200};

	if (any(8))
		return blocks[any(6)] + any(4);
	return any(5) ? MEMORY + any(HANDS - MEMORY) : MORE_MEMORY + any(MORE_COUNT);
}

/* A page that a call mostly may not have. */
static uint64_t odd_frame(bool is_of_hyp)
{
	switch (any(8)) {
	case 0:
		return MEMORY + MEMORY_COUNT + any(16); /* a device */
	case 1:
		return MORE_MEMORY + MORE_COUNT + any(4); /* nothing that was asked for */
	case 2:
		return (1ull << 52) + some_frame(); /* its upper bits are lost in an address */
	case 3:
		return is_of_hyp ? some_frame() : CARVE + any(CARVE_COUNT);
	case 4:
		return is_of_hyp ? some_frame() : machine.image + any(32);
	case 5:
		return is_of_hyp ? some_frame() : machine.pool + any(machine.pool_count);
	default:
		return some_frame();
	}
}

static uint64_t some_guest_page(void)
{
	static const uint64_t blocks[] = {0, 0x200, 0x40000};

	return GUEST_PAGES + blocks[any(3)] + any(10);
}

/* --- Lives of two VMs, the first protected and on CPU 0, the second plain and on CPU 1 --- */

static struct life lives[2] = {{.kind = PKVM_PROTECTED, .vcpus = 2, .hand = HANDS},
			       {.kind = PKVM_PLAIN, .vcpus = 2, .hand = HANDS + 0x40}};

/* --- Steps --- */

static struct pkvm_step host_step(bool is_odd)
{
	static const uint64_t some[] = {
		PKVM_SHARE_HYP,	  PKVM_SHARE_HYP,	PKVM_SHARE_HYP,	      PKVM_UNSHARE_HYP,
		PKVM_UNSHARE_HYP, PKVM_DONATE_HYP,	PKVM_HYP_DONATE_HOST, PKVM_HOST_ABORT,
		PKVM_HOST_ABORT,  PKVM_HYP_DONATE_HOST,
	};
	struct pkvm_step step = {some[any(10)], {some_frame()}};

	if (is_odd)
		step.arguments[0] = odd_frame(step.call == PKVM_HYP_DONATE_HOST);
	if (step.call == PKVM_HOST_ABORT)
		step.arguments[0] &= (1ull << 40) - 1; /* as a fault tells it */
	if (step.call == PKVM_DONATE_HYP || step.call == PKVM_HYP_DONATE_HOST)
		step.arguments[1] = is_odd && !any(8) ? 0 : 1 + any(3);
	/* Blocks of the host: of devices and of memory, whole ones and the last of a region. */
	if (step.call == PKVM_HOST_ABORT && !is_odd && any(2))
		step.arguments[0] = any(2)   ? any(MEMORY)
				    : any(2) ? MORE_MEMORY + any(MORE_COUNT)
					     : MEMORY + any(MEMORY_COUNT + 0x400);
	return step;
}

static struct pkvm_step guest_step(uint64_t cpu, bool is_odd)
{
	static const uint64_t protected_calls[] = {PKVM_DONATE_GUEST, PKVM_DONATE_GUEST,
						   PKVM_GUEST_SHARE_HOST, PKVM_GUEST_UNSHARE_HOST};
	static const uint64_t plain_calls[] = {PKVM_SHARE_GUEST, PKVM_SHARE_GUEST,
					       PKVM_UNSHARE_GUEST, PKVM_GUEST_RELAX};
	const struct life *life = &lives[cpu];
	uint64_t frame = is_odd ? odd_frame(false) : some_frame(), page = some_guest_page();
	uint64_t other = page;
	struct pkvm_step step = {cpu ? plain_calls[any(4)] : protected_calls[any(4)], {0}};

	if (is_odd && !any(6))
		page += 1ull << (any(2) ? 52 : 25);
	if (is_odd && any(2) && mapped_page(&before, life->slot, &other))
		frame = entry_at(&before.state, GUEST + life->slot, other).frame; /* lent already */
	step.arguments[0] = page;
	switch (step.call) {
	case PKVM_SHARE_GUEST:
		return (struct pkvm_step){step.call, {frame, page, some_rights(), 1}};
	case PKVM_DONATE_GUEST:
		return (struct pkvm_step){step.call, {frame, page, 1}};
	case PKVM_UNSHARE_GUEST:
		return (struct pkvm_step){step.call, {life->slot, life->generation, page}};
	case PKVM_GUEST_RELAX:
		return (struct pkvm_step){step.call, {page, some_rights()}};
	default:
		return step;
	}
}

/* Draws until the model answers as wanted, some times at most. */
static struct pkvm_step drawn(uint64_t *cpu, bool is_hostile)
{
	struct pkvm_step step;

	for (int tries = 0; tries < 16; tries++) {
		bool is_guests;

		*cpu = any(2);
		is_guests = linux_has_guests && any(2) && (lives[*cpu].stage == LIVE || !any(16));
		step = is_guests ? guest_step(*cpu, is_hostile) : host_step(is_hostile);
		if (!predicted_reply(&before, *cpu, &step).refusal == !is_hostile)
			break;
	}
	return step;
}

static void print_settings(void)
{
	for (size_t i = 0; i < sizeof(regions) / sizeof(*regions); i++)
		printf("%s 0x%" PRIx64 " 0x%" PRIx64 "\n", regions[i].kind ? "device" : "memory",
		       regions[i].first, regions[i].count);
	printf("carve 0x%x 0x%x\ncpus 2\nlog 1048576\nboot\n", CARVE, CARVE_COUNT);
}

static void start(uint64_t seed, bool is_printed)
{
	const struct pkvm_step donate = {PKVM_DONATE_HYP, {CARVE, CARVE_COUNT}};
	const char *why = machine_make(39, 2, CARVE, CARVE_COUNT, regions,
				       sizeof(regions) / sizeof(*regions));

	if (why)
		refuse("the machine has %s", why);
	any_from(seed);
	linux_boot();
	vms_make();
	if (linux_call(&donate, 0).error)
		refuse("Linux doesn't take the carve-out");
	if (is_printed)
		print_settings();
}

int run_random(uint64_t seed, uint64_t steps, uint64_t hostile, bool is_printed, bool is_first)
{
	char text[160];

	start(seed, is_printed);
	for (uint64_t i = 0, by_linux = 0; by_linux < steps; i++) {
		struct judgement judgement;
		struct pkvm_step step;
		struct made made;
		uint64_t cpu = any(2);
		bool is_life = linux_has_guests && lives[cpu].stage != LIVE && any(3);

		make_ready();
		record(&before);
		if (linux_has_guests && lives[cpu].stage == LIVE && !any(120))
			lives[cpu].stage = PUT, is_life = true;
		if (is_life)
			step = next_of(&lives[cpu], cpu, &before);
		else
			step = drawn(&cpu, any(100) < hostile);
		made = make_step(cpu, &step, &before);
		record(&after);
		judge(&before, cpu, &step, &made, &after, &judgement);
		if (is_printed) {
			text_of_step(&step, text, sizeof(text));
			printf("%" PRIu64 " %s\n", cpu, text);
		} else if (judgement.verdict == DIFFERS) {
			tell(i, cpu, &step, &made, &judgement);
		}
		count_step(&step, &made, &judgement);
		by_linux += made.maker == BY_LINUX;
		if (is_first && judgement.verdict == DIFFERS)
			return 1;
		if (is_life)
			went_on(&lives[cpu], &made);
	}
	return print_summary(is_printed ? stderr : stdout) ? 0 : 1;
}
