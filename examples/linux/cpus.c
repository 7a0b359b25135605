/* Several CPUs: random calls on threads, and what each call may touch recorded at Linux' own locks.
 *
 * A tree is recorded when a CPU has taken its lock, and all trees that it has just before it lets
 * the first of them go: no other CPU can change them in between, so this is the state before the
 * call and after it. The trees that it hasn't are told as they last were, in both states. What is
 * recorded when a lock is taken must be what was recorded when it was let go: else it was written
 * by one that hadn't it.
 */
#include "life.h"
#include <pthread.h>
#include <stdio.h>
#include <stdlib.h>
#include <string.h>
#include <unistd.h>

/* --- What each lock guards, as it last was --- */

static pthread_mutex_t keeping = PTHREAD_MUTEX_INITIALIZER;
static struct part *kept[TREES];
static struct part *unused[4 * MAX_CPUS];
static size_t unused_len;
static bool is_running; /* while one CPU alone does something, nothing is recorded at locks */

static struct part *used(struct part *it)
{
	if (it)
		it->users++;
	return it;
}

static void drop(struct part *it)
{
	if (!it || --it->users)
		return;
	if (unused_len < sizeof(unused) / sizeof(*unused))
		unused[unused_len++] = it;
	else
		free_part(it);
}

static struct part *recorded_part(uint64_t tree)
{
	struct part *it = NULL;

	pthread_mutex_lock(&keeping);
	if (unused_len)
		it = unused[--unused_len];
	pthread_mutex_unlock(&keeping);
	if (!it)
		it = calloc(1, sizeof(*it));
	if (!it)
		refuse("out of memory");
	record_part(it, tree);
	it->users = 1;
	return it;
}

/* --- A call at its locks --- */

static PER_CPU struct {
	struct part *before[TREES], *after[TREES];
	bool is_over;	    /* it let its first lock go */
	const char *broken; /* how it broke the order of locks */
} at_locks;

void tree_taken(uint64_t tree)
{
	struct part *it, *was;

	if (!is_running)
		return;
	if (at_locks.is_over) {
		at_locks.broken = "a lock is taken after one was let go";
		return;
	}
	it = recorded_part(tree);
	pthread_mutex_lock(&keeping);
	was = used(kept[tree]);
	pthread_mutex_unlock(&keeping);
	if (!was || !same_part(it, was))
		at_locks.broken = tree == HOST	? "the host's tree was written without its lock"
				  : tree == HYP ? "EL2's tree was written without its lock"
						: "a guest's tree was written without its lock";
	pthread_mutex_lock(&keeping);
	drop(at_locks.broken ? was : it);
	pthread_mutex_unlock(&keeping);
	at_locks.before[tree] = at_locks.broken ? it : was;
}

/* The call is over: what it has is recorded, and all else is as it last was. */
static void settle(void)
{
	at_locks.is_over = true;
	for (uint64_t tree = 0; tree < TREES; tree++)
		if (at_locks.before[tree])
			at_locks.after[tree] = recorded_part(tree);
	pthread_mutex_lock(&keeping);
	for (uint64_t tree = 0; tree < TREES; tree++) {
		if (at_locks.before[tree]) {
			drop(kept[tree]);
			kept[tree] = used(at_locks.after[tree]);
		} else {
			at_locks.before[tree] = used(kept[tree]);
			at_locks.after[tree] = used(kept[tree]);
		}
	}
	pthread_mutex_unlock(&keeping);
}

void tree_let_go(uint64_t tree)
{
	(void)tree;
	if (is_running && !at_locks.is_over)
		settle();
}

static void forget(void)
{
	pthread_mutex_lock(&keeping);
	for (uint64_t tree = 0; tree < TREES; tree++) {
		drop(at_locks.before[tree]);
		drop(at_locks.after[tree]);
	}
	pthread_mutex_unlock(&keeping);
	memset(&at_locks, 0, sizeof(at_locks));
}

/* --- The machine: few pages, so that calls meet --- */

enum {
	MEMORY = 0x40000,
	MEMORY_COUNT = 0x800,
	CARVE = 0x40600,
	CARVE_COUNT = 0x40,
	HANDS = 0x40080,
	MORE_MEMORY = 0x48000,
	MORE_COUNT = 0x1e0,
	GUEST_PAGES = 0x80000
};

static const struct pkvm_region regions[] = {
	{1, 0, MEMORY},
	{0, MEMORY, MEMORY_COUNT},
	{1, MEMORY + MEMORY_COUNT, MORE_MEMORY - MEMORY - MEMORY_COUNT},
	{0, MORE_MEMORY, MORE_COUNT},
};

static struct {
	uint64_t cpus, seed, steps, hostile;
	bool is_first;
} wanted;

/* Calls go on at once; what the harness does on the table of VMs it does alone. */
static pthread_rwlock_t world;
static pthread_mutex_t telling = PTHREAD_MUTEX_INITIALIZER;
static uint64_t made_len; /* calls made by Linux, and whether one differs */
static bool is_different;

static PER_CPU struct recorded before, after; /* of the CPU's last call */

/* --- Steps: chosen on what the CPU saw last, so that others may have been there since --- */

/* The first is protected and on the even CPUs, the second plain and on the odd ones. */
static struct life lives[2] = {{.kind = PKVM_PROTECTED, .hand = HANDS},
			       {.kind = PKVM_PLAIN, .hand = HANDS + 0x40}};

static uint64_t some_frame(void)
{
	static const uint64_t blocks[] = {0x40100, 0x40200, 0x40480, MORE_MEMORY};

	return blocks[any(4)] + any(8);
}

static uint64_t some_guest_page(void)
{
	static const uint64_t blocks[] = {0, 0x200, 0x40000};

	return GUEST_PAGES + blocks[any(3)] + any(6);
}

/* The host's aborts are on pages that other calls name, on some of the hypervisor's, and on four
 * rows of pages, of which the seed chooses three: each maps a page or a block, and all that is
 * mapped is recorded at each call.
 */
enum { ABORTS = 4, ABORT_COUNT = 16 };
static uint64_t aborts[ABORTS];

static void choose_aborts(void)
{
	aborts[0] = any(MEMORY);
	aborts[1] = MEMORY + any(MEMORY_COUNT - ABORT_COUNT);
	aborts[2] = MORE_MEMORY + any(MORE_COUNT - ABORT_COUNT);
	/* Half of it memory, and half past all regions. */
	aborts[3] = MORE_MEMORY + MORE_COUNT - ABORT_COUNT / 2;
}

static struct pkvm_step abort_step(void)
{
	uint64_t page = aborts[any(ABORTS)] + any(ABORT_COUNT);

	if (!any(4))
		page = any(2) ? CARVE + any(CARVE_COUNT) : HANDS + any(2 * HAND_COUNT);
	else if (!any(3))
		page = some_frame();
	return (struct pkvm_step){PKVM_HOST_ABORT, {page}};
}

/* A page of the host's goes to the CPU's guest, where it has one. */
static struct pkvm_step give_step(uint64_t cpu, uint64_t frame)
{
	uint64_t slot;

	if (!vms_loaded(cpu, &slot))
		return (struct pkvm_step){PKVM_SHARE_HYP, {frame}};
	if (lives[cpu & 1].kind == PKVM_PROTECTED)
		return (struct pkvm_step){PKVM_DONATE_GUEST, {frame, some_guest_page(), 1}};
	return (struct pkvm_step){PKVM_SHARE_GUEST, {frame, some_guest_page(), some_rights(), 1}};
}

/* A page of the guest's: it goes back, or is lent, or its rights change. */
static struct pkvm_step page_step(uint64_t cpu, uint64_t page)
{
	const struct life *life = &lives[cpu & 1];
	bool is_plain = life->kind == PKVM_PLAIN;

	if (life->stage == RECLAIM)
		return (struct pkvm_step){is_plain && any(6) ? PKVM_UNSHARE_GUEST
							     : PKVM_RECLAIM_PAGE,
					  {life->slot, life->generation, page}};
	if (!is_plain)
		return (struct pkvm_step){any(2) ? PKVM_GUEST_SHARE_HOST : PKVM_GUEST_UNSHARE_HOST,
					  {page}};
	if (any(2))
		return (struct pkvm_step){PKVM_GUEST_RELAX, {page, some_rights()}};
	return (struct pkvm_step){PKVM_UNSHARE_GUEST, {life->slot, life->generation, page}};
}

static struct pkvm_step host_step(uint64_t cpu, uint64_t frame, bool is_hostile)
{
	struct pkvm_word word = entry_at(&after.state, HOST, frame);
	struct pkvm_owner row = row_at(&after.state, frame);
	uint64_t chosen = is_hostile ? any(5) : 5;

	if (chosen == 0 || (chosen == 5 && word.says == PKVM_ANNOTATED))
		return (struct pkvm_step){PKVM_HYP_DONATE_HOST, {frame, 1 + any(2)}};
	if (chosen == 1 || (chosen == 5 && row.is_lent && row.borrower == HYP))
		return (struct pkvm_step){PKVM_UNSHARE_HYP, {frame}};
	chosen = chosen == 5 ? any(8) : chosen;
	switch (chosen) {
	case 2:
		return (struct pkvm_step){PKVM_DONATE_HYP, {frame, 1 + any(2)}};
	case 3:
		return abort_step();
	case 4:
	case 5:
		return (struct pkvm_step){PKVM_SHARE_HYP, {frame}};
	default:
		return give_step(cpu, frame);
	}
}

static struct pkvm_step next_step(uint64_t cpu)
{
	const struct life *life = &lives[cpu & 1];
	uint64_t page = some_guest_page(), slot;
	bool is_hostile = any(100) < wanted.hostile;
	bool is_guests = vms_loaded(cpu, &slot) || life->stage == RECLAIM;

	/* Of a VM's lock alone there is one call, and that must meet another one of its pages. */
	if (is_guests && any(3) && (is_hostile || mapped_page(&after, life->slot, &page)))
		return page_step(cpu, page);
	return host_step(cpu, some_frame(), is_hostile);
}

/* --- What came out --- */

static void count(uint64_t cpu, const struct pkvm_step *step, const struct made *made,
		  const struct judgement *judgement)
{
	pthread_mutex_lock(&telling);
	if (judgement->verdict == DIFFERS)
		tell(made_len, cpu, step, made, judgement);
	count_step(step, made, judgement);
	made_len += made->maker == BY_LINUX;
	is_different = is_different || judgement->verdict == DIFFERS;
	/* At once: after a bug another CPU may never end its call. */
	if (wanted.is_first && is_different) {
		print_summary(stdout);
		fflush(stdout);
		_exit(1);
	}
	pthread_mutex_unlock(&telling);
}

static bool is_over(void)
{
	bool is;

	pthread_mutex_lock(&telling);
	is = made_len >= wanted.steps;
	pthread_mutex_unlock(&telling);
	return is;
}

/* --- One CPU's call, beside the others' --- */

static void call_once(uint64_t cpu)
{
	const struct pkvm_step step = next_step(cpu);
	struct judgement judgement;
	struct made made;

	made = make_on_linux(&step, lives[cpu & 1].slot);
	if (!at_locks.is_over)
		settle();
	join(&before, at_locks.before);
	join(&after, at_locks.after);
	judge(&before, cpu, &step, &made, &after, &judgement);
	if (at_locks.broken) {
		judgement.verdict = DIFFERS;
		judgement.name = NULL;
		snprintf(judgement.text, sizeof(judgement.text), "disagree locks %s",
			 at_locks.broken);
	}
	count(cpu, &step, &made, &judgement);
	forget();
}

/* --- And what one does alone: steps on the table of VMs --- */

static struct made step_alone(uint64_t cpu, const struct pkvm_step *step)
{
	struct judgement judgement;
	struct made made = make_step(cpu, step, &before);

	record(&after);
	judge(&before, cpu, step, &made, &after, &judgement);
	count(cpu, step, &made, &judgement);
	return made;
}

static void others_step(uint64_t first, struct pkvm_step step)
{
	for (uint64_t cpu = first + 2; cpu < wanted.cpus; cpu += 2) {
		if (step.call == PKVM_VCPU_LOAD)
			step.arguments[2] = cpu / 2;
		make_ready();
		record(&before);
		if (step_alone(cpu, &step).reply.refusal)
			refuse("a VM's life stands still on CPU %lu", cpu);
	}
}

/* A VM that isn't there yet is made, and a living one begins to die. Its pages go back by calls of
 * all CPUs; and when none is left, it ends and the next one is made.
 */
static void live_on(struct life *life, uint64_t cpu)
{
	if (life->stage == LIVE) {
		others_step(cpu, (struct pkvm_step){PKVM_VCPU_PUT, {0}});
		life->stage = PUT;
	}
	do {
		struct pkvm_step step;
		struct made made;
		uint64_t page;

		make_ready();
		record(&before);
		if (life->stage == RECLAIM && mapped_page(&before, life->slot, &page))
			break;
		step = next_of(life, cpu, &before);
		made = step_alone(cpu, &step);
		went_on(life, &made);
	} while (life->stage != LIVE);
	if (life->stage == LIVE)
		others_step(cpu,
			    (struct pkvm_step){PKVM_VCPU_LOAD, {life->slot, life->generation, 0}});
}

/* What there is now is what was last recorded. */
static void begin(void)
{
	for (uint64_t slot = 0; slot < SLOTS; slot++)
		if (vms.guests[slot].phase == PKVM_LIVE)
			vms_fill(slot);
	for (uint64_t tree = 0; tree < TREES; tree++) {
		struct part *it = NULL;

		if (tree < GUEST || vms.guests[tree - GUEST].phase != PKVM_EMPTY)
			it = recorded_part(tree);
		pthread_mutex_lock(&keeping);
		drop(kept[tree]);
		kept[tree] = it;
		pthread_mutex_unlock(&keeping);
	}
	is_running = true;
}

static bool wants_alone(uint64_t cpu)
{
	const struct life *life = &lives[cpu & 1];
	uint64_t page;

	if (!linux_has_guests)
		return false;
	if (life->stage == LIVE)
		return !any(400);
	return life->stage != RECLAIM || !mapped_page(&after, life->slot, &page);
}

static void *run_cpu(void *of)
{
	uint64_t cpu = *(uint64_t *)of;

	linux_cpu(cpu);
	any_from(wanted.seed * MAX_CPUS + cpu);
	pthread_rwlock_rdlock(&world);
	settle();
	join(&after, at_locks.after);
	forget();
	pthread_rwlock_unlock(&world);
	while (!is_over()) {
		pthread_rwlock_rdlock(&world);
		call_once(cpu);
		pthread_rwlock_unlock(&world);
		if (!wants_alone(cpu) || is_over())
			continue;
		pthread_rwlock_wrlock(&world);
		is_running = false;
		if (wants_alone(cpu) || lives[cpu & 1].stage == LIVE)
			live_on(&lives[cpu & 1], cpu & 1);
		begin();
		pthread_rwlock_unlock(&world);
	}
	return NULL;
}

static void start(void)
{
	const struct pkvm_step donate = {PKVM_DONATE_HYP, {CARVE, CARVE_COUNT}};
	pthread_rwlockattr_t how;
	const char *why;

	machine.cpus = wanted.cpus;
	why = machine_make(39, wanted.cpus, CARVE, CARVE_COUNT, regions,
			   sizeof(regions) / sizeof(*regions));
	if (why)
		refuse("the machine has %s", why);
	linux_boot();
	vms_make();
	if (linux_call(&donate, 0).error)
		refuse("Linux doesn't take the carve-out");
	any_from(wanted.seed);
	choose_aborts();
	lives[0].vcpus = (wanted.cpus + 1) / 2;
	lives[1].vcpus = wanted.cpus / 2;
	begin();
	/* Those that want to be alone come first: there are always calls. */
	pthread_rwlockattr_init(&how);
	pthread_rwlockattr_setkind_np(&how, PTHREAD_RWLOCK_PREFER_WRITER_NONRECURSIVE_NP);
	pthread_rwlock_init(&world, &how);
}

int run_cpus(uint64_t cpus, uint64_t seed, uint64_t steps, uint64_t hostile, bool is_first)
{
	pthread_t threads[MAX_CPUS];
	uint64_t numbers[MAX_CPUS];

	wanted.cpus = cpus;
	wanted.seed = seed;
	wanted.steps = steps;
	wanted.hostile = hostile;
	wanted.is_first = is_first;
	start();
	for (uint64_t cpu = 0; cpu < cpus; cpu++) {
		numbers[cpu] = cpu;
		if (pthread_create(&threads[cpu], NULL, run_cpu, &numbers[cpu]))
			refuse("no thread for CPU %lu", cpu);
	}
	for (uint64_t cpu = 0; cpu < cpus; cpu++)
		pthread_join(threads[cpu], NULL);
	return print_summary(stdout) ? 0 : 1;
}
