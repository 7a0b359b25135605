/* A short round: some steps lead to a state, and then each of two CPUs makes three calls, both at
 * once, on threads. Nothing is recorded: the round is written as a trace, and what Linux told as a
 * report, and `outcomes --observed` says whether some order of the calls gives these replies.
 *
 * Calls that are known to differ aren't made: all frames are memory, ranges are short, and no frame
 * is lent to a guest twice.
 */
#include "life.h"
#include <inttypes.h>
#include <pthread.h>
#include <stdarg.h>
#include <stdio.h>
#include <stdlib.h>
#include <string.h>

enum {
	MEMORY = 0x40000,
	MEMORY_COUNT = 0x400,
	CARVE = 0x40380,
	CARVE_COUNT = 0x40,
	HAND = 0x40360,
	CPUS = 2,
	CALLS = 3
};

static const struct pkvm_region regions[] = {
	{1, 0, MEMORY},
	{0, MEMORY, MEMORY_COUNT},
};

/* --- Turns: one CPU runs at a time, and where CPUs meet chance says which goes on --- */

static PER_CPU uint64_t own_cpu;
static bool is_at_once, is_over[CPUS];
static uint64_t turn;
static bool is_hasty; /* the CPU's next write comes through */
static pthread_mutex_t turns = PTHREAD_MUTEX_INITIALIZER;
static pthread_cond_t turn_given = PTHREAD_COND_INITIALIZER;

static void wait_for_turn(void)
{
	while (turn != own_cpu)
		pthread_cond_wait(&turn_given, &turns);
}

/* The other CPU goes on, if it isn't over. */
static void give_turn(bool is_before_write)
{
	pthread_mutex_lock(&turns);
	is_hasty = is_before_write;
	if (!is_over[!own_cpu])
		turn = !own_cpu;
	pthread_cond_signal(&turn_given);
	if (!is_over[own_cpu])
		wait_for_turn();
	pthread_mutex_unlock(&turns);
}

/* A bug in a lock shows where the other CPU writes between what this one read and what it writes.
 */
void word_met(bool is_written)
{
	if (!is_at_once)
		return;
	if (is_written && is_hasty)
		is_hasty = false;
	else if (!any(is_written ? 2 : 16))
		give_turn(is_written);
}

bool lock_met(void)
{
	if (is_at_once)
		give_turn(false);
	return is_at_once;
}

/* --- What is written --- */

static FILE *trace, *report;
static uint64_t lines;

static FILE *written(const char *path, const char *ending)
{
	char name[4096];
	FILE *file;

	snprintf(name, sizeof(name), "%s.%s", path, ending);
	file = fopen(name, "w");
	if (!file)
		refuse("%s can't be written", name);
	return file;
}

static void line(const char *format, ...) __attribute__((format(printf, 1, 2)));

static void line(const char *format, ...)
{
	va_list list;

	va_start(list, format);
	vfprintf(trace, format, list);
	va_end(list);
	fputc('\n', trace);
	lines++;
}

static void line_of(uint64_t cpu, const struct pkvm_step *step)
{
	char text[160];

	text_of_step(step, text, sizeof(text));
	line("%" PRIu64 " %s", cpu, text);
}

static void reply_of(uint64_t at_line, uint64_t cpu, const struct pkvm_step *step,
		     const struct made *made)
{
	struct made told = *made;
	char text[256];

	/* 6.12 stops where the model says `perm`: a known difference. */
	if (step->call == PKVM_HOST_ABORT && !linux_has_guests && told.ended.is_stopped) {
		told.ended.is_stopped = false;
		told.reply.refusal = PKVM_EPERM;
	}
	text_of_reply(&told, text, sizeof(text));
	fprintf(report, "%" PRIu64 " %" PRIu64 " %s\n", at_line, cpu, text);
}

/* --- Calls --- */

static struct recorded before;
static struct life life = {.vcpus = CPUS, .hand = HAND};
static bool has_guest, is_dying;
static bool is_guests_alone; /* all calls are on the guest */
static uint64_t lent;	     /* the frames that were once lent to the guest, bit by bit */

static const uint64_t frames[] = {MEMORY + 0x100, MEMORY + 0x101, MEMORY + 0x200, MEMORY + 0x201};
static const uint64_t pages[] = {0x80002, 0x80003, 0x80202};

/* The first one most often. */
static uint64_t some_frame(void)
{
	return frames[any(2) ? 0 : any(4)];
}

static uint64_t some_page(void)
{
	return pages[any(6) ? 0 : any(3)];
}

enum { HOST_CALLS = 5, GUEST_CALLS = 3 };

/* No frame is left that wasn't lent: so another call is made. */
static struct pkvm_step share_guest_call(void)
{
	uint64_t frame = any(4);

	while (lent >> frame & 1)
		if (++frame == sizeof(frames) / sizeof(*frames))
			return (struct pkvm_step){PKVM_HOST_ABORT, {some_frame()}};
	lent |= 1ull << frame;
	return (struct pkvm_step){PKVM_SHARE_GUEST,
				  {frames[frame], some_page(), any(2) ? PKVM_R : PKVM_RX, 1}};
}

static struct pkvm_step guest_call(uint64_t kind)
{
	const uint64_t slot = life.slot, generation = life.generation, page = some_page();
	bool is_plain = life.kind == PKVM_PLAIN;

	if (is_dying)
		return (struct pkvm_step){PKVM_RECLAIM_PAGE, {slot, generation, page}};
	switch (kind) {
	case 0:
		return is_plain ? share_guest_call()
				: (struct pkvm_step){PKVM_DONATE_GUEST, {some_frame(), page, 1}};
	case 1:
		return is_plain ? (struct pkvm_step){PKVM_UNSHARE_GUEST, {slot, generation, page}}
				: (struct pkvm_step){PKVM_GUEST_SHARE_HOST, {page}};
	default:
		return is_plain ? (struct pkvm_step){PKVM_GUEST_RELAX,
						     {page, any(2) ? PKVM_RW : PKVM_RWX}}
				: (struct pkvm_step){PKVM_GUEST_UNSHARE_HOST, {page}};
	}
}

static struct pkvm_step call_of(uint64_t kind)
{
	switch (kind) {
	case 0:
		return (struct pkvm_step){PKVM_SHARE_HYP, {some_frame()}};
	case 1:
		return (struct pkvm_step){PKVM_UNSHARE_HYP, {some_frame()}};
	case 2:
		return (struct pkvm_step){PKVM_DONATE_HYP, {some_frame(), 1 + any(2)}};
	case 3:
		return (struct pkvm_step){PKVM_HYP_DONATE_HOST, {some_frame(), 1 + any(2)}};
	case 4:
		return (struct pkvm_step){PKVM_HOST_ABORT, {some_frame()}};
	default:
		return guest_call(kind - HOST_CALLS);
	}
}

static uint64_t some_kind(void)
{
	bool is_guests = has_guest && (is_guests_alone || any(2));

	return is_guests ? HOST_CALLS + any(GUEST_CALLS) : any(HOST_CALLS);
}

/* --- The state that a round begins with: steps made alone --- */

static struct made make_alone(uint64_t cpu, const struct pkvm_step *step)
{
	struct made made;

	make_ready();
	record(&before);
	made = make_step(cpu, step, &before);
	line_of(cpu, step);
	reply_of(lines, cpu, step, &made);
	return made;
}

static void live_on(enum stage until)
{
	while (life.stage != until) {
		struct pkvm_step step = next_of(&life, 0, &before);
		struct made made = make_alone(0, &step);

		went_on(&life, &made);
	}
}

static void load(uint64_t call)
{
	const struct pkvm_step step = {call, {life.slot, life.generation, 1}};

	if (make_alone(1, &step).reply.refusal)
		refuse("the other CPU's vCPU isn't loaded or put");
}

/* Two pages of one table: so it is still there when one of them isn't. */
static void give_pages(void)
{
	for (int i = 0; i < 2; i++) {
		struct pkvm_step step = guest_call(0);

		if (step.call != PKVM_HOST_ABORT)
			step.arguments[1] = pages[i];
		make_alone(0, &step);
	}
}

/* Most of these calls are made. */
static void some_alone(uint64_t wanted)
{
	while (wanted--) {
		struct pkvm_step step = call_of(some_kind());

		make_ready();
		record(&before);
		for (int tries = 8; tries-- && predicted_reply(&before, 0, &step).refusal;)
			step = call_of(some_kind());
		make_alone(0, &step);
	}
}

static void begin(void)
{
	const struct pkvm_step donate = {PKVM_DONATE_HYP, {CARVE, CARVE_COUNT}};
	const char *why;

	machine.cpus = CPUS;
	why = machine_make(39, CPUS, CARVE, CARVE_COUNT, regions,
			   sizeof(regions) / sizeof(*regions));
	if (why)
		refuse("the machine has %s", why);
	linux_boot();
	vms_make();
	if (linux_call(&donate, 0).error)
		refuse("Linux doesn't take the carve-out");
	for (size_t i = 0; i < sizeof(regions) / sizeof(*regions); i++)
		line("%s 0x%" PRIx64 " 0x%" PRIx64, regions[i].kind ? "device" : "memory",
		     regions[i].first, regions[i].count);
	line("carve 0x%x 0x%x", CARVE, CARVE_COUNT);
	line("cpus %d", CPUS);
	line("boot");

	has_guest = linux_has_guests && any(6);
	life.kind = any(3) ? PKVM_PLAIN : PKVM_PROTECTED;
	if (has_guest) {
		live_on(LIVE);
		load(PKVM_VCPU_LOAD);
	}
	some_alone(any(5));
	if (has_guest)
		give_pages();
	/* A plain guest's pages come back by a call that is a known difference. */
	if (has_guest && life.kind == PKVM_PROTECTED && !any(3)) {
		load(PKVM_VCPU_PUT);
		life.stage = PUT;
		live_on(RECLAIM);
		is_dying = true;
	}
	make_ready();
	if (has_guest)
		vms_fill(life.slot);
}

/* --- The round --- */

static struct one_cpu {
	uint64_t cpu, seed;
	struct pkvm_step steps[CALLS];
	struct made made[CALLS];
	uint64_t lines[CALLS];
} cpus[CPUS];
static void *run_cpu(void *of)
{
	struct one_cpu *it = of;

	own_cpu = it->cpu;
	linux_cpu(own_cpu);
	any_from(it->seed);
	pthread_mutex_lock(&turns);
	wait_for_turn();
	pthread_mutex_unlock(&turns);
	for (int i = 0; i < CALLS; i++) {
		it->made[i] = make_on_linux(&it->steps[i], life.slot);
		word_met(true);
	}
	is_over[own_cpu] = true;
	give_turn(false);
	return NULL;
}

int run_round(const char *path, uint64_t seed)
{
	enum { KINDS = 3 };
	uint64_t kinds[KINDS];
	pthread_t threads[CPUS];

	trace = written(path, "trace");
	report = written(path, "report");
	any_from(seed);
	begin();
	line("start");
	is_guests_alone = any(2);
	/* Few kinds, so that calls of one meet, and a later one tells what came of it. */
	for (int i = 0; i < KINDS; i++)
		kinds[i] = some_kind();
	for (int i = 0; i < CALLS; i++) {
		for (uint64_t cpu = 0; cpu < CPUS; cpu++) {
			cpus[cpu].steps[i] = call_of(kinds[any(KINDS)]);
			line_of(cpu, &cpus[cpu].steps[i]);
			cpus[cpu].lines[i] = lines;
		}
	}
	turn = any(CPUS);
	is_at_once = true;
	for (uint64_t cpu = 0; cpu < CPUS; cpu++) {
		cpus[cpu].cpu = cpu;
		cpus[cpu].seed = seed * CPUS + cpu;
		if (pthread_create(&threads[cpu], NULL, run_cpu, &cpus[cpu]))
			refuse("no thread for CPU %lu", cpu);
	}
	for (uint64_t cpu = 0; cpu < CPUS; cpu++)
		pthread_join(threads[cpu], NULL);
	is_at_once = false;
	for (int i = 0; i < CALLS; i++)
		for (uint64_t cpu = 0; cpu < CPUS; cpu++)
			reply_of(cpus[cpu].lines[i], cpu, &cpus[cpu].steps[i], &cpus[cpu].made[i]);
	if (fclose(trace) || fclose(report))
		refuse("the round can't be written");
	return 0;
}
