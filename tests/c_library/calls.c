// The functions for random tests, from C: the state at boot, the lines of a trace, and suggested
// calls. `calls COUNT SEED` walks so many calls from boot on several layouts.
#include "pkvm_oracle.h"
#include <inttypes.h>
#include <stdbool.h>
#include <stdio.h>
#include <stdlib.h>
#include <string.h>

static int failed;

static void is(const char *name, bool holds)
{
	if (!holds) {
		printf("calls.c: %s: failed\n", name);
		failed++;
	}
}

enum { RUNS = 4096, TABLES = 2048, FRAMES = 4096, FEW = 64, LOADS = 512 };

// A state that the library wrote.
struct kept {
	struct pkvm_run runs[RUNS];
	struct pkvm_table tables[TABLES];
	struct pkvm_frame frames[FRAMES];
	struct pkvm_slot slots[FEW];
	struct pkvm_load loads[LOADS];
	struct pkvm_guest guests[FEW];
	struct pkvm_cpu cpus[FEW];
	struct pkvm_row rows[RUNS];
	struct pkvm_sizes sizes;
};

static struct pkvm_room room_in(struct kept *kept)
{
	return (struct pkvm_room){kept->runs,  RUNS, kept->tables, TABLES, kept->frames, FRAMES,
				  kept->slots, FEW,  kept->loads,  LOADS,  kept->guests, FEW,
				  kept->cpus,  FEW,  kept->rows,   RUNS};
}

static struct pkvm_state state_of(const struct kept *kept)
{
	const struct pkvm_sizes *n = &kept->sizes;

	return (struct pkvm_state){kept->runs,	 n->runs,   kept->tables, n->tables,
				   kept->frames, n->frames, kept->slots,  n->slots,
				   kept->loads,	 n->loads,  kept->guests, n->guests,
				   kept->cpus,	 n->cpus,   kept->rows,	  n->rows};
}

static const struct pkvm_region regions[] = {{PKVM_MEMORY, 0x40000, 0x800},
					     {PKVM_REGISTERS, 0x9000, 0x10}};

static struct pkvm_layout layout_of(uint64_t bits, uint64_t cpus)
{
	return (struct pkvm_layout){.address_bits = bits,
				    .cpus = cpus,
				    .carve_first = 0x40600,
				    .carve_count = 0x40,
				    .regions = regions,
				    .regions_len = 2};
}

static bool is_told(const uint8_t *text, size_t length, const char *words)
{
	return length == strlen(words) && !memcmp(text, words, length);
}

// What a layout is refused for, by both functions that boot it.
static void refuses(const char *name, struct pkvm_layout layout, uint64_t fault)
{
	static struct kept kept;
	struct pkvm_room room = room_in(&kept);
	struct pkvm_refused refused = {99, 99, 99};
	struct pkvm_sizes sizes = {9, 9, 9, 9, 9, 9, 9, 9}, none = {0};
	uint8_t text[512] = {77};
	size_t length = 99;

	memset(&kept, 77, sizeof kept);
	is(name, pkvm_boot(&layout, &room, &sizes, &refused) == PKVM_BAD_LAYOUT &&
			 refused.fault == fault && refused.list == 0 && refused.index == 0 &&
			 !memcmp(&sizes, &none, sizeof sizes) &&
			 kept.runs[0].tree == kept.rows[0].frame);
	refused.fault = 99;
	is(name,
	   pkvm_trace_start(&layout, text, sizeof text, &length, &refused) == PKVM_BAD_LAYOUT &&
		   refused.fault == fault && length == 0 && text[0] == 77);
	is(name, pkvm_fault_text(fault, text, sizeof text, &length) == 0 && length > 0);
}

static void layouts_that_do_not_boot(void)
{
	static const struct pkvm_region many[17] = {{PKVM_MEMORY, 0x40000, 0x800}};
	static const struct pkvm_region far[] = {{PKVM_MEMORY, 0x40000, 0x800}, {1, 1ull << 26, 1}};
	static const struct pkvm_region both[] = {{PKVM_MEMORY, 0x40000, 0x800}, {1, 0x407ff, 1}};
	struct pkvm_layout it = layout_of(40, 0);

	refuses("geometry first", it, PKVM_FAULT_GEOMETRY);
	it = layout_of(39, 0);
	it.regions = many;
	it.regions_len = 17;
	refuses("too many regions", it, PKVM_FAULT_REGIONS);
	it = layout_of(39, 0);
	it.carve_count = 0;
	refuses("no carve-out", it, PKVM_FAULT_NO_PAGE);
	it = layout_of(39, 0);
	it.regions = far;
	refuses("past the limit", it, PKVM_FAULT_PAST_LIMIT);
	it.regions = both;
	refuses("regions that share", it, PKVM_FAULT_REGIONS_SHARE);
	it = layout_of(39, 0);
	it.carve_first = 0x407ff;
	refuses("a carve-out outside", it, PKVM_FAULT_CARVE_OUTSIDE);
	it = layout_of(39, 0);
	it.regions = NULL;
	it.regions_len = 0;
	refuses("no memory at all", it, PKVM_FAULT_CARVE_OUTSIDE);
	it = layout_of(39, 0);
	it.carve_count = 5;
	refuses("no cpu", it, PKVM_FAULT_CPUS);
	refuses("65 cpus", layout_of(48, 65), PKVM_FAULT_CPUS);
	it = layout_of(39, 64);
	it.carve_count = 5;
	refuses("a frame too few", it, PKVM_FAULT_CARVE_SMALL);
	it = layout_of(48, 1);
	it.carve_count = 7;
	refuses("a frame too few of 48 bits", it, PKVM_FAULT_CARVE_SMALL);
}

// A list that has a member too little room, or none at all.
static void lacks_room(struct pkvm_layout *layout, size_t at, bool is_null)
{
	static struct kept kept, same;
	struct pkvm_room room = room_in(&kept), asked;
	struct pkvm_sizes sizes;
	struct pkvm_refused refused;

	is("boot", pkvm_boot(layout, &room, &sizes, &refused) == 0);
	const uint64_t needed[] = {sizes.runs,	sizes.tables, sizes.frames, sizes.slots,
				   sizes.loads, sizes.guests, sizes.cpus,   sizes.rows};
	size_t *lengths[] = {&room.runs_len,  &room.tables_len, &room.frames_len, &room.slots_len,
			     &room.loads_len, &room.guests_len, &room.cpus_len,	  &room.rows_len};
	if (!needed[at])
		return;
	*lengths[at] = is_null ? 0 : needed[at] - 1;
	if (is_null && at == 0)
		room.runs = NULL;
	memset(&kept, 77, sizeof kept);
	memset(&same, 77, sizeof same);
	asked = room;
	struct pkvm_sizes told = {0};
	is("a room too small", pkvm_boot(layout, &room, &told, &refused) == PKVM_NO_ROOM &&
				       !memcmp(&told, &sizes, sizeof sizes) && refused.fault == 0 &&
				       !memcmp(&kept, &same, sizeof kept) &&
				       !memcmp(&room, &asked, sizeof room));
}

static void the_state_at_boot(void)
{
	static struct kept kept;
	struct pkvm_layout layout = layout_of(39, 3);
	struct pkvm_room room = room_in(&kept);
	struct pkvm_refused refused = {9, 9, 9};
	uint8_t text[512];
	size_t length;

	is("boot", pkvm_boot(&layout, &room, &kept.sizes, &refused) == 0 && refused.fault == 0);
	struct pkvm_state state = state_of(&kept);
	is("it is legal", pkvm_check(&layout, &state, PKVM_COARSEST_TREES, text, sizeof text,
				     &length, &refused) == PKVM_AGREES);
	is("its sizes", kept.sizes.runs == 2 && kept.sizes.tables == 6 && kept.sizes.frames == 58 &&
				kept.sizes.slots == 64 && kept.sizes.loads == 0 &&
				kept.sizes.guests == 64 && kept.sizes.cpus == 3);
	is("the host's run", kept.runs[0].tree == PKVM_HOST && kept.runs[0].page == 0x40600 &&
				     kept.runs[0].count == 0x40 &&
				     kept.runs[0].word.says == PKVM_ANNOTATED &&
				     kept.runs[0].word.owner == PKVM_HYP);
	is("the hypervisor's",
	   kept.runs[1].tree == PKVM_HYP && kept.runs[1].page == 0x4040600 &&
		   kept.runs[1].count == 0x40 && kept.runs[1].word.says == PKVM_LEAF &&
		   kept.runs[1].word.frame == 0x40600 && kept.runs[1].word.rights == PKVM_RW &&
		   kept.runs[1].word.state == PKVM_OWNED);
	bool has_host_root = false, has_hyp_root = false, has_row = false;
	for (size_t i = 0; i < kept.sizes.tables; i++) {
		const struct pkvm_table *table = kept.tables + i;
		has_host_root |= !table->tree && table->height == 3 && table->frame == 0x40600;
		has_hyp_root |= table->tree == 1 && table->height == 3;
	}
	is("the roots", has_host_root && has_hyp_root);
	for (size_t i = 0; i < kept.sizes.frames; i++)
		is("a free frame",
		   kept.frames[i].pool == PKVM_HYP && kept.frames[i].frame == 0x40606 + i);
	for (size_t i = 0; i < kept.sizes.rows; i++)
		has_row |= kept.rows[i].frame == 0x40600 && kept.rows[i].count == 0x40 &&
			   kept.rows[i].owner.owner == PKVM_HYP &&
			   kept.rows[i].owner.usage == PKVM_USE_SHARED_POOL;
	is("the carve-out's row", has_row);
	for (size_t i = 0; i < 64; i++) {
		const struct pkvm_slot slot = {i, PKVM_VACANT, 1, PKVM_PLAIN, 0};
		is("a slot", !memcmp(kept.slots + i, &slot, sizeof slot));
	}
	for (size_t at = 0; at < 8; at++) {
		lacks_room(&layout, at, false);
		lacks_room(&layout, at, true);
	}
	room = (struct pkvm_room){0};
	is("no room at all", pkvm_boot(&layout, &room, &kept.sizes, &refused) == PKVM_NO_ROOM &&
				     kept.sizes.cpus == 3);
	struct pkvm_layout large = {.address_bits = 48,
				    .cpus = 64,
				    .carve_first = 0x40000,
				    .carve_count = 0x2000,
				    .regions = &(struct pkvm_region){PKVM_MEMORY, 0x40000, 0x80000},
				    .regions_len = 1};
	is("2 GiB", pkvm_boot(&large, &room, &kept.sizes, &refused) == PKVM_NO_ROOM &&
			    kept.sizes.frames == 0x2000 - 6);
}

static void what_a_trace_begins_with(void)
{
	static const char lines[] = "geometry 48\ncpus 2\nlog 1048576\nmemory 0x40000 2048\n"
				    "device 0x9000 16\ncarve 0x40600 64\nboot\n";
	struct pkvm_layout layout = layout_of(48, 2);
	struct pkvm_refused refused = {9, 9, 9};
	uint8_t text[512], report[512];
	size_t length = 0, written = 0;

	memset(text, 77, sizeof text);
	is("the beginning of a trace",
	   pkvm_trace_start(&layout, text, sizeof text, &length, &refused) == 0 &&
		   is_told(text, length, lines) && refused.fault == 0 && text[length] == 77);
	is("it is replayed",
	   pkvm_replay(text, length, report, sizeof report, &written) == PKVM_CLEAN);
	memset(text, 77, sizeof text);
	size_t needed = length;
	is("a byte too few",
	   pkvm_trace_start(&layout, text, needed - 1, &length, &refused) == PKVM_NO_ROOM &&
		   length == needed && text[0] == 77);
	is("just enough", pkvm_trace_start(&layout, text, needed, &length, &refused) == 0);
	is("no byte", pkvm_trace_start(&layout, NULL, 0, &length, &refused) == PKVM_NO_ROOM &&
			      length == needed);
}

static const struct {
	uint64_t call, arguments[4];
	const char *line;
} LINES[] = {
	{PKVM_SHARE_HYP, {0x40100}, "share_hyp 0x40100"},
	{PKVM_UNSHARE_HYP, {0x40100}, "unshare_hyp 0x40100"},
	{PKVM_DONATE_HYP, {0x40100, 12}, "donate_hyp 0x40100 12"},
	{PKVM_HYP_DONATE_HOST, {0x40100, 1}, "hyp_donate_host 0x40100 1"},
	{PKVM_HOST_ABORT, {0x9000}, "host_abort 0x9000"},
	{PKVM_HOST_TRANSLATE, {UINT64_MAX}, "host_translate 0xffffffffffffffff"},
	{PKVM_HYP_TRANSLATE, {0x4040100}, "hyp_translate 0x4040100"},
	{PKVM_OWNER_OF, {0}, "owner_of 0x0"},
	{PKVM_FUND, {0x40200, 8}, "fund 0x40200 8"},
	{PKVM_UNFUND, {0}, "unfund"},
	{PKVM_SHARE_GUEST, {0x40100, 0x80000, PKVM_RX, 1}, "share_guest 0x40100 0x80000 rx 1"},
	{PKVM_UNSHARE_GUEST, {3, 2, 0x80000}, "unshare_guest 3.2 0x80000"},
	{PKVM_DONATE_GUEST, {0x40100, 0x80000, 512}, "donate_guest 0x40100 0x80000 512"},
	{PKVM_GUEST_SHARE_HOST, {0x80000}, "guest_share_host 0x80000"},
	{PKVM_GUEST_UNSHARE_HOST, {0x80000}, "guest_unshare_host 0x80000"},
	{PKVM_INSTALL, {0}, "install"},
	{PKVM_TOPUP, {0, 1}, "topup 0.1"},
	{PKVM_RECLAIM_PAGE, {0, 1, 0x80000}, "reclaim_page 0.1 0x80000"},
	{PKVM_RECLAIM_POOL, {63, UINT64_MAX}, "reclaim_pool 63.18446744073709551615"},
	{PKVM_FINISH_GUEST, {0}, "finish_guest"},
	{PKVM_GUEST_RELAX, {0x80000, PKVM_RWX}, "guest_relax 0x80000 rwx"},
	{PKVM_GUEST_TRANSLATE, {0, 1, 0x80000}, "guest_translate 0.1 0x80000"},
	{PKVM_MARK_DYING, {0}, "mark_dying"},
	{PKVM_VM_RESERVE, {PKVM_PROTECTED, 2}, "vm_reserve protected 2"},
	{PKVM_VM_OPEN, {0}, "vm_open"},
	{PKVM_VCPU_LOAD, {0, 1, 7}, "vcpu_load 0.1 7"},
	{PKVM_VCPU_PUT, {0}, "vcpu_put"},
	{PKVM_TEARDOWN, {0, 1}, "teardown 0.1"},
	{PKVM_VM_RELEASE, {0}, "vm_release"},
};

static void lines_of_calls(void)
{
	struct pkvm_layout layout = layout_of(39, 64);
	uint8_t text[256];
	size_t length;

	is("29 lines", sizeof LINES / sizeof *LINES == 29);
	for (size_t i = 0; i < sizeof LINES / sizeof *LINES; i++) {
		struct pkvm_call call = {.cpu = i * 2, .reply = {.refusal = 999, .gives = 999}};
		char line[256];
		call.step.call = LINES[i].call;
		memcpy(call.step.arguments, LINES[i].arguments, sizeof call.step.arguments);
		snprintf(line, sizeof line, "%zu %s\n", i * 2, LINES[i].line);
		memset(text, 77, sizeof text);
		is(LINES[i].line, pkvm_trace_of(&layout, &call, text, sizeof text, &length) == 0 &&
					  is_told(text, length, line) && text[length] == 77);
		size_t needed = length;
		memset(text, 77, sizeof text);
		is("a byte too few",
		   pkvm_trace_of(&layout, &call, text, needed - 1, &length) == PKVM_NO_ROOM &&
			   length == needed && text[0] == 77);
		is("no byte", pkvm_trace_of(&layout, &call, NULL, 0, &length) == PKVM_NO_ROOM);
	}
	struct pkvm_call call = {.cpu = 64, .step = {30, {0}}};
	is("an unknown call", pkvm_trace_of(&layout, &call, text, 256, &length) == PKVM_BAD_STEP &&
				      length == 0 && text[0] == 77);
	call.step = (struct pkvm_step){PKVM_GUEST_RELAX, {0x80000, 3}};
	is("unknown rights", pkvm_trace_of(&layout, &call, text, 256, &length) == PKVM_BAD_STEP);
	call.step = (struct pkvm_step){PKVM_VM_RESERVE, {2, 1}};
	is("an unknown kind", pkvm_trace_of(&layout, &call, text, 256, &length) == PKVM_BAD_STEP);
	call.step = (struct pkvm_step){PKVM_UNFUND, {0}};
	is("no such cpu", pkvm_trace_of(&layout, &call, text, 256, &length) == PKVM_BAD_CPU &&
				  length == 0 && text[0] == 77);
}

static void suggestions_that_are_refused(void)
{
	struct pkvm_layout layout = layout_of(40, 0);
	struct pkvm_run twice[] = {{70, 0, 1, {0}}};
	struct pkvm_state state = {.runs = twice, .runs_len = 1};
	struct pkvm_call call, same;
	struct pkvm_refused refused = {9, 9, 9};

	memset(&call, 77, sizeof call);
	memset(&same, 77, sizeof same);
	is("101 percent",
	   pkvm_suggest(&layout, &state, 1, 101, &call, &refused) == PKVM_BAD_NUMBER &&
		   refused.fault == 0);
	is("no cpu", pkvm_suggest(&layout, &state, 1, 100, &call, &refused) == PKVM_BAD_CPU &&
			     refused.fault == 0);
	layout.cpus = 1;
	is("no layout", pkvm_suggest(&layout, &state, 1, 0, &call, &refused) == PKVM_BAD_LAYOUT &&
				refused.fault == PKVM_FAULT_GEOMETRY);
	layout.address_bits = 39;
	is("no state", pkvm_suggest(&layout, &state, 1, 0, &call, &refused) == PKVM_BAD_BEFORE &&
			       refused.fault == PKVM_FAULT_UNKNOWN &&
			       refused.list == PKVM_LIST_RUNS && refused.index == 0);
	is("the call stays", !memcmp(&call, &same, sizeof call));
	state = (struct pkvm_state){0};
	is("the empty state", pkvm_suggest(&layout, &state, 1, 0, &call, &refused) == 0 &&
				      !memcmp(&call.reply, &same.reply, sizeof call.reply));
}

static uint64_t any(uint64_t *seed)
{
	*seed ^= *seed << 13;
	*seed ^= *seed >> 7;
	*seed ^= *seed << 17;
	return *seed;
}

// Suggested calls from boot, each state that of the model: whether all calls come, so many are
// refused, and the trace of them all is replayed with the replies that were predicted.
static void walk(struct pkvm_layout layout, uint64_t count, uint64_t hostile, uint64_t seed,
		 bool has_all)
{
	static struct kept states[2];
	static uint8_t trace[1 << 20], report[1 << 20];
	struct pkvm_room room = room_in(&states[0]);
	struct pkvm_refused refused;
	uint64_t made[30] = {0}, refusals = 0, first = seed;
	size_t length = 0, more = 0, written = 0;

	is("boot", pkvm_boot(&layout, &room, &states[0].sizes, &refused) == 0);
	is("the beginning", pkvm_trace_start(&layout, trace, sizeof trace, &length, &refused) == 0);
	for (uint64_t i = 0; i < count; i++) {
		struct kept *old = &states[i % 2], *new = &states[1 - i % 2];
		struct pkvm_state state = state_of(old);
		struct pkvm_call call = {0}, again = {.reply = {.refusal = 5}};
		uint64_t random = seed ? any(&seed) : i;

		if (pkvm_suggest(&layout, &state, random, hostile, &call, &refused) ||
		    pkvm_suggest(&layout, &state, random, hostile, &again, &refused))
			return is("a suggestion", false);
		is("the reply stays", again.reply.refusal == 5);
		again.reply = call.reply;
		is("the same call again", !memcmp(&call, &again, sizeof call));
		is("a call by a cpu", call.cpu < layout.cpus && call.step.call - 1 < 29);
		room = room_in(new);
		if (pkvm_predict(&layout, &state, call.cpu, &call.step, &call.reply, &room,
				 &new->sizes, &refused))
			return is("a prediction", false);
		made[call.step.call]++;
		refusals += call.reply.refusal != 0;
		is("its line", pkvm_trace_of(&layout, &call, trace + length, sizeof trace - length,
					     &more) == 0);
		length += more;
	}
	if (hostile == 0 || hostile == 100)
		is("refused as wanted", refusals == (hostile ? count : 0));
	else
		is("about as many refusals", refusals * 100 > count * (hostile - 6) &&
						     refusals * 100 < count * (hostile + 6));
	for (size_t i = 1; i < 30; i++)
		if (has_all && !made[i]) {
			printf("calls.c: seed %" PRIu64 ": call %zu isn't made\n", first, i);
			failed++;
		}
	is("the trace is replayed",
	   pkvm_replay(trace, length, report, sizeof report, &written) == PKVM_CLEAN);
	char *last = (char *)report, end[64];
	report[written < sizeof report ? written : sizeof report - 1] = 0;
	for (char *at = last; (at = strstr(at, "\nend ")); at++)
		last = at + 1;
	snprintf(end, sizeof end, "end steps %" PRIu64 " disagreements 0\n", count);
	is("with all its calls", !strcmp(last, end));
}

int main(int argc, char **argv)
{
	uint64_t count = argc > 1 ? strtoull(argv[1], NULL, 10) : 1000;
	uint64_t seed = argc > 2 ? strtoull(argv[2], NULL, 10) : 1;
	static const struct pkvm_region two[] = {{PKVM_MEMORY, 0x1000, 0x300},
						 {PKVM_MEMORY, 0x2000, 0x400}};
	struct pkvm_layout other = {.address_bits = 48,
				    .cpus = 1,
				    .carve_first = 0x1100,
				    .carve_count = 0x80,
				    .regions = two,
				    .regions_len = 2};

	layouts_that_do_not_boot();
	the_state_at_boot();
	what_a_trace_begins_with();
	lines_of_calls();
	suggestions_that_are_refused();
	walk(layout_of(39, 2), count, 0, seed, true);
	walk(layout_of(39, 4), count, 30, seed + 1, true);
	walk(layout_of(48, 1), count, 20, 0, true);
	walk(other, count, 10, seed + 2, true);
	walk(layout_of(39, 2), count / 4, 100, seed + 3, false);
	return failed != 0;
}
