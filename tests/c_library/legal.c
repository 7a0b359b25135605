// States that pkvm_check tells from those that the model's runs lead to: the states along the lives
// of three VMs are legal, and each change of the last one is refused by name. Then pkvm_fault_text.
// `legal COUNT` walks along so many traces of random calls too, half of them of 48 bits, and each
// state must be legal. It ends with 0, or writes what is wrong.
#include "pkvm_oracle.h"
#include <inttypes.h>
#include <stdbool.h>
#include <stdio.h>
#include <stdlib.h>
#include <string.h>

enum { ROOM = 512 };

struct machine {
	struct pkvm_run runs[ROOM];
	struct pkvm_table tables[ROOM];
	struct pkvm_frame frames[ROOM];
	struct pkvm_slot slots[ROOM];
	struct pkvm_load loads[ROOM];
	struct pkvm_guest guests[ROOM];
	struct pkvm_cpu cpus[ROOM];
	struct pkvm_row rows[ROOM];
	struct pkvm_sizes len;
};

static const struct pkvm_region regions[] = {{PKVM_MEMORY, 0x40000, 0x800}};
static struct pkvm_layout layout = {39, 3, 0x40600, 0x40, regions, 1, 0};
static struct machine life;

static struct pkvm_state state_of(const struct machine *m)
{
	return (struct pkvm_state){m->runs,   m->len.runs,   m->tables, m->len.tables,
				   m->frames, m->len.frames, m->slots,	m->len.slots,
				   m->loads,  m->len.loads,  m->guests, m->len.guests,
				   m->cpus,   m->len.cpus,   m->rows,	m->len.rows};
}

static char text[512];

// What is told of a state; "" where it is legal.
static const char *told(const struct machine *m, uint64_t flags)
{
	struct pkvm_state state = state_of(m);
	struct pkvm_refused refused;
	size_t length = 99;
	int32_t status = pkvm_check(&layout, &state, flags, (uint8_t *)text, sizeof text - 1,
				    &length, &refused);
	if (status == PKVM_AGREES || status == PKVM_DISAGREES)
		text[length] = 0;
	else
		snprintf(text, sizeof text, "status %" PRId32 " fault %" PRIu64, status,
			 refused.fault);
	return text;
}

static struct pkvm_word leaf(uint64_t frame, uint64_t rights, uint64_t state)
{
	return (struct pkvm_word){PKVM_LEAF, frame, 0, rights, PKVM_NORMAL, state};
}

static struct pkvm_word annotated(uint64_t owner)
{
	return (struct pkvm_word){.says = PKVM_ANNOTATED, .owner = owner};
}

// The state at boot: the carve-out is the hypervisor's, and its first frames are tables.
static void boot(struct machine *m)
{
	static const struct pkvm_table tables[] = {
		{PKVM_HOST, 4, 0, 0},	  {PKVM_HOST, 3, 0, 0},	    {PKVM_HOST, 2, 1, 0},
		{PKVM_HOST, 1, 0x203, 0}, {PKVM_HYP, 4, 0, 0},	    {PKVM_HYP, 3, 0, 0},
		{PKVM_HYP, 2, 0x101, 0},  {PKVM_HYP, 1, 0x20203, 0}};
	uint64_t frame = 0x40600;
	memset(m, 0, sizeof *m);
	for (size_t i = 0; i < sizeof tables / sizeof *tables; i++) {
		if (layout.address_bits == 39 && tables[i].height == 4)
			continue;
		m->tables[m->len.tables] = tables[i];
		m->tables[m->len.tables++].frame = frame++;
	}
	while (frame < 0x40640)
		m->frames[m->len.frames++] = (struct pkvm_frame){PKVM_HYP, frame++};
	m->runs[0] = (struct pkvm_run){PKVM_HOST, 0x40600, 0x40, annotated(PKVM_HYP)};
	m->runs[1] =
		(struct pkvm_run){PKVM_HYP, 0x4040600, 0x40, leaf(0x40600, PKVM_RW, PKVM_OWNED)};
	m->len.runs = 2;
	m->rows[0] = (struct pkvm_row){
		0x40600, 0x40, {.owner = PKVM_HYP, .usage = PKVM_USE_SHARED_POOL}};
	m->len.rows = 1;
}

// A call as the model makes it.
static bool call(struct machine *m, uint64_t cpu, struct pkvm_step step)
{
	static struct machine next;
	struct pkvm_state before = state_of(m);
	struct pkvm_room room = {next.runs,  ROOM, next.tables, ROOM, next.frames, ROOM,
				 next.slots, ROOM, next.loads,	ROOM, next.guests, ROOM,
				 next.cpus,  ROOM, next.rows,	ROOM};
	struct pkvm_reply reply;
	struct pkvm_refused refused;
	if (pkvm_predict(&layout, &before, cpu, &step, &reply, &room, &next.len, &refused) ||
	    reply.refusal)
		return false;
	*m = next;
	return true;
}

// The lives of a protected and of a plain VM, a hand, and pages shared with and given to the
// hypervisor. Each state on the way must be legal.
static bool live(struct machine *m)
{
	static const struct {
		uint64_t cpu;
		struct pkvm_step step;
	} steps[] = {
		{0, {PKVM_VM_RESERVE, {PKVM_PROTECTED, 2}}},
		{0, {PKVM_FUND, {0x40200, 4}}},
		{0, {PKVM_INSTALL, {0}}},
		{0, {PKVM_VM_OPEN, {0}}},
		{0, {PKVM_VCPU_LOAD, {0, 1, 0}}},
		{0, {PKVM_DONATE_GUEST, {0x40100, 0x80000, 1}}},
		{0, {PKVM_DONATE_GUEST, {0x40101, 0x80001, 1}}},
		{0, {PKVM_GUEST_SHARE_HOST, {0x80001}}},
		{1, {PKVM_VM_RESERVE, {PKVM_PLAIN, 1}}},
		{1, {PKVM_FUND, {0x40210, 4}}},
		{1, {PKVM_INSTALL, {0}}},
		{1, {PKVM_VM_OPEN, {0}}},
		{1, {PKVM_VCPU_LOAD, {1, 1, 0}}},
		{1, {PKVM_SHARE_GUEST, {0x40300, 0x90, PKVM_RWX, 2}}},
		{0, {PKVM_SHARE_HYP, {0x40400}}},
		{0, {PKVM_DONATE_HYP, {0x40410, 2}}},
		{2, {PKVM_VM_RESERVE, {PKVM_PLAIN, 1}}},
		{2, {PKVM_FUND, {0x40220, 3}}},
		{0, {PKVM_HOST_ABORT, {0x40500}}},
	};
	boot(m);
	for (size_t i = 0; i < sizeof steps / sizeof *steps; i++)
		if (*told(m, PKVM_COARSEST_TREES) || *told(m, PKVM_ANY_TREES) ||
		    !call(m, steps[i].cpu, steps[i].step)) {
			fprintf(stderr, "before step %zu: %s\n", i, text);
			return false;
		}
	return !*told(m, PKVM_COARSEST_TREES) && !*told(m, PKVM_ANY_TREES);
}

// --- Changes ---

static struct pkvm_word later(struct pkvm_word word, uint64_t pages)
{
	if (word.says == PKVM_LEAF)
		word.frame += pages;
	return word;
}

// A page has a word, and the rest of its run what it had.
static void put(struct machine *m, uint64_t tree, uint64_t page, struct pkvm_word word)
{
	for (size_t i = 0; i < m->len.runs; i++) {
		struct pkvm_run run = m->runs[i];
		if (run.tree != tree || page - run.page >= run.count)
			continue;
		uint64_t front = page - run.page;
		m->runs[i].count = front;
		m->runs[m->len.runs++] = (struct pkvm_run){tree, page + 1, run.count - front - 1,
							   later(run.word, front + 1)};
		if (!front)
			m->runs[i] = m->runs[--m->len.runs];
		break;
	}
	m->runs[m->len.runs++] = (struct pkvm_run){tree, page, 1, word};
	for (size_t i = m->len.runs; i-- > 0;)
		if (!m->runs[i].count)
			m->runs[i] = m->runs[--m->len.runs];
}

static void put_row(struct machine *m, uint64_t frame, struct pkvm_owner owner)
{
	for (size_t i = 0; i < m->len.rows; i++) {
		struct pkvm_row row = m->rows[i];
		if (frame - row.frame >= row.count)
			continue;
		uint64_t front = frame - row.frame;
		m->rows[i].count = front;
		row.frame = frame + 1;
		row.count -= front + 1;
		row.owner.borrower_page += row.owner.is_lent ? front + 1 : 0;
		m->rows[m->len.rows++] = row;
		break;
	}
	m->rows[m->len.rows++] = (struct pkvm_row){frame, 1, owner};
	for (size_t i = m->len.rows; i-- > 0;)
		if (!m->rows[i].count)
			m->rows[i] = m->rows[--m->len.rows];
}

static struct pkvm_table *table(struct machine *m, uint64_t tree, uint64_t height, uint64_t index)
{
	for (size_t i = 0; i < m->len.tables; i++)
		if (m->tables[i].tree == tree && m->tables[i].height == height &&
		    m->tables[i].index == index)
			return &m->tables[i];
	abort();
}

static void drop_table(struct machine *m, struct pkvm_table *it)
{
	*it = m->tables[--m->len.tables];
}

static void add_frame(struct machine *m, uint64_t pool, uint64_t frame)
{
	m->frames[m->len.frames++] = (struct pkvm_frame){pool, frame};
}

static void drop_frame(struct machine *m, uint64_t frame)
{
	for (size_t i = 0; i < m->len.frames; i++)
		if (m->frames[i].frame == frame) {
			m->frames[i] = m->frames[--m->len.frames];
			return;
		}
	abort();
}

static void free_root(struct machine *m)
{
	add_frame(m, PKVM_HYP, table(m, PKVM_HOST, 3, 0)->frame);
}

static void free_table(struct machine *m)
{
	add_frame(m, PKVM_HYP, table(m, PKVM_HOST, 2, 1)->frame);
}

static void table_of_host(struct machine *m)
{
	table(m, PKVM_HOST, 1, 0x202)->frame = 0x40500;
}

static void root_of_hyp(struct machine *m)
{
	put(m, PKVM_HOST, 0x40603, leaf(0x40603, PKVM_RWX, PKVM_OWNED));
}

static void hand_in_pool(struct machine *m)
{
	m->cpus[0].has_hand = 1;
	m->cpus[0].hand_first = 0x40620;
	m->cpus[0].hand_count = 1;
}

static void hand_twice(struct machine *m)
{
	m->cpus[0].has_hand = 1;
	m->cpus[0].hand_first = m->cpus[2].hand_first;
	m->cpus[0].hand_count = m->cpus[2].hand_count;
}

static void vacant(struct machine *m)
{
	m->slots[1].stand = PKVM_VACANT;
}

static void vacant_live(struct machine *m)
{
	vacant(m);
	m->cpus[1].has_vcpu = 0;
	for (size_t i = 0; i < m->len.loads; i++)
		if (m->loads[i].slot == 1)
			m->loads[i] = m->loads[--m->len.loads];
}

static void other_frame(struct machine *m)
{
	put(m, PKVM_HOST, 0x40500, leaf(0x40502, PKVM_RWX, PKVM_OWNED));
}

static void hyp_other_frame(struct machine *m)
{
	put(m, PKVM_HYP, 0x4040400, leaf(0x40401, PKVM_RW, PKVM_SHARED_BORROWED));
}

static void hyp_rights(struct machine *m)
{
	put(m, PKVM_HYP, 0x4040400, leaf(0x40400, PKVM_RWX, PKVM_SHARED_BORROWED));
}

static void empty_guest_owns(struct machine *m)
{
	put(m, PKVM_HOST, 0x40500, annotated(PKVM_GUEST + 7));
}

static void nobody_owns(struct machine *m)
{
	put(m, PKVM_HOST, 0x40500, annotated(200));
}

static void lent_to_nobody(struct machine *m)
{
	put(m, PKVM_HOST, 0x40500, leaf(0x40500, PKVM_RWX, PKVM_SHARED_OWNED));
}

static void load(struct machine *m)
{
	m->cpus[2].has_vcpu = 1;
	m->cpus[2].vcpu_slot = 0;
	m->cpus[2].vcpu_generation = 1;
	m->cpus[2].vcpu = 1;
}

static void hand_empty(struct machine *m)
{
	m->cpus[0].has_hand = 1;
	m->cpus[0].hand_first = 0x40220;
}

static void ticket(struct machine *m)
{
	m->cpus[2].ticket_stage = PKVM_INSTALLED;
}

static void no_ticket(struct machine *m)
{
	m->cpus[2].has_ticket = 0;
}

static void vcpu(struct machine *m)
{
	m->loads[m->len.loads++] = (struct pkvm_load){0, 1, 2};
}

static void other_generation(struct machine *m)
{
	m->guests[1].generation = 2;
}

static void empty_pool(struct machine *m)
{
	add_frame(m, PKVM_GUEST + 5, 0x40500);
}

static void no_root(struct machine *m)
{
	drop_table(m, table(m, PKVM_GUEST + 1, 3, 0));
}

static void outside(struct machine *m)
{
	m->tables[m->len.tables++] = (struct pkvm_table){PKVM_HOST, 2, 512, 0x40610};
}

static void guest_page(struct machine *m)
{
	struct pkvm_word word = leaf(0x40500, PKVM_RWX, PKVM_OWNED);
	word.kind = PKVM_DEVICE;
	put(m, PKVM_GUEST + 1, 0x93, word);
}

static void guest_page_far(struct machine *m)
{
	put(m, PKVM_GUEST + 1, 0x8000000, leaf(0x40500, PKVM_RWX, PKVM_SHARED_BORROWED));
}

static void hyp_page(struct machine *m)
{
	put(m, PKVM_HYP, 0x3ffffff, leaf(0x40500, PKVM_RW, PKVM_OWNED));
}

static void two_guests(struct machine *m)
{
	put(m, PKVM_GUEST + 1, 0x200, leaf(0x40100, PKVM_RWX, PKVM_OWNED));
}

static void no_memory(struct machine *m)
{
	put(m, PKVM_GUEST + 1, 0x93, leaf(0x9000, PKVM_RWX, PKVM_OWNED));
}

static void frame_lost(struct machine *m)
{
	drop_frame(m, 0x4063f);
}

static void other_row(struct machine *m)
{
	put_row(m, 0x40500, (struct pkvm_owner){.owner = PKVM_HYP});
}

static void pool_row(struct machine *m)
{
	put_row(m, 0x40610,
		(struct pkvm_owner){.owner = PKVM_HYP, .usage = PKVM_USE_GUEST_POOL, .user = 1});
}

static void missing(struct machine *m)
{
	struct pkvm_table *it = table(m, PKVM_HOST, 1, 0x202);
	add_frame(m, PKVM_HYP, it->frame);
	drop_table(m, it);
}

static void needless(struct machine *m)
{
	drop_frame(m, 0x4063f);
	m->tables[m->len.tables++] = (struct pkvm_table){PKVM_HOST, 1, 0x100, 0x4063f};
}

static void two_faults(struct machine *m)
{
	frame_lost(m);
	hand_empty(m);
}

static const struct {
	const char *name;
	void (*change)(struct machine *m);
	const char *told;
	bool is_legal; // whatever tables trees need
} changes[] = {
	{"the root is free", free_root, "held twice 0x40600: table host 3 0x0, shared pool", 0},
	{"a linked table is free", free_table, "held twice 0x40601: table host 2 0x1, shared pool",
	 0},
	{"a table in a frame of the host's", table_of_host,
	 "no condition 0x40500: host leaf 0x40500 rwx normal owned, hyp unmapped, row owner 0 lent - use plain, table host 1 0x202",
	 0},
	{"the host maps the hypervisor's root", root_of_hyp,
	 "no condition 0x40603: host leaf 0x40603 rwx normal owned, hyp leaf 0x40603 rw normal owned, row owner 1 lent - use shared_pool, table hyp 3 0x0",
	 0},
	{"a hand lies in the pool", hand_in_pool, "held twice 0x40620: shared pool, hand of cpu 0",
	 0},
	{"one hand at two CPUs", hand_twice, "held twice 0x40220: hand of cpu 0, hand of cpu 2", 0},
	{"a loaded vCPU of a vacant slot", vacant, "slot 1 vcpu 0: not loaded on that cpu", 0},
	{"a live guest in a vacant slot", vacant_live, "slot 1: guest does not fit it", 0},
	{"the host's page maps another frame", other_frame,
	 "no condition 0x40500: host leaf 0x40502 rwx normal owned, hyp unmapped, row owner 0 lent - use plain",
	 0},
	{"the hypervisor's page maps another frame", hyp_other_frame, "no condition 0x40400: ", 0},
	{"the hypervisor borrows RWX", hyp_rights, "no condition 0x40400: ", 0},
	{"a frame of an empty guest's", empty_guest_owns,
	 "no condition 0x40500: host annot 9, hyp unmapped, row owner 0 lent - use plain", 0},
	{"a frame of owner 200's", nobody_owns,
	 "no condition 0x40500: host annot 200, hyp unmapped, row owner 0 lent - use plain", 0},
	{"shared, and nobody borrows it", lent_to_nobody,
	 "no condition 0x40500: host leaf 0x40500 rwx normal shared_owned, hyp unmapped, row owner 0 lent - use plain",
	 0},
	{"a vCPU that its slot hasn't", load, "cpu 2: its slot has no such vcpu loaded", 0},
	{"a hand of no frame", hand_empty, "cpu 0: hand without a frame", 0},
	{"a ticket of another stage", ticket, "cpu 2: ticket does not fit its slot", 0},
	{"no ticket", no_ticket, "slot 2: not exactly one ticket", 0},
	{"a vCPU that its CPU hasn't", vcpu, "slot 0 vcpu 1: not loaded on that cpu", 0},
	{"a guest of another generation", other_generation, "slot 1: guest does not fit it", 0},
	{"an empty guest has a pool", empty_pool,
	 "guest 5: Empty with something, or without a root", 0},
	{"a guest without a root", no_root, "guest 1: Empty with something, or without a root", 0},
	{"a table past the tree", outside, "outside table host 2 0x200", 0},
	{"a guest's page of registers", guest_page,
	 "guest 1 0x93: no memory page, or past the input pages", 0},
	{"a guest's page past the input pages", guest_page_far,
	 "guest 1 0x8000000: no memory page, or past the input pages", 0},
	{"a page below the hypervisor's", hyp_page, "hyp 0x3ffffff: below the pages of frames", 0},
	{"two guests have a frame", two_guests,
	 "held twice 0x40100: guest 0 0x80000 owned, guest 1 0x200 owned", 0},
	{"a guest has what is no memory", no_memory,
	 "no condition 0x9000: host unmapped, hyp unmapped, no memory, guest 1 0x93 owned", 0},
	{"a frame has gone from the pool", frame_lost,
	 "no condition 0x4063f: host annot 1, hyp leaf 0x4063f rw normal owned, row owner 1 lent - use shared_pool",
	 0},
	{"a row of another owner", other_row,
	 "no condition 0x40500: host leaf 0x40500 rwx normal owned, hyp unmapped, row owner 1 lent - use plain",
	 0},
	{"a row of another pool", pool_row, "no condition 0x40610: ", 0},
	{"the first of two faults", two_faults, "cpu 0: hand without a frame", 0},
	{"a table is missing", missing, "missing table host 1 0x202", 1},
	{"a table is needless", needless, "needless table host 1 0x100", 1},
};

static const char *fault(uint64_t number, size_t room)
{
	size_t length = 99;
	int32_t status;
	memset(text, '.', sizeof text);
	status = pkvm_fault_text(number, (uint8_t *)text, room, &length);
	if (status)
		snprintf(text, sizeof text, "status %" PRId32 " length %zu", status, length);
	else
		text[length] = 0;
	return text;
}

static uint64_t seed = 0x9e3779b97f4a7c15u;

// xorshift, below a number
static uint64_t below(uint64_t most)
{
	seed ^= seed << 13;
	seed ^= seed >> 7;
	seed ^= seed << 17;
	return (seed >> 11) % most;
}

// Arguments that a call of this number may well be made with: F a frame, P a guest's page, R
// rights, S a slot, 0 one of two numbers, 1 a small count or a generation.
static struct pkvm_step step_of(uint64_t number)
{
	static const char *kinds[] = {"", "F",	  "F",	 "F1",	"F1", "F", "F",	  "F",	"F",   "F1",
				      "", "FPR1", "S1P", "FP1", "P",  "P", "",	  "S1", "S1P", "S1",
				      "", "PR",	  "S1P", "",	"01", "",  "S10", "",	"S1",  ""};
	struct pkvm_step step = {number, {0}};
	for (size_t i = 0; kinds[number][i]; i++) {
		uint64_t *it = &step.arguments[i];
		switch (kinds[number][i]) {
		case 'F':
			*it = (below(8) ? 0x40100 : 0x40600) + below(12);
			break;
		case 'P':
			*it = 0x80000 + below(6);
			break;
		case 'R':
			*it = PKVM_R + below(4);
			break;
		case '1':
			*it = 1 + below(3);
			break;
		default:
			*it = below(2);
		}
	}
	return step;
}

// Traces of random calls: each state of each must be legal.
static bool walk(long count)
{
	static struct machine m;
	long made = 0, asked = 0;
	for (long i = 0; i < count; i++) {
		layout.address_bits = i % 2 ? 48 : 39;
		if (i % 4)
			boot(&m);
		else
			m = life;
		for (int steps = 0; steps < 60; steps++, asked++) {
			if (!call(&m, below(3), step_of(1 + below(29))))
				continue;
			made++;
			if (*told(&m, PKVM_COARSEST_TREES) || *told(&m, PKVM_ANY_TREES)) {
				fprintf(stderr, "trace %ld: %s\n", i, text);
				return false;
			}
		}
	}
	layout.address_bits = 39;
	fprintf(stderr, "%ld traces: %ld of %ld calls made\n", count, made, asked);
	return made > asked / 20;
}

int main(int argc, char **argv)
{
	int wrong = 0;
	if (!live(&life)) {
		fprintf(stderr, "the lives: %s\n", text);
		return 1;
	}
	for (size_t i = 0; i < sizeof changes / sizeof *changes; i++) {
		static struct machine m;
		size_t front = strlen(changes[i].told);
		m = life;
		changes[i].change(&m);
		if (strncmp(told(&m, PKVM_COARSEST_TREES), changes[i].told,
			    changes[i].told[front - 1] == ' ' ? front : front + 1)) {
			fprintf(stderr, "%s: %s\n", changes[i].name, text);
			wrong = 1;
		}
		if (changes[i].is_legal != !*told(&m, PKVM_ANY_TREES)) {
			fprintf(stderr, "%s, with any trees: %s\n", changes[i].name, text);
			wrong = 1;
		}
	}
	if (argc > 1 && !walk(atol(argv[1])))
		wrong = 1;
	if (strcmp(told(&life, 2), "status -3 fault 0"))
		wrong = fprintf(stderr, "unknown flags: %s\n", text);
	life.tables[1] = life.tables[0];
	if (strcmp(told(&life, PKVM_ANY_TREES), "status -9 fault 13"))
		wrong = fprintf(stderr, "a table twice: %s\n", text);
	if (strcmp(fault(PKVM_FAULT_RUNS_SHARE, sizeof text - 1),
		   "two runs of one tree share a page") ||
	    strcmp(fault(PKVM_FAULT_REACHED_TWICE, 24), "a table is reached twice"))
		wrong = fprintf(stderr, "a fault's text: %s\n", text);
	if (strcmp(fault(PKVM_FAULT_NONE, 9), "status -3 length 0") ||
	    strcmp(fault(PKVM_FAULT_ROOT_SKIPS + 1, 9), "status -3 length 0") ||
	    strcmp(fault(PKVM_FAULT_LOOP, 22), "status -2 length 23"))
		wrong = fprintf(stderr, "no fault's text: %s\n", text);
	return wrong != 0;
}
