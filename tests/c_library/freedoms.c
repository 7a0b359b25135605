// What pkvm_judge leaves to a hypervisor: each freedom's deviation agrees with it, and not without;
// and with all freedoms lost marks, second owners, refusals told as made and a stopped machine are
// found. The states are the model's, with changes. It ends with 0, or writes what is wrong.
#include "pkvm_oracle.h"
#include <inttypes.h>
#include <stdio.h>
#include <stdlib.h>
#include <string.h>

enum { ROOM = 256, CARVE = 0x40600, CARVED = 0x40, HYP = 0x4000000, DEVICE = 0x9000 };
enum { ALL = PKVM_OWN_TABLES | PKVM_LAZY_HOST | PKVM_ANY_KIND | PKVM_ANY_REFUSAL };

struct machine {
	struct pkvm_run runs[ROOM];
	struct pkvm_table tables[ROOM];
	struct pkvm_frame frames[ROOM];
	struct pkvm_slot slots[ROOM];
	struct pkvm_load loads[ROOM];
	struct pkvm_guest guests[ROOM];
	struct pkvm_cpu cpus[ROOM];
	struct pkvm_row rows[ROOM];
	struct pkvm_sizes len;
};

static const struct pkvm_region regions[] = {{PKVM_MEMORY, 0x40000, 0x800},
					     {PKVM_REGISTERS, DEVICE, 0x400}};
static struct pkvm_layout layout = {39, 1, CARVE, CARVED, regions, 2, 0};
static struct machine before, after;
static struct pkvm_reply reply;
static unsigned asked, wrong;

static struct pkvm_state state_of(const struct machine *m)
{
	return (struct pkvm_state){m->runs,   m->len.runs,   m->tables, m->len.tables,
				   m->frames, m->len.frames, m->slots,	m->len.slots,
				   m->loads,  m->len.loads,  m->guests, m->len.guests,
				   m->cpus,   m->len.cpus,   m->rows,	m->len.rows};
}

static struct pkvm_word leaf(uint64_t frame, uint64_t rights, uint64_t kind, uint64_t state)
{
	return (struct pkvm_word){PKVM_LEAF, frame, 0, rights, kind, state};
}

static void booted(struct machine *m)
{
	memset(m, 0, sizeof *m);
	m->runs[m->len.runs++] =
		(struct pkvm_run){PKVM_HOST, CARVE, CARVED, {PKVM_ANNOTATED, 0, 1, 0, 0, 0}};
	m->runs[m->len.runs++] = (struct pkvm_run){PKVM_HYP, HYP + CARVE, CARVED,
						   leaf(CARVE, PKVM_RW, PKVM_NORMAL, PKVM_OWNED)};
	static const uint64_t blocks[2][3] = {{0, 1, 0x203}, {0, 0x101, 0x20203}};
	for (uint64_t tree = PKVM_HOST; tree <= PKVM_HYP; tree++)
		for (uint64_t at = 0; at < 3; at++)
			m->tables[m->len.tables++] = (struct pkvm_table){
				tree, 3 - at, blocks[tree][at], CARVE + 3 * tree + at};
	for (uint64_t frame = CARVE + 6; frame < CARVE + CARVED; frame++)
		m->frames[m->len.frames++] = (struct pkvm_frame){1, frame};
	m->rows[m->len.rows++] =
		(struct pkvm_row){CARVE, CARVED, {PKVM_HYP, 0, 0, 0, PKVM_USE_SHARED_POOL, 0}};
}

// The model's reply to a call on `before`, and its state after it. The freedoms don't matter.
static void makes(struct pkvm_step step)
{
	struct pkvm_state state = state_of(&before);
	struct pkvm_room room = {after.runs,  ROOM, after.tables, ROOM, after.frames, ROOM,
				 after.slots, ROOM, after.loads,  ROOM, after.guests, ROOM,
				 after.cpus,  ROOM, after.rows,	  ROOM};
	struct pkvm_refused refused;
	uint64_t kept = layout.freedoms;
	layout.freedoms = ALL;
	int32_t status =
		pkvm_predict(&layout, &state, 0, &step, &reply, &room, &after.len, &refused);
	layout.freedoms = kept;
	if (status) {
		printf("freedoms: pkvm_predict: %" PRId32 " fault %" PRIu64 "\n", status,
		       refused.fault);
		exit(1);
	}
}

// What is told of a call, with these freedoms; "" where it agrees.
static const char *told(uint64_t freedoms, struct pkvm_step step, uint64_t refusal)
{
	static char text[512];
	struct pkvm_state pre = state_of(&before), post = state_of(&after);
	struct pkvm_call call = {0, step, reply};
	if (refusal)
		call.reply = (struct pkvm_reply){.refusal = refusal};
	struct pkvm_refused refused;
	size_t length = 0;
	layout.freedoms = freedoms;
	int32_t status = pkvm_judge(&layout, &pre, &call, &post, (uint8_t *)text, sizeof text - 1,
				    &length, &refused);
	text[length] = 0;
	if (status < 0)
		snprintf(text, sizeof text, "status %" PRId32 " fault %" PRIu64, status,
			 refused.fault);
	return text;
}

static void wants(const char *what, const char *wanted, const char *found)
{
	asked++;
	if (strcmp(wanted, found) == 0)
		return;
	wrong++;
	printf("freedoms: %s: wanted '%s', found '%s'\n", what, wanted, found);
}

static struct pkvm_step step_of(uint64_t call, uint64_t one, uint64_t two)
{
	return (struct pkvm_step){call, {one, two}};
}

// The host's or the hypervisor's page has another word, or none.
static void put(struct machine *m, uint64_t tree, uint64_t page, struct pkvm_word word)
{
	size_t len = m->len.runs;
	for (size_t i = 0; i < len; i++) {
		struct pkvm_run *run = &m->runs[i];
		if (run->tree != tree || page - run->page >= run->count)
			continue;
		struct pkvm_run rest = *run;
		uint64_t front = page - run->page;
		rest.page = page + 1;
		rest.count = run->count - front - 1;
		if (rest.word.says == PKVM_LEAF)
			rest.word.frame += front + 1;
		run->count = front;
		if (front == 0)
			*run = m->runs[--m->len.runs];
		if (rest.count)
			m->runs[m->len.runs++] = rest;
		break;
	}
	if (word.says != PKVM_UNMAPPED)
		m->runs[m->len.runs++] = (struct pkvm_run){tree, page, 1, word};
}

static void next(void)
{
	before = after;
}

static void tables_left_out(void)
{
	struct pkvm_step share = step_of(PKVM_SHARE_HYP, 0x40100, 0);
	booted(&before);
	makes(share);
	wants("exact", "", told(0, share, 0));
	wants("a share with own tables", "", told(PKVM_OWN_TABLES, share, 0));
	wants("a share with all freedoms", "", told(ALL, share, 0));
	before.len.tables = before.len.frames = after.len.tables = after.len.frames = 0;
	wants("tables left out, exact", "disagree reply said ok spec nopool", told(0, share, 0));
	wants("tables left out", "", told(PKVM_OWN_TABLES, share, 0));
	after = before;
	wants("no frame is free", "", told(PKVM_OWN_TABLES, share, PKVM_ENOPOOL));
	wants("no memory", "", told(PKVM_OWN_TABLES, share, PKVM_ENOMEMORY));
	wants("another refusal", "disagree reply said perm spec ok", told(ALL, share, PKVM_EPERM));
	booted(&before);
	after = before;
	wants("no frame is free, exact", "disagree reply said nopool spec ok",
	      told(0, share, PKVM_ENOPOOL));
	struct pkvm_step read = step_of(PKVM_OWNER_OF, 0x40100, 0);
	wants("no frame for a read", "disagree reply said nopool spec ok owner 0 lent - use plain",
	      told(ALL, read, PKVM_ENOPOOL));
}

static void lazy(void)
{
	struct pkvm_step share = step_of(PKVM_SHARE_HYP, 0x40100, 0);
	booted(&before);
	makes(step_of(PKVM_HOST_ABORT, 0x40300, 0));
	next();
	makes(share);
	struct pkvm_word none = {.says = PKVM_UNMAPPED};
	for (uint64_t page = 0x40200; page < 0x40400; page++)
		if (page != 0x40300)
			put(&after, PKVM_HOST, page, none);
	wants("lost own pages", "", told(PKVM_OWN_TABLES | PKVM_LAZY_HOST, share, 0));
	wants("lost own pages, all", "", told(ALL, share, 0));
	wants("lost own pages, not lazy",
	      "disagree host 0x40200 post unmapped spec leaf 0x40200 rwx normal owned",
	      told(ALL & ~PKVM_LAZY_HOST, share, 0));
	struct pkvm_step abort = step_of(PKVM_HOST_ABORT, 0x40500, 0);
	booted(&before);
	makes(abort);
	wants("an abort", "", told(ALL, abort, 0));
	after = before;
	wants("an abort that maps nothing",
	      "disagree host 0x40500 post unmapped spec leaf 0x40500 rwx normal owned",
	      told(ALL, abort, 0));
}

static void any_kind(void)
{
	struct pkvm_step abort = step_of(PKVM_HOST_ABORT, DEVICE, 0);
	booted(&before);
	makes(abort);
	for (size_t i = 0; i < after.len.runs; i++)
		if (after.runs[i].word.kind == PKVM_DEVICE)
			after.runs[i].word.kind = PKVM_NORMAL;
	wants("a device mapped as memory", "", told(PKVM_OWN_TABLES | PKVM_ANY_KIND, abort, 0));
	wants("a device mapped as memory, all", "", told(ALL, abort, 0));
	wants("a device mapped as memory, not free",
	      "disagree host 0x9000 post leaf 0x9000 rw normal owned spec leaf 0x9000 rw device "
	      "owned",
	      told(ALL & ~PKVM_ANY_KIND, abort, 0));
	struct pkvm_step share = step_of(PKVM_SHARE_HYP, 0x40100, 0);
	booted(&before);
	makes(share);
	put(&after, PKVM_HOST, 0x40100, leaf(0x40100, PKVM_RWX, PKVM_DEVICE, PKVM_SHARED_OWNED));
	wants("memory mapped as a device",
	      "disagree host 0x40100 post leaf 0x40100 rwx device shared_owned spec leaf 0x40100 "
	      "rwx normal shared_owned",
	      told(ALL, share, 0));
}

static void any_refusal(void)
{
	struct pkvm_step carved = step_of(PKVM_SHARE_HYP, CARVE, 0);
	struct pkvm_step share = step_of(PKVM_SHARE_HYP, 0x40100, 0);
	const uint64_t others = ALL & ~PKVM_ANY_REFUSAL, own = PKVM_OWN_TABLES | PKVM_ANY_REFUSAL;
	booted(&before);
	after = before;
	wants("the model's refusal", "", told(0, carved, PKVM_EPERM));
	wants("another refusal", "", told(own, carved, PKVM_EINVALID));
	wants("a number", "", told(own, carved, 34));
	wants("a number, all", "", told(ALL, carved, 34));
	wants("want of memory for a rule's refusal", "", told(own, carved, PKVM_ENOMEMORY));
	wants("another refusal, not free", "disagree reply said invalid spec perm",
	      told(others, carved, PKVM_EINVALID));
	wants("a number, not free", "disagree reply said 34 spec perm", told(others, carved, 34));
	wants("a number, exact", "disagree reply said 34 spec perm", told(0, carved, 34));
	wants("a number for a call that is made", "disagree reply said 34 spec ok",
	      told(ALL, share, 34));
	wants("a large number", "disagree reply said 18446744073709551615 spec ok",
	      told(ALL, share, UINT64_MAX));
	wants("a machine that stopped", "disagree reply said stopped spec ok",
	      told(ALL, share, PKVM_STOPPED));
	wants("a machine that stopped at a refusal", "disagree reply said stopped spec perm",
	      told(ALL, carved, PKVM_STOPPED));
	wants("a machine that stopped, exact", "disagree reply said stopped spec perm",
	      told(0, carved, PKVM_STOPPED));
	put(&after, PKVM_HOST, 0x40100, leaf(0x40100, PKVM_RWX, PKVM_NORMAL, PKVM_SHARED_OWNED));
	wants("a refusal that changed something",
	      "disagree host 0x40100 post leaf 0x40100 rwx normal shared_owned spec leaf 0x40100 "
	      "rwx normal owned",
	      told(ALL, carved, 34));
}

// With all freedoms these are found.
static void bugs(void)
{
	struct pkvm_step share = step_of(PKVM_SHARE_HYP, 0x40100, 0);
	struct pkvm_step carved = step_of(PKVM_SHARE_HYP, CARVE, 0);
	struct pkvm_step donate = step_of(PKVM_DONATE_HYP, 0x40200, 1);
	struct pkvm_word none = {.says = PKVM_UNMAPPED};
	booted(&before);
	makes(share);
	struct machine shared = after;
	put(&after, PKVM_HOST, 0x40100, leaf(0x40100, PKVM_RWX, PKVM_NORMAL, PKVM_OWNED));
	wants("a lost mark",
	      "disagree host 0x40100 post leaf 0x40100 rwx normal owned spec leaf 0x40100 rwx "
	      "normal shared_owned",
	      told(ALL, share, 0));
	after = shared;
	put(&after, PKVM_HYP, HYP + 0x40100, none);
	wants("a lost borrower",
	      "disagree hyp 0x4040100 post unmapped spec leaf 0x40100 rw normal shared_borrowed",
	      told(ALL, share, 0));
	after = shared;
	put(&after, PKVM_HOST, CARVE, none);
	wants("a lost annotation",
	      "disagree host 0x40600 post leaf 0x40600 rwx normal owned spec annot 1",
	      told(ALL, share, 0));
	makes(donate);
	put(&after, PKVM_HOST, 0x40200, leaf(0x40200, PKVM_RWX, PKVM_NORMAL, PKVM_OWNED));
	wants("a second owner",
	      "disagree host 0x40200 post leaf 0x40200 rwx normal owned spec annot 1",
	      told(ALL, donate, 0));
	makes(carved);
	reply = (struct pkvm_reply){0};
	wants("a refusal told as made", "disagree reply said ok spec perm", told(ALL, carved, 0));
	makes(share);
	for (size_t i = 0; i < after.len.rows; i++)
		if (after.rows[i].frame == 0x40100)
			after.rows[i].owner.usage = PKVM_USE_SHARED_POOL;
	wants("a row of another use",
	      "disagree owner 0x40100 post owner 0 lent 1:0x4040100 use shared_pool spec owner 0 "
	      "lent 1:0x4040100 use plain",
	      told(ALL, share, 0));
	after = before;
	wants("a call made that changed nothing",
	      "disagree host 0x40100 post leaf 0x40100 rwx normal owned spec leaf 0x40100 rwx "
	      "normal shared_owned",
	      told(ALL, share, 0));
	booted(&before);
	makes(share);
	after.frames[after.len.frames++] = after.frames[0];
	wants("a frame twice", "status -10 fault 14", told(ALL, share, 0));
}

static void faults(void)
{
	struct pkvm_step share = step_of(PKVM_SHARE_HYP, 0x40100, 0);
	booted(&before);
	makes(share);
	const uint64_t none[] = {2, 4, 6, 8, 10, 12, 14}, unknown[] = {16, 17, 31, 1ull << 63};
	for (size_t i = 0; i < sizeof none / sizeof *none; i++)
		wants("freedoms without own tables", "status -8 fault 24", told(none[i], share, 0));
	for (size_t i = 0; i < sizeof unknown / sizeof *unknown; i++)
		wants("a freedom that isn't", "status -8 fault 23", told(unknown[i], share, 0));
	for (uint64_t freedoms = 1; freedoms < 16; freedoms += 2)
		wants("freedoms", "", told(freedoms, share, 0));
	reply.gives = 9;
	wants("a gift that isn't", "status -6 fault 0", told(ALL, share, 0));
	wants("a gift that isn't, exact", "status -6 fault 0", told(0, share, 0));
}

int main(void)
{
	tables_left_out();
	lazy();
	any_kind();
	any_refusal();
	bugs();
	faults();
	printf("freedoms: %u asked, %u wrong\n", asked, wrong);
	return wrong != 0;
}
