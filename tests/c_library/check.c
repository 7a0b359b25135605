// What C sees of the oracle: `replay FILE` writes a trace's report and ends with its status;
// `random COUNT` hands random bytes to each function; `judge COUNT` and `predict COUNT` judge and
// predict one call so many times; `audit COUNT` walks so many trees of 100 tables; `words` writes
// what some words say; `empty` hands in lists of length 0 that are NULL; `threads COUNT` does all
// of it in four threads at once.
#include "pkvm_oracle.h"
#include <inttypes.h>
#include <pthread.h>
#include <stdbool.h>
#include <stdio.h>
#include <stdlib.h>
#include <string.h>

static _Thread_local uint64_t seed = 0x9e3779b97f4a7c15u;

// xorshift
static uint64_t next(void)
{
	seed ^= seed << 13;
	seed ^= seed >> 7;
	seed ^= seed << 17;
	return seed;
}

// A number: mostly small, sometimes near a limit, sometimes any.
static uint64_t number(void)
{
	static const uint64_t limits[] = {0,	   1,	       63,	   64,	       0x40600,
					  0x40000, 1ull << 36, 1ull << 62, 1ull << 63, UINT64_MAX};
	switch (next() % 8) {
	case 0:
		return next();
	case 1:
		return limits[next() % (sizeof limits / sizeof *limits)];
	case 2:
		return 0x40000 + next() % 0x800;
	default:
		return next() % 5;
	}
}

// A block of just so many bytes, so that a tool that watches memory sees each access behind it. One
// of none is NULL now and then.
static void *block(size_t size)
{
	if (!size && next() % 2)
		return NULL;
	void *made = malloc(size ? size : 1);
	if (!made)
		abort();
	return made;
}

static void *numbers(size_t count, size_t size)
{
	uint64_t *made = block(count * size);
	for (size_t i = 0; i < count * size / sizeof *made; i++)
		made[i] = number();
	return made;
}

static char *file(const char *path, size_t *length)
{
	FILE *in = fopen(path, "rb");
	if (!in)
		exit(9);
	size_t room = 1 << 16;
	char *bytes = block(room);
	*length = 0;
	for (size_t got; (got = fread(bytes + *length, 1, room - *length, in)) > 0; *length += got)
		if (*length + got == room && !(bytes = realloc(bytes, room *= 2)))
			exit(9);
	fclose(in);
	return bytes;
}

static int replay(const char *path)
{
	size_t length, written = 0, room = 1 << 20;
	char *trace = file(path, &length);
	uint8_t *report = block(room);
	int32_t status = pkvm_replay((const uint8_t *)trace, length, report, room, &written);
	fwrite(report, 1, written, stdout);
	// Where there is room for all but its last byte, that much of it is written, and told how
	// long it is.
	if (written > 0) {
		uint8_t *less = block(written - 1);
		size_t begun = 0;
		if (pkvm_replay((const uint8_t *)trace, length, less, written - 1, &begun) !=
			    PKVM_NO_ROOM ||
		    begun != written || memcmp(less, report, written - 1))
			return 8;
		free(less);
	}
	free(trace);
	free(report);
	return status;
}

static struct pkvm_state lists(void)
{
	size_t n[8];
	for (int i = 0; i < 8; i++)
		n[i] = next() % 5;
	n[3] = next() % 64;
	n[5] = next() % 64;
	n[6] = next() % 3;
	return (struct pkvm_state){
		numbers(n[0], sizeof(struct pkvm_run)),	  n[0],
		numbers(n[1], sizeof(struct pkvm_table)), n[1],
		numbers(n[2], sizeof(struct pkvm_frame)), n[2],
		numbers(n[3], sizeof(struct pkvm_slot)),  n[3],
		numbers(n[4], sizeof(struct pkvm_load)),  n[4],
		numbers(n[5], sizeof(struct pkvm_guest)), n[5],
		numbers(n[6], sizeof(struct pkvm_cpu)),	  n[6],
		numbers(n[7], sizeof(struct pkvm_row)),	  n[7],
	};
}

// Half of the states have no unknown numbers, so that what is behind the first tests is met too.
static void tame(struct pkvm_state *s)
{
	for (size_t i = 0; i < s->slots_len; i++)
		((struct pkvm_slot *)s->slots)[i] =
			(struct pkvm_slot){next() % 256 ? (i * 5 + 3) % 64 : 3, next() % 4,
					   number(), next() % 2, next() % 9};
	for (size_t i = 0; i < s->guests_len; i++)
		((struct pkvm_guest *)s->guests)[i] =
			(struct pkvm_guest){63 - i, next() % 3, number(), next() % 2};
	for (size_t i = 0; i < s->loads_len; i++)
		((struct pkvm_load *)s->loads)[i] =
			(struct pkvm_load){next() % 64, next() % 8, next() % 2};
	for (size_t i = 0; i < s->runs_len; i++) {
		struct pkvm_run *run = (struct pkvm_run *)s->runs + i;
		run->tree = next() % 4;
		run->page = 0x40000 + i * 60;
		run->count = next() % 64;
		run->word = (struct pkvm_word){2 + next() % 2, 0x40000 + next() % 0x800,
					       next() % 4,     4 + next() % 4,
					       next() % 2,     next() % 3};
	}
	for (size_t i = 0; i < s->tables_len; i++)
		((struct pkvm_table *)s->tables)[i].tree = next() % 4;
	for (size_t i = 0; i < s->frames_len; i++)
		((struct pkvm_frame *)s->frames)[i] =
			(struct pkvm_frame){1 + next() % 2, 0x40600 + next() % 12};
	for (size_t i = 0; i < s->cpus_len; i++) {
		struct pkvm_cpu *cpu = (struct pkvm_cpu *)s->cpus + i;
		*cpu = (struct pkvm_cpu){1 - i,	     next() % 2,  next() % 64, number(),
					 next() % 8, next() % 2,  number(),    next() % 64,
					 next() % 2, next() % 64, number(),    next() % 2,
					 next() % 5};
	}
	for (size_t i = 0; i < s->rows_len; i++) {
		struct pkvm_row *row = (struct pkvm_row *)s->rows + i;
		row->frame = 0x40000 + i * 256;
		row->count = next() % 256;
		row->owner.usage = next() % 4;
		row->owner.borrower_page = 0x4000000 + next() % 0x1000;
	}
}

static void clear(struct pkvm_state *s)
{
	free((void *)s->runs);
	free((void *)s->tables);
	free((void *)s->frames);
	free((void *)s->slots);
	free((void *)s->loads);
	free((void *)s->guests);
	free((void *)s->cpus);
	free((void *)s->rows);
}

// A word: any, or one of the form of a leaf, of a table or of an annotation.
static uint64_t any_word(void)
{
	uint64_t frame = next() & 0x0000fffffffff000u;
	switch (next() % 4) {
	case 0:
		return next();
	case 1:
		return frame | 3;
	case 2:
		return next() % 1024;
	default:
		return frame | 0x703 | (next() % 2 ? 0x3c : 4) | (next() % 2 ? 0x40 : 0xc0) |
		       next() % 2 << 54 | next() % 4 << 55;
	}
}

static int random_words(long count)
{
	long known = 0;
	for (long i = 0; i < count; i++) {
		struct pkvm_word out, was;
		memset(&out, 0xa5, sizeof out);
		was = out;
		uint64_t level = number(), word = any_word();
		int32_t status = pkvm_decode(level, word, &out);
		if (status != (level <= 3 ? 0 : PKVM_NO_LEVEL) ||
		    (status && memcmp(&out, &was, sizeof out)))
			return 1;
		// By the model's own profile a word says the same.
		struct pkvm_word same = was;
		struct pkvm_beyond beyond;
		if (pkvm_decode_as(number() % 3, PKVM_MODEL, level, word, &same, &beyond) !=
			    status ||
		    memcmp(&same, &out, sizeof out))
			return 20;
		uint64_t again = 7;
		if (!status && out.says != PKVM_MALFORMED &&
		    (pkvm_encode(level, &out, &again) || again != word))
			return 2;
		known += !status && out.says != PKVM_MALFORMED;
		struct pkvm_word *any = numbers(1, sizeof *any);
		status = pkvm_encode(number() % 6, any, &again);
		if (status > 0 || status < PKVM_NO_WORD)
			return 3;
		free(any);
	}
	return known > count / 10 ? 0 : 4;
}

static int random_traces(long count)
{
	static const char *const lines[] = {
		"memory 0x40000 0x800\n",
		"device 0x9000 0x10\n",
		"carve 0x40600 0x40\n",
		"cpus 2\n",
		"log 64\n",
		"boot\n",
		"0 share_hyp 0x40100\n",
		"1 fund 0x40200 8\n",
		"1 vm_reserve protected 1\n",
		"1 install\n",
		"show host\n",
		"word host 0x40100 3\n",
		"free shared\n",
		"1 unshare_hyp 0x40100\n",
	};
	for (long i = 0; i < count; i++) {
		char trace[512];
		size_t length = 0;
		if (next() % 2)
			for (size_t k = 0; k < 14 && (k < 6 || next() % 4); k++)
				length += (size_t)snprintf(trace + length, sizeof trace - length,
							   "%s", lines[k < 6 ? k : 6 + next() % 8]);
		size_t more = next() % 40;
		for (size_t k = 0; k < more; k++)
			trace[length++] = (char)(next() % 3 ? "0123456789abcx \n.#"[next() % 18]
							    : (int)next());
		char *bytes = block(length);
		memcpy(bytes, trace, length);
		size_t room = next() % 300, written = 99999;
		uint8_t *report = block(room);
		int32_t status =
			pkvm_replay((const uint8_t *)bytes, length, report, room, &written);
		if ((written > room) != (status == PKVM_NO_ROOM) ||
		    (status != PKVM_NO_ROOM && (status < 0 || status > 2)))
			return 1;
		free(bytes);
		free(report);
	}
	return 0;
}

enum { LISTS = 8 };

static const size_t member_sizes[LISTS] = {sizeof(struct pkvm_run),   sizeof(struct pkvm_table),
					   sizeof(struct pkvm_frame), sizeof(struct pkvm_slot),
					   sizeof(struct pkvm_load),  sizeof(struct pkvm_guest),
					   sizeof(struct pkvm_cpu),   sizeof(struct pkvm_row)};

static void sizes_in(const struct pkvm_sizes *sizes, size_t counts[LISTS])
{
	const uint64_t all[LISTS] = {sizes->runs,  sizes->tables, sizes->frames, sizes->slots,
				     sizes->loads, sizes->guests, sizes->cpus,	 sizes->rows};
	for (int i = 0; i < LISTS; i++)
		counts[i] = (size_t)all[i];
}

static struct pkvm_room room_of(void *lists[LISTS], const size_t counts[LISTS])
{
	return (struct pkvm_room){lists[0], counts[0], lists[1], counts[1], lists[2], counts[2],
				  lists[3], counts[3], lists[4], counts[4], lists[5], counts[5],
				  lists[6], counts[6], lists[7], counts[7]};
}

// with 0xa5, as it was before
static bool is_filled(const void *from, size_t size)
{
	for (size_t i = 0; i < size; i++)
		if (((const uint8_t *)from)[i] != 0xa5)
			return false;
	return true;
}

// Predicts a call: with no room, with each list one member short, and with one member more than is
// needed. The state after it is then one that the judge agrees with. 0, or what went wrong; a call
// that can't be predicted has `wanted` as its status.
static int predict(const struct pkvm_layout *layout, const struct pkvm_state *before, uint64_t cpu,
		   const struct pkvm_step *step, int32_t wanted)
{
	struct pkvm_refused refused = {99, 99, 99};
	struct pkvm_sizes sizes, again;
	struct pkvm_reply reply;
	size_t counts[LISTS] = {0};
	void *lists[LISTS];
	int wrong = 0;
	memset(&reply, 0xa5, sizeof reply);
	for (int i = 0; i < LISTS; i++)
		lists[i] = block(0);
	struct pkvm_room room = room_of(lists, counts);
	int32_t status = pkvm_predict(layout, before, cpu, step, &reply, &room, &sizes, &refused);
	for (int i = 0; i < LISTS; i++)
		free(lists[i]);
	sizes_in(&sizes, counts);
	if (!is_filled(&reply, sizeof reply))
		return 1;
	if (wanted) {
		for (int i = 0; i < LISTS; i++)
			wrong |= counts[i] != 0;
		return status == wanted && !wrong ? 0 : 2;
	}
	// Slots and guests are always told, so that there is never room in nothing.
	if (status != PKVM_NO_ROOM || counts[3] != 64 || counts[5] != 64 ||
	    counts[6] != layout->cpus || refused.fault)
		return 3;
	for (int short_one = 0; short_one <= LISTS && !wrong; short_one++) {
		size_t has[LISTS];
		if (short_one < LISTS && counts[short_one] == 0)
			continue;
		for (int i = 0; i < LISTS; i++) {
			has[i] = short_one == LISTS ? counts[i] + 1 : counts[i] - (i == short_one);
			lists[i] = block(has[i] * member_sizes[i]);
			memset(lists[i], 0xa5, has[i] * member_sizes[i]);
		}
		memset(&reply, 0xa5, sizeof reply);
		room = room_of(lists, has);
		struct pkvm_room was = room;
		status = pkvm_predict(layout, before, cpu, step, &reply, &room, &again, &refused);
		if (status != (short_one < LISTS ? PKVM_NO_ROOM : 0) ||
		    memcmp(&again, &sizes, sizeof sizes) || memcmp(&room, &was, sizeof room))
			wrong = 4;
		for (int i = 0; i < LISTS; i++) {
			size_t written = short_one < LISTS ? 0 : counts[i] * member_sizes[i];
			if (!is_filled((uint8_t *)lists[i] + written,
				       has[i] * member_sizes[i] - written))
				wrong = 5;
		}
		if ((short_one < LISTS) != is_filled(&reply, sizeof reply))
			wrong = 6;
		if (!wrong && short_one == LISTS) {
			struct pkvm_state after = {lists[0], counts[0], lists[1], counts[1],
						   lists[2], counts[2], lists[3], counts[3],
						   lists[4], counts[4], lists[5], counts[5],
						   lists[6], counts[6], lists[7], counts[7]};
			struct pkvm_call call = {cpu, *step, reply};
			uint8_t text[256];
			size_t length = 0;
			if (pkvm_judge(layout, before, &call, &after, text, sizeof text, &length,
				       &refused) != PKVM_AGREES)
				wrong = 7;
		}
		for (int i = 0; i < LISTS; i++)
			free(lists[i]);
	}
	return wrong;
}

static int random_calls(long count)
{
	long judged = 0, predicted = 0, met[16] = {0};
	for (long i = 0; i < count; i++) {
		struct pkvm_region *regions = numbers(next() % 3, sizeof *regions);
		struct pkvm_region good[] = {{0, 0x40000, 0x800}, {1, 0x9000, 0x10}};
		struct pkvm_layout layout = {39, 2, 0x40600, 0x40, good, 2, 0};
		if (next() % 8 == 0)
			layout = (struct pkvm_layout){
				number(), number() % 100, number(), number(), regions, 0, 0};
		if (i % 4 == 0)
			layout.freedoms = (uint64_t)i / 4 % 40;
		struct pkvm_state before = lists(), after = lists();
		if (next() % 8)
			tame(&before);
		if (next() % 8)
			tame(&after);
		struct pkvm_call *call = numbers(1, sizeof *call);
		call->cpu = next() % 3;
		call->step.call = next() % 31;
		if (next() % 4) {
			call->step.arguments[0] = 0x40000 + next() % 0x800;
			call->reply.refusal = next() % 2 ? 0 : 22;
			call->reply.gives = 0;
		}
		size_t room = next() % 120, length = 99999;
		uint8_t *text = block(room);
		struct pkvm_refused refused = {99, 99, 99};
		int32_t status =
			pkvm_judge(&layout, &before, call, &after, text, room, &length, &refused);
		if (status > 1 || status < PKVM_NO_MEMORY || (status == 1 && length > room) ||
		    (status == PKVM_NO_ROOM && length <= room))
			return 1;
		if ((status == PKVM_BAD_LAYOUT || status == PKVM_BAD_BEFORE ||
		     status == PKVM_BAD_AFTER) != (refused.fault != 0))
			return 2;
		judged += status >= 0 || status == PKVM_NO_ROOM;
		struct pkvm_reply reply;
		memset(&reply, 0xa5, sizeof reply);
		struct pkvm_refused none = {99, 99, 99};
		int32_t told =
			pkvm_predict_reply(&layout, &before, call->cpu, &call->step, &reply, &none);
		if (told > 0 || (told < 0 && reply.refusal != 0xa5a5a5a5a5a5a5a5u) ||
		    (told == PKVM_BAD_BEFORE) !=
			    (told < 0 && none.fault > PKVM_FAULT_CARVE_OUTSIDE))
			return 4;
		// A call that agrees has the reply that is told, but for want of memory.
		if (status == PKVM_AGREES && !layout.freedoms &&
		    call->reply.refusal != PKVM_ENOMEMORY && reply.refusal != call->reply.refusal)
			return 5;
		layout.freedoms = 0;
		if (predict(&layout, &before, call->cpu, &call->step, told))
			return 6;
		predicted += !told;
		bool is_of_freedoms = refused.fault == PKVM_FAULT_FREEDOM ||
				      refused.fault == PKVM_FAULT_NOT_OWN_TABLES;
		met[refused.fault < 15 ? refused.fault : is_of_freedoms ? 0 : 15]++;
		free(regions);
		clear(&before);
		clear(&after);
		free(call);
		free(text);
	}
	fprintf(stderr, "judged %ld and predicted %ld of %ld; faults", judged, predicted, count);
	for (int i = 1; i < 16; i++)
		fprintf(stderr, " %d:%ld", i, met[i]);
	fprintf(stderr, "\n");
	return judged > 0 && predicted > 0 && met[15] == 0 ? 0 : 3;
}

static int words(void)
{
	static const uint64_t some[][2] = {{3, 0x00800000400007ff},
					   {3, 0x01400000401007ff},
					   {3, 4},
					   {2, 0x40602003},
					   {0, 0x00800000400007ff},
					   {3, 0},
					   {3, 1},
					   {4, 0}};
	for (size_t i = 0; i < sizeof some / sizeof *some; i++) {
		struct pkvm_word w = {0};
		int32_t status = pkvm_decode(some[i][0], some[i][1], &w);
		printf("%" PRId32 " %" PRIu64 " 0x%" PRIx64 " %" PRIu64 " %" PRIu64 " %" PRIu64
		       " %" PRIu64 "\n",
		       status, w.says, w.frame, w.owner, w.rights, w.kind, w.state);
	}
	return 0;
}

// A share of a page, on a state with a blank table of VMs, so many times: judged, or predicted.
static int share(bool is_judged, long count)
{
	static _Thread_local struct pkvm_frame frames[58], later[56];
	for (uint64_t i = 0; i < 58; i++)
		frames[i] = (struct pkvm_frame){1, 0x40606 + i};
	memcpy(later, frames + 2, sizeof later);
	struct pkvm_word kept = {PKVM_ANNOTATED, 0, 1, 0, 0, 0},
			 own = {PKVM_LEAF, 0x40600, 0, PKVM_RW, PKVM_NORMAL, PKVM_OWNED};
	struct pkvm_word lent = {PKVM_LEAF, 0x40100, 0, PKVM_RWX, PKVM_NORMAL, PKVM_SHARED_OWNED},
			 got = {PKVM_LEAF, 0x40100, 0, PKVM_RW, PKVM_NORMAL, PKVM_SHARED_BORROWED};
	struct pkvm_run runs[] = {{0, 0x40600, 0x40, kept},
				  {1, 0x4040600, 0x40, own},
				  {0, 0x40100, 1, lent},
				  {1, 0x4040100, 1, got}};
	struct pkvm_table tables[] = {{0, 3, 0, 0x40600},     {0, 2, 1, 0x40601},
				      {0, 1, 0x203, 0x40602}, {1, 3, 0, 0x40603},
				      {1, 2, 0x101, 0x40604}, {1, 1, 0x20203, 0x40605},
				      {0, 1, 0x200, 0x40606}, {1, 1, 0x20200, 0x40607}};
	struct pkvm_row rows[] = {{0x40600, 0x40, {1, 0, 0, 0, PKVM_USE_SHARED_POOL, 0}},
				  {0x40100, 1, {0, 1, 1, 0x4040100, 0, 0}}};
	struct pkvm_slot slot;
	struct pkvm_load load;
	struct pkvm_guest guest;
	struct pkvm_cpu cpu;
	struct pkvm_region regions[] = {{0, 0x40000, 0x800}, {1, 0x9000, 0x10}};
	struct pkvm_layout layout = {39, 1, 0x40600, 0x40, regions, 2, 0};
	struct pkvm_state before = {runs,  2, tables, 6, frames, 58, &slot, 0,
				    &load, 0, &guest, 0, &cpu,	 0,  rows,  1};
	struct pkvm_state after = {runs,  4, tables, 8, later, 56, &slot, 0,
				   &load, 0, &guest, 0, &cpu,  0,  rows,  2};
	struct pkvm_call call = {.step = {PKVM_SHARE_HYP, {0x40100}}};
	uint8_t text[256];
	size_t length;
	struct pkvm_refused refused;
	if (predict(&layout, &before, 0, &call.step, 0))
		return 2;
	static _Thread_local struct pkvm_run new_runs[8];
	static _Thread_local struct pkvm_table new_tables[8];
	static _Thread_local struct pkvm_frame new_frames[58];
	static _Thread_local struct pkvm_slot new_slots[64];
	static _Thread_local struct pkvm_load new_loads[1];
	static _Thread_local struct pkvm_guest new_guests[64];
	static _Thread_local struct pkvm_cpu new_cpus[1];
	static _Thread_local struct pkvm_row new_rows[8];
	struct pkvm_room room = {new_runs,  8, new_tables, 8,  new_frames, 58, new_slots, 64,
				 new_loads, 1, new_guests, 64, new_cpus,   1,  new_rows,  8};
	struct pkvm_sizes sizes;
	struct pkvm_reply reply;
	for (long i = 0; i < count; i++)
		if (is_judged ? pkvm_judge(&layout, &before, &call, &after, text, sizeof text,
					   &length, &refused) != PKVM_AGREES
			      : pkvm_predict(&layout, &before, 0, &call.step, &reply, &room, &sizes,
					     &refused) != 0)
			return 1;
	return 0;
}

// The word of a table, or of what a page of a level has.
static uint64_t table_word(uint64_t frame)
{
	return frame << 12 | 3;
}

static uint64_t word_of(uint64_t level, struct pkvm_word says)
{
	uint64_t word = 0;
	if (pkvm_encode(level, &says, &word))
		abort();
	return word;
}

struct kept {
	struct pkvm_slot slots[64];
	struct pkvm_guest guests[64];
	struct pkvm_cpu cpu;
	struct pkvm_load load;
};

static void blank(struct kept *k)
{
	*k = (struct kept){0};
	for (int i = 0; i < 64; i++)
		k->slots[i] = (struct pkvm_slot){.slot = (uint64_t)i, .generation = 1},
		k->guests[i].slot = (uint64_t)i;
}

// The tables of a page that the host shares with the hypervisor, as they lie in memory, beside the
// state that is kept. Then what is told when words, pages, roots and lists are wrong.
static int shared_tables(void)
{
	static _Thread_local uint64_t(*words)[512];
	if (!words && !(words = calloc(8, sizeof *words)))
		abort();
	static _Thread_local struct kept k;
	static _Thread_local struct pkvm_frame frames[57];
	blank(&k);
	for (uint64_t i = 0; i < 56; i++)
		frames[i] = (struct pkvm_frame){1, 0x40608 + i};
	frames[56] = (struct pkvm_frame){1, 0x40606};
	struct pkvm_word annotated = {PKVM_ANNOTATED, 0, 1, 0, 0, 0},
			 own = {PKVM_LEAF, 0x40600, 0, PKVM_RW, PKVM_NORMAL, PKVM_OWNED};
	struct pkvm_word lent = {PKVM_LEAF, 0x40100, 0, PKVM_RWX, PKVM_NORMAL, PKVM_SHARED_OWNED},
			 got = {PKVM_LEAF, 0x40100, 0, PKVM_RW, PKVM_NORMAL, PKVM_SHARED_BORROWED};
	struct pkvm_run runs[] = {{0, 0x40600, 0x40, annotated},
				  {1, 0x4040600, 0x40, own},
				  {0, 0x40100, 1, lent},
				  {1, 0x4040100, 1, got},
				  {1, 0x4040101, 1, got}};
	struct pkvm_table tables[] = {{0, 3, 0, 0x40600},     {0, 2, 1, 0x40601},
				      {0, 1, 0x203, 0x40602}, {1, 3, 0, 0x40603},
				      {1, 2, 0x101, 0x40604}, {1, 1, 0x20203, 0x40605},
				      {0, 1, 0x200, 0x40606}, {1, 1, 0x20200, 0x40607}};
	struct pkvm_row rows[] = {{0x40600, 0x40, {1, 0, 0, 0, PKVM_USE_SHARED_POOL, 0}},
				  {0x40100, 1, {0, 1, 1, 0x4040100, 0, 0}}};
	struct pkvm_region regions[] = {{0, 0x40000, 0x800}, {1, 0x9000, 0x10}};
	struct pkvm_layout layout = {39, 1, 0x40600, 0x40, regions, 2, 0};
	struct pkvm_state kept = {runs,	   4, tables,	8,  frames, 56, k.slots, 64,
				  &k.load, 0, k.guests, 64, &k.cpu, 1,	rows,	 2};
	struct pkvm_page pages[8];
	for (uint64_t i = 0; i < 8; i++)
		pages[i] = (struct pkvm_page){0x40600 + i, words[i], 512};
	words[0][1] = table_word(0x40601);
	words[1][3] = table_word(0x40602);
	words[1][0] = table_word(0x40606);
	words[3][0x101] = table_word(0x40604);
	words[4][3] = table_word(0x40605);
	words[4][0] = table_word(0x40607);
	words[6][0x100] = word_of(3, lent);
	words[7][0x100] = word_of(3, got);
	for (int i = 0; i < 0x40; i++) {
		words[2][i] = word_of(3, annotated);
		words[5][i] = word_of(3, (struct pkvm_word){PKVM_LEAF, 0x40600 + (uint64_t)i, 0,
							    PKVM_RW, PKVM_NORMAL, PKVM_OWNED});
	}
	struct pkvm_root roots[] = {{.tree = 1, .frame = 0x40603}, {.tree = 0, .frame = 0x40600}};
	char text[256];
	size_t length;
	struct pkvm_refused refused;
#define AUDIT(P, R)                                                                                \
	pkvm_audit(&layout, &kept, pages, P, roots, R, (uint8_t *)text, sizeof text, &length,      \
		   &refused)
#define TELLS(S) (length == strlen(S) && !memcmp(text, S, length))
	if (AUDIT(8, 2) != PKVM_AGREES)
		return 1;
	words[6][0x100] = word_of(
		3, (struct pkvm_word){PKVM_LEAF, 0x40100, 0, PKVM_RWX, PKVM_NORMAL, PKVM_OWNED});
	if (AUDIT(8, 2) != PKVM_DISAGREES ||
	    !TELLS("disagree host 0x40100 kept leaf 0x40100 rwx normal shared_owned walked leaf 0x40100 rwx normal owned"))
		return 2;
	words[6][0x100] = word_of(3, lent);
	kept.rows_len = 1; // the loan isn't in the rows
	if (AUDIT(8, 2) != PKVM_DISAGREES || memcmp(text, "disagree owner 0x40100 ", 23))
		return 3;
	kept.rows_len = 2;
	tables[6].index = 0x201; // kept at another block
	if (AUDIT(8, 2) != PKVM_DISAGREES || memcmp(text, "disagree table host 1 0x20", 26))
		return 4;
	tables[6].index = 0x200;
	pages[6].frame = 0x50000; // the next-level address leads to no page that was handed in
	if (AUDIT(8, 2) != PKVM_DISAGREES ||
	    !TELLS("disagree host 0x40000 kept unmapped walked malformed"))
		return 5;
	pages[6].frame = 0x40606;
	words[1][7] = table_word(0x40600);
	if (AUDIT(8, 2) != PKVM_BAD_TABLES || refused.fault != PKVM_FAULT_LOOP ||
	    refused.list != 0 || refused.index != 0x40600)
		return 6;
	words[1][7] = table_word(0x40605);
	if (AUDIT(8, 2) != PKVM_BAD_TABLES || refused.fault != PKVM_FAULT_REACHED_TWICE ||
	    refused.list != 1 || refused.index != 0x40605)
		return 7;
	words[1][7] = table_word(0x40603);
	if (AUDIT(8, 2) != PKVM_BAD_TABLES || refused.fault != PKVM_FAULT_TWO_LEVELS ||
	    refused.list != 1 || refused.index != 0x40603)
		return 8;
	words[1][7] = 0;
	pages[3].words_len = 511;
	if (AUDIT(8, 2) != PKVM_BAD_TABLES || refused.fault != PKVM_FAULT_PAGE_LENGTH ||
	    refused.list != PKVM_LIST_PAGES || refused.index != 3)
		return 9;
	pages[3].words_len = 512;
	pages[7].frame = 0x40602;
	if (AUDIT(8, 2) != PKVM_BAD_TABLES || refused.fault != PKVM_FAULT_PAGE_TWICE ||
	    refused.index != 7)
		return 10;
	pages[7].frame = 0x40607;
	roots[0].tree = 66;
	if (AUDIT(8, 2) != PKVM_BAD_TABLES || refused.fault != PKVM_FAULT_ROOT_TREE ||
	    refused.list != PKVM_LIST_ROOTS || refused.index != 0)
		return 11;
	roots[0].tree = 0;
	if (AUDIT(8, 2) != PKVM_BAD_TABLES || refused.fault != PKVM_FAULT_ROOT_TWICE ||
	    refused.index != 1)
		return 12;
	roots[0] = (struct pkvm_root){.tree = 1, .frame = 0x50000};
	if (AUDIT(8, 2) != PKVM_BAD_TABLES || refused.fault != PKVM_FAULT_ROOT_PAGE ||
	    refused.index != 0)
		return 13;
	roots[0].frame = 0x40603;
	// Kept maps and tables say the same from here on, and aren't legal: the maps aren't sound.
	kept.runs_len = 5; // the hypervisor borrows the frame twice
	words[7][0x101] = word_of(3, got);
	if (AUDIT(8, 2) != PKVM_DISAGREES ||
	    !TELLS("two borrowers 0x40100: hyp 0x4040100, hyp 0x4040101"))
		return 14;
	kept.runs_len = 4;
	words[7][0x101] = 0;
	runs[2].word.state = PKVM_OWNED; // the host doesn't share it
	words[6][0x100] = word_of(3, runs[2].word);
	if (AUDIT(8, 2) != PKVM_DISAGREES || !TELLS("no share 0x40100: hyp 0x4040100"))
		return 15;
	runs[3].word.state = PKVM_OWNED; // both own it
	words[7][0x100] = word_of(3, runs[3].word);
	kept.rows_len = 1;
	if (AUDIT(8, 2) != PKVM_DISAGREES ||
	    !TELLS("two owners 0x40100: host 0x40100, hyp 0x4040100"))
		return 16;
	runs[2] = (struct pkvm_run){0, 0x40100, 1, lent};
	runs[3] = (struct pkvm_run){1, 0x4040100, 1, got};
	words[6][0x100] = word_of(3, lent);
	words[7][0x100] = word_of(3, got);
	kept.rows_len = 2;
	kept.frames_len = 57; // sound, but a table is free
	if (AUDIT(8, 2) != PKVM_DISAGREES ||
	    !TELLS("held twice 0x40606: table host 1 0x200, shared pool"))
		return 17;
	kept.frames_len = 56;
	return AUDIT(8, 2) == PKVM_AGREES ? 0 : 18;
}

// Pages of words of any kind, whose table words lead to one another or to no page, and roots of any
// kind.
static int random_tables(long count)
{
	static _Thread_local struct kept k;
	blank(&k);
	long walked = 0, met[32] = {0};
	struct pkvm_region regions[] = {{0, 0x40000, 0x800}};
	struct pkvm_state kept = {0};
	for (long i = 0; i < count; i++) {
		struct pkvm_layout layout = {next() % 4 ? 39 : 48, 1, 0x40600, 0x40, regions, 1, 0};
		struct pkvm_run none;
		kept = (struct pkvm_state){&none,
					   0,
					   (struct pkvm_table *)&none,
					   0,
					   (struct pkvm_frame *)&none,
					   0,
					   k.slots,
					   64,
					   &k.load,
					   0,
					   k.guests,
					   64,
					   &k.cpu,
					   1,
					   (struct pkvm_row *)&none,
					   0};
		size_t pages_len = next() % 7, roots_len = next() % 3;
		struct pkvm_page *pages = block(pages_len * sizeof *pages);
		for (size_t p = 0; p < pages_len; p++) {
			size_t words_len = next() % 64 ? 512 : number() % 1024;
			uint64_t *words = block(words_len * sizeof *words);
			memset(words, 0, words_len * sizeof *words);
			for (size_t n = next() % 6; n-- && words_len;)
				words[next() % words_len] =
					next() % 2 ? any_word() : table_word(0x40600 + next() % 8);
			pages[p] = (struct pkvm_page){next() % 32 ? 0x40600 + p : number(), words,
						      words_len};
		}
		struct pkvm_root *roots = block(roots_len * sizeof *roots);
		struct pkvm_range skip = {number(), number()};
		for (size_t r = 0; r < roots_len; r++)
			roots[r] = (struct pkvm_root){
				.tree = next() % 16 ? r : number(),
				.frame = 0x40600 + next() % (pages_len + 1),
				.profile = next() % 4 ? 0 : 1 + next() % 2 + 16 * (next() % 9),
				.levels = next() % 4 ? 0 : next() % 6,
				.pages = next() % 4 ? 0 : next() % 6,
				.skips = &skip,
				.skips_len = next() % 4 == 0,
			};
		size_t room = next() % 120, length = 99999;
		uint8_t *text = block(room);
		struct pkvm_refused refused = {99, 99, 99};
		int32_t status = pkvm_audit(&layout, &kept, pages, pages_len, roots, roots_len,
					    text, room, &length, &refused);
		if (status > 1 ||
		    (status < 0 && status != PKVM_NO_ROOM && status != PKVM_BAD_TABLES) ||
		    (status == 1 && length > room) || (status == PKVM_NO_ROOM && length <= room))
			return 1;
		if ((status == PKVM_BAD_TABLES) != (refused.fault != 0) ||
		    (refused.fault > PKVM_FAULT_REACHED_TWICE &&
		     refused.fault < PKVM_FAULT_ROOT_PROFILE) ||
		    refused.fault > PKVM_FAULT_ROOT_SKIPS)
			return 2;
		walked += status >= 0 || status == PKVM_NO_ROOM;
		met[refused.fault]++;
		uint64_t flags = next() % 3;
		status = pkvm_check(&layout, &kept, flags, text, room, &length, &refused);
		if (flags > PKVM_ANY_TREES ? status != PKVM_BAD_NUMBER || length
					   : (status == PKVM_DISAGREES && length > room) ||
						     (status == PKVM_NO_ROOM && length <= room) ||
						     (status < 0 && status != PKVM_NO_ROOM))
			return 4;
		uint64_t fault = number();
		bool is_known = fault - 1 < PKVM_FAULT_REACHED_TWICE;
		status = pkvm_fault_text(fault, text, room, &length);
		if (status != (!is_known       ? PKVM_BAD_NUMBER
			       : length > room ? PKVM_NO_ROOM
					       : 0) ||
		    is_known != (length > 0))
			return 5;
		for (size_t p = 0; p < pages_len; p++)
			free((void *)pages[p].words);
		free(pages);
		free(roots);
		free(text);
	}
	fprintf(stderr, "walked %ld of %ld; faults", walked, count);
	for (int i = PKVM_FAULT_PAGE_LENGTH; i <= PKVM_FAULT_REACHED_TWICE; i++)
		fprintf(stderr, " %d:%ld", i, met[i]);
	fprintf(stderr, "\n");
	return walked > 0 ? 0 : 3;
}

// A tree of 100 tables, whose last 98 have a leaf in each word, walked so many times.
static int audit(long count)
{
	static _Thread_local uint64_t(*words)[512];
	if (!words && !(words = calloc(100, sizeof *words)))
		abort();
	static _Thread_local struct kept k;
	static _Thread_local struct pkvm_page pages[100];
	static _Thread_local struct pkvm_table tables[100];
	blank(&k);
	for (uint64_t t = 0; t < 100; t++) {
		pages[t] = (struct pkvm_page){0x40600 + t, words[t], 512};
		tables[t] = t == 0   ? (struct pkvm_table){1, 3, 0, 0x40600}
			    : t == 1 ? (struct pkvm_table){1, 2, 0, 0x40601}
				     : (struct pkvm_table){1, 1, t - 2, 0x40600 + t};
		if (t >= 2) {
			words[1][t - 2] = table_word(0x40600 + t);
			for (uint64_t i = 0; i < 512; i++)
				words[t][i] = word_of(
					3,
					(struct pkvm_word){PKVM_LEAF, 0x100000 + 512 * (t - 2) + i,
							   0, PKVM_RW, PKVM_NORMAL, PKVM_OWNED});
		}
	}
	words[0][0] = table_word(0x40601);
	struct pkvm_run run = {
		1, 0, 98 * 512, {PKVM_LEAF, 0x100000, 0, PKVM_RW, PKVM_NORMAL, PKVM_OWNED}};
	struct pkvm_row row = {0x40600, 100, {0, 0, 0, 0, PKVM_USE_SHARED_POOL, 0}};
	struct pkvm_region regions[] = {{0, 0x40000, 0x800}};
	struct pkvm_layout layout = {39, 1, 0x40600, 0x40, regions, 1, 0};
	struct pkvm_frame none;
	struct pkvm_state kept = {&run,	   1, tables,	100, &none,  0, k.slots, 64,
				  &k.load, 0, k.guests, 64,  &k.cpu, 1, &row,	 1};
	struct pkvm_root root = {.tree = 1, .frame = 0x40600};
	char text[256];
	size_t length = 0;
	struct pkvm_refused refused;
	// Nothing differs, but the model's hypervisor has no such pages.
	static const char *told = "hyp 0x0: below the pages of frames";
	for (long i = 0; i < count; i++)
		if (pkvm_audit(&layout, &kept, pages, 100, &root, 1, (uint8_t *)text, sizeof text,
			       &length, &refused) != PKVM_DISAGREES ||
		    length != strlen(told) || memcmp(text, told, length)) {
			fprintf(stderr, "%.*s\n", (int)length, text);
			return 1;
		}
	return 0;
}

// States of nothing, whose pointers are NULL.
static int empty(void)
{
	struct pkvm_region memory = {PKVM_MEMORY, 0x40000, 0x800};
	struct pkvm_layout layout = {39, 1, 0x40600, 0x40, &memory, 1, 0};
	struct pkvm_state none = {0};
	struct pkvm_call call = {0, {PKVM_SHARE_HYP, {0x1000}}, {.refusal = PKVM_EINVALID}};
	struct pkvm_refused refused;
	struct pkvm_room room = {0};
	struct pkvm_sizes sizes;
	struct pkvm_reply reply;
	size_t length = 99;
	if (pkvm_judge(&layout, &none, &call, &none, NULL, 0, &length, &refused) != PKVM_AGREES ||
	    length != 0)
		return 1;
	call.reply.refusal = 0;
	if (pkvm_judge(&layout, &none, &call, &none, NULL, 0, &length, &refused) != PKVM_NO_ROOM ||
	    length != strlen("disagree reply said ok spec invalid"))
		return 2;
	call.step.arguments[0] = 0x40100;
	if (pkvm_predict_reply(&layout, &none, 0, &call.step, &reply, &refused) != 0 ||
	    reply.refusal != PKVM_ENOPOOL)
		return 3;
	if (pkvm_predict(&layout, &none, 0, &call.step, &reply, &room, &sizes, &refused) !=
		    PKVM_NO_ROOM ||
	    sizes.runs != 0 || sizes.slots != 64 || sizes.guests != 64 || sizes.cpus != 1)
		return 4;
	struct pkvm_slot slots[64];
	struct pkvm_guest guests[64];
	struct pkvm_cpu cpu;
	room = (struct pkvm_room){.slots = slots,
				  .slots_len = 64,
				  .guests = guests,
				  .guests_len = 64,
				  .cpus = &cpu,
				  .cpus_len = 1};
	if (pkvm_predict(&layout, &none, 0, &call.step, &reply, &room, &sizes, &refused) != 0)
		return 5;
	if (pkvm_audit(&layout, &none, NULL, 0, NULL, 0, NULL, 0, &length, &refused) !=
		    PKVM_AGREES ||
	    length != 0)
		return 6;
	// The host may have all memory, also the carve-out.
	if (pkvm_check(&layout, &none, PKVM_COARSEST_TREES, NULL, 0, &length, &refused) !=
		    PKVM_AGREES ||
	    length != 0)
		return 9;
	layout.regions = NULL;
	layout.regions_len = 0;
	if (pkvm_judge(&layout, &none, &call, &none, NULL, 0, &length, &refused) !=
		    PKVM_BAD_LAYOUT ||
	    refused.fault != PKVM_FAULT_CARVE_OUTSIDE)
		return 7;
	if (pkvm_replay(NULL, 0, NULL, 0, &length) != PKVM_NO_ROOM || length == 0)
		return 8;
	return 0;
}

// What random tests are made of, on layouts and states that are mostly none.
static int random_tests(long count)
{
	long suggested = 0;
	for (long i = 0; i < count; i++) {
		size_t regions_len = next() % 3;
		struct pkvm_region *regions = numbers(regions_len, sizeof *regions);
		if (regions_len && next() % 4)
			regions[0] = (struct pkvm_region){PKVM_MEMORY, 0x40000, 0x800};
		if (regions_len > 1 && next() % 4)
			regions[1] = (struct pkvm_region){PKVM_REGISTERS, 0x9000, 0x10};
		struct pkvm_layout layout = {next() % 8 ? 39 + 9 * (next() % 2) : number(),
					     next() % 66,
					     0x40600,
					     next() % 4 ? 0x40 : number(),
					     regions,
					     regions_len,
					     next() % 16};
		struct pkvm_state state = next() % 2 ? lists() : (struct pkvm_state){0};
		struct pkvm_call *call = numbers(1, sizeof *call), was = *call;
		struct pkvm_room room = {0};
		struct pkvm_sizes sizes;
		struct pkvm_refused refused, other;
		size_t text_room = next() % 300, length = 99, written = 99;
		uint8_t *text = block(text_room);

		int32_t boot = pkvm_boot(&layout, &room, &sizes, &refused);
		int32_t start = pkvm_trace_start(&layout, text, text_room, &length, &other);
		if ((boot == PKVM_NO_ROOM) != (sizes.slots == 64) || refused.fault != other.fault ||
		    (boot == PKVM_BAD_LAYOUT) != (start == PKVM_BAD_LAYOUT) ||
		    (boot == PKVM_BAD_LAYOUT) != (refused.fault != 0) ||
		    (start == PKVM_NO_ROOM) != (length > text_room))
			return 1;
		if (!start && pkvm_replay(text, length, NULL, 0, &written) != PKVM_NO_ROOM)
			return 2;
		uint64_t hostile = next() % 120;
		int32_t status = pkvm_suggest(&layout, &state, next(), hostile, call, &refused);
		if ((status == PKVM_BAD_NUMBER) != (hostile > 100) || status > 0 ||
		    (status && memcmp(call, &was, sizeof was)))
			return 3;
		if (!status && (call->cpu >= layout.cpus || call->step.call - 1 > 28 ||
				pkvm_trace_of(&layout, call, text, text_room, &length) !=
					(length > text_room ? PKVM_NO_ROOM : 0)))
			return 4;
		suggested += !status;
		status = pkvm_trace_of(&layout, &was, text, text_room, &length);
		if (status > 0 || (status && status != PKVM_NO_ROOM && length))
			return 5;
		free(text);
		free(call);
		free(regions);
		clear(&state);
	}
	return count < 100 || suggested > count / 30 ? 0 : 6;
}

// Random byte strings for each function. 0, or what went wrong.
static int random_all(long count)
{
	int wrong = random_words(count);
	if (!wrong && (wrong = random_traces(count)))
		wrong += 10;
	if (!wrong && (wrong = random_calls(count)))
		wrong += 20;
	if (!wrong && (wrong = shared_tables()))
		wrong += 30;
	if (!wrong && (wrong = random_tables(count)))
		wrong += 50;
	if (!wrong && (wrong = random_tests(count)))
		wrong += 70;
	return wrong;
}

struct worker {
	pthread_t thread;
	uint64_t seed;
	long count;
	int wrong;
};

static void *works(void *of)
{
	struct worker *worker = of;
	seed = worker->seed;
	worker->wrong = random_all(worker->count) || share(true, 3) || share(false, 3) || audit(1);
	return NULL;
}

// Four threads at once, each with numbers of its own.
static int threads(long count)
{
	struct worker workers[4];
	int wrong = 0;
	for (uint64_t i = 0; i < 4; i++) {
		workers[i] = (struct worker){.seed = 0x9e3779b97f4a7c15u + i, .count = count};
		if (pthread_create(&workers[i].thread, NULL, works, &workers[i]))
			return 9;
	}
	for (int i = 0; i < 4; i++) {
		if (pthread_join(workers[i].thread, NULL))
			return 9;
		wrong |= workers[i].wrong;
	}
	return wrong;
}

int main(int argc, char **argv)
{
	if (pkvm_version() != PKVM_VERSION || argc < 2)
		return 9;
	if (!strcmp(argv[1], "empty"))
		return empty();
	if (!strcmp(argv[1], "words"))
		return words();
	if (argc < 3)
		return 9;
	long count = atol(argv[2]);
	if (!strcmp(argv[1], "replay"))
		return replay(argv[2]);
	if (!strcmp(argv[1], "judge") || !strcmp(argv[1], "predict"))
		return share(argv[1][0] == 'j', count);
	if (!strcmp(argv[1], "audit"))
		return audit(count);
	if (!strcmp(argv[1], "threads"))
		return threads(count);
	return random_all(count);
}
