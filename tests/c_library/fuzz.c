// Each function of the library with arbitrary structs, for libFuzzer: the first byte of an input
// chooses the function, and the rest are the numbers of what it is handed. Each list is a block of
// just its length, so that AddressSanitizer sees what is read or written behind it. What an answer
// promises of outputs is looked at too. Two faults can be planted, which the fuzzer must find:
// -DPLANTED=1 claims one free frame more than there is, so that the library reads behind the list;
// -DPLANTED=2 asserts that no call that is granted and maps something is judged to agree.
#include "pkvm_oracle.h"
#include <malloc.h>
#include <stdbool.h>
#include <stdlib.h>
#include <string.h>

#ifndef PLANTED
#define PLANTED 0
#endif

int LLVMFuzzerTestOneInput(const uint8_t *data, size_t size);

// The library's memory, 256 MiB at most: a trace with large logs is refused more.
struct pkvm_block {
	bool is_there;
	void *at;
};

struct pkvm_block pkvm_heap_alloc(size_t size, size_t align);
struct pkvm_block pkvm_heap_realloc(void *at, size_t kept, size_t size, size_t align);
void pkvm_heap_free(void *at);

static size_t in_use;

struct pkvm_block pkvm_heap_realloc(void *at, size_t kept, size_t size, size_t align)
{
	static char none;
	size_t had = at ? malloc_usable_size(at) : 0;

	(void)kept;
	if (size > (256u << 20) - (in_use - had))
		return (struct pkvm_block){false, &none};
	void *made = realloc(at, size ? size : align);
	if (!made)
		abort();
	in_use += malloc_usable_size(made) - had;
	return (struct pkvm_block){true, made};
}

struct pkvm_block pkvm_heap_alloc(size_t size, size_t align)
{
	return pkvm_heap_realloc(NULL, 0, size, align);
}

void pkvm_heap_free(void *at)
{
	in_use -= malloc_usable_size(at);
	free(at);
}

static const uint8_t *input;
static size_t left;

static uint8_t byte(void)
{
	return left ? (left--, *input++) : 0;
}

static uint64_t wide(void)
{
	uint64_t number = 0;

	for (int i = 0; i < 8; i++)
		number = number << 8 | byte();
	return number;
}

// A number, mostly a valid one.
static uint64_t number(void)
{
	static const uint64_t some[] = {4,	    7,	       8,	   22,	       39,
					48,	    63,	       64,	   66,	       512,
					0x9000,	    0x40000,   0x40600,	   0x4040100,  0x4040600,
					1ull << 26, 1u << 30,  1ull << 36, 1ull << 61, 1ull << 62,
					1ull << 63, UINT64_MAX};
	uint8_t how = byte();

	if (how < 96)
		return how % 6;
	if (how < 160)
		return 0x40000 + (how % 8 ? byte() : 0x600 + byte() % 64);
	if (how < 192)
		return 0x4040000 + byte() * 8u;
	if (how < 224)
		return some[how % (sizeof some / sizeof *some)];
	return how < 240 ? byte() : wide();
}

static void *block(size_t count, size_t of)
{
	void *made = count ? malloc(count * of) : NULL;

	if (count && !made)
		abort();
	return made;
}

// A list of `given` members and arbitrary ones behind them. Seldom a number of a given one is
// another.
static void *grown(size_t *count, const void *given, size_t given_len, size_t most, size_t of)
{
	*count = given_len + (most ? byte() % (most + 1) : 0);
	uint64_t *made = block(*count, of);
	size_t width = of / sizeof *made;

	if (given_len)
		memcpy(made, given, given_len * of);
	for (size_t i = given_len * width; i < *count * width; i++)
		made[i] = number();
	if (given_len && most && byte() % 16 == 15)
		made[byte() % (given_len * width)] = number();
	return made;
}

static void *list(size_t *count, size_t most, size_t of)
{
	return grown(count, NULL, 0, most, of);
}

static struct pkvm_region *regions;

static struct pkvm_layout layout(void)
{
	struct pkvm_layout made = {39, 2, 0x40600, 0x40, NULL, 2, 0};
	uint8_t how = byte();

	if (how < 128) {
		regions = block(2, sizeof *regions);
		regions[0] = (struct pkvm_region){PKVM_MEMORY, 0x40000, 0x800};
		regions[1] = (struct pkvm_region){PKVM_REGISTERS, 0x9000, 0x10};
		made.address_bits = how % 2 ? 48 : 39;
	} else {
		made.address_bits = number();
		made.cpus = number();
		made.carve_first = number();
		made.carve_count = number();
		regions = list(&made.regions_len, 18, sizeof *regions);
	}
	made.regions = regions;
	return made;
}

// A state as a boot leaves it, on the first layout of 39 bits, or that and arbitrary members, or
// these alone.
static struct pkvm_state state(void)
{
	static const struct pkvm_run runs[] = {
		{0, 0x40600, 0x40, {.says = PKVM_ANNOTATED, .owner = PKVM_HYP}},
		{1, 0x4040600, 0x40, {PKVM_LEAF, 0x40600, 0, PKVM_RW, 0, PKVM_OWNED}}};
	static const struct pkvm_table tables[] = {
		{0, 3, 0, 0x40600}, {0, 2, 1, 0x40601},	    {0, 1, 0x203, 0x40602},
		{1, 3, 0, 0x40603}, {1, 2, 0x101, 0x40604}, {1, 1, 0x20203, 0x40605}};
	static const struct pkvm_row rows[] = {
		{0x40600, 0x40, {.owner = PKVM_HYP, .usage = PKVM_USE_SHARED_POOL}}};
	struct pkvm_frame frames[58];
	struct pkvm_state made;
	uint8_t how = byte();
	int is_booted = how < 224;
	size_t most = how < 128 ? 0 : 4;

	for (size_t i = 0; i < 58; i++)
		frames[i] = (struct pkvm_frame){PKVM_HYP, 0x40606 + i};
	made.runs = grown(&made.runs_len, runs, is_booted ? 2 : 0, 2 * most, sizeof *runs);
	made.tables = grown(&made.tables_len, tables, is_booted ? 6 : 0, 2 * most, sizeof *tables);
	made.frames = grown(&made.frames_len, frames, is_booted ? 58 : 0, 2 * most, sizeof *frames);
	made.slots = list(&made.slots_len, most, sizeof *made.slots);
	made.loads = list(&made.loads_len, most, sizeof *made.loads);
	made.guests = list(&made.guests_len, most, sizeof *made.guests);
	made.cpus = list(&made.cpus_len, most / 2, sizeof *made.cpus);
	made.rows = grown(&made.rows_len, rows, is_booted ? 1 : 0, 2 * most, sizeof *rows);
	made.frames_len += PLANTED == 1 && made.frames_len > 0;
	return made;
}

static void clear(struct pkvm_state *state)
{
	free((void *)state->runs);
	free((void *)state->tables);
	free((void *)state->frames);
	free((void *)state->slots);
	free((void *)state->loads);
	free((void *)state->guests);
	free((void *)state->cpus);
	free((void *)state->rows);
}

static struct pkvm_step step(void)
{
	struct pkvm_step made = {.call = byte() % 31};

	for (int i = 0; i < 4; i++)
		made.arguments[i] = number();
	return made;
}

static void must(int holds)
{
	if (!holds)
		abort();
}

static void words(void)
{
	uint64_t level = number() % 6, word = wide(), again = 1;
	struct pkvm_word says = {9, 9, 9, 9, 9, 9};
	int32_t status = pkvm_decode(level, word, &says);

	must(status == (level <= 3 ? 0 : PKVM_NO_LEVEL));
	must(!status || says.says == 9);
	if (!status && says.says != PKVM_MALFORMED)
		must(pkvm_encode(level, &says, &again) == 0 && again == word);
	struct pkvm_word as = {9, 9, 9, 9, 9, 9};
	struct pkvm_beyond beyond = {.has_guest = 9};
	uint64_t profile = byte() % 2 ? 0 : byte();
	int32_t status_as = pkvm_decode_as(byte() % 3, profile, level, word, &as, &beyond);
	must(status_as == status || (!status && profile && status_as == PKVM_BAD_NUMBER));
	must(status_as ? as.says == 9 && beyond.has_guest == 9 : beyond.has_guest <= 1);
	must(status || profile || !memcmp(&as, &says, sizeof as));
	says = (struct pkvm_word){number(), number(), number(), number(), number(), number()};
	again = 77;
	status = pkvm_encode(level, &says, &again);
	must(status <= 0 && status >= PKVM_NO_WORD && (!status || again == 77));
	if (!status) {
		struct pkvm_word read;
		must(pkvm_decode(level, again, &read) == 0 && read.says == says.says);
	}
}

static void traces(void)
{
	size_t room = byte() * 8u, written = 0, length = left;
	uint8_t *trace = block(length, 1), *report = block(room, 1);

	for (size_t i = 0; i < length; i++)
		trace[i] = byte();
	int32_t status = pkvm_replay(trace, length, report, room, &written);
	must((status >= 0 && status <= PKVM_FAULT) || status == PKVM_NO_ROOM ||
	     status == PKVM_NO_MEMORY);
	must((status == PKVM_NO_ROOM) == (written > room));
	free(trace);
	free(report);
}

// What is told of a text.
static void must_fit(int32_t status, size_t length, size_t room, const struct pkvm_refused *refused)
{
	must(status <= PKVM_DISAGREES && status >= PKVM_BAD_TABLES);
	must(status != PKVM_DISAGREES || (length > 0 && length <= room));
	must(status != PKVM_NO_ROOM || length > room);
	must(status == PKVM_DISAGREES || status == PKVM_NO_ROOM || length == 0);
	must((status == PKVM_BAD_LAYOUT || status == PKVM_BAD_BEFORE || status == PKVM_BAD_AFTER ||
	      status == PKVM_BAD_TABLES) == (refused->fault != PKVM_FAULT_NONE));
	must(refused->fault <= PKVM_FAULT_ROOT_SKIPS && refused->list <= 65);
}

static void judge(void)
{
	struct pkvm_layout on = layout();
	struct pkvm_call call = {byte() % 3, step(), {.refusal = byte() % 2 ? 0 : number()}};

	if (!call.reply.refusal) {
		uint64_t *numbers = &call.reply.gives;
		for (size_t i = 0; i < sizeof call.reply / sizeof *numbers - 1; i++)
			numbers[i] = number();
	}
	int is_other = byte() % 2;
	struct pkvm_state before = state(), after = is_other ? state() : before;
	size_t room = byte(), length = 99;
	uint8_t *text = block(room, 1);
	struct pkvm_refused refused;
	on.freedoms = byte() % 40;
	int32_t status = pkvm_judge(&on, &before, &call, &after, text, room, &length, &refused);

	must_fit(status, length, room, &refused);
	if (is_other)
		clear(&after);
	clear(&before);
	free(text);
	free(regions);
}

// A step is predicted, and a state after it is judged to agree. Whether that can be handed in.
static int predicted(const struct pkvm_layout *on, const struct pkvm_state *before,
		     struct pkvm_state *after)
{
	struct pkvm_step made = step();
	uint64_t cpu = byte() % 3;
	struct pkvm_room room = {0};
	struct pkvm_reply reply = {.refusal = 77}, told = {.refusal = 77};
	struct pkvm_sizes sizes;
	struct pkvm_refused refused, other;
	int32_t status = pkvm_predict(on, before, cpu, &made, &reply, &room, &sizes, &refused);
	int32_t alone = pkvm_predict_reply(on, before, cpu, &made, &told, &other);

	must(status == (alone ? alone : PKVM_NO_ROOM) && reply.refusal == 77);
	must(refused.fault == other.fault && (alone == 0 || told.refusal == 77));
	if (alone)
		return 0;
	room.runs = block(room.runs_len = sizes.runs, sizeof *room.runs);
	room.tables = block(room.tables_len = sizes.tables, sizeof *room.tables);
	room.frames = block(room.frames_len = sizes.frames, sizeof *room.frames);
	room.slots = block(room.slots_len = sizes.slots, sizeof *room.slots);
	room.loads = block(room.loads_len = sizes.loads, sizeof *room.loads);
	room.guests = block(room.guests_len = sizes.guests, sizeof *room.guests);
	room.cpus = block(room.cpus_len = sizes.cpus, sizeof *room.cpus);
	room.rows = block(room.rows_len = sizes.rows, sizeof *room.rows);
	must(pkvm_predict(on, before, cpu, &made, &reply, &room, &sizes, &refused) == 0);
	must(memcmp(&reply, &told, sizeof reply) == 0);
	*after = (struct pkvm_state){room.runs,	  room.runs_len,   room.tables, room.tables_len,
				     room.frames, room.frames_len, room.slots,	room.slots_len,
				     room.loads,  room.loads_len,  room.guests, room.guests_len,
				     room.cpus,	  room.cpus_len,   room.rows,	room.rows_len};
	struct pkvm_call call = {cpu, made, reply};
	size_t length = 0;
	status = pkvm_judge(on, before, &call, after, NULL, 0, &length, &refused);
	must(status == PKVM_AGREES || status == PKVM_BAD_AFTER);
	must(PLANTED != 2 || status != PKVM_AGREES || reply.refusal ||
	     sizes.runs <= before->runs_len);
	return status == PKVM_AGREES;
}

// Whether a state is legal.
static int is_legal(const struct pkvm_layout *on, const struct pkvm_state *told)
{
	size_t length;
	struct pkvm_refused refused;

	return pkvm_check(on, told, 0, NULL, 0, &length, &refused) == PKVM_AGREES;
}

// Up to twelve steps, each on the state that is predicted of the last. From a legal state they lead
// to a legal one.
static void predict(void)
{
	struct pkvm_layout on = layout();
	struct pkvm_state at = state();
	int was_legal = is_legal(&on, &at);

	for (int steps = 0; steps < 12 && left; steps++) {
		struct pkvm_state after = {0};
		int goes_on = predicted(&on, &at, &after);

		clear(goes_on ? &at : &after);
		if (!goes_on)
			break;
		at = after;
	}
	must(!was_legal || is_legal(&on, &at));
	clear(&at);
	free(regions);
}

static void audit(void)
{
	struct pkvm_layout on = layout();
	struct pkvm_state kept = state();
	size_t pages_len = byte() % 6, roots_len, room = byte(), length = 99;
	struct pkvm_page *pages = block(pages_len, sizeof *pages);
	struct pkvm_root *roots = list(&roots_len, 4, sizeof *roots);
	uint8_t *text = block(room, 1);
	struct pkvm_range skip = {wide(), wide()};
	struct pkvm_refused refused;

	for (size_t i = 0; i < pages_len; i++) {
		size_t words_len = byte() % 32 ? 512 : byte();
		uint64_t *of = block(words_len, sizeof *of);
		if (words_len)
			memset(of, 0, words_len * sizeof *of);
		for (size_t n = byte() % 8; n-- && words_len;) {
			size_t at = byte() * 2u % words_len;
			of[at] = byte() % 2 ? (0x40600ull + byte() % 8) << 12 | 3 : wide();
		}
		pages[i] = (struct pkvm_page){byte() % 8 ? 0x40600 + i : number(), of, words_len};
	}
	for (size_t i = 0; i < roots_len && byte() % 4; i++)
		roots[i] = (struct pkvm_root){
			.tree = i,
			.frame = 0x40600 + byte() % 6,
			.profile = byte() % 4 ? 0 : byte(),
			.levels = byte() % 4 ? 0 : byte() % 6,
			.pages = byte() % 4 ? 0 : byte() % 20,
			.skips = &skip,
			.skips_len = byte() % 4 == 0,
		};
	int32_t status = pkvm_audit(&on, &kept, pages, pages_len, roots, roots_len, text, room,
				    &length, &refused);
	must_fit(status, length, room, &refused);
	for (size_t i = 0; i < pages_len; i++)
		free((void *)pages[i].words);
	free(pages);
	free(roots);
	free(text);
	clear(&kept);
	free(regions);
}

static void check(void)
{
	struct pkvm_layout on = layout();
	struct pkvm_state told = state();
	size_t room = byte(), length = 99;
	uint8_t *text = block(room, 1);
	struct pkvm_refused refused;
	int32_t status = pkvm_check(&on, &told, byte() % 3, text, room, &length, &refused);

	must_fit(status, length, room, &refused);
	status = pkvm_fault_text(byte() % 30, text, room, &length);
	must(status == 0	      ? length > 0 && length <= room
	     : status == PKVM_NO_ROOM ? length > room
				      : status == PKVM_BAD_NUMBER && length == 0);
	free(text);
	clear(&told);
	free(regions);
}

// What random tests are made of: a suggested call is the model's, and its line is one that can be
// replayed.
static void random_tests(void)
{
	struct pkvm_layout on = layout();
	struct pkvm_state now = state();
	uint64_t random = wide(), hostile = byte() % 104;
	struct pkvm_call call = {byte() % 3, step(), {.refusal = number()}}, was = call;
	struct pkvm_room room = {0};
	struct pkvm_sizes sizes;
	struct pkvm_refused refused, other;
	size_t text_room = byte() * 2u, length = 99, written = 99;
	uint8_t *text = block(text_room, 1), line[256];
	int32_t boot = pkvm_boot(&on, &room, &sizes, &refused);
	int32_t start = pkvm_trace_start(&on, text, text_room, &length, &other);

	must(boot == PKVM_BAD_LAYOUT || (boot == PKVM_NO_ROOM && sizes.slots == 64));
	must((boot == PKVM_BAD_LAYOUT) == (start == PKVM_BAD_LAYOUT));
	must(refused.fault == other.fault && (boot == PKVM_BAD_LAYOUT) == (refused.fault != 0));
	must(start == 0		     ? length <= text_room
	     : start == PKVM_NO_ROOM ? length > text_room
				     : !length);
	if (!start)
		must(pkvm_replay(text, length, NULL, 0, &written) == PKVM_NO_ROOM);
	int32_t status = pkvm_suggest(&on, &now, random, hostile, &call, &refused);
	must(status == 0 || !memcmp(&call, &was, sizeof call));
	must((status == PKVM_BAD_NUMBER) == (hostile > 100));
	must(!memcmp(&call.reply, &was.reply, sizeof was.reply));
	if (!status) {
		struct pkvm_reply reply;
		must(call.cpu < on.cpus && call.step.call - 1 < 29);
		must(pkvm_predict_reply(&on, &now, call.cpu, &call.step, &reply, &refused) == 0);
		must(!reply.refusal || hostile > 0);
		must(reply.refusal || hostile < 100);
		must(pkvm_trace_of(&on, &call, line, sizeof line, &length) == 0 && length > 0);
	}
	status = pkvm_trace_of(&on, &was, text, text_room, &length);
	must(status == 0 ? length <= text_room
			 : length == 0 || (status == PKVM_NO_ROOM && length > text_room));
	free(text);
	clear(&now);
	free(regions);
}

int LLVMFuzzerTestOneInput(const uint8_t *data, size_t size)
{
	static void (*const each[])(void) = {words, traces, judge,	 predict,
					     audit, check,  random_tests};

	input = data;
	left = size;
	each[byte() % (sizeof each / sizeof *each)]();
	must(in_use == 0);
	return 0;
}
