// Asks the library about a state of many runs, so that its work can be measured.
//
// library FUNCTION SHARED TIMES: judges, predicts, audits or checks a state in which the host
// shares so many pages with the hypervisor, every second one of its memory. So the host has twice
// as many runs, the hypervisor as many, and there are twice as many owner rows. It does so TIMES
// times. Status 1 where the library says something else than that all is well, 2 for wrong words.
#include "pkvm_oracle.h"
#include <inttypes.h>
#include <stdio.h>
#include <stdlib.h>
#include <string.h>

enum { MEMORY = 0x40000, HYP = 0x4000000, CARVED = 0x800, TABLE = 512 };

// A state with its tables in memory.
struct machine {
	struct pkvm_region memory;
	struct pkvm_layout layout;
	struct pkvm_run *runs;
	struct pkvm_table *tables;
	struct pkvm_frame *frames;
	struct pkvm_row *rows;
	struct pkvm_state state;
	struct pkvm_page *pages;
	size_t pages_len;
	struct pkvm_root roots[2];
	uint64_t next;	    // the next frame of the carve-out
	uint64_t *by_frame; // the words of the carve-out's frames
};

static void *members(size_t count, size_t size)
{
	void *made = calloc(count, size);
	if (!made)
		exit(1);
	return made;
}

static struct pkvm_word leaf(uint64_t frame, uint64_t rights, uint64_t state)
{
	return (struct pkvm_word){.says = PKVM_LEAF,
				  .frame = frame,
				  .rights = rights,
				  .kind = PKVM_NORMAL,
				  .state = state};
}

static uint64_t encoded(uint64_t level, const struct pkvm_word *says)
{
	uint64_t word;
	if (pkvm_encode(level, says, &word))
		exit(1);
	return word;
}

static uint64_t *words_of(struct machine *m, uint64_t frame)
{
	return m->by_frame + (frame - m->layout.carve_first) * TABLE;
}

// A new table of a tree, at a height and an index.
static uint64_t table(struct machine *m, uint64_t tree, uint64_t height, uint64_t index)
{
	uint64_t frame = m->next++;
	m->tables[m->state.tables_len++] = (struct pkvm_table){tree, height, index, frame};
	m->pages[m->pages_len++] = (struct pkvm_page){frame, words_of(m, frame), TABLE};
	return frame;
}

// The table of a height that has a page, made with those above it where it isn't there.
static uint64_t table_over(struct machine *m, uint64_t tree, uint64_t page, uint64_t least)
{
	uint64_t frame = m->roots[tree].frame;
	for (uint64_t height = 2; height >= least; height--) {
		uint64_t index = page >> 9 * height, level = 3 - height;
		uint64_t *word = words_of(m, frame) + index % TABLE;
		struct pkvm_word below;
		if (!*word) {
			below = (struct pkvm_word){.says = PKVM_TABLE,
						   .frame = table(m, tree, height, index)};
			*word = encoded(level, &below);
		}
		if (pkvm_decode(level, *word, &below) || below.says != PKVM_TABLE)
			exit(1);
		frame = below.frame;
	}
	return frame;
}

static void map(struct machine *m, uint64_t tree, uint64_t page, uint64_t count,
		struct pkvm_word word)
{
	m->runs[m->state.runs_len++] = (struct pkvm_run){tree, page, count, word};
	for (uint64_t i = 0, pages; i < count; i += pages) {
		uint64_t at = page + i, height = at % TABLE || count - i < TABLE ? 1 : 2;
		struct pkvm_word says = word;
		if (says.says == PKVM_LEAF)
			says.frame += i;
		pages = height == 2 ? TABLE : 1;
		words_of(m, table_over(m, tree, at, height))[at / pages % TABLE] =
			encoded(4 - height, &says);
	}
}

static void make(struct machine *m, size_t shared)
{
	uint64_t pages = (2 * shared + TABLE) / TABLE * TABLE + CARVED,
		 carve = MEMORY + pages - CARVED;
	memset(m, 0, sizeof *m);
	m->memory = (struct pkvm_region){PKVM_MEMORY, MEMORY, pages};
	m->layout = (struct pkvm_layout){.address_bits = 39,
					 .cpus = 1,
					 .carve_first = carve,
					 .carve_count = CARVED,
					 .regions = &m->memory,
					 .regions_len = 1};
	m->runs = members(3 * shared + 4, sizeof *m->runs);
	m->tables = members(CARVED, sizeof *m->tables);
	m->frames = members(CARVED, sizeof *m->frames);
	m->rows = members(shared + 4, sizeof *m->rows);
	m->pages = members(CARVED, sizeof *m->pages);
	m->by_frame = members((size_t)CARVED * TABLE, sizeof *m->by_frame);
	m->next = carve;
	for (uint64_t tree = PKVM_HOST; tree <= PKVM_HYP; tree++)
		m->roots[tree] = (struct pkvm_root){.tree = tree, .frame = table(m, tree, 3, 0)};
	for (size_t i = 0; i < shared; i++) {
		uint64_t frame = MEMORY + 2 * i;
		map(m, PKVM_HOST, frame, 1, leaf(frame, PKVM_RWX, PKVM_SHARED_OWNED));
		map(m, PKVM_HOST, frame + 1, 1, leaf(frame + 1, PKVM_RWX, PKVM_OWNED));
		map(m, PKVM_HYP, HYP + frame, 1, leaf(frame, PKVM_RW, PKVM_SHARED_BORROWED));
		m->rows[m->state.rows_len++] = (struct pkvm_row){frame,
								 1,
								 {.owner = PKVM_HOST,
								  .is_lent = 1,
								  .borrower = PKVM_HYP,
								  .borrower_page = HYP + frame}};
	}
	map(m, PKVM_HOST, carve, CARVED,
	    (struct pkvm_word){.says = PKVM_ANNOTATED, .owner = PKVM_HYP});
	map(m, PKVM_HYP, HYP + carve, CARVED, leaf(carve, PKVM_RW, PKVM_OWNED));
	m->rows[m->state.rows_len++] = (struct pkvm_row){
		carve, CARVED, {.owner = PKVM_HYP, .usage = PKVM_USE_SHARED_POOL}};
	for (uint64_t frame = m->next; frame < carve + CARVED; frame++)
		m->frames[m->state.frames_len++] = (struct pkvm_frame){PKVM_HYP, frame};
	m->state.runs = m->runs;
	m->state.tables = m->tables;
	m->state.frames = m->frames;
	m->state.rows = m->rows;
}

int main(int argc, char **argv)
{
	if (argc != 4)
		return 2;
	static struct machine m;
	make(&m, strtoul(argv[2], NULL, 0));
	// A frame that isn't memory: the model refuses it, and the state stays.
	struct pkvm_call call = {
		.cpu = 0, .step = {PKVM_SHARE_HYP, {0x1000}}, .reply = {.refusal = PKVM_EINVALID}};
	uint8_t text[256];
	size_t length = 0;
	struct pkvm_refused refused = {0};
	struct pkvm_reply reply;
	int32_t status = 0;
	for (unsigned long i = strtoul(argv[3], NULL, 0); i > 0 && !status; i--) {
		if (!strcmp(argv[1], "judge"))
			status = pkvm_judge(&m.layout, &m.state, &call, &m.state, text, sizeof text,
					    &length, &refused);
		else if (!strcmp(argv[1], "predict"))
			status = pkvm_predict_reply(&m.layout, &m.state, 0, &call.step, &reply,
						    &refused);
		else if (!strcmp(argv[1], "audit"))
			status = pkvm_audit(&m.layout, &m.state, m.pages, m.pages_len, m.roots, 2,
					    text, sizeof text, &length, &refused);
		else if (!strcmp(argv[1], "check"))
			status = pkvm_check(&m.layout, &m.state, PKVM_COARSEST_TREES, text,
					    sizeof text, &length, &refused);
		else
			return 2;
	}
	if (status)
		fprintf(stderr,
			"%s: status %" PRId32 ", fault %" PRIu64 " of list %" PRIu64 " at %" PRIu64
			": %.*s\n",
			argv[1], status, refused.fault, refused.list, refused.index,
			(int)(length < sizeof text ? length : 0), (const char *)text);
	return status != 0;
}
