/* The parts of the harness, and what they ask of each other.
 *
 * boot.c and calls.c are compiled with the hypervisor's sources, whose names they use. All other
 * files know frames, pages and the library's structs alone: they are the same for each release.
 */
#ifndef HARNESS_H
#define HARNESS_H

#include "pkvm_oracle.h"
#include <stdbool.h>
#include <stddef.h>
#include <stdint.h>
#include <stdio.h>

enum {
	HOST = 0, /* owners, trees and pools; the guest in slot v is GUEST + v */
	HYP = 1,
	GUEST = 2,
	SLOTS = 64,
	TREES = GUEST + SLOTS,
	MAX_CPUS = 64,
	REGIONS = 16
};

/* The hypervisor's page of frame f is f + LINEAR, in Linux as in the model: the harness chose it
 * so.
 */
#define LINEAR 0x4000000ull

/* What Linux chooses otherwise than the model, and no judgement compares: tables and free frames,
 * and which of its own pages the host has mapped.
 */
enum { FREEDOMS = PKVM_OWN_TABLES | PKVM_LAZY_HOST };

/* A CPU is a thread: what is there once for each. */
#define PER_CPU _Thread_local

/* --- machine.c: what it runs on --- */

struct machine {
	struct pkvm_region regions[REGIONS]; /* the last is memory for Linux itself */
	size_t regions_len;
	struct pkvm_layout layout;
	uint64_t linear;  /* EL2's own page of frame 0 */
	bool is_hvhe;	  /* the words of its tables */
	bool is_lpa2;	  /* of all leaves */
	bool is_fwb;	  /* and of those of stage 2 */
	bool lacks_lists; /* where guests' tables come from isn't known */
	uint64_t cpus;	  /* that run it at once */
	/* Frames of Linux itself: its image, its CPUs' data and stacks, EL2's pool, and pages that
	 * a guest's list is filled up with.
	 */
	uint64_t image, percpu, stack;
	uint64_t pool, pool_count;
	uint64_t reserve, reserve_count;
};
extern struct machine machine;

/* Fills it from a layout without Linux' own memory. NULL, or why there is no such machine. */
const char *machine_make(uint64_t address_bits, uint64_t cpus, uint64_t carve_first,
			 uint64_t carve_count, const struct pkvm_region *regions,
			 size_t regions_len);
/* A memory frame's index, below memory_pages(), or -1; and back. */
long memory_index(uint64_t frame);
uint64_t memory_frame(size_t index);
size_t memory_pages(void);
/* Whether a page is in some region that was asked for: elsewhere the model has nothing. */
bool is_in_region(uint64_t page);

/* --- boot.c, calls.c: Linux --- */

struct linux_tree {
	uint64_t root;	/* the frame of its root */
	uint64_t level; /* of the root's words */
	uint64_t pages; /* of the root, one after another */
};

/* A page as hyp_vmemmap has it, where the release keeps states there: PKVM_OWNED to
 * PKVM_SHARED_BORROWED or NO_PAGE.
 */
enum { NO_PAGE = 3 };
struct linux_page {
	unsigned int host, hyp;
	unsigned int borrowers; /* pages of plain guests that have it */
};

/* How a call of Linux ended. */
struct ended {
	int error;	 /* 0 or the number of an error, without its sign */
	bool is_stopped; /* EL2 stopped the machine */
	char where[96];	 /* and where */
};

extern const bool linux_has_guests;
void linux_boot(void);
/* This thread stands for a CPU from now on. */
void linux_cpu(uint64_t cpu);
/* Frames that EL2 needs for its pools. */
uint64_t linux_pool_pages(void);
bool linux_is_text(uint64_t frame);
struct linux_tree linux_tree(uint64_t tree);
/* A table's words. */
const uint64_t *linux_table(uint64_t frame);
/* Free frames of the pools of a tree's tables. */
size_t linux_free_frames(uint64_t tree, uint64_t *frames, size_t room);
/* The frame's count of references. */
unsigned int linux_pins(uint64_t frame);
/* Of each page of memory what the tree's lock guards. */
void linux_pages(uint64_t tree, struct linux_page *pages, size_t len);

/* Makes a call. `slot` has the guest where the call is on one. */
struct ended linux_call(const struct pkvm_step *step, uint64_t slot);
/* Calls that the model hasn't: share_ffa, unshare_ffa, pin, unpin, force_reclaim. False: the
 * release hasn't it.
 */
bool linux_has_other(const char *name);
struct ended linux_other(const char *name, uint64_t frame, uint64_t count);

/* Guests. The harness makes them: Linux' table of VMs (pkvm.c) isn't asked. */
struct ended linux_guest_make(uint64_t slot, bool is_protected, uint64_t root);
void linux_guest_give(uint64_t slot, uint64_t frame);
bool linux_guest_take(uint64_t slot, uint64_t frame);
/* All free frames of the guest's pool, together in its list. */
void linux_guest_gather(uint64_t slot);
struct ended linux_guest_end(uint64_t slot);
/* How many pages the list must have for a page to be mapped. */
unsigned long linux_guest_needs(void);
/* The number of pages of the guest's leaf at a page: 1, 512, .., or 0 where it has none. */
uint64_t linux_guest_leaf(uint64_t slot, uint64_t page);

/* --- words.c: what words of tables say --- */

/* A word as it would be without LPA2. */
uint64_t as_without_lpa2(uint64_t level, uint64_t word);
struct pkvm_word said_by_host(uint64_t level, uint64_t word);
struct pkvm_word said_by_hyp(uint64_t level, uint64_t word);
struct pkvm_word said_by_guest(uint64_t level, uint64_t word);
struct pkvm_word leaf(uint64_t frame, uint64_t rights, uint64_t kind, uint64_t state);
bool same_word(const struct pkvm_word *a, const struct pkvm_word *b);
/* The word of the k-th page of a run. */
static inline struct pkvm_word word_after(struct pkvm_word word, uint64_t k)
{
	if (word.says == PKVM_LEAF)
		word.frame += k;
	return word;
}

/* --- vms.c: the table of VMs, which the harness keeps --- */

struct vms {
	struct pkvm_slot slots[SLOTS];
	struct pkvm_load loads[MAX_CPUS];
	size_t loads_len;
	struct pkvm_guest guests[SLOTS];
	struct pkvm_cpu cpus[MAX_CPUS];
};
extern struct vms vms;
void vms_make(void);
/* Takes the table over from a state that the library foretold. */
void vms_adopt(const struct pkvm_state *state);
/* The slot whose vCPU a CPU has loaded. */
bool vms_loaded(uint64_t cpu, uint64_t *slot);
void vms_fill(uint64_t slot);
void vms_sweep(uint64_t slot);

/* --- record.c: a state as the library wants it --- */

/* What one of Linux' locks guards: the host's, the hypervisor's, a VM's. */
struct part {
	uint64_t tree;
	struct pkvm_run *runs; /* as the words say; of EL2 those of its linear map */
	size_t runs_len, runs_room;
	struct pkvm_table *tables;
	size_t tables_len, tables_room;
	uint64_t *free;
	size_t free_len, free_room;
	struct linux_page *pages; /* by memory index, where hyp_vmemmap has states */
	size_t pages_len;
	unsigned int users;
};
void record_part(struct part *to, uint64_t tree);
/* Apart from free frames. */
bool same_part(const struct part *a, const struct part *b);
void free_part(struct part *it);

struct recorded {
	struct pkvm_run *runs;
	size_t runs_len, runs_room;
	struct pkvm_table *tables;
	size_t tables_len, tables_room;
	struct pkvm_frame *frames;
	size_t frames_len, frames_room;
	struct pkvm_row *rows;
	size_t rows_len, rows_room;
	size_t free_shared; /* free frames of the shared pool, of which `frames` has the first */
	unsigned int *borrowers; /* by memory index */
	struct vms vms;
	char misfit[160]; /* where tables and hyp_vmemmap don't fit each other, or nothing */
	struct pkvm_state state;
};
/* The state that parts are together: by tree, NULL where there is no such guest. */
void join(struct recorded *to, struct part *const parts[TREES]);
/* The state now. */
void record(struct recorded *to);
/* How many free frames of the shared pool the library is told. */
extern size_t frames_told;
/* Adds a run, joined to the last one where it goes on. */
void add_run(struct recorded *to, uint64_t tree, uint64_t page, uint64_t count,
	     struct pkvm_word word);
struct pkvm_word entry_at(const struct pkvm_state *state, uint64_t tree, uint64_t page);
struct pkvm_owner row_at(const struct pkvm_state *state, uint64_t frame);
/* The word on the path of a page at a level; false where the path doesn't go so far. */
bool word_at(uint64_t tree, uint64_t page, uint64_t level, uint64_t *word);

/* --- make.c: a step made on Linux, or by the harness --- */

enum maker { BY_LINUX, BY_HARNESS, BY_NOBODY };
struct made {
	enum maker maker;
	struct pkvm_reply reply;
	struct ended ended;
};
/* `before` is the state now. Frees of a guest's list may be added to it first, so it is recorded
 * anew.
 */
struct made make_step(uint64_t cpu, const struct pkvm_step *step, struct recorded *before);
/* A call of Linux, which has it: `slot` has the guest where the call is on one. */
struct made make_on_linux(const struct pkvm_step *step, uint64_t slot);
/* To be called between two steps, before a state is recorded. */
void make_ready(void);

/* --- judge.c: the library asked --- */

enum verdict { AGREES, KNOWN, DIFFERS };
struct judgement {
	enum verdict verdict;
	const char *name; /* of a known difference */
	char text[512];	  /* the first difference, as the library tells it */
};
void judge(const struct recorded *before, uint64_t cpu, const struct pkvm_step *step,
	   const struct made *made, const struct recorded *after, struct judgement *out);
struct pkvm_reply predicted_reply(const struct recorded *state, uint64_t cpu,
				  const struct pkvm_step *step);
/* The state after the step, until the library is asked again. */
const struct pkvm_state *predicted_state(const struct recorded *state, uint64_t cpu,
					 const struct pkvm_step *step, struct pkvm_reply *reply);

/* --- report.c: names, lines and the summary --- */

struct call {
	const char *name;
	/* n number, c count that may be missing, r rights, k kind of VM, v a VM, which is two
	 * arguments
	 */
	const char *arguments;
};
extern const struct call calls[30];
void text_of_step(const struct pkvm_step *step, char *text, size_t room);
const char *refusal_name(uint64_t refusal);
/* The model's name of an error: docs/LINUX.md has this table. A number that isn't paired stays a
 * number.
 */
uint64_t refusal_of(const struct pkvm_step *step, int error);
void text_of_reply(const struct made *made, char *text, size_t room);
void text_of_word(const struct pkvm_word *word, char *text, size_t room);
void text_of_row(const struct pkvm_owner *row, char *text, size_t room);
/* A line that tells a difference. */
void tell(uint64_t number, uint64_t cpu, const struct pkvm_step *step, const struct made *made,
	  const struct judgement *judgement);
void count_step(const struct pkvm_step *step, const struct made *made,
		const struct judgement *judgement);
void count_other(void);
/* Writes the summary. Whether no difference is unknown. */
bool print_summary(FILE *to);

/* --- trace.c, random.c, cpus.c, rounds.c: where steps come from --- */

int run_trace(const char *path);
/* Until so many calls are made by Linux; or, where `is_first`, until one differs that isn't known.
 */
int run_random(uint64_t seed, uint64_t steps, uint64_t hostile, bool is_printed, bool is_first);
/* On several CPUs at once. */
int run_cpus(uint64_t cpus, uint64_t seed, uint64_t steps, uint64_t hostile, bool is_first);
/* Linux took the lock of a tree on this CPU; it is about to let it go. */
void tree_taken(uint64_t tree);
void tree_let_go(uint64_t tree);
/* Some calls of two CPUs at once: written as PATH.trace, and what Linux told as PATH.report. */
int run_round(const char *path, uint64_t seed);
/* Linux is about to read a word that other CPUs may write, or to write one. */
void word_met(bool is_written);
/* Another CPU has the lock. False where CPUs take no turns. */
bool lock_met(void);

/* Ends the program with status 2 and a line on standard error. */
void refuse(const char *format, ...) __attribute__((noreturn, format(printf, 1, 2)));

#endif
