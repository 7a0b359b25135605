/* The oracle of protected KVM's page ownership, for C. The judging of one call:
 *
 *	#include <pkvm_oracle.h>
 *	#include <stdio.h>
 *
 *	int main(void)
 *	{
 *		struct pkvm_region memory = {PKVM_MEMORY, 0x40000, 0x800};	// 8 MiB at 1 GiB
 *		struct pkvm_layout layout = {39, 1, 0x40600, 0x40, &memory, 1, 0};
 *		struct pkvm_state before = {0}, after = {0};	// what your hypervisor has
 *		struct pkvm_call call = {
 *			.cpu = 0,
 *			.step = {PKVM_SHARE_HYP, {0x1000}},	// a frame that isn't memory,
 *			.reply = {.refusal = 0},		// and yet it said ok
 *		};
 *		uint8_t text[256];
 *		size_t length;
 *		struct pkvm_refused refused;
 *		int32_t status = pkvm_judge(&layout, &before, &call, &after, text, sizeof text,
 *					    &length, &refused);
 *		if (status == PKVM_DISAGREES)	// disagree reply said ok spec invalid
 *			printf("%.*s\n", (int)length, (const char *)text);
 *		return status == PKVM_DISAGREES ? 0 : 1;
 *	}
 *
 * The order of calls. Once: compare pkvm_version() and PKVM_VERSION, ask pkvm_is_proved(). Then, of
 * each call of your hypervisor:
 *
 *   1. decode    pkvm_decode says what the words of your tables say, where you keep no records
 *   2. record    fill a struct pkvm_state while the call holds its locks, before and after it
 *   3. judge     pkvm_judge compares the two with the model's step; pkvm_predict and
 *                pkvm_predict_reply tell what the model does
 *   4. audit     pkvm_audit compares a state that is kept with the tables as they lie in memory
 *   5. check     pkvm_check tests whether a state is legal, as each state of a run is
 *
 * docs/C_LIBRARY.md is a walk through them. pkvm_replay needs no hypervisor: it runs a trace.
 *
 * The functions keep nothing between two calls and write to what is handed to them alone. Several
 * threads may be in them at once, if each writes to its own memory; a signal handler may not. A
 * pointer may be NULL where its length is 0, so {0} is the empty state; no other may. What is
 * written may not lie in what is read. Any number may be handed in: an invalid one is refused by
 * name. Of several errors the first in the order of a function's list is told.
 *
 * Units. A page is an input address divided by 4,096, a frame a physical address divided by it. An
 * owner, a tree and a pool have these numbers; the shared pool is the hypervisor's.
 */
#ifndef PKVM_ORACLE_H
#define PKVM_ORACLE_H

#include <stddef.h>
#include <stdint.h>

#ifdef __cplusplus
extern "C" {
#endif

enum { PKVM_HOST = 0, PKVM_HYP = 1, PKVM_GUEST = 2 }; /* PKVM_GUEST + v: the guest in slot v */

/* The version of this header, 3.0.0: 32 bits that change where a program has to, 16 that change
 * where something is added, and 16 that change else. */
#define PKVM_VERSION 0x300000000ull

/* The version of the library, in that form. A program fits where the upper 32 bits are equal and
 * the rest isn't less than PKVM_VERSION's. */
uint64_t pkvm_version(void);

/* Whether the library was built of sources that were proved.
 *
 * Answers:
 *   1    it was
 *   0    it is an unproved build, for a first try */
int32_t pkvm_is_proved(void);

/* --- Words of tables (4 KiB granule, Arm DDI 0487 D8.3, narrowed to the profile) --- */

/* What a word says. */
enum { PKVM_MALFORMED = 0, PKVM_UNMAPPED = 1, PKVM_ANNOTATED = 2, PKVM_LEAF = 3, PKVM_TABLE = 4 };
/* Rights, kind and state of a leaf. */
enum { PKVM_R = 4, PKVM_RX = 5, PKVM_RW = 6, PKVM_RWX = 7 };
enum { PKVM_NORMAL = 0, PKVM_DEVICE = 1 };
enum { PKVM_OWNED = 0, PKVM_SHARED_OWNED = 1, PKVM_SHARED_BORROWED = 2 };

struct pkvm_word {
	uint64_t says;
	uint64_t frame;	 /* of a leaf and of a table */
	uint64_t owner;	 /* of an annotation */
	uint64_t rights; /* of a leaf, and so are the two below */
	uint64_t kind;
	uint64_t state;
};

/* Errors are below 0, and each is a status of more than one function. Where something is refused,
 * `refused` says why. */
enum {
	PKVM_NO_LEVEL = -1,	    /* the level isn't 0 to 3 */
	PKVM_NO_ROOM = -2,	    /* what is written needs more room than there is */
	PKVM_BAD_NUMBER = -3,	    /* a number is invalid */
	PKVM_NO_WORD = -4,	    /* no word of this level says it */
	PKVM_BAD_STEP = -5,	    /* the call, its rights or its kind of VMs is unknown */
	PKVM_BAD_REPLY = -6,	    /* a number of the reply is invalid */
	PKVM_BAD_CPU = -7,	    /* the layout hasn't the CPU */
	PKVM_BAD_LAYOUT = -8,	    /* the layout is refused */
	PKVM_BAD_BEFORE = -9,	    /* the state before the call, or the kept one, is refused */
	PKVM_BAD_AFTER = -10,	    /* the state after the call is refused */
	PKVM_LAST_GENERATION = -11, /* a slot of the greatest generation is released */
	PKVM_NO_MEMORY = -12,	    /* memory was refused */
	PKVM_BAD_TABLES = -13	    /* the pages of tables and their roots make no trees */
};

/* What a word of a table says.
 *
 *   level    the table's, by the architecture's number: 0 to 3
 *   word     the 64 bits
 *   out      written: what it says, with 0 in each field that isn't named for it
 *
 * Answers:
 *   0                 it is written
 *   PKVM_NO_LEVEL     and `out` stays */
int32_t pkvm_decode(uint64_t level, uint64_t word, struct pkvm_word *out);

/* By whose rules the words of a tree are written: 0 the model's own; else one of the first two, and
 * added to it PKVM_FWB (of the host and of guests), PKVM_HVHE (of the hypervisor) and PKVM_LPA2. */
enum {
	PKVM_MODEL = 0,
	PKVM_LINUX_6_12 = 1,
	PKVM_LINUX_7_3 = 2,
	PKVM_FWB = 16,	/* stage 2 forces memory attributes (HCR_EL2.FWB) */
	PKVM_HVHE = 32, /* EL2 runs with HCR_EL2.E2H set */
	PKVM_LPA2 = 64	/* addresses of 52 bits (VTCR_EL2.DS, TCR_EL2.DS) */
};

/* Who alone may execute, and memory that struct pkvm_word says as PKVM_NORMAL. */
enum { PKVM_EL0_ALONE = 1, PKVM_ABOVE_EL0_ALONE = 2 };
enum { PKVM_UNCACHED = 1, PKVM_AS_STAGE_1 = 2 };

/* What a word says that struct pkvm_word has no place for. What isn't said is 0. */
struct pkvm_beyond {
	uint64_t has_guest, handle, guest_page; /* an annotation names a guest, and its page */
	uint64_t is_poisoned;			/* the page was taken from its guest by force */
	uint64_t is_locked;			/* the entry is being changed */
	uint64_t is_cleared;	/* a leaf's valid bit was cleared; what else is said is of it */
	uint64_t is_unreadable; /* of a leaf that refuses reads */
	uint64_t is_guarded;	/* of a leaf: branches must land on landing pads (BTI) */
	uint64_t is_aged;	/* of a leaf whose access flag is clear */
	uint64_t is_stateless;	/* of a leaf whose word says no state */
	uint64_t alone;		/* of a leaf: PKVM_EL0_ALONE .. */
	uint64_t memory;	/* of a leaf: PKVM_UNCACHED .. */
	struct pkvm_word leaf;	/* one that was cleared or is unreadable; rights without 4 refuse
				   reads, and `state` is 0 where its word says none */
};

/* What a word of a table says by a profile: for pkvm_audit, and beyond that.
 *
 *   tree       whose table it is: PKVM_HOST, PKVM_HYP, else a guest's
 *   profile    PKVM_MODEL, as pkvm_decode; or of Linux: PKVM_LINUX_6_12 .. and what is added
 *   level      the table's, by the architecture's number: 0 to 3
 *   word       the 64 bits
 *   out        written: what it says, as pkvm_decode does. PKVM_UNMAPPED also of a word that is
 *              poisoned, locked or cleared; PKVM_MALFORMED of an unreadable leaf; PKVM_OWNED of one
 *              without a state. An annotation that names a guest by its handle has the owner
 *              PKVM_GUEST + handle - 0x1000; below 0x1000 it is PKVM_MALFORMED
 *   beyond     written: what it says beyond that
 *
 * Answers:
 *   0                  both are written
 *   PKVM_NO_LEVEL      in this and the next both stay
 *   PKVM_BAD_NUMBER    the tree has no such profile */
int32_t pkvm_decode_as(uint64_t tree, uint64_t profile, uint64_t level, uint64_t word,
		       struct pkvm_word *out, struct pkvm_beyond *beyond);

/* The one word of a table that says this.
 *
 *   level    0 to 3
 *   says     what is to be said; fields that aren't named for it aren't read
 *   out      written: the 64 bits
 *
 * Answers:
 *   0                  it is written
 *   PKVM_NO_LEVEL      and in all that follow `out` stays
 *   PKVM_BAD_NUMBER
 *   PKVM_NO_WORD */
int32_t pkvm_encode(uint64_t level, const struct pkvm_word *says, uint64_t *out);

/* --- Traces --- */

enum { PKVM_CLEAN = 0, PKVM_DISAGREED = 1, PKVM_FAULT = 2 };

/* Replays a whole trace, each step judged and audited, and writes its report.
 *
 *   trace         trace_len bytes in the language of docs/TRACES.md
 *   report        written: no more than report_len bytes, and not ended by a 0
 *   written       written: a number of bytes, as below
 *
 * Answers:
 *   PKVM_CLEAN        the first `*written` bytes of `report` are the report, and what is behind
 *                     them stays; nothing disagreed
 *   PKVM_DISAGREED    the same; something disagreed
 *   PKVM_FAULT        the same; a line of the trace is wrong, and the report ends there
 *   PKVM_NO_ROOM      the report has `*written` bytes, and `report` has its front
 *   PKVM_NO_MEMORY    the first `*written` bytes of `report` are a beginning of it */
int32_t pkvm_replay(const uint8_t *trace, size_t trace_len, uint8_t *report, size_t report_len,
		    size_t *written);

/* --- States --- */

enum { PKVM_MEMORY = 0, PKVM_REGISTERS = 1 }; /* kind; all but 0 are device registers */

/* A range of frames. */
struct pkvm_region {
	uint64_t kind;
	uint64_t first, count;
};

/* What a hypervisor runs on. */
struct pkvm_layout {
	uint64_t address_bits; /* 39 or 48 */
	uint64_t cpus;
	uint64_t carve_first, carve_count; /* the frames that the hypervisor's tables come from */
	const struct pkvm_region *regions;
	size_t regions_len; /* at most 16 */
	uint64_t freedoms;  /* of PKVM_OWN_TABLES .., or 0. pkvm_judge reads it, and nothing else */
};

/* What a hypervisor may choose, bit by bit. The last three are of one with tables of its own. */
enum {
	/* Where its tables are, when blocks fold, and which frames are free: tables and frames of
	 * its states may be left out, and aren't compared. A call that may take memory may be
	 * refused by PKVM_ENOPOOL as by PKVM_ENOMEMORY. */
	PKVM_OWN_TABLES = 1,
	PKVM_LAZY_HOST = 2,  /* which pages of its own the host has mapped */
	PKVM_ANY_KIND = 4,   /* of which kind of memory the host has a device's page */
	PKVM_ANY_REFUSAL = 8 /* by which number it refuses what a test of a rule refuses */
};

/* A run of pages of one tree: the first has what the word says, and a leaf's frame grows with the
 * page. Pages that are in no run are unmapped. */
struct pkvm_run {
	uint64_t tree, page, count;
	struct pkvm_word word; /* an annotation, a leaf, or malformed */
};

/* A table of one tree, the root among them. Height 1 is a table of level 3, and so on: it covers
 * 512 ^ height pages, from index * 512 ^ height on. */
struct pkvm_table {
	uint64_t tree, height, index, frame;
};

/* A free frame of a pool. */
struct pkvm_frame {
	uint64_t pool, frame;
};

enum { PKVM_VACANT = 0, PKVM_RESERVED = 1, PKVM_OPEN = 2, PKVM_CLOSING = 3 }; /* stand */
enum { PKVM_PLAIN = 0, PKVM_PROTECTED = 1 };				      /* kind */
enum { PKVM_EMPTY = 0, PKVM_LIVE = 1, PKVM_DYING = 2 };			      /* phase */

/* A slot of the table of VMs, 0 to 63. At boot it is { slot, PKVM_VACANT, 1, PKVM_PLAIN, 0 }, and
 * so is one that isn't listed. */
struct pkvm_slot {
	uint64_t slot, stand, generation, kind, vcpus;
};

/* A vCPU, 0 to 7, that a CPU has loaded, as the table of VMs has it. */
struct pkvm_load {
	uint64_t slot, vcpu, cpu;
};

/* What the guest of a slot has beside its tree and its pool. An empty one is all 0 but for its
 * slot, and so is one that isn't listed. */
struct pkvm_guest {
	uint64_t slot, phase, generation, kind;
};

enum {
	PKVM_BOOKED = 0,
	PKVM_INSTALLED = 1,
	PKVM_CLOSING_VM = 2,
	PKVM_DYING_VM = 3,
	PKVM_FINISHED = 4
}; /* ticket_stage */

/* A CPU's own state: a loaded vCPU, 0 to 7, frames in its hand that it funded for a guest, and the
 * VM that it is making or ending. Each is there where its `has` isn't 0. A CPU that isn't listed
 * has none of them. */
struct pkvm_cpu {
	uint64_t cpu; /* below the layout's number */
	uint64_t has_vcpu, vcpu_slot, vcpu_generation, vcpu;
	uint64_t has_hand, hand_first, hand_count;
	uint64_t has_ticket, ticket_slot, ticket_generation, ticket_kind, ticket_stage;
};

enum {
	PKVM_USE_PLAIN = 0,
	PKVM_USE_SHARED_POOL = 1,
	PKVM_USE_GUEST_POOL = 2,
	PKVM_USE_HAND = 3
}; /* usage */

/* Who has a frame. */
struct pkvm_owner {
	uint64_t owner;
	uint64_t is_lent, borrower, borrower_page; /* lent where is_lent isn't 0 */
	uint64_t usage, user; /* user: the guest's slot, or the CPU of the hand */
};

/* A run of frames with one owner row; a lent page grows with the frame. Frames that are in no run
 * are the host's, lent to nobody and in no use. */
struct pkvm_row {
	uint64_t frame, count;
	struct pkvm_owner owner;
};

/* A state. The members of its lists may have any order; no slot, guest or CPU is there twice. */
struct pkvm_state {
	const struct pkvm_run *runs;
	size_t runs_len;
	const struct pkvm_table *tables;
	size_t tables_len;
	const struct pkvm_frame *frames;
	size_t frames_len;
	const struct pkvm_slot *slots;
	size_t slots_len;
	const struct pkvm_load *loads;
	size_t loads_len;
	const struct pkvm_guest *guests;
	size_t guests_len;
	const struct pkvm_cpu *cpus;
	size_t cpus_len;
	const struct pkvm_row *rows;
	size_t rows_len;
};

/* Why a layout or a state is refused: the first that is true, in this order. */
enum {
	PKVM_FAULT_NONE = 0,
	PKVM_FAULT_GEOMETRY = 1, /* address_bits is neither 39 nor 48 */
	PKVM_FAULT_REGIONS = 2,	 /* over 16 regions */
	PKVM_FAULT_NO_PAGE = 3,	 /* a region or the carve-out has no page */
	PKVM_FAULT_PAST_LIMIT =
		4, /* a region ends over page 2^26, or over 524,288 pages of memory */
	PKVM_FAULT_REGIONS_SHARE = 5, /* two regions share a page */
	PKVM_FAULT_CARVE_OUTSIDE = 6, /* the carve-out isn't in one memory region */
	PKVM_FAULT_UNKNOWN = 7,	      /* the member `index` of `list` has an invalid number:
					 unknown, or impossible there */
	PKVM_FAULT_ROWS_LARGE = 8,    /* a frame of the rows or a lent page is over 2^63 */
	PKVM_FAULT_ROWS_SHARE = 9,    /* two runs of rows share a frame */
	PKVM_FAULT_TWICE = 10,	      /* two slots, guests or CPUs have one number */
	PKVM_FAULT_LARGE =
		11, /* a page, a frame or a slot is so large that a sum could pass 64 bits */
	PKVM_FAULT_RUNS_SHARE = 12, /* two runs of one tree share a page */
	PKVM_FAULT_TABLE_TWICE =
		13, /* two tables of one tree are at one block, or have one frame */
	PKVM_FAULT_FRAME_TWICE = 14, /* a pool has a frame twice */
	PKVM_FAULT_PAGE_LENGTH = 15, /* a page of tables hasn't 512 words */
	PKVM_FAULT_PAGE_TWICE = 16,  /* two pages have one frame */
	PKVM_FAULT_ROOT_TREE = 17,   /* a root is of a tree that can't be */
	PKVM_FAULT_ROOT_TWICE = 18,  /* a tree has two roots */
	PKVM_FAULT_ROOT_PAGE = 19,   /* a frame of the root has no page */
	PKVM_FAULT_LOOP = 20, /* a table is below itself; of this and the next two, `list` is the
				 tree and `index` the frame */
	PKVM_FAULT_TWO_LEVELS = 21,    /* a table is reached at two levels, in one tree or in two */
	PKVM_FAULT_REACHED_TWICE = 22, /* a table is reached twice */
	PKVM_FAULT_FREEDOM = 23,       /* freedoms has a bit beyond PKVM_ANY_REFUSAL */
	PKVM_FAULT_NOT_OWN_TABLES = 24, /* freedoms has another bit without PKVM_OWN_TABLES */
	PKVM_FAULT_CPUS = 25,		/* the CPUs aren't 1 to 64; this and the next are of layouts
					   that are to boot */
	PKVM_FAULT_CARVE_SMALL = 26,	/* the carve-out has fewer frames than boot needs tables */
	PKVM_FAULT_ROOT_PROFILE =
		27, /* a root's tree has no such profile. This and the next three are told of the
		       first root that has one, the first in this order, after 18 and before 19 */
	PKVM_FAULT_ROOT_LEVELS = 28, /* a root has over 4 levels */
	PKVM_FAULT_ROOT_PAGES = 29,  /* a root has a number of pages that isn't 0, 1, 2, 4, 8 or 16,
					or ends over frame 2^64 */
	PKVM_FAULT_ROOT_SKIPS = 30   /* a range that is left out has no page, or ends over page
					2^52 */
};

/* The lists of a state, and those of an audit, by number. */
enum {
	PKVM_LIST_NONE = 0,
	PKVM_LIST_RUNS = 1,
	PKVM_LIST_TABLES = 2,
	PKVM_LIST_FRAMES = 3,
	PKVM_LIST_SLOTS = 4,
	PKVM_LIST_LOADS = 5,
	PKVM_LIST_GUESTS = 6,
	PKVM_LIST_CPUS = 7,
	PKVM_LIST_ROWS = 8,
	PKVM_LIST_PAGES = 9,
	PKVM_LIST_ROOTS = 10
};

/* Why something is refused, and the member of a list that is at fault: the first with an unknown
 * number, or that can't be there with an earlier one. PKVM_LIST_NONE where no member is told: of
 * the faults of a layout (1 to 6, 25, 26), of those of rows (8, 9), and of 11. */
struct pkvm_refused {
	uint64_t fault; /* PKVM_FAULT_NONE where nothing of layout and states is refused */
	uint64_t list, index;
};

/* --- Calls --- */

/* A call and its arguments, in this order. A VM is two: its slot and its generation. */
enum {
	PKVM_SHARE_HYP = 1,	      /* frame */
	PKVM_UNSHARE_HYP = 2,	      /* frame */
	PKVM_DONATE_HYP = 3,	      /* frame, count */
	PKVM_HYP_DONATE_HOST = 4,     /* frame, count */
	PKVM_HOST_ABORT = 5,	      /* page */
	PKVM_HOST_TRANSLATE = 6,      /* page */
	PKVM_HYP_TRANSLATE = 7,	      /* page */
	PKVM_OWNER_OF = 8,	      /* frame */
	PKVM_FUND = 9,		      /* frame, count */
	PKVM_UNFUND = 10,	      /* */
	PKVM_SHARE_GUEST = 11,	      /* frame, guest page, rights, count */
	PKVM_UNSHARE_GUEST = 12,      /* VM, guest page */
	PKVM_DONATE_GUEST = 13,	      /* frame, guest page, count */
	PKVM_GUEST_SHARE_HOST = 14,   /* guest page */
	PKVM_GUEST_UNSHARE_HOST = 15, /* guest page */
	PKVM_INSTALL = 16,	      /* */
	PKVM_TOPUP = 17,	      /* VM */
	PKVM_RECLAIM_PAGE = 18,	      /* VM, guest page */
	PKVM_RECLAIM_POOL = 19,	      /* VM */
	PKVM_FINISH_GUEST = 20,	      /* */
	PKVM_GUEST_RELAX = 21,	      /* guest page, rights */
	PKVM_GUEST_TRANSLATE = 22,    /* VM, guest page */
	PKVM_MARK_DYING = 23,	      /* */
	PKVM_VM_RESERVE = 24,	      /* kind of VM, vCPUs */
	PKVM_VM_OPEN = 25,	      /* */
	PKVM_VCPU_LOAD = 26,	      /* VM, vCPU */
	PKVM_VCPU_PUT = 27,	      /* */
	PKVM_TEARDOWN = 28,	      /* VM */
	PKVM_VM_RELEASE = 29	      /* */
};

struct pkvm_step {
	uint64_t call;
	uint64_t arguments[4];
};

/* Refusals are the replies' numbers without their sign. */
enum {
	PKVM_EPERM = 1,
	PKVM_ENOVM = 2,
	PKVM_ECONTENDED = 11,
	PKVM_ENOMEMORY = 12,
	PKVM_EBUSY = 16,
	PKVM_EINVALID = 22,
	PKVM_ENOPOOL = 28,
	PKVM_ELOGFULL = 75,
	PKVM_STOPPED = 65536 /* no refusal: the call stopped the machine */
};

enum {
	PKVM_GIVES_NOTHING = 0,
	PKVM_GIVES_VM = 1,
	PKVM_GIVES_FRAME = 2,
	PKVM_GIVES_ENTRY = 3,
	PKVM_GIVES_ROW = 4
};

struct pkvm_reply {
	uint64_t refusal; /* 0 where the call was made; pkvm_judge takes any number */
	/* What a call that was made gives. The fields below are read for it alone, and written 0
	 * else. */
	uint64_t gives;
	uint64_t slot, generation; /* the VM */
	uint64_t frame;
	struct pkvm_word entry;
	struct pkvm_owner row;
};

struct pkvm_call {
	uint64_t cpu;
	struct pkvm_step step;
	struct pkvm_reply reply;
};

enum { PKVM_AGREES = 0, PKVM_DISAGREES = 1 };

/* Judges a call by the states before and after it and by its reply, up to the layout's freedoms.
 *
 *   layout      what the hypervisor runs on, and its freedoms
 *   before      the state when the call had taken its last lock
 *   call        its CPU, its arguments and its reply
 *   after       the state before it let its first lock go
 *   text        written: no more than text_room bytes, and not ended by a 0
 *   text_len    written: the number of bytes; 0 where no text is told
 *   refused     written: what of a layout or a state is refused
 *
 * Answers:
 *   PKVM_AGREES             reply and state are the model's, or the call was refused for want of
 *                           memory and changed nothing
 *   PKVM_DISAGREES          the first `*text_len` bytes of `text` tell the first difference. A
 *                           refusal that isn't the model's is told by number (`said 34`), a call
 *                           that stopped the machine as `said stopped`; both disagree, but a
 *                           number with PKVM_ANY_REFUSAL
 *   PKVM_BAD_LAYOUT         `refused` says why; and in all that follow `text` stays. Freedoms are
 *                           tested first, and all else after the CPU
 *   PKVM_BAD_STEP
 *   PKVM_BAD_REPLY          the call was made, and a number of what it gives is unknown
 *   PKVM_BAD_CPU
 *   PKVM_BAD_BEFORE         `refused` says why
 *   PKVM_LAST_GENERATION
 *   PKVM_BAD_AFTER          `refused` says why
 *   PKVM_NO_MEMORY          at any point
 *   PKVM_NO_ROOM            there is a difference, whose text needs `*text_len` bytes */
int32_t pkvm_judge(const struct pkvm_layout *layout, const struct pkvm_state *before,
		   const struct pkvm_call *call, const struct pkvm_state *after, uint8_t *text,
		   size_t text_room, size_t *text_len, struct pkvm_refused *refused);

/* The reply that the model gives to a call.
 *
 *   layout     what the hypervisor runs on
 *   before     the state before the call
 *   cpu        the CPU that makes it
 *   step       the call and its arguments
 *   reply      written: the reply
 *   refused    written: what of a layout or a state is refused
 *
 * Answers:
 *   0                       it is written
 *   PKVM_BAD_STEP           and in all that follow `reply` stays
 *   PKVM_BAD_CPU
 *   PKVM_BAD_LAYOUT         `refused` says why
 *   PKVM_BAD_BEFORE         `refused` says why
 *   PKVM_LAST_GENERATION
 *   PKVM_NO_MEMORY          at any point */
int32_t pkvm_predict_reply(const struct pkvm_layout *layout, const struct pkvm_state *before,
			   uint64_t cpu, const struct pkvm_step *step, struct pkvm_reply *reply,
			   struct pkvm_refused *refused);

/* Room for the lists of a state, each for so many members. */
struct pkvm_room {
	struct pkvm_run *runs;
	size_t runs_len;
	struct pkvm_table *tables;
	size_t tables_len;
	struct pkvm_frame *frames;
	size_t frames_len;
	struct pkvm_slot *slots;
	size_t slots_len;
	struct pkvm_load *loads;
	size_t loads_len;
	struct pkvm_guest *guests;
	size_t guests_len;
	struct pkvm_cpu *cpus;
	size_t cpus_len;
	struct pkvm_row *rows;
	size_t rows_len;
};

/* How many members the lists of a state have. */
struct pkvm_sizes {
	uint64_t runs, tables, frames, slots, loads, guests, cpus, rows;
};

/* The reply that the model gives to a call, and the state after it.
 *
 *   layout     what the hypervisor runs on
 *   before     the state before the call
 *   cpu        the CPU that makes it
 *   step       the call and its arguments
 *   reply      written: the reply
 *   room       its lists are written; its pointers and lengths stay. No list may share memory with
 *              another one, or with what else is handed in
 *   sizes      written: how many members each list has
 *   refused    written: what of a layout or a state is refused
 *
 * Answers:
 *   0                       the first `sizes->x` members of each list `x` are the state; all behind
 *                           them stays
 *   PKVM_BAD_STEP           and in all that follow `reply` and all lists stay
 *   PKVM_BAD_CPU
 *   PKVM_BAD_LAYOUT         `refused` says why
 *   PKVM_BAD_BEFORE         `refused` says why
 *   PKVM_LAST_GENERATION
 *   PKVM_NO_MEMORY          at any point
 *   PKVM_NO_ROOM            a list has room for fewer members than `sizes` tells; in the errors
 *                           above `sizes` is all 0
 *
 * The state can be handed in as one, but may be refused where the one before had a frame in two
 * places or a slot of more than 8 vCPUs. It has all 64 slots and guests and all CPUs, the fewest
 * runs of each map, and the rows that were handed in, with those of all frames that the call
 * touched. */
int32_t pkvm_predict(const struct pkvm_layout *layout, const struct pkvm_state *before,
		     uint64_t cpu, const struct pkvm_step *step, struct pkvm_reply *reply,
		     struct pkvm_room *room, struct pkvm_sizes *sizes,
		     struct pkvm_refused *refused);

/* The state at boot: each CPU idle, no VM, the carve-out the hypervisor's, and all else the host's.
 *
 *   layout     what the hypervisor runs on, of 1 to 64 CPUs
 *   room       its lists are written; its pointers and lengths stay. No list may share memory with
 *              another one, or with what else is handed in
 *   sizes      written: how many members each list has
 *   refused    written: what of the layout is refused
 *
 * Answers:
 *   0                  the first `sizes->x` members of each list `x` are the state, with the frames
 *                      in which the model has the tables; all behind them stays
 *   PKVM_BAD_LAYOUT    `refused` says why; in this and all that follow all lists stay
 *   PKVM_NO_MEMORY     at any point
 *   PKVM_NO_ROOM       a list has room for fewer members than `sizes` tells; in the errors above
 *                      `sizes` is all 0 */
int32_t pkvm_boot(const struct pkvm_layout *layout, struct pkvm_room *room,
		  struct pkvm_sizes *sizes, struct pkvm_refused *refused);

/* --- Random tests --- */

/* A call that may come next, for tests by random calls. It is one of the 29, by a CPU of the
 * layout, on pages and VMs that the state has. Nothing is known of the calls before it, and the
 * same arguments give the same call: hand in another number each time.
 *
 *   layout     what the hypervisor runs on
 *   state      the state that it is to be made on
 *   random     any number
 *   hostile    how many of a hundred numbers give one that the model refuses, 0 to 100; it makes
 *              the others
 *   call       written: its CPU and its step; its reply stays
 *   refused    written: what of the layout or the state is refused
 *
 * Answers:
 *   0                  it is written
 *   PKVM_BAD_NUMBER    `hostile` is over 100; in this and all that follow `call` stays
 *   PKVM_BAD_CPU       the layout has none
 *   PKVM_BAD_LAYOUT    `refused` says why
 *   PKVM_BAD_BEFORE    the state is refused, and `refused` says why
 *   PKVM_NO_MEMORY     at any point */
int32_t pkvm_suggest(const struct pkvm_layout *layout, const struct pkvm_state *state,
		     uint64_t random, uint64_t hostile, struct pkvm_call *call,
		     struct pkvm_refused *refused);

/* What a trace of a layout begins with: its settings and `boot`. Behind it come the lines of calls,
 * and it can be replayed, explained, drawn and shrunk as any trace (docs/TRACES.md).
 *
 *   layout      what the hypervisor runs on, of 1 to 64 CPUs
 *   text        written: no more than text_room bytes, and not ended by a 0
 *   text_len    written: the number of bytes; 0 where no text is told
 *   refused     written: what of the layout is refused
 *
 * Answers:
 *   0                  the first `*text_len` bytes of `text` are the lines, each with its end
 *   PKVM_BAD_LAYOUT    `refused` says why; in this and all that follow `text` stays
 *   PKVM_NO_MEMORY     at any point
 *   PKVM_NO_ROOM       the lines need `*text_len` bytes */
int32_t pkvm_trace_start(const struct pkvm_layout *layout, uint8_t *text, size_t text_room,
			 size_t *text_len, struct pkvm_refused *refused);

/* The line of a trace that makes a call: its CPU, its name and its arguments, as `0 share_hyp
 * 0x40100`. The reply isn't read.
 *
 *   layout      what the hypervisor runs on
 *   call        the call
 *   text        written: no more than text_room bytes, and not ended by a 0; 256 are enough
 *   text_len    written: the number of bytes; 0 where no text is told
 *
 * Answers:
 *   0                 the first `*text_len` bytes of `text` are the line, with its end
 *   PKVM_BAD_STEP     in this and all that follow `text` stays
 *   PKVM_BAD_CPU
 *   PKVM_NO_MEMORY
 *   PKVM_NO_ROOM      the line needs `*text_len` bytes */
int32_t pkvm_trace_of(const struct pkvm_layout *layout, const struct pkvm_call *call, uint8_t *text,
		      size_t text_room, size_t *text_len);

/* --- Tables in memory --- */

/* A page with a table, as it lies in memory. */
struct pkvm_page {
	uint64_t frame;
	const uint64_t *words;
	size_t words_len; /* 512 */
};

/* A range of pages. */
struct pkvm_range {
	uint64_t first, count;
};

/* The root of a tree. A tree without one has no table, and maps nothing. With 0 behind the frame it
 * is one table of the model's own words, of as many levels as the layout's address_bits say. */
struct pkvm_root {
	uint64_t tree, frame;
	uint64_t profile; /* of its words: PKVM_MODEL or PKVM_LINUX_6_12 .. */
	uint64_t levels;  /* of tables, 1 to 4: the root's level is 4 less this. 0: 3 where
			     address_bits is 39, 4 where it is 48 */
	uint64_t pages;	  /* of the root, one after the other from `frame` on: 1, 2, 4, 8 or 16 that
			     are concatenated. 0: 1 */
	const struct pkvm_range *skips; /* pages that are left out: the tree maps nothing there */
	size_t skips_len;
};

/* Compares a kept state with what the tables say. The library walks from the roots by frame
 * numbers, as hardware does: a table word leads on to the page of its frame, and where no page has
 * that frame the word is malformed. It finds the runs and the tables of each tree, and the owner
 * rows that follow from them and from the kept pools and hands. Words are read by the profile of
 * their root, as pkvm_decode_as has them. Where a profile has no states (of Linux 7.3's host and
 * hypervisor, of 6.12's guests), a leaf takes the state of the kept leaf of its page: so entries
 * are compared in all but their states. Tables are compared where pages are left out too.
 *
 *   layout      what the hypervisor runs on
 *   kept        the state that it keeps
 *   pages       its pages of tables, pages_len of them in any order
 *   roots       the roots of its trees, roots_len of them in any order
 *   text        written: no more than text_room bytes, and not ended by a 0
 *   text_len    written: the number of bytes; 0 where no text is told
 *   refused     written: what of the layout, the state, pages or roots is refused
 *
 * Answers:
 *   PKVM_AGREES        maps, rows and tables are the kept ones, and the state is legal, as
 *                      pkvm_check has it of PKVM_COARSEST_TREES
 *   PKVM_DISAGREES     the first `*text_len` bytes of `text` tell the first difference: in a map,
 *                      in the rows, or in the tables; without one, why the maps aren't sound. Two
 *                      entries are leaves of a frame in states PKVM_OWNED or PKVM_SHARED_OWNED
 *                      (`two owners 0x40100: host 0x40100, hyp 0x4040100`), else two are in state
 *                      PKVM_SHARED_BORROWED (`two borrowers ..`), else one is and none is in
 *                      PKVM_SHARED_OWNED (`no share 0x40100: hyp 0x4040100`). Where they are
 *                      sound, it tells what pkvm_check does
 *   PKVM_BAD_LAYOUT    `refused` says why; in this and all that follow `text` stays
 *   PKVM_BAD_BEFORE    the kept state is refused, and `refused` says why
 *   PKVM_BAD_TABLES    `refused` says why
 *   PKVM_NO_MEMORY     at any point
 *   PKVM_NO_ROOM       there is a difference, whose text needs `*text_len` bytes */
int32_t pkvm_audit(const struct pkvm_layout *layout, const struct pkvm_state *kept,
		   const struct pkvm_page *pages, size_t pages_len, const struct pkvm_root *roots,
		   size_t roots_len, uint8_t *text, size_t text_room, size_t *text_len,
		   struct pkvm_refused *refused);

/* --- Legal states --- */

/* What is asked of a state: all, or all but which tables its trees have, for a hypervisor that
 * splits and folds blocks in another way than the model. */
enum { PKVM_COARSEST_TREES = 0, PKVM_ANY_TREES = 1 };

/* Whether a state is legal: the model's runs lead to legal states alone. Each frame is in one
 * condition, which maps, tables, pools, hands and its row agree on; slots, loads, tickets and
 * guests agree; and each tree has the tables that its map needs.
 *
 *   layout      what the hypervisor runs on
 *   state       the state
 *   flags       PKVM_COARSEST_TREES or PKVM_ANY_TREES
 *   text        written: no more than text_room bytes, and not ended by a 0
 *   text_len    written: the number of bytes; 0 where no text is told
 *   refused     written: what of the layout or the state is refused
 *
 * Answers:
 *   PKVM_AGREES        the state is legal
 *   PKVM_DISAGREES     the first `*text_len` bytes of `text` tell a fault of the first kind of
 *                      these that there is: of CPUs and slots (`slot 1: guest does not fit it`),
 *                      of a guest's phase and root, of a table's block (`outside table ..`), of a
 *                      guest's page, of the hypervisor's pages, of a frame that no memory can be
 *                      (`no memory ..`), of a frame that two have (`held twice 0x40608: table host
 *                      1 0x200, shared pool`), of what all say of a frame (`no condition 0x40500:
 *                      host annot 200, hyp unmapped, row owner 0 lent - use plain`), of a tree's
 *                      tables (`missing table host 1 0x202`, `needless table ..`)
 *   PKVM_BAD_NUMBER    the flags are neither; in this and all that follow `text` stays
 *   PKVM_BAD_LAYOUT    `refused` says why
 *   PKVM_BAD_BEFORE    the state is refused, and `refused` says why
 *   PKVM_NO_MEMORY     at any point
 *   PKVM_NO_ROOM       there is a fault, whose text needs `*text_len` bytes */
int32_t pkvm_check(const struct pkvm_layout *layout, const struct pkvm_state *state, uint64_t flags,
		   uint8_t *text, size_t text_room, size_t *text_len, struct pkvm_refused *refused);

/* What a fault is called, as `two runs of one tree share a page`.
 *
 *   fault       its number, as in struct pkvm_refused
 *   text        written: no more than text_room bytes, and not ended by a 0
 *   text_len    written: the number of bytes; 0 where no text is told
 *
 * Answers:
 *   0                  the first `*text_len` bytes of `text` are the words
 *   PKVM_BAD_NUMBER    no fault has the number; in this and the next `text` stays
 *   PKVM_NO_ROOM       the words need `*text_len` bytes */
int32_t pkvm_fault_text(uint64_t fault, uint8_t *text, size_t text_room, size_t *text_len);

#ifdef __cplusplus
}
#endif
#endif
