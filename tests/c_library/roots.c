// Words by the profiles of Linux, and audits of trees by the fields of their roots: profiles,
// levels, concatenated pages and ranges that are left out. The last line is 'roots: N asked, M
// wrong'.
#include <inttypes.h>
#include <pkvm_oracle.h>
#include <stdbool.h>
#include <stdio.h>
#include <string.h>

static long asked, wrong;

static void is(const char *what, bool holds)
{
	asked++;
	wrong += !holds;
	if (!holds)
		printf("roots: %s\n", what);
}

// --- Words ---

enum { SIX = PKVM_LINUX_6_12, SEVEN = PKVM_LINUX_7_3, GUEST = PKVM_GUEST + 3 };

struct told {
	const char *what;
	uint64_t tree, profile, level, word;
	struct pkvm_word out;
	struct pkvm_beyond beyond;
};

#define LEAF(FRAME, RIGHTS, STATE)                                                                 \
	{                                                                                          \
		PKVM_LEAF, FRAME, 0, RIGHTS, PKVM_NORMAL, STATE                                    \
	}
#define OWNER(O)                                                                                   \
	{                                                                                          \
		.says = PKVM_ANNOTATED, .owner = O                                                 \
	}
#define SAYS(S)                                                                                    \
	{                                                                                          \
		.says = S                                                                          \
	}
#define NOTHING                                                                                    \
	{                                                                                          \
		.has_guest = 0                                                                     \
	}

static const struct told told[] = {
	{"6.12 hyp, borrowed", PKVM_HYP, SIX, 3, 0x0140000040210743,
	 LEAF(0x40210, PKVM_RW, PKVM_SHARED_BORROWED), NOTHING},
	{"6.12 hyp with hVHE", PKVM_HYP, SIX | PKVM_HVHE, 3, 0x0040000040210783,
	 LEAF(0x40210, PKVM_R, PKVM_OWNED), NOTHING},
	{"7.3 hyp with hVHE, executed at EL2 alone",
	 PKVM_HYP,
	 SEVEN | PKVM_HVHE,
	 3,
	 0x0040000040210783,
	 LEAF(0x40210, PKVM_RX, PKVM_OWNED),
	 {.is_stateless = 1, .alone = PKVM_ABOVE_EL0_ALONE}},
	{"7.3 hyp, guarded",
	 PKVM_HYP,
	 SEVEN,
	 3,
	 0x00040000402107c3,
	 LEAF(0x40210, PKVM_RX, PKVM_OWNED),
	 {.is_guarded = 1, .is_stateless = 1}},
	{"7.3 hyp, cleared",
	 PKVM_HYP,
	 SEVEN,
	 2,
	 0x0040000040200740,
	 SAYS(PKVM_UNMAPPED),
	 {.is_cleared = 1, .is_stateless = 1, .leaf = LEAF(0x40200, PKVM_RW, PKVM_OWNED)}},
	{"7.3 hyp, a state", PKVM_HYP, SEVEN, 3, 0x0140000040210743, SAYS(PKVM_MALFORMED), NOTHING},
	{"6.12 host, a block", PKVM_HOST, SIX | PKVM_FWB, 1, 0x00000000800007fd,
	 LEAF(0x80000, PKVM_RWX, PKVM_OWNED), NOTHING},
	{"6.12 host, an owner", PKVM_HOST, SIX, 3, 4, OWNER(1), NOTHING},
	{"6.12 host, locked", PKVM_HOST, SIX, 2, 0x400, SAYS(PKVM_UNMAPPED), {.is_locked = 1}},
	{"7.3 host",
	 PKVM_HOST,
	 SEVEN,
	 3,
	 0x00000000402107ff,
	 LEAF(0x40210, PKVM_RWX, PKVM_OWNED),
	 {.is_stateless = 1, .memory = PKVM_AS_STAGE_1}},
	{"7.3 host with FWB",
	 PKVM_HOST,
	 SEVEN | PKVM_FWB,
	 3,
	 0x00000000402107df,
	 LEAF(0x40210, PKVM_RWX, PKVM_OWNED),
	 {.is_stateless = 1, .memory = PKVM_AS_STAGE_1}},
	{"7.3 host with LPA2",
	 PKVM_HOST,
	 SEVEN | PKVM_LPA2,
	 3,
	 0x00000000402105ff,
	 LEAF(0x40210 + (1ull << 38), PKVM_RWX, PKVM_OWNED),
	 {.is_stateless = 1, .memory = PKVM_AS_STAGE_1}},
	{"7.3 host, the hypervisor's", PKVM_HOST, SEVEN, 3, 0x2000000000000002, OWNER(1), NOTHING},
	{"7.3 host, a guest's",
	 PKVM_HOST,
	 SEVEN,
	 3,
	 0x2000008030110034,
	 OWNER(GUEST),
	 {.has_guest = 1, .handle = 0x1003, .guest_page = 0x80301}},
	{"7.3 host, a handle below the first",
	 PKVM_HOST,
	 SEVEN,
	 3,
	 0x200000803010fff4,
	 SAYS(PKVM_MALFORMED),
	 {.has_guest = 1, .handle = 0xfff, .guest_page = 0x80301}},
	{"7.3 host, 6.12's annotation", PKVM_HOST, SEVEN, 3, 4, SAYS(PKVM_MALFORMED), NOTHING},
	{"7.3 guest, poisoned",
	 GUEST,
	 SEVEN,
	 3,
	 0x3000000000000000,
	 SAYS(PKVM_UNMAPPED),
	 {.is_poisoned = 1}},
	{"7.3 guest, aged",
	 GUEST,
	 SEVEN,
	 3,
	 0x01000000402103ff,
	 LEAF(0x40210, PKVM_RWX, PKVM_SHARED_BORROWED),
	 {.is_aged = 1}},
	{"7.3 guest, not cacheable",
	 GUEST,
	 SEVEN,
	 3,
	 0x01000000402107d7,
	 LEAF(0x40210, PKVM_RWX, PKVM_SHARED_BORROWED),
	 {.memory = PKVM_UNCACHED}},
	{"6.12 guest, unreadable",
	 GUEST,
	 SIX,
	 3,
	 0x000000004021073f,
	 SAYS(PKVM_MALFORMED),
	 {.is_unreadable = 1, .is_stateless = 1, .leaf = LEAF(0x40210, 1, PKVM_OWNED)}},
	{"the model's", GUEST, PKVM_MODEL, 3, 0x00800000400007ff,
	 LEAF(0x40000, PKVM_RWX, PKVM_SHARED_OWNED), NOTHING},
	{"a table",
	 PKVM_HYP,
	 SEVEN,
	 2,
	 0x000000004fac9003,
	 {.says = PKVM_TABLE, .frame = 0x4fac9},
	 NOTHING},
};

static void words(void)
{
	for (size_t i = 0; i < sizeof told / sizeof *told; i++) {
		const struct told *it = &told[i];
		struct pkvm_word out;
		struct pkvm_beyond beyond;
		memset(&out, 0xff, sizeof out);
		memset(&beyond, 0xff, sizeof beyond);
		int32_t status =
			pkvm_decode_as(it->tree, it->profile, it->level, it->word, &out, &beyond);
		is(it->what, status == 0 && !memcmp(&out, &it->out, sizeof out) &&
				     !memcmp(&beyond, &it->beyond, sizeof beyond));
	}
	static const uint64_t none[][4] = {
		{PKVM_HOST, SEVEN, 4, (uint64_t)PKVM_NO_LEVEL},
		{PKVM_HOST, 3, 4, (uint64_t)PKVM_NO_LEVEL},
		{PKVM_HOST, SEVEN | PKVM_HVHE, 3, (uint64_t)PKVM_BAD_NUMBER},
		{PKVM_HYP, SIX | PKVM_FWB, 3, (uint64_t)PKVM_BAD_NUMBER},
		{GUEST, SEVEN | PKVM_HVHE, 3, (uint64_t)PKVM_BAD_NUMBER},
		{PKVM_HOST, 3, 3, (uint64_t)PKVM_BAD_NUMBER},
		{PKVM_HOST, PKVM_FWB, 3, (uint64_t)PKVM_BAD_NUMBER},
		{PKVM_HOST, SEVEN + 128, 3, (uint64_t)PKVM_BAD_NUMBER},
	};
	for (size_t i = 0; i < sizeof none / sizeof *none; i++) {
		struct pkvm_word out = {.says = 7};
		struct pkvm_beyond beyond = {.has_guest = 7};
		int32_t status =
			pkvm_decode_as(none[i][0], none[i][1], none[i][2], 4, &out, &beyond);
		is("no such word",
		   status == (int32_t)none[i][3] && out.says == 7 && beyond.has_guest == 7);
	}
}

// --- Roots ---

static uint64_t tables[16][512];
static struct pkvm_page pages[16];
static struct pkvm_run runs[2];
static struct pkvm_state kept = {.runs = runs};
static struct pkvm_refused refused;

static const char *audited(const struct pkvm_root *roots, size_t roots_len)
{
	static char text[256];
	struct pkvm_region memory = {PKVM_MEMORY, 0x40000, 0x800};
	struct pkvm_layout layout = {48, 1, 0x40600, 0x40, &memory, 1, 0};
	size_t length;
	int32_t status = pkvm_audit(&layout, &kept, pages, 16, roots, roots_len, (uint8_t *)text,
				    sizeof text - 1, &length, &refused);
	if (status != PKVM_DISAGREES)
		length = (size_t)snprintf(text, sizeof text, "status %" PRId32, status);
	text[length] = 0;
	return text;
}

static bool tells(struct pkvm_root root, const char *wanted)
{
	const char *text = audited(&root, 1);
	if (strcmp(text, wanted))
		printf("roots: told %s\n", text);
	return !strcmp(text, wanted);
}

static bool refuses(struct pkvm_root root, uint64_t fault)
{
	struct pkvm_root roots[] = {{.tree = PKVM_HYP, .frame = 0x5000f}, root};
	const char *text = audited(roots, 2);
	return !strcmp(text, "status -13") && refused.fault == fault &&
	       refused.list == PKVM_LIST_ROOTS && refused.index == 1;
}

// A root of 16 pages at level 1, the sixth of which has a block.
static void concatenated(void)
{
	struct pkvm_root root = {
		.tree = PKVM_GUEST, .frame = 0x50000, .profile = SEVEN, .levels = 3, .pages = 16};
	tables[5][0] = 0x00000000800007fd;
	is("a block of the sixth page",
	   tells(root,
		 "disagree guest 0 0x28000000 kept unmapped walked leaf 0x80000 rwx normal owned"));
	root.pages = 8;
	is("of 8",
	   tells(root,
		 "disagree guest 0 0x28000000 kept unmapped walked leaf 0x80000 rwx normal owned"));
	root.levels = 2;
	is("of level 2",
	   tells(root,
		 "disagree guest 0 0x140000 kept unmapped walked leaf 0x80000 rwx normal owned"));
	root.levels = 3;
	runs[0] = (struct pkvm_run){PKVM_GUEST, 0x28000000, 0x40000, LEAF(0x80000, PKVM_RWX, 0)};
	kept.runs_len = 1;
	is("kept", tells(root, "disagree table guest 0 3 0x0 kept - walked 0x50000"));
	root.pages = 4;
	is("of 4",
	   tells(root,
		 "disagree guest 0 0x28000000 kept leaf 0x80000 rwx normal owned walked unmapped"));
	kept.runs_len = 0;
	root.pages = 0;
	is("of 1", tells(root, "disagree table guest 0 3 0x0 kept - walked 0x50000"));
	root.profile = PKVM_MODEL;
	root.pages = 8;
	is("by the model's profile",
	   tells(root,
		 "disagree guest 0 0x28000000 kept unmapped walked leaf 0x80000 rwx normal owned"));
	root.profile = SEVEN | PKVM_FWB;
	is("by another", tells(root, "disagree guest 0 0x28000000 kept unmapped walked malformed"));
	tables[5][0] = 0;
}

// Words that say no states, and annotations by a handle.
static void stateless(void)
{
	struct pkvm_root root = {
		.tree = PKVM_HOST, .frame = 0x50000, .profile = SEVEN, .levels = 1};
	tables[0][3] = 0x00000000402107ff;
	is("nothing kept",
	   tells(root, "disagree host 0x3 kept unmapped walked leaf 0x40210 rwx normal owned"));
	runs[0] = (struct pkvm_run){PKVM_HOST, 3, 1, LEAF(0x40210, PKVM_RWX, PKVM_SHARED_OWNED)};
	kept.runs_len = 1;
	is("the kept state", tells(root, "disagree table host 1 0x0 kept - walked 0x50000"));
	runs[0].word.frame = 0x40211;
	is("another frame",
	   tells(root,
		 "disagree host 0x3 kept leaf 0x40211 rwx normal shared_owned walked leaf 0x40210 rwx normal shared_owned"));
	runs[0].word.frame = 0x40210;
	tables[0][4] = 0x2000008030110034;
	is("a guest's page", tells(root, "disagree host 0x4 kept unmapped walked annot 5"));
	runs[1] = (struct pkvm_run){PKVM_HOST, 4, 1, OWNER(GUEST)};
	kept.runs_len = 2;
	is("kept as that guest's", tells(root, "disagree table host 1 0x0 kept - walked 0x50000"));
	// Words that say states are compared with them.
	root.profile = SIX;
	tables[0][4] = 0x4;
	runs[1].word.owner = PKVM_HYP;
	is("6.12's words",
	   tells(root,
		 "disagree host 0x3 kept leaf 0x40210 rwx normal shared_owned walked leaf 0x40210 rwx normal owned"));
	tables[0][3] = 0x00800000402107ff;
	is("with the state", tells(root, "disagree table host 1 0x0 kept - walked 0x50000"));
	kept.runs_len = 0;
}

// Ranges that are left out.
static void skipped(void)
{
	struct pkvm_range skips[] = {{9, 1}, {3, 2}};
	struct pkvm_root root = {.tree = PKVM_HOST,
				 .frame = 0x50000,
				 .profile = SIX,
				 .levels = 1,
				 .skips = skips,
				 .skips_len = 2};
	is("left out", tells(root, "disagree table host 1 0x0 kept - walked 0x50000"));
	skips[1].count = 1;
	is("a shorter range", tells(root, "disagree host 0x4 kept unmapped walked annot 1"));
	root.skips_len = 1;
	is("one of them",
	   tells(root,
		 "disagree host 0x3 kept unmapped walked leaf 0x40210 rwx normal shared_owned"));
}

static void faults(void)
{
	struct pkvm_range skips[] = {{3, 1}, {3, 0}};
	struct pkvm_root root = {.tree = PKVM_HOST, .frame = 0x50000};
#define WITH(FIELD, VALUE, FAULT)                                                                  \
	do {                                                                                       \
		struct pkvm_root it = root;                                                        \
		it.FIELD = VALUE;                                                                  \
		is(#FIELD " " #VALUE, refuses(it, FAULT));                                         \
	} while (0)
	WITH(profile, 3, PKVM_FAULT_ROOT_PROFILE);
	WITH(profile, SIX | PKVM_HVHE, PKVM_FAULT_ROOT_PROFILE);
	WITH(levels, 5, PKVM_FAULT_ROOT_LEVELS);
	WITH(pages, 3, PKVM_FAULT_ROOT_PAGES);
	WITH(pages, 32, PKVM_FAULT_ROOT_PAGES);
	WITH(frame, 0x60000, PKVM_FAULT_ROOT_PAGE);
	WITH(frame, UINT64_MAX, PKVM_FAULT_ROOT_PAGE);
	WITH(tree, 66, PKVM_FAULT_ROOT_TREE);
	root.pages = 2;
	WITH(frame, UINT64_MAX, PKVM_FAULT_ROOT_PAGES);
	WITH(frame, UINT64_MAX - 1, PKVM_FAULT_ROOT_PAGE);
	root.skips = skips;
	root.skips_len = 2;
	is("an empty range", refuses(root, PKVM_FAULT_ROOT_SKIPS));
	skips[1] = (struct pkvm_range){1ull << 52, 1};
	is("a range past the last page", refuses(root, PKVM_FAULT_ROOT_SKIPS));
	skips[1] = (struct pkvm_range){UINT64_MAX, 2};
	is("a range that wraps", refuses(root, PKVM_FAULT_ROOT_SKIPS));
	root.levels = 5;
	is("the first of two", refuses(root, PKVM_FAULT_ROOT_LEVELS));
	// Two words of concatenated pages lead to one table.
	for (int i = 0; i < 2; i++)
		tables[i][0] = 0x0000000050007003;
	root = (struct pkvm_root){.tree = PKVM_GUEST, .frame = 0x50000, .levels = 3, .pages = 2};
	struct pkvm_root roots[] = {root};
	is("a table of two pages", !strcmp(audited(roots, 1), "status -13") &&
					   refused.fault == PKVM_FAULT_REACHED_TWICE &&
					   refused.list == PKVM_GUEST && refused.index == 0x50007);
}

int main(void)
{
	for (uint64_t i = 0; i < 16; i++)
		pages[i] = (struct pkvm_page){0x50000 + i, tables[i], 512};
	words();
	concatenated();
	stateless();
	skipped();
	faults();
	printf("roots: %ld asked, %ld wrong\n", asked, wrong);
	return wrong ? 1 : 0;
}
