/* What words of Linux' tables say, in the library's terms.
 *
 * Leaves of stage 2 and table words have the model's bits, so the library decodes them. Others
 * differ: EL2's own table is of stage 1, 7.3 annotates in other bits, and device pages of the host
 * are Normal at stage 2.
 */
#include "harness.h"

static uint64_t bits(uint64_t word, int high, int low)
{
	return word >> low & (~0ull >> (63 - (high - low)));
}

struct pkvm_word leaf(uint64_t frame, uint64_t rights, uint64_t kind, uint64_t state)
{
	return (struct pkvm_word){
		.says = PKVM_LEAF, .frame = frame, .rights = rights, .kind = kind, .state = state};
}

/* The library's answers are kept: tables are recorded at each call, and few of their words are new.
 */
static struct pkvm_word decoded(uint64_t level, uint64_t word)
{
	enum { KEPT = 1 << 13 };
	static PER_CPU struct {
		uint64_t level, word;
		struct pkvm_word out;
	} kept[KEPT];
	uint64_t at = (word >> 12 ^ word >> 55 ^ word >> 6 ^ level << 11) % KEPT;

	if (kept[at].word != word || kept[at].level != level) {
		kept[at].level = level;
		kept[at].word = word;
		kept[at].out = (struct pkvm_word){.says = PKVM_MALFORMED};
		pkvm_decode(level, word, &kept[at].out);
	}
	return kept[at].out;
}

/* There bits 9:8 of a leaf are 3, and with LPA2 they are bits 51:50 of its address, which are 0,
 * since no memory lies so high.
 */
uint64_t as_without_lpa2(uint64_t level, uint64_t word)
{
	bool is_leaf = (word & 1) && (level == 3 || !(word & 2));

	return machine.is_lpa2 && is_leaf ? word ^ 3 << 8 : word;
}

/* A word of stage 2, whose kind of memory has other bits with FWB: Normal, or as stage 1 says. */
static struct pkvm_word decoded_stage_2(uint64_t level, uint64_t word)
{
	enum { NORMAL_BITS = 15, FWB_NORMAL = 6, FWB_AS_STAGE_1 = 7 };
	bool is_leaf = (word & 1) && (level == 3 || !(word & 2));
	uint64_t kind = bits(word, 5, 2);

	if (machine.is_fwb && is_leaf && (kind == FWB_NORMAL || kind == FWB_AS_STAGE_1))
		word |= NORMAL_BITS << 2;
	return decoded(level, as_without_lpa2(level, word));
}

struct pkvm_word said_by_guest(uint64_t level, uint64_t word)
{
	return decoded_stage_2(level, word);
}

struct pkvm_word said_by_host(uint64_t level, uint64_t word)
{
	struct pkvm_word out = decoded_stage_2(level, word);

	if (linux_has_guests && word && !(word & 1)) {
		/* Bits 63:60 are the kind of annotation, 3:1 the owner, 19:4 a guest's handle. */
		enum { DONATION = 2, OWNER_HYP = 1, OWNER_GUEST = 2, HANDLE_OF_SLOT_0 = 0x1000 };
		uint64_t owner = bits(word, 3, 1), handle = bits(word, 19, 4);

		if (bits(word, 63, 60) != DONATION)
			return out;
		out = (struct pkvm_word){.says = PKVM_ANNOTATED, .owner = HYP};
		if (owner == OWNER_GUEST)
			out.owner = GUEST + ((handle - HANDLE_OF_SLOT_0) & 0xffff);
		else if (owner != OWNER_HYP)
			out.says = PKVM_MALFORMED;
	}
	return out;
}

struct pkvm_word said_by_hyp(uint64_t level, uint64_t word)
{
	enum { TABLE = 3, AP_RW = 1, AP_RO = 3, NORMAL = 0, DEVICE = 4, INNER_SHAREABLE = 3 };
	/* Where EL2 runs as a host would (hVHE), the lower bit of AP is 0. */
	uint64_t ap = bits(word, 7, 6) ^ machine.is_hvhe, attributes = bits(word, 4, 2);
	struct pkvm_word out = {.says = PKVM_MALFORMED};

	word = as_without_lpa2(level, word);
	if (!(word & 1)) {
		out.says = PKVM_UNMAPPED;
	} else if (level != 3 && bits(word, 1, 0) == TABLE) {
		out.says = PKVM_TABLE;
		out.frame = bits(word, 47, 12);
	} else if ((ap == AP_RW || ap == AP_RO) && (attributes == NORMAL || attributes == DEVICE) &&
		   bits(word, 9, 8) == INNER_SHAREABLE && bits(word, 10, 10) &&
		   bits(word, 1, 1) == (level == 3) && bits(word, 58, 55) <= PKVM_SHARED_BORROWED) {
		/* Under hVHE 54 is for EL0 and 53 for EL2; 6.12 sets 54 alone, and means both. */
		int bit = machine.is_hvhe && linux_has_guests ? 53 : 54;
		bool is_executable = !(word >> bit & 1);

		out = leaf(bits(word, 47, 12),
			   PKVM_R | (ap == AP_RW ? 2u : 0u) | (is_executable ? 1u : 0u),
			   attributes == DEVICE ? PKVM_DEVICE : PKVM_NORMAL, bits(word, 56, 55));
	}
	return out;
}

bool same_word(const struct pkvm_word *a, const struct pkvm_word *b)
{
	if (a->says != b->says)
		return false;
	if (a->says == PKVM_ANNOTATED)
		return a->owner == b->owner;
	if (a->says == PKVM_LEAF)
		return a->frame == b->frame && a->rights == b->rights && a->kind == b->kind &&
		       a->state == b->state;
	return a->says != PKVM_TABLE || a->frame == b->frame;
}
