/* Known differences. Each is matched by the call, the state before it and both replies; and by the
 * entries that differ, since the library must agree once that one thing is told to it in the
 * model's terms. So nothing else may differ, and a bug isn't taken for one of these.
 */
#include "known.h"
#include <errno.h>
#include <stdlib.h>
#include <string.h>

/* --- Ways to tell the library --- */

static bool agrees(const struct difference *it, const struct pkvm_state *before,
		   const struct pkvm_step *step, const struct pkvm_reply *reply,
		   const struct pkvm_state *after)
{
	char text[512];

	return judged(before, it->cpu, step, reply, after, text, sizeof(text)) == PKVM_AGREES;
}

/* The state is what the model leaves: the reply alone differs. */
static bool is_reply_alone(const struct difference *it)
{
	return agrees(it, &it->before->state, it->step, &it->spec, &it->after->state);
}

/* The call changed nothing, as a call that only looks. */
static bool is_unchanged(const struct difference *it)
{
	const struct pkvm_step look = {PKVM_OWNER_OF, {machine.image}};
	struct pkvm_reply row = predicted_reply(it->before, it->cpu, &look);

	return agrees(it, &it->before->state, &look, &row, &it->after->state);
}

/* A copy of a state, with a list of runs of its own, and of rows where they are changed. */
struct copy {
	struct recorded to;
	struct pkvm_state state;
};

/* The state with another word at some pages. `from` may be the copy's own. */
static void with_words(struct copy *copy, const struct pkvm_state *from, uint64_t tree,
		       uint64_t page, uint64_t count, struct pkvm_word word)
{
	static PER_CPU struct recorded next;
	struct recorded last = copy->to;
	bool is_done = !count || word.says == PKVM_UNMAPPED;

	next.runs_len = 0;
	for (size_t i = 0; i < from->runs_len; i++) {
		const struct pkvm_run *it = &from->runs[i];
		uint64_t end = it->page + it->count;

		if (it->tree != tree || !count || end <= page || it->page >= page + count) {
			add_run(&next, it->tree, it->page, it->count, it->word);
			continue;
		}
		if (it->page < page)
			add_run(&next, tree, it->page, page - it->page, it->word);
		if (!is_done)
			add_run(&next, tree, page, count, word);
		is_done = true;
		if (end > page + count)
			add_run(&next, tree, page + count, end - page - count,
				word_after(it->word, page + count - it->page));
	}
	if (!is_done)
		add_run(&next, tree, page, count, word);
	copy->state = *from;
	copy->to.runs = next.runs;
	copy->to.runs_len = next.runs_len;
	copy->to.runs_room = next.runs_room;
	copy->state.runs = next.runs;
	copy->state.runs_len = next.runs_len;
	next.runs = last.runs;
	next.runs_room = last.runs_room;
}

static void with_word(struct copy *copy, const struct pkvm_state *from, uint64_t tree,
		      uint64_t page, struct pkvm_word word)
{
	with_words(copy, from, tree, page, 1, word);
}

/* The state with another owner row of one frame. */
static void with_row(struct copy *to, uint64_t frame, struct pkvm_owner row)
{
	const struct pkvm_state *from = &to->state;
	struct pkvm_row *rows = calloc(from->rows_len + 2, sizeof(*rows));
	size_t len = 0;

	if (!rows)
		refuse("out of memory");
	for (size_t i = 0; i < from->rows_len; i++) {
		struct pkvm_row it = from->rows[i], rest = it;

		if (frame - it.frame >= it.count) {
			rows[len++] = it;
			continue;
		}
		it.count = frame - it.frame;
		rest.frame = frame + 1;
		rest.count -= it.count + 1;
		rest.owner.borrower_page += it.count + 1;
		if (it.count)
			rows[len++] = it;
		if (rest.count)
			rows[len++] = rest;
	}
	rows[len++] = (struct pkvm_row){frame, 1, row};
	free(to->to.rows);
	to->to.rows = rows;
	to->state.rows = rows;
	to->state.rows_len = len;
}

static uint64_t host_state(const struct difference *it, uint64_t frame)
{
	struct pkvm_word word = entry_at(&it->before->state, HOST, frame);

	return word.says == PKVM_LEAF ? word.state : (uint64_t)NO_PAGE;
}

static unsigned int borrowers(const struct difference *it, uint64_t frame)
{
	long i = memory_index(frame);

	return i < 0 ? 0 : it->before->borrowers[i];
}

static bool says(const struct difference *it, uint64_t linux_says, uint64_t model_says)
{
	return it->made->reply.refusal == linux_says && it->spec.refusal == model_says;
}

/* The frame and the guest page of a call: where its arguments have them, or -1. */
struct numbers {
	int frame, page;
};

static struct numbers numbers_of(uint64_t call)
{
	switch (call) {
	case PKVM_SHARE_HYP:
	case PKVM_UNSHARE_HYP:
	case PKVM_DONATE_HYP:
	case PKVM_HYP_DONATE_HOST:
		return (struct numbers){0, -1};
	case PKVM_SHARE_GUEST:
	case PKVM_DONATE_GUEST:
		return (struct numbers){0, 1};
	case PKVM_UNSHARE_GUEST:
	case PKVM_RECLAIM_PAGE:
		return (struct numbers){-1, 2};
	case PKVM_GUEST_SHARE_HOST:
	case PKVM_GUEST_UNSHARE_HOST:
	case PKVM_GUEST_RELAX:
		return (struct numbers){-1, 0};
	default:
		return (struct numbers){-1, -1};
	}
}

/* How many frames a call names, at least one. */
static uint64_t range_of(const struct pkvm_step *step)
{
	uint64_t count = 1;

	if (step->call == PKVM_DONATE_HYP || step->call == PKVM_HYP_DONATE_HOST ||
	    step->call == PKVM_FUND)
		count = step->arguments[1];
	else if (step->call == PKVM_SHARE_GUEST)
		count = step->arguments[3];
	else if (step->call == PKVM_DONATE_GUEST)
		count = step->arguments[2];
	return count ? count : 1;
}

/* A copy of all lists of a state: the library writes the next one over what it gave before. */
static void keep(struct pkvm_state *to, const struct pkvm_state *from)
{
#define KEEP(list)                                                                                 \
	do {                                                                                       \
		size_t size = (from->list##_len + 1) * sizeof(*from->list);                        \
		void *list = realloc((void *)to->list, size);                                      \
                                                                                                   \
		if (!list)                                                                         \
			refuse("out of memory");                                                   \
		memcpy(list, from->list, from->list##_len * sizeof(*from->list));                  \
		to->list = list;                                                                   \
		to->list##_len = from->list##_len;                                                 \
	} while (0)
	KEEP(runs);
	KEEP(tables);
	KEEP(frames);
	KEEP(slots);
	KEEP(loads);
	KEEP(guests);
	KEEP(cpus);
	KEEP(rows);
}

/* The call is several of the model, of `size` pages each, up to the first that is refused; where
 * `is_any`, by whatever name.
 */
static bool is_in_parts(const struct difference *it, int count_at, uint64_t size, bool is_any)
{
	static PER_CPU struct pkvm_state state;
	struct pkvm_state next;
	struct pkvm_step step = *it->step;
	uint64_t left = step.arguments[count_at];
	struct numbers at = numbers_of(step.call);
	struct pkvm_reply reply;

	keep(&state, &it->before->state);
	for (;;) {
		step.arguments[count_at] = left < size ? left : size;
		left -= step.arguments[count_at];
		if (foretold(&state, it->cpu, &step, &reply, &next))
			return false;
		if (reply.refusal || !left)
			break;
		keep(&state, &next);
		step.arguments[at.frame] += size;
		if (at.page >= 0)
			step.arguments[at.page] += size;
	}
	if (!is_any || !reply.refusal || !it->made->reply.refusal)
		reply = it->made->reply;
	return agrees(it, &state, &step, &reply, &it->after->state);
}

/* --- Each of them --- */

/* Linux has no range but a block: the harness makes it page by page, up to the first that is
 * refused.
 */
static bool is_range_in_parts(const struct difference *it, bool is_any)
{
	int count_at = it->step->call == PKVM_SHARE_GUEST ? 3 : 2;
	uint64_t count = it->step->arguments[count_at];

	return (it->step->call == PKVM_SHARE_GUEST || it->step->call == PKVM_DONATE_GUEST) &&
	       count > 1 && count <= 512 && !it->made->ended.is_stopped &&
	       is_in_parts(it, count_at, 1, is_any);
}

static bool range_in_parts(const struct difference *it)
{
	return is_range_in_parts(it, false);
}

/* A frame of the range is no memory: Linux says that the host doesn't have it. */
static bool not_memory(const struct difference *it)
{
	struct numbers at = numbers_of(it->step->call);
	uint64_t count = range_of(it->step);
	bool is_memory = true;

	if (it->step->call == PKVM_FUND)
		at.frame = 0;
	if (at.frame < 0)
		return false;
	for (uint64_t k = 0; k < count && k < 1024; k++)
		is_memory = is_memory && memory_index(it->step->arguments[at.frame] + k) >= 0;
	return says(it, PKVM_EPERM, PKVM_EINVALID) && !is_memory &&
	       (is_reply_alone(it) || is_range_in_parts(it, true));
}

/* All that is no memory is registers of devices to Linux. */
static bool devices_everywhere(const struct difference *it)
{
	return it->step->call == PKVM_HOST_ABORT && says(it, 0, PKVM_EINVALID) &&
	       !is_in_region(it->step->arguments[0]) && is_reply_alone(it);
}

/* No page, or so many that their size is none: nothing is changed. */
static bool no_page(const struct difference *it)
{
	return (it->step->call == PKVM_DONATE_HYP || it->step->call == PKVM_HYP_DONATE_HOST ||
		it->step->call == PKVM_FUND) &&
	       !(it->step->arguments[1] << 12) && says(it, 0, PKVM_EINVALID) && is_unchanged(it);
}

/* More than 512 pages are given at once: as several calls of the model. */
static bool over_512(const struct difference *it)
{
	return (it->step->call == PKVM_DONATE_HYP || it->step->call == PKVM_HYP_DONATE_HOST) &&
	       it->step->arguments[1] > 512 && it->step->arguments[1] < 1 << 16 &&
	       !it->made->ended.is_stopped && it->spec.refusal == PKVM_EINVALID &&
	       is_in_parts(it, 1, 512, false);
}

/* The upper bits of a page's number are lost where it is made an address: the call is that of the
 * rest.
 */
static bool number_wraps(const struct difference *it)
{
	const uint64_t kept = (1ull << 52) - 1;
	struct numbers at = numbers_of(it->step->call);
	struct pkvm_step step = *it->step;
	struct difference cut = *it;
	bool is_cut = false;

	for (int i = 0; i < 4; i++) {
		if (i != at.frame && i != at.page)
			continue;
		is_cut = is_cut || step.arguments[i] > kept;
		step.arguments[i] &= kept;
	}
	if (!is_cut || it->spec.refusal != PKVM_EINVALID || it->made->ended.is_stopped)
		return false;
	cut.step = &step;
	cut.spec = predicted_reply(it->before, it->cpu, &step);
	return agrees(&cut, &it->before->state, &step, &it->made->reply, &it->after->state) ||
	       known_name(&cut);
}

/* 7.3 looks into hyp_vmemmap before it looks whether the frame is memory, and faults where nothing
 * is mapped. Its own code asks for memory alone.
 */
static bool no_vmemmap(const struct difference *it)
{
	return it->step->call == PKVM_HYP_DONATE_HOST && it->made->ended.is_stopped &&
	       linux_has_guests && !strcmp(it->made->ended.where, "EL2:0 fault") &&
	       it->spec.refusal == PKVM_EINVALID && is_unchanged(it);
}

/* 7.3 wants a range in one region, and the model in memory. */
static bool one_region(const struct difference *it)
{
	uint64_t first = it->step->arguments[0], last = first + range_of(it->step) - 1;
	bool is_in_one = false;

	if (it->step->call != PKVM_DONATE_HYP && it->step->call != PKVM_FUND)
		return false;
	for (size_t i = 0; i < machine.regions_len; i++)
		is_in_one =
			is_in_one || (first - machine.regions[i].first < machine.regions[i].count &&
				      last - machine.regions[i].first < machine.regions[i].count);
	return says(it, PKVM_EINVALID, 0) && !is_in_one && is_unchanged(it);
}

/* Linux looks at the host's page first, the model at the guest's number: both refuse. */
static bool other_test_first(const struct difference *it)
{
	struct numbers at = numbers_of(it->step->call);
	uint64_t pages = machine.layout.address_bits == 39 ? 1ull << 27 : 1ull << 36;
	struct pkvm_step step = *it->step;

	if (at.frame < 0 || at.page < 0 || step.arguments[at.page] < pages ||
	    !says(it, PKVM_EPERM, PKVM_EINVALID))
		return false;
	step.arguments[at.page] = 0;
	return predicted_reply(it->before, it->cpu, &step).refusal == PKVM_EPERM &&
	       is_reply_alone(it);
}

/* 6.12 stops where the host touches a page that isn't its own; 7.3 injects an abort, as `perm`. */
static bool abort_stops(const struct difference *it)
{
	return it->step->call == PKVM_HOST_ABORT && it->made->ended.is_stopped &&
	       it->spec.refusal == PKVM_EPERM &&
	       entry_at(&it->before->state, HOST, it->step->arguments[0]).says == PKVM_ANNOTATED &&
	       is_unchanged(it);
}

/* The host may read the hypervisor's text, so it doesn't fault there. */
static bool text_is_readable(const struct difference *it)
{
	return it->step->call == PKVM_HOST_ABORT && says(it, 0, PKVM_EPERM) && linux_has_guests &&
	       linux_is_text(it->step->arguments[0]) && is_unchanged(it);
}

/* 6.12 doesn't look whether the hypervisor has the page that the host takes back, and stops where
 * it hasn't: the firmware does. By then the page is the host's own again.
 */
static bool firmware_page_taken(const struct difference *it)
{
	static PER_CPU struct copy after;
	uint64_t frame = it->step->arguments[0];
	struct pkvm_word shared = leaf(frame, PKVM_RWX, PKVM_NORMAL, PKVM_SHARED_OWNED);
	struct pkvm_word now = entry_at(&it->after->state, HOST, frame);

	if (it->step->call != PKVM_UNSHARE_HYP || !it->made->ended.is_stopped ||
	    it->spec.refusal != PKVM_EPERM || host_state(it, frame) != PKVM_SHARED_OWNED ||
	    row_at(&it->before->state, frame).is_lent || now.says != PKVM_LEAF ||
	    now.state != PKVM_OWNED)
		return false;
	with_word(&after, &it->after->state, HOST, frame, shared);
	return agrees(it, &it->before->state, it->step, &it->spec, &after.state);
}

/* A page that is pinned stays shared. */
static bool pinned(const struct difference *it)
{
	return it->step->call == PKVM_UNSHARE_HYP && says(it, PKVM_EBUSY, 0) &&
	       linux_pins(it->step->arguments[0]) && is_unchanged(it);
}

/* The state without a frame's other pages in plain guests: the model has one borrower at most. */
static void without_others(struct copy *to, const struct pkvm_state *from, uint64_t frame,
			   uint64_t tree, uint64_t page)
{
	const struct pkvm_word nothing = {.says = PKVM_UNMAPPED};
	size_t i = 0;

	with_word(to, from, HOST, frame, entry_at(from, HOST, frame));
	while (i < to->state.runs_len) {
		const struct pkvm_run *it = &to->state.runs[i];
		uint64_t k = frame - it->word.frame;

		i++;
		if (it->tree < GUEST || it->word.says != PKVM_LEAF || k >= it->count ||
		    (it->tree == tree && it->page + k == page))
			continue;
		with_word(to, &to->state, it->tree, it->page + k, nothing);
		i = 0;
	}
}

/* 7.3 lends a frame to plain guests more than once, and counts. Apart from the other borrowers of
 * the pages that it lends again the call is the model's, made page by page.
 */
static bool lent_again(const struct difference *it)
{
	static PER_CPU struct copy before, after;
	static PER_CPU struct recorded as_before, as_after;
	const uint64_t *a = it->step->arguments;
	struct difference apart = *it;
	bool is_again = false;
	uint64_t slot;

	if (it->step->call != PKVM_SHARE_GUEST || it->made->ended.is_stopped ||
	    it->spec.refusal != PKVM_EPERM || a[3] > 512 || !vms_loaded(it->cpu, &slot))
		return false;
	before.state = it->before->state;
	after.state = it->after->state;
	for (uint64_t k = 0; k < a[3]; k++) {
		uint64_t frame = a[0] + k, page = a[1] + k, tree = GUEST + slot;
		struct pkvm_word was = entry_at(&it->before->state, tree, page);
		struct pkvm_word now = entry_at(&it->after->state, tree, page);

		if (!borrowers(it, frame) || was.says != PKVM_UNMAPPED || now.says != PKVM_LEAF ||
		    now.frame != frame)
			continue;
		is_again = true;
		without_others(&before, &before.state, frame, tree, page);
		with_word(&before, &before.state, HOST, frame,
			  leaf(frame, PKVM_RWX, PKVM_NORMAL, PKVM_OWNED));
		with_row(&before, frame, (struct pkvm_owner){.owner = HOST});
		without_others(&after, &after.state, frame, tree, page);
		with_row(
			&after, frame,
			(struct pkvm_owner){.is_lent = 1, .borrower = tree, .borrower_page = page});
	}
	as_before = *it->before;
	as_before.state = before.state;
	as_after = *it->after;
	as_after.state = after.state;
	apart.before = &as_before;
	apart.after = &as_after;
	return is_again && is_in_parts(&apart, 3, 1, false);
}

/* And takes back one loan of several: the host's page stays shared. */
static bool lent_still(const struct difference *it)
{
	static PER_CPU struct copy before, after;
	uint64_t tree = GUEST + it->step->arguments[0], page = it->step->arguments[2];
	struct pkvm_word word;

	if (it->step->call != PKVM_UNSHARE_GUEST || !says(it, 0, 0))
		return false;
	word = entry_at(&it->before->state, tree, page);
	if (word.says != PKVM_LEAF || borrowers(it, word.frame) < 2)
		return false;
	without_others(&before, &it->before->state, word.frame, tree, page);
	with_row(&before, word.frame,
		 (struct pkvm_owner){.is_lent = 1, .borrower = tree, .borrower_page = page});
	without_others(&after, &it->after->state, word.frame, tree, page);
	with_word(&after, &after.state, HOST, word.frame,
		  leaf(word.frame, PKVM_RWX, PKVM_NORMAL, PKVM_OWNED));
	with_row(&after, word.frame, (struct pkvm_owner){.owner = HOST});
	return agrees(it, &before.state, it->step, &it->made->reply, &after.state);
}

/* A page that was lent to a plain guest isn't reclaimed: unshare_guest is the way back, also of a
 * dying one.
 */
static bool lent_not_reclaimed(const struct difference *it)
{
	uint64_t slot = it->step->arguments[0];
	struct pkvm_word word;

	if (it->step->call != PKVM_RECLAIM_PAGE || !says(it, PKVM_EPERM, 0))
		return false;
	word = entry_at(&it->before->state, GUEST + slot, it->step->arguments[2]);
	return word.says == PKVM_LEAF && word.state == PKVM_SHARED_BORROWED && is_unchanged(it);
}

static bool unshared_while_dying(const struct difference *it)
{
	static PER_CPU struct vms alive_before, alive_after;
	uint64_t slot = it->step->arguments[0];
	struct difference alive = *it;
	static PER_CPU struct recorded as_before, as_after;
	struct made made = *it->made;

	if (it->step->call != PKVM_UNSHARE_GUEST || it->spec.refusal != PKVM_ENOVM ||
	    slot >= SLOTS || it->before->vms.guests[slot].phase != PKVM_DYING ||
	    it->before->vms.guests[slot].kind != PKVM_PLAIN)
		return false;
	alive_before = it->before->vms;
	alive_after = it->after->vms;
	alive_before.guests[slot].phase = alive_after.guests[slot].phase = PKVM_LIVE;
	as_before = *it->before;
	as_after = *it->after;
	as_before.state.guests = alive_before.guests;
	as_after.state.guests = alive_after.guests;
	alive.before = &as_before;
	alive.after = &as_after;
	alive.made = &made;
	alive.spec = predicted_reply(&as_before, it->cpu, it->step);
	return agrees(&alive, &as_before.state, it->step, &made.reply, &as_after.state) ||
	       lent_still(&alive);
}

/* Where the host's input has 36 bits so has the guests', and the model's 39. */
static bool past_36_bits(const struct difference *it)
{
	struct numbers at = numbers_of(it->step->call);
	uint64_t page = at.page < 0 ? 0 : it->step->arguments[at.page];

	return machine.layout.address_bits == 39 && it->made->reply.refusal == PKVM_EINVALID &&
	       page >= 1 << 24 && page < 1 << 27 && is_unchanged(it);
}

/* A block is taken back as a whole or not at all. */
static bool whole_block(const struct difference *it)
{
	return it->step->call == PKVM_UNSHARE_GUEST && says(it, E2BIG, 0) &&
	       linux_guest_leaf(it->step->arguments[0], it->step->arguments[2]) > 1 &&
	       is_unchanged(it);
}

/* And gets more rights as a whole: apart from the block's other pages the call is the model's. */
static bool whole_block_relaxed(const struct difference *it)
{
	static PER_CPU struct copy after;
	uint64_t page = it->step->arguments[0], slot, size, first;

	if (it->step->call != PKVM_GUEST_RELAX || it->made->reply.refusal ||
	    !vms_loaded(it->cpu, &slot))
		return false;
	size = linux_guest_leaf(slot, page);
	first = size ? page & ~(size - 1) : page;
	if (size < 2)
		return false;
	with_words(&after, &it->after->state, GUEST + slot, first, page - first,
		   entry_at(&it->before->state, GUEST + slot, first));
	with_words(&after, &after.state, GUEST + slot, page + 1, first + size - page - 1,
		   entry_at(&it->before->state, GUEST + slot, page + 1));
	return agrees(it, &it->before->state, it->step, &it->made->reply, &after.state);
}

static const struct {
	const char *name;
	bool (*is_it)(const struct difference *);
} known[] = {
	{"not_memory", not_memory},
	{"devices_everywhere", devices_everywhere},
	{"no_page", no_page},
	{"over_512", over_512},
	{"range_in_parts", range_in_parts},
	{"number_wraps", number_wraps},
	{"no_vmemmap", no_vmemmap},
	{"one_region", one_region},
	{"other_test_first", other_test_first},
	{"abort_stops", abort_stops},
	{"text_is_readable", text_is_readable},
	{"firmware_page_taken", firmware_page_taken},
	{"pinned", pinned},
	{"lent_again", lent_again},
	{"lent_still", lent_still},
	{"lent_not_reclaimed", lent_not_reclaimed},
	{"unshared_while_dying", unshared_while_dying},
	{"past_36_bits", past_36_bits},
	{"whole_block", whole_block},
	{"whole_block_relaxed", whole_block_relaxed},
};

const char *known_name(const struct difference *it)
{
	for (size_t i = 0; i < sizeof(known) / sizeof(*known); i++)
		if (known[i].is_it(it))
			return known[i].name;
	return NULL;
}
