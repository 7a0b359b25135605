/* A step of a trace, made on Linux where it has the call. The calls on the table of VMs are the
 * harness' own: it answers them as the model does, and does on Linux what they mean there.
 */
#include "harness.h"

static struct made by_harness(struct pkvm_reply reply)
{
	return (struct made){.maker = BY_HARNESS, .reply = reply};
}

struct made make_on_linux(const struct pkvm_step *step, uint64_t slot)
{
	struct made made = {.maker = BY_LINUX, .ended = linux_call(step, slot)};

	made.reply.refusal =
		made.ended.is_stopped ? PKVM_STOPPED : refusal_of(step, made.ended.error);
	return made;
}

/* A call of another name that Linux makes for this one. */
static struct made as_call(uint64_t call, uint64_t frame, uint64_t count)
{
	const struct pkvm_step step = {call, {frame, count}};

	return make_on_linux(&step, 0);
}

/* Linux maps one page, or one block; a longer range is one call for each page. */
static struct made page_by_page(const struct pkvm_step *step, uint64_t slot)
{
	bool is_share = step->call == PKVM_SHARE_GUEST;
	uint64_t count = step->arguments[is_share ? 3 : 2];
	bool is_block =
		is_share && count == 512 && !((step->arguments[0] | step->arguments[1]) & 511);
	struct pkvm_step one = *step;
	struct made made;

	/* __pkvm_host_donate_guest has no count at all. */
	if (!is_share && (!count || count > 512))
		return by_harness((struct pkvm_reply){.refusal = PKVM_EINVALID});
	if (count < 2 || count > 512 || is_block)
		return make_on_linux(step, slot);
	one.arguments[is_share ? 3 : 2] = 1;
	do {
		made = make_on_linux(&one, slot);
		one.arguments[0]++;
		one.arguments[1]++;
	} while (!made.reply.refusal && !made.ended.is_stopped && --count);
	return made;
}

static struct made on_guest(uint64_t cpu, const struct pkvm_step *step, struct recorded *before)
{
	uint64_t slot = step->arguments[0], kind;
	bool is_named = step->call == PKVM_UNSHARE_GUEST || step->call == PKVM_RECLAIM_PAGE;
	struct pkvm_reply spec = predicted_reply(before, cpu, step);
	struct made made;

	if (!linux_has_guests)
		return (struct made){.maker = BY_NOBODY};
	if (!is_named && !vms_loaded(cpu, &slot))
		return by_harness(spec);
	if (slot >= SLOTS || vms.guests[slot].phase == PKVM_EMPTY ||
	    (is_named && vms.guests[slot].generation != step->arguments[1]))
		return by_harness(spec);
	/* The handlers of these calls look at the kind of VM, and whether it dies, before they
	 * call.
	 */
	kind = vms.guests[slot].kind;
	if ((step->call == PKVM_SHARE_GUEST || step->call == PKVM_GUEST_RELAX ||
	     step->call == PKVM_UNSHARE_GUEST) &&
	    kind == PKVM_PROTECTED)
		return by_harness(spec);
	if ((step->call == PKVM_DONATE_GUEST || step->call == PKVM_GUEST_SHARE_HOST ||
	     step->call == PKVM_GUEST_UNSHARE_HOST) &&
	    kind == PKVM_PLAIN)
		return by_harness(spec);
	if (step->call == PKVM_RECLAIM_PAGE && vms.guests[slot].phase != PKVM_DYING)
		return by_harness(spec);

	if (step->call == PKVM_SHARE_GUEST || step->call == PKVM_DONATE_GUEST) {
		vms_fill(slot);
		record(before);
		made = page_by_page(step, slot);
	} else {
		made = make_on_linux(step, slot);
	}
	return made;
}

/* The harness does what a call on the table of VMs means on Linux, and keeps the table as the model
 * leaves it.
 */
static struct made on_table(uint64_t cpu, const struct pkvm_step *step,
			    const struct recorded *before)
{
	struct pkvm_reply reply;
	const struct pkvm_state *after = predicted_state(before, cpu, step, &reply);
	const struct pkvm_cpu *it = &vms.cpus[cpu];
	struct made made = by_harness(reply);
	uint64_t slot, first = it->hand_first, count = it->hand_count;

	if (!linux_has_guests)
		return (struct made){.maker = BY_NOBODY};
	if (reply.refusal)
		return made;
	switch (step->call) {
	case PKVM_INSTALL:
		slot = it->ticket_slot;
		made.ended = linux_guest_make(slot, it->ticket_kind == PKVM_PROTECTED, first);
		if (made.ended.is_stopped || made.ended.error)
			refuse("Linux doesn't make a guest: %s", made.ended.where);
		for (uint64_t i = 1; i < count; i++)
			linux_guest_give(slot, first + i);
		break;
	case PKVM_TOPUP:
		for (uint64_t i = 0; i < count; i++)
			linux_guest_give(step->arguments[0], first + i);
		break;
	case PKVM_RECLAIM_POOL:
		linux_guest_take(step->arguments[0], reply.frame);
		made = as_call(PKVM_HYP_DONATE_HOST, reply.frame, 1);
		made.maker = BY_HARNESS;
		if (!made.reply.refusal)
			made.reply = reply;
		break;
	case PKVM_FINISH_GUEST: {
		struct linux_tree root = linux_tree(GUEST + it->ticket_slot);

		made.ended = linux_guest_end(it->ticket_slot);
		linux_guest_take(it->ticket_slot, root.root);
		made = as_call(PKVM_HYP_DONATE_HOST, root.root, 1);
		made.maker = BY_HARNESS;
		if (!made.reply.refusal)
			made.reply = reply;
		break;
	}
	default:
		break;
	}
	vms_adopt(after);
	return made;
}

/* The CPU's hand is memory of the hypervisor: it is given and taken back by Linux' own calls. */
static struct made on_hand(uint64_t cpu, const struct pkvm_step *step,
			   const struct recorded *before)
{
	struct pkvm_cpu *it = &vms.cpus[cpu];
	struct pkvm_reply spec = predicted_reply(before, cpu, step);
	struct made made;

	if (step->call == PKVM_FUND) {
		if (it->has_hand)
			return by_harness(spec);
		made = as_call(PKVM_DONATE_HYP, step->arguments[0], step->arguments[1]);
		it->hand_first = step->arguments[0];
		it->hand_count = step->arguments[1];
		it->has_hand = !made.reply.refusal;
	} else {
		if (!it->has_hand)
			return by_harness(spec);
		made = as_call(PKVM_HYP_DONATE_HOST, it->hand_first, it->hand_count);
		if (!made.reply.refusal)
			it->has_hand = 0;
	}
	if (!it->has_hand)
		it->hand_first = it->hand_count = 0;
	return made;
}

/* Calls that only look are answered from Linux' tables, as they are recorded. */
static struct made looked(uint64_t cpu, const struct pkvm_step *step, const struct recorded *before)
{
	struct pkvm_reply reply = predicted_reply(before, cpu, step);

	if (!linux_has_guests && step->call == PKVM_GUEST_TRANSLATE)
		return (struct made){.maker = BY_NOBODY};
	if (reply.refusal)
		return by_harness(reply);
	switch (step->call) {
	case PKVM_HOST_TRANSLATE:
		reply.entry = entry_at(&before->state, HOST, step->arguments[0]);
		break;
	case PKVM_HYP_TRANSLATE:
		reply.entry = entry_at(&before->state, HYP, step->arguments[0]);
		break;
	case PKVM_GUEST_TRANSLATE:
		reply.entry =
			entry_at(&before->state, GUEST + step->arguments[0], step->arguments[2]);
		break;
	default:
		reply.row = row_at(&before->state, step->arguments[0]);
		break;
	}
	return by_harness(reply);
}

static bool is_in_use(const struct pkvm_step *step, const struct recorded *before)
{
	bool is_used = false;

	for (uint64_t k = 0; k < step->arguments[1] && k < 512; k++)
		is_used = is_used ||
			  row_at(&before->state, step->arguments[0] + k).usage != PKVM_USE_PLAIN;
	return is_used;
}

struct made make_step(uint64_t cpu, const struct pkvm_step *step, struct recorded *before)
{
	switch (step->call) {
	case PKVM_HYP_DONATE_HOST:
		/* EL2's own call: its callers, here the harness, ask for pages alone that are in no
		 * use.
		 */
		if (is_in_use(step, before))
			return by_harness(predicted_reply(before, cpu, step));
		return make_on_linux(step, 0);
	case PKVM_SHARE_HYP:
	case PKVM_UNSHARE_HYP:
	case PKVM_DONATE_HYP:
		return make_on_linux(step, 0);
	case PKVM_HOST_ABORT:
		/* A fault tells 40 bits of the page's number. */
		if (step->arguments[0] >> 40)
			return by_harness(predicted_reply(before, cpu, step));
		return make_on_linux(step, 0);
	case PKVM_HOST_TRANSLATE:
	case PKVM_HYP_TRANSLATE:
	case PKVM_GUEST_TRANSLATE:
	case PKVM_OWNER_OF:
		return looked(cpu, step, before);
	case PKVM_FUND:
	case PKVM_UNFUND:
		return on_hand(cpu, step, before);
	case PKVM_SHARE_GUEST:
	case PKVM_UNSHARE_GUEST:
	case PKVM_DONATE_GUEST:
	case PKVM_GUEST_SHARE_HOST:
	case PKVM_GUEST_UNSHARE_HOST:
	case PKVM_GUEST_RELAX:
	case PKVM_RECLAIM_PAGE:
		return on_guest(cpu, step, before);
	default:
		return on_table(cpu, step, before);
	}
}

/* Between two steps each guest's free frames are in one list, and the harness has its pages back.
 */
void make_ready(void)
{
	for (uint64_t slot = 0; slot < SLOTS; slot++)
		if (vms.guests[slot].phase != PKVM_EMPTY)
			vms_sweep(slot);
}
