/* Names of calls and replies, a report's lines, and the summary at the end. */
#include "harness.h"
#include <errno.h>
#include <inttypes.h>
#include <stdarg.h>
#include <stdio.h>
#include <stdlib.h>
#include <string.h>

const struct call calls[30] = {
	[PKVM_SHARE_HYP] = {"share_hyp", "n"},
	[PKVM_UNSHARE_HYP] = {"unshare_hyp", "n"},
	[PKVM_DONATE_HYP] = {"donate_hyp", "nn"},
	[PKVM_HYP_DONATE_HOST] = {"hyp_donate_host", "nn"},
	[PKVM_HOST_ABORT] = {"host_abort", "n"},
	[PKVM_HOST_TRANSLATE] = {"host_translate", "n"},
	[PKVM_HYP_TRANSLATE] = {"hyp_translate", "n"},
	[PKVM_OWNER_OF] = {"owner_of", "n"},
	[PKVM_FUND] = {"fund", "nn"},
	[PKVM_UNFUND] = {"unfund", ""},
	[PKVM_SHARE_GUEST] = {"share_guest", "nnrc"},
	[PKVM_UNSHARE_GUEST] = {"unshare_guest", "vn"},
	[PKVM_DONATE_GUEST] = {"donate_guest", "nnc"},
	[PKVM_GUEST_SHARE_HOST] = {"guest_share_host", "n"},
	[PKVM_GUEST_UNSHARE_HOST] = {"guest_unshare_host", "n"},
	[PKVM_INSTALL] = {"install", ""},
	[PKVM_TOPUP] = {"topup", "v"},
	[PKVM_RECLAIM_PAGE] = {"reclaim_page", "vn"},
	[PKVM_RECLAIM_POOL] = {"reclaim_pool", "v"},
	[PKVM_FINISH_GUEST] = {"finish_guest", ""},
	[PKVM_GUEST_RELAX] = {"guest_relax", "nr"},
	[PKVM_GUEST_TRANSLATE] = {"guest_translate", "vn"},
	[PKVM_MARK_DYING] = {"mark_dying", ""},
	[PKVM_VM_RESERVE] = {"vm_reserve", "kn"},
	[PKVM_VM_OPEN] = {"vm_open", ""},
	[PKVM_VCPU_LOAD] = {"vcpu_load", "vn"},
	[PKVM_VCPU_PUT] = {"vcpu_put", ""},
	[PKVM_TEARDOWN] = {"teardown", "v"},
	[PKVM_VM_RELEASE] = {"vm_release", ""},
};

static const char *const rights_names[] = {
	[PKVM_R] = "r", [PKVM_RX] = "rx", [PKVM_RW] = "rw", [PKVM_RWX] = "rwx"};

void refuse(const char *format, ...)
{
	va_list list;

	fflush(stdout);
	fputs("examples/linux/run: ", stderr);
	va_start(list, format);
	vfprintf(stderr, format, list);
	va_end(list);
	fputc('\n', stderr);
	exit(2);
}

void text_of_step(const struct pkvm_step *step, char *text, size_t room)
{
	const uint64_t *a = step->arguments;
	int len = snprintf(text, room, "%s", calls[step->call].name);

	for (const char *it = calls[step->call].arguments; *it; it++) {
		char *to = text + len;
		size_t left = room - (size_t)len;

		switch (*it) {
		case 'r':
			len += snprintf(to, left, " %s", rights_names[*a & 7]);
			break;
		case 'k':
			len += snprintf(to, left, " %s", *a == PKVM_PLAIN ? "plain" : "protected");
			break;
		case 'v':
			len += snprintf(to, left, " %" PRIu64 ".%" PRIu64, a[0], a[1]);
			a++;
			break;
		default: /* a count is left out where it is 1 */
			if (*it == 'n' || *a != 1)
				len += snprintf(to, left, *a < 10 ? " %" PRIu64 : " 0x%" PRIx64,
						*a);
			break;
		}
		a++;
	}
}

const char *refusal_name(uint64_t refusal)
{
	static PER_CPU char number[24];

	switch (refusal) {
	case 0:
		return "ok";
	case PKVM_EPERM:
		return "perm";
	case PKVM_ENOVM:
		return "novm";
	case PKVM_ECONTENDED:
		return "contended";
	case PKVM_ENOMEMORY:
		return "nomemory";
	case PKVM_EBUSY:
		return "busy";
	case PKVM_EINVALID:
		return "invalid";
	case PKVM_ENOPOOL:
		return "nopool";
	case PKVM_ELOGFULL:
		return "logfull";
	case PKVM_STOPPED:
		return "stopped";
	default:
		snprintf(number, sizeof(number), "%" PRIu64, refusal);
		return number;
	}
}

uint64_t refusal_of(const struct pkvm_step *step, int error)
{
	bool is_of_page = step->call == PKVM_UNSHARE_GUEST || step->call == PKVM_RECLAIM_PAGE ||
			  step->call == PKVM_GUEST_SHARE_HOST ||
			  step->call == PKVM_GUEST_UNSHARE_HOST;

	if (error == ERANGE)
		return PKVM_EINVALID;
	if (error == ENOENT && is_of_page)
		return PKVM_EPERM;
	if (error == EHWPOISON && is_of_page)
		return PKVM_EPERM;
	if (error == EAGAIN && step->call == PKVM_GUEST_RELAX)
		return PKVM_EPERM;
	return (uint64_t)error;
}

void text_of_word(const struct pkvm_word *word, char *text, size_t room)
{
	static const char *const states[] = {"owned", "shared_owned", "shared_borrowed", "?"};

	if (word->says == PKVM_UNMAPPED)
		snprintf(text, room, "unmapped");
	else if (word->says == PKVM_ANNOTATED)
		snprintf(text, room, "annot %" PRIu64, word->owner);
	else if (word->says == PKVM_LEAF)
		snprintf(text, room, "leaf 0x%" PRIx64 " %s %s %s", word->frame,
			 rights_names[word->rights & 7],
			 word->kind == PKVM_DEVICE ? "device" : "normal", states[word->state & 3]);
	else
		snprintf(text, room, "malformed");
}

void text_of_row(const struct pkvm_owner *row, char *text, size_t room)
{
	char lent[64] = "-", use[32] = "plain";

	if (row->is_lent)
		snprintf(lent, sizeof(lent), "%" PRIu64 ":0x%" PRIx64, row->borrower,
			 row->borrower_page);
	if (row->usage == PKVM_USE_SHARED_POOL)
		strcpy(use, "shared_pool");
	else if (row->usage == PKVM_USE_GUEST_POOL)
		snprintf(use, sizeof(use), "vm_pool %" PRIu64, row->user);
	else if (row->usage == PKVM_USE_HAND)
		snprintf(use, sizeof(use), "in_hand %" PRIu64, row->user);
	snprintf(text, room, "owner %" PRIu64 " lent %s use %s", row->owner, lent, use);
}

void text_of_reply(const struct made *made, char *text, size_t room)
{
	const struct pkvm_reply *reply = &made->reply;
	char more[160];

	if (made->maker == BY_NOBODY) {
		snprintf(text, room, "none");
	} else if (made->ended.is_stopped) {
		snprintf(text, room, "stopped %s", made->ended.where);
	} else if (reply->refusal) {
		snprintf(text, room, "%s", refusal_name(reply->refusal));
	} else if (reply->gives == PKVM_GIVES_VM) {
		snprintf(text, room, "ok vm %" PRIu64 ".%" PRIu64, reply->slot, reply->generation);
	} else if (reply->gives == PKVM_GIVES_FRAME) {
		snprintf(text, room, "ok frame 0x%" PRIx64, reply->frame);
	} else if (reply->gives == PKVM_GIVES_ENTRY) {
		text_of_word(&reply->entry, more, sizeof(more));
		snprintf(text, room, "ok entry %s", more);
	} else if (reply->gives == PKVM_GIVES_ROW) {
		text_of_row(&reply->row, more, sizeof(more));
		snprintf(text, room, "ok %s", more);
	} else {
		snprintf(text, room, "ok");
	}
}

void tell(uint64_t number, uint64_t cpu, const struct pkvm_step *step, const struct made *made,
	  const struct judgement *judgement)
{
	char call[160], reply[256];

	text_of_step(step, call, sizeof(call));
	text_of_reply(made, reply, sizeof(reply));
	printf("%" PRIu64 ": %" PRIu64 " %s -> %s: %s\n", number, cpu, call, reply,
	       judgement->text);
}

/* --- The summary --- */

struct count {
	char key[96];
	uint64_t times;
};
static struct count replies[256], names[32];
static size_t replies_len, names_len;
static uint64_t by_linux, by_harness, by_nobody, agreed, known, unknown, others;
static struct {
	uint64_t linux_made, harness_made, nobody_made;
} by_call[30];

static void count_in(struct count *list, size_t *len, size_t room, const char *key)
{
	for (size_t i = 0; i < *len; i++) {
		if (!strcmp(list[i].key, key)) {
			list[i].times++;
			return;
		}
	}
	if (*len == room)
		return;
	snprintf(list[*len].key, sizeof(list->key), "%s", key);
	list[(*len)++].times = 1;
}

static void print_judged(FILE *to)
{
	fprintf(to, "judged %" PRIu64 " agree %" PRIu64 " known %" PRIu64 " unknown %" PRIu64 "\n",
		by_linux, agreed, known, unknown);
}

/* A long run tells how far it is, each so many calls of Linux. */
#ifndef TOLD_EACH
#define TOLD_EACH 50000
#endif

void count_step(const struct pkvm_step *step, const struct made *made,
		const struct judgement *judgement)
{
	char key[96];
	const char *said = made->maker == BY_NOBODY ? "none" : refusal_name(made->reply.refusal);

	by_call[step->call].linux_made += made->maker == BY_LINUX;
	by_call[step->call].harness_made += made->maker == BY_HARNESS;
	by_call[step->call].nobody_made += made->maker == BY_NOBODY;
	snprintf(key, sizeof(key), "%02u %s", (unsigned int)step->call, said);
	count_in(replies, &replies_len, 256, key);
	by_harness += made->maker == BY_HARNESS;
	by_nobody += made->maker == BY_NOBODY;
	if (made->maker == BY_LINUX) {
		by_linux++;
		agreed += judgement->verdict == AGREES;
	}
	if (judgement->verdict == KNOWN) {
		known++;
		count_in(names, &names_len, 32, judgement->name);
	}
	unknown += judgement->verdict == DIFFERS;
	if (made->maker == BY_LINUX && !(by_linux % TOLD_EACH)) {
		fputs("so far ", stderr);
		print_judged(stderr);
		fflush(stdout);
	}
}

void count_other(void)
{
	others++;
}

static int by_key(const void *a, const void *b)
{
	return strcmp(((const struct count *)a)->key, ((const struct count *)b)->key);
}

bool print_summary(FILE *to)
{
	qsort(replies, replies_len, sizeof(*replies), by_key);
	qsort(names, names_len, sizeof(*names), by_key);
	for (unsigned int call = 1; call < 30; call++) {
		bool is_first = true;
		char prefix[8];

		if (!by_call[call].linux_made && !by_call[call].harness_made &&
		    !by_call[call].nobody_made)
			continue;
		fprintf(to, "%s%s:", calls[call].name,
			by_call[call].linux_made ? "" : " (by the harness)");
		snprintf(prefix, sizeof(prefix), "%02u ", call);
		for (size_t i = 0; i < replies_len; i++) {
			if (strncmp(replies[i].key, prefix, 3))
				continue;
			fprintf(to, "%s %s %" PRIu64, is_first ? "" : ",", replies[i].key + 3,
				replies[i].times);
			is_first = false;
		}
		fputc('\n', to);
	}
	for (size_t i = 0; i < names_len; i++)
		fprintf(to, "known %s: %" PRIu64 "\n", names[i].key, names[i].times);
	fprintf(to,
		"made by Linux %" PRIu64 ", by the harness %" PRIu64 ", lacking %" PRIu64
		", not in the model %" PRIu64 "\n",
		by_linux, by_harness, by_nobody, others);
	print_judged(to);
	return !unknown;
}
