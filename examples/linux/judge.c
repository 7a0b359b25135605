/* The library asked of each step. What a hypervisor may choose freely, and Linux chooses otherwise
 * than the model, is in the layout's freedoms (FREEDOMS).
 */
#include "harness.h"
#include "known.h"
#include <stdio.h>
#include <stdlib.h>
#include <string.h>

/* --- What the model foretells --- */

static PER_CPU struct pkvm_room room;
static PER_CPU struct pkvm_sizes sizes;

static void *grown(void *list, uint64_t wanted, size_t *len, size_t size)
{
	if (wanted <= *len && list)
		return list;
	*len = wanted + wanted / 2 + 64;
	list = realloc(list, *len * size);
	if (!list)
		refuse("out of memory");
	return list;
}

#define GROWN(list) room.list = grown(room.list, sizes.list, &room.list##_len, sizeof(*room.list))

int32_t foretold(const struct pkvm_state *before, uint64_t cpu, const struct pkvm_step *step,
		 struct pkvm_reply *reply, struct pkvm_state *after)
{
	struct pkvm_refused why;
	int32_t status;

	do {
		GROWN(runs);
		GROWN(tables);
		GROWN(frames);
		GROWN(slots);
		GROWN(loads);
		GROWN(guests);
		GROWN(cpus);
		GROWN(rows);
		status = pkvm_predict(&machine.layout, before, cpu, step, reply, &room, &sizes,
				      &why);
	} while (status == PKVM_NO_ROOM);
	*after = (struct pkvm_state){
		.runs = room.runs,
		.runs_len = sizes.runs,
		.tables = room.tables,
		.tables_len = sizes.tables,
		.frames = room.frames,
		.frames_len = sizes.frames,
		.slots = room.slots,
		.slots_len = sizes.slots,
		.loads = room.loads,
		.loads_len = sizes.loads,
		.guests = room.guests,
		.guests_len = sizes.guests,
		.cpus = room.cpus,
		.cpus_len = sizes.cpus,
		.rows = room.rows,
		.rows_len = sizes.rows,
	};
	if (status == PKVM_NO_MEMORY)
		refuse("out of memory");
	return status;
}

const struct pkvm_state *predicted_state(const struct recorded *state, uint64_t cpu,
					 const struct pkvm_step *step, struct pkvm_reply *reply)
{
	static PER_CPU struct pkvm_state after;

	if (foretold(&state->state, cpu, step, reply, &after))
		refuse("the library doesn't foretell a step of the harness");
	return &after;
}

struct pkvm_reply predicted_reply(const struct recorded *state, uint64_t cpu,
				  const struct pkvm_step *step)
{
	struct pkvm_reply reply = {.refusal = PKVM_EPERM};
	struct pkvm_refused why;

	pkvm_predict_reply(&machine.layout, &state->state, cpu, step, &reply, &why);
	return reply;
}

/* --- The judgement --- */

int32_t judged(const struct pkvm_state *before, uint64_t cpu, const struct pkvm_step *step,
	       const struct pkvm_reply *reply, const struct pkvm_state *after, char *text,
	       size_t text_room)
{
	const struct pkvm_call call = {.cpu = cpu, .step = *step, .reply = *reply};
	struct pkvm_refused why = {0};
	size_t len = 0;
	int32_t status = pkvm_judge(&machine.layout, before, &call, after, (uint8_t *)text,
				    text_room - 1, &len, &why);

	if (status == PKVM_NO_MEMORY)
		refuse("out of memory");
	text[len] = 0;
	if (status < 0)
		snprintf(text, text_room,
			 "disagree state refused: status %d fault %lu list %lu index %lu", status,
			 why.fault, why.list, why.index);
	/* The library's texts end their line. */
	len = strlen(text);
	while (len && text[len - 1] == '\n')
		text[--len] = 0;
	return status;
}

void judge(const struct recorded *before, uint64_t cpu, const struct pkvm_step *step,
	   const struct made *made, const struct recorded *after, struct judgement *out)
{
	struct difference it = {before, cpu, step, made, after, {0}};

	*out = (struct judgement){.verdict = AGREES};
	if (made->maker == BY_NOBODY)
		return;
	if (judged(&before->state, cpu, step, &made->reply, &after->state, out->text,
		   sizeof(out->text)) != PKVM_AGREES) {
		it.spec = predicted_reply(before, cpu, step);
		out->name = known_name(&it);
		out->verdict = out->name ? KNOWN : DIFFERS;
	}
	if (after->misfit[0] && strcmp(before->misfit, after->misfit)) {
		out->verdict = DIFFERS;
		out->name = NULL;
		snprintf(out->text, sizeof(out->text), "disagree tables %s", after->misfit);
	}
}
