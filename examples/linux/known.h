/* Differences that docs/LINUX.md explains, by name. */
#ifndef KNOWN_H
#define KNOWN_H

#include "harness.h"

struct difference {
	const struct recorded *before;
	uint64_t cpu;
	const struct pkvm_step *step;
	const struct made *made;
	const struct recorded *after;
	struct pkvm_reply spec;
};

/* The name, or NULL. */
const char *known_name(const struct difference *it);

/* Of judge.c. The library's status: 0 with the model's reply and state; PKVM_AGREES,
 * PKVM_DISAGREES with a text, or an error with one.
 */
int32_t foretold(const struct pkvm_state *before, uint64_t cpu, const struct pkvm_step *step,
		 struct pkvm_reply *reply, struct pkvm_state *after);
int32_t judged(const struct pkvm_state *before, uint64_t cpu, const struct pkvm_step *step,
	       const struct pkvm_reply *reply, const struct pkvm_state *after, char *text,
	       size_t text_room);

#endif
