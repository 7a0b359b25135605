// How far down the stack each function of the library goes. It is linked with a program by
// --wrap=FUNCTION for each: a call paints what is below it, and looks what is left of the paint. At
// its end the program writes the most of each, one a line: the function, and its bytes.
#include "pkvm_oracle.h"
#include <stdio.h>

enum { WORDS = 1 << 13, MARGIN = 32 };

static const uint64_t PAINT = 0xa5a5a5a5a5a5a5a5;

// The two have frames of one size, so their rooms lie at one place, but for arguments on the stack.
__attribute__((noinline)) static void paint(void)
{
	uint64_t room[WORDS];

	for (size_t i = 0; i < WORDS; i++)
		room[i] = PAINT;
	__asm__ volatile("" : : "r"(room) : "memory");
}

__attribute__((noinline)) static size_t unpainted(void)
{
	uint64_t room[WORDS];
	size_t i = MARGIN;

	__asm__ volatile("" : : "r"(room) : "memory");
	while (i < WORDS && room[i] == PAINT)
		i++;
	return (WORDS - i) * sizeof *room;
}

#define WRAPPED(NAME, PARAMETERS, ARGUMENTS)                                                       \
	int32_t __real_##NAME PARAMETERS;                                                          \
	int32_t __wrap_##NAME PARAMETERS;                                                          \
	static size_t most_of_##NAME;                                                              \
	int32_t __wrap_##NAME PARAMETERS                                                           \
	{                                                                                          \
		paint();                                                                           \
		int32_t status = __real_##NAME ARGUMENTS;                                          \
		size_t deep = unpainted();                                                         \
		most_of_##NAME = deep > most_of_##NAME ? deep : most_of_##NAME;                    \
		return status;                                                                     \
	}                                                                                          \
	__attribute__((destructor)) static void tell_##NAME(void)                                  \
	{                                                                                          \
		if (most_of_##NAME)                                                                \
			printf("%s %zu\n", #NAME, most_of_##NAME);                                 \
	}

WRAPPED(pkvm_decode, (uint64_t level, uint64_t word, struct pkvm_word *out), (level, word, out))
WRAPPED(pkvm_decode_as,
	(uint64_t tree, uint64_t profile, uint64_t level, uint64_t word, struct pkvm_word *out,
	 struct pkvm_beyond *beyond),
	(tree, profile, level, word, out, beyond))
WRAPPED(pkvm_encode, (uint64_t level, const struct pkvm_word *says, uint64_t *out),
	(level, says, out))
WRAPPED(pkvm_replay,
	(const uint8_t *trace, size_t trace_len, uint8_t *report, size_t report_len,
	 size_t *written),
	(trace, trace_len, report, report_len, written))
WRAPPED(pkvm_judge,
	(const struct pkvm_layout *layout, const struct pkvm_state *before,
	 const struct pkvm_call *call, const struct pkvm_state *after, uint8_t *text,
	 size_t text_room, size_t *text_len, struct pkvm_refused *refused),
	(layout, before, call, after, text, text_room, text_len, refused))
WRAPPED(pkvm_predict_reply,
	(const struct pkvm_layout *layout, const struct pkvm_state *before, uint64_t cpu,
	 const struct pkvm_step *step, struct pkvm_reply *reply, struct pkvm_refused *refused),
	(layout, before, cpu, step, reply, refused))
WRAPPED(pkvm_predict,
	(const struct pkvm_layout *layout, const struct pkvm_state *before, uint64_t cpu,
	 const struct pkvm_step *step, struct pkvm_reply *reply, struct pkvm_room *room,
	 struct pkvm_sizes *sizes, struct pkvm_refused *refused),
	(layout, before, cpu, step, reply, room, sizes, refused))
WRAPPED(pkvm_boot,
	(const struct pkvm_layout *layout, struct pkvm_room *room, struct pkvm_sizes *sizes,
	 struct pkvm_refused *refused),
	(layout, room, sizes, refused))
WRAPPED(pkvm_suggest,
	(const struct pkvm_layout *layout, const struct pkvm_state *state, uint64_t random,
	 uint64_t hostile, struct pkvm_call *call, struct pkvm_refused *refused),
	(layout, state, random, hostile, call, refused))
WRAPPED(pkvm_trace_start,
	(const struct pkvm_layout *layout, uint8_t *text, size_t text_room, size_t *text_len,
	 struct pkvm_refused *refused),
	(layout, text, text_room, text_len, refused))
WRAPPED(pkvm_trace_of,
	(const struct pkvm_layout *layout, const struct pkvm_call *call, uint8_t *text,
	 size_t text_room, size_t *text_len),
	(layout, call, text, text_room, text_len))
WRAPPED(pkvm_audit,
	(const struct pkvm_layout *layout, const struct pkvm_state *kept,
	 const struct pkvm_page *pages, size_t pages_len, const struct pkvm_root *roots,
	 size_t roots_len, uint8_t *text, size_t text_room, size_t *text_len,
	 struct pkvm_refused *refused),
	(layout, kept, pages, pages_len, roots, roots_len, text, text_room, text_len, refused))
WRAPPED(pkvm_check,
	(const struct pkvm_layout *layout, const struct pkvm_state *state, uint64_t flags,
	 uint8_t *text, size_t text_room, size_t *text_len, struct pkvm_refused *refused),
	(layout, state, flags, text, text_room, text_len, refused))
WRAPPED(pkvm_fault_text, (uint64_t fault, uint8_t *text, size_t text_room, size_t *text_len),
	(fault, text, text_room, text_len))
