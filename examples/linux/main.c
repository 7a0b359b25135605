/* run VERSION hands the words over: TRACE, or --seed N --calls N [--cpus N] [--hostile PERCENT]
 * [--print] [--first]. rounds hands --seed N --round PATH over.
 */
#include "harness.h"
#include <errno.h>
#include <stdio.h>
#include <stdlib.h>
#include <string.h>

static uint64_t number_of(const char *name, const char *word)
{
	char *end;
	uint64_t value;

	errno = 0;
	value = word ? strtoull(word, &end, 0) : 0;
	if (!word || !*word || *end || errno || *word == '-')
		refuse("%s wants a number", name);
	return value;
}

int main(int argc, char **argv)
{
	uint64_t seed = 1, steps = UINT64_MAX, hostile = 10, cpus = 1;
	const char *trace = NULL, *round = NULL;
	bool is_printed = false, is_first = false;

	if (pkvm_version() >> 32 != PKVM_VERSION >> 32)
		refuse("the library is of another version than the header");
	for (int i = 1; i < argc; i++) {
		if (!strcmp(argv[i], "--seed"))
			seed = number_of("--seed", argv[++i]);
		else if (!strcmp(argv[i], "--calls"))
			steps = number_of("--calls", argv[++i]);
		else if (!strcmp(argv[i], "--cpus"))
			cpus = number_of("--cpus", argv[++i]);
		else if (!strcmp(argv[i], "--hostile"))
			hostile = number_of("--hostile", argv[++i]);
		else if (!strcmp(argv[i], "--round") && argv[i + 1])
			round = argv[++i];
		else if (!strcmp(argv[i], "--print"))
			is_printed = true;
		else if (!strcmp(argv[i], "--first"))
			is_first = true;
		else if (!trace && (argv[i][0] != '-' || !argv[i][1]))
			trace = argv[i];
		else
			refuse("%s is no word here", argv[i]);
	}
	if (round)
		return run_round(round, seed);
	if (hostile > 100)
		refuse("--hostile wants 0 to 100");
	if (!trace == (steps == UINT64_MAX))
		refuse("a TRACE, or --seed N --calls N");
	if (cpus < 1 || cpus > 8)
		refuse("--cpus wants 1 to 8");
	if (cpus > 1 && (trace || is_printed))
		refuse("--cpus wants random calls, and none of them is printed");
	if (cpus > 1)
		return run_cpus(cpus, seed, steps, hostile, is_first);
	return trace ? run_trace(trace) : run_random(seed, steps, hostile, is_printed, is_first);
}
