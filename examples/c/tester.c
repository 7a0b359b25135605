// Random tests of the toy hypervisor. `tester BUG SEED COUNT` makes calls that pkvm_suggest picks
// and asks pkvm_judge of each, until so many were made or one disagrees: then what was done is
// written as a trace, and the status is 1. `tester BUG FILE` makes the calls of such a trace again,
// and its status is 0 where one disagrees, so that it is a test for examples/testing/shrink. BUG is
// 0 for none, or the number of one of the toy's.
#define TOY_IS_TESTED
#include "toy.c"
#include <stdlib.h>

static struct toy toy;

// Makes a call of the toy's, and judges it. Whether it agrees.
static bool agrees(struct pkvm_call *call)
{
	static struct recorded before, after;
	uint64_t frame = call->step.arguments[0];
	uint8_t text[512];
	size_t length = 0;
	struct pkvm_refused refused;

	record(&toy, &before);
	call->reply = (struct pkvm_reply){.refusal = call->step.call == PKVM_SHARE_HYP
							     ? share_hyp(&toy, frame)
							     : unshare_hyp(&toy, frame)};
	record(&toy, &after);
	int32_t status = pkvm_judge(&layout, &before.state, call, &after.state, text, sizeof text,
				    &length, &refused);
	if (status == PKVM_DISAGREES)
		fprintf(stderr, "%.*s\n", (int)length, (const char *)text);
	else if (status == PKVM_BAD_AFTER &&
		 !pkvm_fault_text(refused.fault, text, sizeof text, &length))
		fprintf(stderr, "the state after it: %.*s\n", (int)length, (const char *)text);
	else if (status != PKVM_AGREES)
		exit(2);
	return status == PKVM_AGREES;
}

// Writes what was done as a trace.
static void write_trace(const struct pkvm_call *made, size_t count)
{
	struct pkvm_refused refused;
	uint8_t text[256];
	size_t length;

	if (pkvm_trace_start(&layout, text, sizeof text, &length, &refused))
		exit(2);
	fwrite(text, 1, length, stdout);
	for (size_t i = 0; i < count; i++) {
		if (pkvm_trace_of(&layout, &made[i], text, sizeof text, &length))
			exit(2);
		fwrite(text, 1, length, stdout);
	}
}

// Makes so many calls that are suggested. Whether all agree; else they are written.
static bool random_calls(uint64_t seed, uint64_t count)
{
	static struct recorded now;
	static struct pkvm_call made[10000];
	uint64_t random = seed << 32;
	struct pkvm_refused refused;

	for (size_t n = 0; n < count && n < sizeof made / sizeof *made;) {
		record(&toy, &now);
		if (pkvm_suggest(&layout, &now.state, random++, 20, &made[n], &refused))
			exit(2);
		if (made[n].step.call > PKVM_UNSHARE_HYP)
			continue; // the toy hasn't the call
		if (agrees(&made[n++]))
			continue;
		write_trace(made, n);
		return false;
	}
	return true;
}

// Makes the calls of a trace, which replay must find fit to be one. Whether all agree.
static bool calls_of(const char *path)
{
	static char trace[1 << 20], report[1 << 20];
	FILE *file = fopen(path, "r");
	size_t length = file ? fread(trace, 1, sizeof trace - 1, file) : 0, written;

	if (!length || pkvm_replay((const uint8_t *)trace, length, (uint8_t *)report, sizeof report,
				   &written) != PKVM_CLEAN)
		exit(2);
	for (char *line = strtok(trace, "\n"); line; line = strtok(NULL, "\n")) {
		struct pkvm_call call = {0};
		char name[32];
		if (sscanf(line, "0 %31s 0x%" SCNx64, name, &call.step.arguments[0]) != 2)
			continue;
		call.step.call = strcmp(name, "share_hyp") ? PKVM_UNSHARE_HYP : PKVM_SHARE_HYP;
		if (!agrees(&call))
			return false;
	}
	return true;
}

int main(int argc, char **argv)
{
	if (argc != 3 && argc != 4)
		return 2;
	boot(&toy, (enum bug)strtoul(argv[1], NULL, 10));
	if (argc == 3)
		return calls_of(argv[2]) ? 1 : 0;
	return random_calls(strtoull(argv[2], NULL, 10), strtoull(argv[3], NULL, 10)) ? 0 : 1;
}
