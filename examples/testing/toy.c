// Writes a trace of random calls that the toy hypervisor of examples/c was asked, where a share
// forgets to mark the owner's page. Each reply that it gave is the call's expectation, so `check`
// tells where the model gives another.
//
//	cc -I include examples/testing/toy.c -o toy && ./toy >toy.trace && ./run check toy.trace
#define main toy_main
#include "../c/toy.c"
#undef main

// The toy's own program asks the library; here nobody does.
int32_t pkvm_judge(const struct pkvm_layout *of, const struct pkvm_state *before,
		   const struct pkvm_call *call, const struct pkvm_state *after, uint8_t *text,
		   size_t room, size_t *text_len, struct pkvm_refused *refused)
{
	(void)of, (void)before, (void)call, (void)after, (void)text, (void)room, (void)text_len;
	*refused = (struct pkvm_refused){0};
	return PKVM_AGREES;
}

int main(void)
{
	static struct toy toy;
	boot(&toy, FORGETS_OWNER);
	printf("memory 0x%x 0x%x\ncarve 0x%x 0x%x\nboot\n", MEMORY, PAGES, CARVE, CARVED);
	uint64_t drawn = 1;
	for (int calls = 0; calls < 40; calls++) {
		drawn = drawn * 16807 % 2147483647;
		uint64_t frame = MEMORY + 0x100 + drawn / 8 % 16;
		bool is_share = drawn / 1024 % 8 != 0;
		uint64_t refusal = is_share ? share_hyp(&toy, frame) : unshare_hyp(&toy, frame);
		printf("0 %s 0x%" PRIx64 "\n#= %s\n", is_share ? "share_hyp" : "unshare_hyp", frame,
		       refusal == 0	       ? "ok"
		       : refusal == PKVM_EPERM ? "perm"
					       : "invalid");
	}
	return 0;
}
