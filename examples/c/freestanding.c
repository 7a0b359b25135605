// The oracle without a C library, as at EL2: the three functions by which it asks for memory, mem*,
// which compilers want too, and one judged call. tests/c_library/freestanding builds it with
// -ffreestanding -nostdlib, for x86-64 and arm64.
#include "pkvm_oracle.h"
#include <stdbool.h>

// Memory: blocks of an array one after another. None is given back alone; all are, once a call is
// judged.
struct pkvm_block {
	bool is_there;
	void *at; // never NULL, also where there is none
};

static _Alignas(16) uint8_t heap[512 << 10];
static size_t used;

struct pkvm_block pkvm_heap_alloc(size_t size, size_t align)
{
	size_t first = (used + align - 1) & ~(align - 1);

	if (first > sizeof heap || size > sizeof heap - first)
		return (struct pkvm_block){false, heap};
	used = first + size;
	return (struct pkvm_block){true, heap + first};
}

// The first `kept` bytes stay.
struct pkvm_block pkvm_heap_realloc(void *at, size_t kept, size_t size, size_t align)
{
	struct pkvm_block to = pkvm_heap_alloc(size, align);

	for (size_t i = 0; to.is_there && i < kept; i++)
		((uint8_t *)to.at)[i] = ((uint8_t *)at)[i];
	return to;
}

void pkvm_heap_free(void *at)
{
	(void)at;
}

void *memset(void *to, int byte, size_t size)
{
	for (size_t i = 0; i < size; i++)
		((uint8_t *)to)[i] = (uint8_t)byte;
	return to;
}

void *memmove(void *to, const void *from, size_t size)
{
	if ((uintptr_t)to - (uintptr_t)from >= size)
		for (size_t i = 0; i < size; i++)
			((uint8_t *)to)[i] = ((const uint8_t *)from)[i];
	else
		while (size--)
			((uint8_t *)to)[size] = ((const uint8_t *)from)[size];
	return to;
}

void *memcpy(void *to, const void *from, size_t size)
{
	return memmove(to, from, size);
}

// The machine: here Linux, which writes a text and ends the program.
static long system_call(long number, long first, long second, long third)
{
#if defined(__x86_64__)
	long result = number;

	__asm__ volatile("syscall"
			 : "+a"(result)
			 : "D"(first), "S"(second), "d"(third)
			 : "rcx", "r11", "memory");
	return result;
#elif defined(__aarch64__)
	register long x8 __asm__("x8") = number, x0 __asm__("x0") = first,
			 x1 __asm__("x1") = second, x2 __asm__("x2") = third;

	__asm__ volatile("svc 0" : "+r"(x0) : "r"(x8), "r"(x1), "r"(x2) : "memory");
	return x0;
#endif
}

#if defined(__x86_64__)
enum { WRITE = 1, EXIT = 60 };
#else
enum { WRITE = 64, EXIT = 93 };
#endif

static void say(const void *text, size_t length)
{
	system_call(WRITE, 1, (long)text, (long)length);
}

// The host shares a page with the hypervisor, and the hypervisor forgets to mark the host's.
static const struct pkvm_region memory = {PKVM_MEMORY, 0x40000, 0x800};
static const struct pkvm_layout layout = {39, 1, 0x40600, 0x40, &memory, 1, 0};
static const struct pkvm_run runs[] = {
	{PKVM_HOST, 0x40600, 0x40, {.says = PKVM_ANNOTATED, .owner = PKVM_HYP}},
	{PKVM_HYP, 0x4040600, 0x40, {PKVM_LEAF, 0x40600, 0, PKVM_RW, PKVM_NORMAL, PKVM_OWNED}},
	{PKVM_HOST, 0x40100, 1, {PKVM_LEAF, 0x40100, 0, PKVM_RWX, PKVM_NORMAL, PKVM_OWNED}},
	{PKVM_HYP,
	 0x4040100,
	 1,
	 {PKVM_LEAF, 0x40100, 0, PKVM_RW, PKVM_NORMAL, PKVM_SHARED_BORROWED}},
};
static const struct pkvm_table tables[] = {
	{PKVM_HOST, 3, 0, 0x40600},	{PKVM_HOST, 2, 1, 0x40601},
	{PKVM_HOST, 1, 0x203, 0x40602}, {PKVM_HYP, 3, 0, 0x40603},
	{PKVM_HYP, 2, 0x101, 0x40604},	{PKVM_HYP, 1, 0x20203, 0x40605},
	{PKVM_HOST, 1, 0x200, 0x40606}, {PKVM_HYP, 1, 0x20200, 0x40607},
};
static const struct pkvm_row rows[] = {
	{0x40600, 0x40, {.owner = PKVM_HYP, .usage = PKVM_USE_SHARED_POOL}},
	{0x40100, 1, {.is_lent = 1, .borrower = PKVM_HYP, .borrower_page = 0x4040100}},
};
static struct pkvm_frame frames[0x3a];

static int judge(void)
{
	for (size_t i = 0; i < 0x3a; i++)
		frames[i] = (struct pkvm_frame){PKVM_HYP, 0x40606 + i};
	struct pkvm_state before = {.runs = runs,
				    .runs_len = 2,
				    .tables = tables,
				    .tables_len = 6,
				    .frames = frames,
				    .frames_len = 0x3a,
				    .rows = rows,
				    .rows_len = 1};
	struct pkvm_state after = {.runs = runs,
				   .runs_len = 4,
				   .tables = tables,
				   .tables_len = 8,
				   .frames = frames + 2,
				   .frames_len = 0x38,
				   .rows = rows,
				   .rows_len = 2};
	struct pkvm_call call = {0, {PKVM_SHARE_HYP, {0x40100}}, {.refusal = 0}};
	struct pkvm_refused refused;
	uint8_t text[256];
	size_t length;
	int32_t status = pkvm_judge(&layout, &before, &call, &after, text, sizeof text - 1, &length,
				    &refused);
	if (status != PKVM_DISAGREES)
		return 1;
	text[length] = '\n';
	say(text, length + 1);

	// The bytes of memory that it took, and then with half of them.
	uint8_t digits[8] = "      \n";
	for (size_t i = 6, left = used; i--; left /= 10)
		digits[i] = (uint8_t)('0' + left % 10);
	say(digits, 7);
	used = sizeof heap - used / 2;
	status = pkvm_judge(&layout, &before, &call, &after, text, sizeof text, &length, &refused);
	used = 0;
	return status == PKVM_NO_MEMORY ? 0 : 2;
}

#if defined(__x86_64__)
__attribute__((force_align_arg_pointer))
#endif
void _start(void)
{
	system_call(EXIT, judge(), 0, 0);
	__builtin_unreachable();
}
