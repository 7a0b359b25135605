/* The three functions by which the library asks for memory, over malloc. A program that has no
 * malloc, as at EL2, defines three of its own with these names, and the linker leaves this file in
 * the archive. docs/C_LIBRARY.md says what they owe; examples/c/freestanding.c has some.
 */
#include <stdbool.h>
#include <stddef.h>
#include <stdlib.h>

/* A block of memory, or none. */
struct pkvm_block {
	bool is_there;
	void *at; /* never NULL */
};

struct pkvm_block pkvm_heap_alloc(size_t size, size_t align);
struct pkvm_block pkvm_heap_realloc(void *at, size_t kept, size_t size, size_t align);
void pkvm_heap_free(void *at);

static struct pkvm_block block_at(void *at)
{
	static char none;

	return (struct pkvm_block){at != NULL, at ? at : &none};
}

struct pkvm_block pkvm_heap_alloc(size_t size, size_t align)
{
	return block_at(malloc(size ? size : align));
}

struct pkvm_block pkvm_heap_realloc(void *at, size_t kept, size_t size, size_t align)
{
	(void)kept;
	return block_at(realloc(at, size ? size : align));
}

void pkvm_heap_free(void *at)
{
	free(at);
}
