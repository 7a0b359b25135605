// A library to be loaded before the C library's: it refuses requests for memory, and reads and
// writes.
//
// It counts the requests, in the file that REFUSED_COUNT names, and refuses the one whose number,
// from 1 on, REFUSED_NUMBER gives. A program may also ask it to, by requests of odd sizes
// (crates/refuse_each/src/refusing.rt): NTH + 2 * N has the Nth request from there on refused, ALL
// each, and MET ends that, and is itself refused where one was.
//
// Of the file that a program opens it counts the reads, and of standard output the writes.
// FAILED_READ and FAILED_WRITE give the number of the call that fails, MOST_BYTES how many bytes a
// call moves at most, and with INTERRUPTED each is interrupted first.
#include <errno.h>
#include <fcntl.h>
#include <stddef.h>
#include <stdint.h>
#include <stdlib.h>
#include <sys/mman.h>
#include <sys/syscall.h>
#include <unistd.h>

void *__libc_malloc(size_t);
void *__libc_calloc(size_t, size_t);
void *__libc_realloc(void *, size_t);
void *__libc_memalign(size_t, size_t);

enum { NTH = 10000001, MOST = 1000000, ALL = 9000001, MET = 9000003 };

// What was counted: requests, reads and writes.
static struct {
	uint64_t requests, reads, writes;
} * count;
static uint64_t refused, failed_read, failed_write, most_bytes, interrupts;
static uint64_t left; // the request that the program wants refused, counted down; 0: none
static int all, met;

static uint64_t number_of(const char *name)
{
	const char *number = getenv(name);
	return number ? strtoull(number, NULL, 10) : 0;
}

__attribute__((constructor)) static void begin(void)
{
	const char *file = getenv("REFUSED_COUNT");
	int fd = file ? open(file, O_RDWR | O_CREAT | O_TRUNC, 0600) : -1;
	if (fd < 0 || ftruncate(fd, sizeof *count)) {
		_exit(99);
	}
	refused = number_of("REFUSED_NUMBER");
	failed_read = number_of("FAILED_READ");
	failed_write = number_of("FAILED_WRITE");
	most_bytes = number_of("MOST_BYTES");
	interrupts = number_of("INTERRUPTED");
	count = mmap(NULL, sizeof *count, PROT_READ | PROT_WRITE, MAP_SHARED, fd, 0);
	close(fd);
	if (count == MAP_FAILED) {
		_exit(99);
	}
}

static int is_refused(size_t size)
{
	if (size > NTH && size <= NTH + 2 * (size_t)MOST && size % 2 == 1) {
		left = (size - NTH) / 2, met = 0, all = 0;
		return 0;
	}
	if (size == ALL) {
		all = 1, met = 0;
		return 0;
	}
	if (size == MET) {
		int was = met;
		left = 0, met = 0, all = 0;
		return was;
	}
	if (all || (left && --left == 0)) {
		met = 1;
		return 1;
	}
	return count && __atomic_add_fetch(&count->requests, 1, __ATOMIC_SEQ_CST) == refused;
}

static void *wanting(void)
{
	errno = ENOMEM;
	return NULL;
}

void *malloc(size_t size)
{
	return is_refused(size) ? wanting() : __libc_malloc(size);
}

void *calloc(size_t n, size_t size)
{
	return is_refused(n * size) ? wanting() : __libc_calloc(n, size);
}

void *realloc(void *old, size_t size)
{
	return is_refused(size) ? wanting() : __libc_realloc(old, size);
}

void *aligned_alloc(size_t align, size_t size)
{
	return is_refused(size) ? wanting() : __libc_memalign(align, size);
}

int posix_memalign(void **made, size_t align, size_t size)
{
	void *given = is_refused(size) ? NULL : __libc_memalign(align, size);
	if (!given) {
		return ENOMEM;
	}
	*made = given;
	return 0;
}

// Whether a call fails: it is interrupted, once before each that isn't, or it is the one that is to
// fail.
static int has_failed(uint64_t *calls, uint64_t *turn, uint64_t failed)
{
	if (interrupts && ++*turn % 2 == 1) {
		errno = EINTR;
		return 1;
	}
	if (++*calls == failed) {
		errno = EIO;
		return 1;
	}
	return 0;
}

static size_t few(size_t size)
{
	return most_bytes && size > most_bytes ? most_bytes : size;
}

ssize_t read(int fd, void *to, size_t size)
{
	static uint64_t turn;
	if (fd > 2 && count && has_failed(&count->reads, &turn, failed_read)) {
		return -1;
	}
	return syscall(SYS_read, fd, to, fd > 2 ? few(size) : size);
}

ssize_t write(int fd, const void *from, size_t size)
{
	static uint64_t turn;
	if (fd == 1 && count && has_failed(&count->writes, &turn, failed_write)) {
		return -1;
	}
	return syscall(SYS_write, fd, from, fd == 1 ? few(size) : size);
}
