/* The first program of the booted machine: it makes VMs, runs them and ends them, and then turns
 * the machine off. A word of its command line says how many plain ones, another how many
 * protected, and at_once=1 that they live at once, each in a process of its own. With stay=1 one
 * more VM of each kind is made that lives until the machine is off.
 */
#include <fcntl.h>
#include <linux/kvm.h>
#include <signal.h>
#include <stdbool.h>
#include <stdint.h>
#include <stdio.h>
#include <stdlib.h>
#include <string.h>
#include <sys/ioctl.h>
#include <sys/mman.h>
#include <sys/mount.h>
#include <sys/reboot.h>
#include <sys/stat.h>
#include <sys/wait.h>
#include <unistd.h>

enum { AT = 0x80000000, SIZE = 0x40000, STEP = 0x10000 };
#define PROTECTED (1ul << 31) /* the kind of VM, where the release has one */

/* A plain guest writes to a page of its own, twice, and then where it has no memory. */
static const uint32_t plain_code[] = {
	0xd2b00001, /* movz x1, #0x8000, lsl 16 */
	0x91404021, /* add  x1, x1, #0x10, lsl 12 */
	0xf9000021, /* str  x1, [x1] */
	0x91404022, /* add  x2, x1, #0x10, lsl 12 */
	0xf9400043, /* ldr  x3, [x2] */
	0xf9000042, /* str  x2, [x2] */
	0xd2a20000, /* movz x0, #0x1000, lsl 16 */
	0xb9000001, /* str  w1, [x0] */
	0x17ffffff, /* b    back to the store */
};

/* A hypercall: x0 its number, x1 an address, x2 and x3 nothing. */
#define HVC(low, high)                                                                             \
	0xd2800000 | (low) << 5, 0xf2a00000 | (high) << 5, 0xaa0503e1, 0xd2800002, 0xd2800003,     \
		0xd4000002
#define SHARE HVC(3, 0xc600)   /* with the host */
#define UNSHARE HVC(4, 0xc600) /* take it back */
#define OFF HVC(8, 0x8400)     /* turn the guest off */

/* A protected guest writes to two pages, shares one, takes it back, is refused, shares it again,
 * and is refused again.
 */
static const uint32_t protected_code[] = {
	0xd2b00001, /* movz x1, #0x8000, lsl 16 */
	0x91404021, /* add  x1, x1, #0x10, lsl 12 */
	0xf9000021, /* str  x1, [x1] */
	0x91404022, /* add  x2, x1, #0x10, lsl 12 */
	0xf9000042, /* str  x2, [x2] */
	0xaa0103e5, /* mov  x5, x1 */
	SHARE,	    UNSHARE, UNSHARE, SHARE, SHARE, OFF,
};

static int asked(const char *what, int it)
{
	if (it < 0) {
		perror(what);
		exit(1);
	}
	return it;
}

static void live(int kvm, unsigned long kind, const uint32_t *code, size_t size, bool stays)
{
	int vm = asked("a VM", ioctl(kvm, KVM_CREATE_VM, kind)), vcpu;
	int run_size = asked("a size", ioctl(kvm, KVM_GET_VCPU_MMAP_SIZE, 0));
	void *memory = mmap(0, SIZE, PROT_READ | PROT_WRITE, MAP_PRIVATE | MAP_ANONYMOUS, -1, 0);
	struct kvm_userspace_memory_region region = {
		.guest_phys_addr = AT, .memory_size = SIZE, .userspace_addr = (uintptr_t)memory};
	uint64_t pc = AT;
	struct kvm_one_reg start = {.id = KVM_REG_ARM64 | KVM_REG_SIZE_U64 | KVM_REG_ARM_CORE |
					  KVM_REG_ARM_CORE_REG(regs.pc),
				    .addr = (uintptr_t)&pc};
	struct kvm_vcpu_init init = {0};
	struct kvm_run *run;

	memcpy(memory, code, size);
	asked("memory", ioctl(vm, KVM_SET_USER_MEMORY_REGION, &region));
	vcpu = asked("a vCPU", ioctl(vm, KVM_CREATE_VCPU, 0));
	asked("a target", ioctl(vm, KVM_ARM_PREFERRED_TARGET, &init));
	init.features[0] |= 1u << KVM_ARM_VCPU_PSCI_0_2;
	asked("its registers", ioctl(vcpu, KVM_ARM_VCPU_INIT, &init));
	asked("its start", ioctl(vcpu, KVM_SET_ONE_REG, &start));
	run = mmap(0, (size_t)run_size, PROT_READ | PROT_WRITE, MAP_SHARED, vcpu, 0);
	for (int i = 0; i < 3 && !ioctl(vcpu, KVM_RUN, 0); i++) {
		printf("a VM's exit: %u\n", run->exit_reason);
		if (run->exit_reason != KVM_EXIT_MMIO)
			break;
	}
	if (stays)
		return;
	munmap(run, (size_t)run_size);
	close(vcpu);
	close(vm);
	munmap(memory, SIZE);
}

static int number(const char *name)
{
	const char *word = getenv(name);

	return word ? atoi(word) : 0;
}

static void live_each(int kvm, int count, unsigned long kind, const uint32_t *code, size_t size)
{
	while (count--) {
		if (number("at_once") && fork())
			continue;
		live(kvm, kind, code, size, false);
		if (number("at_once"))
			exit(0);
	}
}

/* VMs that stay: this process keeps them, and must not end. */
static void stay(int kvm)
{
	if (number("plain"))
		live(kvm, 0, plain_code, sizeof(plain_code), true);
	if (number("protected"))
		live(kvm, PROTECTED, protected_code, sizeof(protected_code), true);
	raise(SIGSTOP);
}

int main(void)
{
	int console, kvm;

	mkdir("/dev", 0755);
	mount("devtmpfs", "/dev", "devtmpfs", 0, 0);
	console = open("/dev/console", O_RDWR);
	if (console >= 0) {
		dup2(console, 0);
		dup2(console, 1);
		dup2(console, 2);
	}
	setvbuf(stdout, NULL, _IONBF, 0);
	if (getpid() == 1 && fork()) {
		/* The first program must not end: its child does the work. */
		int status;

		waitpid(-1, &status, WUNTRACED);
		printf("all VMs %s: %d\n", WIFSTOPPED(status) ? "stay" : "ended", status);
		sync();
		reboot(RB_POWER_OFF);
	}
	kvm = asked("/dev/kvm", open("/dev/kvm", O_RDWR));
	live_each(kvm, number("plain"), 0, plain_code, sizeof(plain_code));
	live_each(kvm, number("protected"), PROTECTED, protected_code, sizeof(protected_code));
	while (wait(0) > 0)
		;
	if (number("stay"))
		stay(kvm);
	return 0;
}
