/* booted FOLDER: judges the calls that record.py recorded of a booted machine, and audits its last
 * tables. booted FOLDER --trace: writes them as a trace.
 *
 * It stands where boot.c and calls.c do: what those ask of Linux in their own program is here read
 * from the recorded pages.
 */
#include "harness.h"
#include <inttypes.h>
#include <stdio.h>
#include <stdlib.h>
#include <string.h>

enum { PAGE = 4096, FRAMES = 1 << 20 };

/* --- The machine's memory, as far as it is recorded --- */

static uint64_t vm_at[SLOTS];	/* a VM's struct, or 0 */
static const uint8_t **page_of; /* by frame */
static const uint8_t nothing[PAGE];
static const uint8_t *pages; /* that the record names by number */

static const uint8_t *at(uint64_t address)
{
	uint64_t frame = address / PAGE;

	return (frame < FRAMES && page_of[frame] ? page_of[frame] : nothing) + address % PAGE;
}

static uint64_t number(uint64_t address, size_t size)
{
	uint64_t value = 0;

	memcpy(&value, at(address), size);
	return value;
}

/* --- What is known of it --- */

static struct {
	char name[64];
	uint64_t value;
} names[128];
static size_t names_len;

static uint64_t named(const char *name)
{
	for (size_t i = 0; i < names_len; i++)
		if (!strcmp(names[i].name, name))
			return names[i].value;
	refuse("the record has no name %s", name);
}

/* EL2's address of its linear map, as a physical one. */
static uint64_t physical(uint64_t address)
{
	return address + named("hyp_physvirt_offset");
}

static struct linux_tree tree_at(uint64_t pgtable)
{
	uint64_t bits = number(pgtable + named("kvm_pgtable.ia_bits"), 4);
	struct linux_tree it = {
		physical(number(pgtable + named("kvm_pgtable.pgd"), 8)) / PAGE,
		(uint64_t)(int8_t)number(pgtable + named("kvm_pgtable.start_level"), 1), 1};

	/* A page of level 0 has 48 bits, one of level 1 has 39, .. */
	if (bits > 48 - 9 * it.level)
		it.pages = 1ull << (bits - (48 - 9 * it.level));
	return it;
}

struct linux_tree linux_tree(uint64_t tree)
{
	if (tree == HOST)
		return tree_at(named("host_mmu") + named("host_mmu.pgt"));
	if (tree == HYP)
		return tree_at(named("pkvm_pgtable"));
	return tree_at(vm_at[tree - GUEST] + named("pkvm_hyp_vm.pgt"));
}

const uint64_t *linux_table(uint64_t frame)
{
	return (const uint64_t *)(const void *)at(frame * PAGE);
}

/* The frame that EL2's tables have for an address of its own. */
static uint64_t frame_of(uint64_t address)
{
	struct linux_tree it = linux_tree(HYP);
	uint64_t frame = it.root;

	for (uint64_t level = it.level;; level++) {
		unsigned int shift = 12 + 9 * (3 - (unsigned int)level);
		uint64_t word = linux_table(frame)[address >> shift & 511];

		frame = word >> 12 & ((1ull << 36) - 1);
		if (level == 3 || (word & 3) != 3)
			return frame + (address >> 12 & ((1ull << (shift - 12)) - 1));
	}
}

/* A frame's struct of hyp_vmemmap, its first 8 bytes. */
static uint64_t page_struct(uint64_t frame)
{
	static uint64_t size, first, last, last_frame;
	uint64_t address;

	if (!size) {
		size = named("hyp_page");
		first = number(named("__hyp_vmemmap"), 8);
	}
	address = first + frame * size;
	if (address / PAGE != last) {
		last_frame = frame_of(address);
		last = address / PAGE;
	}
	return number(last_frame * PAGE + address % PAGE, size);
}

unsigned int linux_pins(uint64_t frame)
{
	return page_struct(frame) & 0xffff;
}

void linux_pages(uint64_t tree, struct linux_page *to, size_t len)
{
	/* The host's state in 27:24, and in 31:28 the hypervisor's complement. */
	for (size_t i = 0; i < len; i++) {
		uint64_t it = page_struct(memory_frame(i));

		if (tree == HYP)
			to[i] = (struct linux_page){.hyp = (it >> 28 & 3) ^ 3};
		else
			to[i] = (struct linux_page){.host = it >> 24 & 3,
						    .borrowers = (unsigned int)(it >> 32)};
	}
}

bool linux_is_text(uint64_t frame)
{
	return frame >= named("__hyp_text_start") / PAGE && frame < named("__hyp_text_end") / PAGE;
}

uint64_t linux_pool_pages(void)
{
	return named("pool_pages");
}

/* The lists of a pool's free blocks, each of which begins a free block. */
static size_t free_of(uint64_t pool, uint64_t *frames, size_t room)
{
	uint64_t orders = number(pool + named("hyp_pool.max_order"), 1);
	size_t len = 0;

	for (uint64_t order = 0; order <= orders; order++) {
		uint64_t list = pool + named("hyp_pool.free_area") + 16 * order;

		for (uint64_t it = physical(number(list, 8)); it != list && len < room;
		     it = physical(number(it, 8)))
			for (uint64_t k = 0; k < 1ull << order && len < room; k++)
				frames[len++] = it / PAGE + k;
	}
	return len;
}

/* --- VMs: what pkvm.c keeps of them --- */

struct vms vms;

const bool linux_has_guests = HAS_GUESTS;

bool vms_loaded(uint64_t cpu, uint64_t *slot)
{
	*slot = vms.cpus[cpu].vcpu_slot;
	return vms.cpus[cpu].has_vcpu;
}

static uint64_t slot_of(uint64_t vm)
{
	enum { HANDLE_OF_SLOT_0 = 0x1000 };

	return (number(vm + named("pkvm_hyp_vm.kvm.arch.pkvm.handle"), 2) - HANDLE_OF_SLOT_0) %
	       SLOTS;
}

static uint64_t vm_began(uint64_t vm)
{
	uint64_t slot = slot_of(vm);
	bool is_protected = number(vm + named("pkvm_hyp_vm.kvm.arch.pkvm.is_protected"), 1);

	if (!vm_at[slot]) {
		uint64_t kind = is_protected ? PKVM_PROTECTED : PKVM_PLAIN;

		vm_at[slot] = vm;
		vms.slots[slot] = (struct pkvm_slot){slot, PKVM_OPEN, 1, kind, 1};
		vms.guests[slot] = (struct pkvm_guest){slot, PKVM_LIVE, 1, kind};
	}
	return slot;
}

static void vm_dies(uint64_t slot)
{
	if (!vm_at[slot])
		return;
	vms.slots[slot].stand = PKVM_CLOSING;
	vms.guests[slot].phase = PKVM_DYING;
}

static void vm_ended(uint64_t slot)
{
	vm_at[slot] = 0;
	vms.slots[slot] = (struct pkvm_slot){slot, PKVM_VACANT, 1, PKVM_PLAIN, 0};
	vms.guests[slot] = (struct pkvm_guest){.slot = slot};
}

/* The call is on a loaded vCPU of the VM, or on none. */
static void load(bool is_loaded, uint64_t slot)
{
	vms.cpus[0] = (struct pkvm_cpu){0};
	vms.loads_len = is_loaded;
	if (!is_loaded)
		return;
	vms.loads[0] = (struct pkvm_load){slot, 0, 0};
	vms.cpus[0].has_vcpu = 1;
	vms.cpus[0].vcpu_slot = slot;
	vms.cpus[0].vcpu_generation = 1;
}

/* A guest's tables come from its vCPU's list, which isn't recorded: the model is told frames of
 * its own, which are no memory.
 */
static size_t guest_frames(uint64_t slot, uint64_t *frames, size_t room)
{
	enum { NO_MEMORY = 0x3000000, EACH = 16 };
	size_t len = 0;

	while (len < EACH && len < room) {
		frames[len] = NO_MEMORY + slot * EACH + len;
		len++;
	}
	return len;
}

size_t linux_free_frames(uint64_t tree, uint64_t *frames, size_t room)
{
	if (tree < GUEST)
		return free_of(named(tree == HOST ? "host_s2_pool" : "hpool"), frames, room);
	return guest_frames(tree - GUEST, frames, room);
}

uint64_t linux_guest_leaf(uint64_t slot, uint64_t page)
{
	uint64_t word, pages_of_it = 1ull << 27;

	for (uint64_t level = linux_tree(GUEST + slot).level; level < 4; level++) {
		pages_of_it = 1ull << 9 * (3 - level);
		if (!word_at(GUEST + slot, page, level, &word))
			return 0;
		if ((word & 3) == 1 || (level == 3 && word & 1))
			return pages_of_it;
	}
	return 0;
}

/* --- The calls --- */

static const struct kind {
	const char *name;
	uint64_t call;
	int vm; /* which argument leads to a VM */
} kinds[] = {
	{"__pkvm_host_share_hyp", PKVM_SHARE_HYP, -1},
	{"__pkvm_host_unshare_hyp", PKVM_UNSHARE_HYP, -1},
	{"__pkvm_host_donate_hyp", PKVM_DONATE_HYP, -1},
	{"__pkvm_hyp_donate_host", PKVM_HYP_DONATE_HOST, -1},
	{"handle_host_mem_abort", PKVM_HOST_ABORT, -1},
	{"__pkvm_host_share_guest", PKVM_SHARE_GUEST, 3},
	{"__pkvm_host_unshare_guest", PKVM_UNSHARE_GUEST, 2},
	{"__pkvm_host_donate_guest", PKVM_DONATE_GUEST, 2},
	{"__pkvm_guest_share_host", PKVM_GUEST_SHARE_HOST, 0},
	{"__pkvm_guest_unshare_host", PKVM_GUEST_UNSHARE_HOST, 0},
	{"__pkvm_host_relax_perms_guest", PKVM_GUEST_RELAX, 1},
	{"__pkvm_host_reclaim_page_guest", PKVM_RECLAIM_PAGE, 1},
};

static const struct kind *kind_of(const char *name)
{
	for (size_t i = 0; i < sizeof(kinds) / sizeof(*kinds); i++)
		if (!strcmp(kinds[i].name, name))
			return &kinds[i];
	return NULL;
}

/* Bits 0 and 1 of kvm_pgtable_prot are execution at EL1 and EL0, 2 is writing, and 3 reading. */
static uint64_t rights_of(uint64_t prot)
{
	bool may_execute = (prot & 3) == 3, may_write = prot & 4;

	return PKVM_R | (may_write ? 2u : 0u) | (may_execute ? 1u : 0u);
}

/* The step that a call is, on the VM that it names. */
static struct pkvm_step step_of(const struct kind *kind, const uint64_t *a)
{
	uint64_t slot = kind->vm < 0 ? 0 : vm_began(a[kind->vm]);

	load(kind->call == PKVM_SHARE_GUEST || kind->call == PKVM_DONATE_GUEST ||
		     kind->call == PKVM_GUEST_SHARE_HOST || kind->call == PKVM_GUEST_UNSHARE_HOST ||
		     kind->call == PKVM_GUEST_RELAX,
	     slot);
	switch (kind->call) {
	case PKVM_HOST_ABORT: /* HPFAR_EL2 */
		return (struct pkvm_step){kind->call, {a[0] >> 4 & ((1ull << 40) - 1)}};
	case PKVM_SHARE_GUEST:
		return (struct pkvm_step){kind->call, {a[0], a[1], rights_of(a[4]), a[2]}};
	case PKVM_DONATE_GUEST:
		return (struct pkvm_step){kind->call, {a[0], a[1], 1}};
	case PKVM_UNSHARE_GUEST:
	case PKVM_RECLAIM_PAGE:
		return (struct pkvm_step){kind->call, {slot, 1, a[0]}};
	case PKVM_GUEST_SHARE_HOST:
	case PKVM_GUEST_UNSHARE_HOST:
		return (struct pkvm_step){kind->call, {a[1]}};
	case PKVM_GUEST_RELAX:
		return (struct pkvm_step){kind->call, {a[0], rights_of(a[2])}};
	default:
		return (struct pkvm_step){kind->call, {a[0], a[1]}};
	}
}

/* --- The machine --- */

static void machine_of_record(void)
{
	uint64_t blocks = number(named("hyp_memblock_nr"), 4), end = 0;
	struct pkvm_region regions[REGIONS];
	size_t len = 0;

	for (uint64_t i = 0; i < blocks; i++) {
		uint64_t block = named("hyp_memory") + i * named("memblock_region");
		uint64_t first = number(block, 8) / PAGE, count = number(block + 8, 8) / PAGE;

		if (len + 3 > REGIONS)
			refuse("the machine has too many regions of memory");
		if (first > end)
			regions[len++] = (struct pkvm_region){1, end, first - end};
		regions[len++] = (struct pkvm_region){0, first, count};
		end = first + count;
	}
	regions[len++] = (struct pkvm_region){1, end, (1ull << 26) - end};
	memcpy(machine.regions, regions, sizeof(regions));
	machine.regions_len = len;
	machine.linear = (0 - named("hyp_physvirt_offset")) / PAGE;
	machine.is_hvhe = named("is_hvhe");
	machine.is_lpa2 = named("is_lpa2");
	machine.is_fwb = named("is_fwb");
	machine.lacks_lists = true;
	machine.layout = (struct pkvm_layout){
		.address_bits = linux_tree(HOST).level ? 39 : 48,
		.cpus = 1,
		.carve_first = named("pool"),
		.carve_count = named("pool_pages"),
		.regions = machine.regions,
		.regions_len = len,
		.freedoms = FREEDOMS,
	};
	for (uint64_t slot = 0; slot < SLOTS; slot++)
		vm_ended(slot);
}

/* --- The record, line by line --- */

static struct recorded before, after;
static bool is_traced;

/* --- As a trace: a VM's life has calls of its own there --- */

/* The VMs of a record live one after another. */
static struct {
	uint64_t roots[SLOTS]; /* the frames of their roots, in the order in which they begin */
	size_t roots_len, begun;
	uint64_t root_pages;
	size_t pages; /* that it was given for its tables, and hasn't given back */
	bool is_open, is_loaded, is_dying, is_root_back;
} told;

static void find_roots(FILE *calls)
{
	char line[512];
	uint64_t root;

	while (fgets(line, sizeof(line), calls)) {
		if (sscanf(line, "call %*d kvm_guest_prepare_stage2 %*s %" SCNx64, &root) != 1)
			continue;
		if (told.roots_len == SLOTS)
			refuse("the record has too many VMs");
		told.roots[told.roots_len++] = root / PAGE;
	}
	rewind(calls);
}

static void tell_began(uint64_t slot)
{
	if (told.is_open)
		refuse("two VMs live at once, which a trace can't tell");
	printf("0 vm_reserve %s 1\n0 fund 0x%" PRIx64 " %" PRIu64 "\n#= ok\n0 install\n0 vm_open\n",
	       vms.guests[slot].kind == PKVM_PROTECTED ? "protected" : "plain",
	       told.roots[told.begun], told.root_pages);
	told.begun++;
	told.is_open = true;
}

static void tell_dying(void)
{
	if (told.is_loaded)
		printf("0 vcpu_put\n");
	printf("0 teardown 0.%zu\n0 mark_dying\n", told.begun);
	told.is_loaded = false;
	told.is_dying = true;
}

static void tell_ended(void)
{
	printf("0 finish_guest\n0 vm_release\n");
	told.is_open = told.is_dying = told.is_root_back = false;
}

/* A page goes back to the host: one of the VM's tables, its root, or another. */
static bool is_of_vm(const struct pkvm_step *step)
{
	uint64_t first = step->arguments[0], count = step->arguments[1];
	bool is_root = told.begun && first == told.roots[told.begun - 1];

	if (!told.is_dying || (!is_root && (count != 1 || !told.pages)))
		return false;
	told.is_root_back = told.is_root_back || is_root;
	if (!is_root) {
		printf("0 reclaim_pool 0.%zu\n", told.begun);
		told.pages--;
	}
	if (told.is_root_back && !told.pages)
		tell_ended();
	return true;
}

static void tell_step(struct pkvm_step step, const char *reply)
{
	char call[160];

	switch (step.call) {
	case PKVM_DONATE_HYP:
		if (told.begun < told.roots_len && step.arguments[0] == told.roots[told.begun]) {
			told.root_pages = step.arguments[1];
			return;
		}
		if (!told.is_open || step.arguments[1] != 1)
			break;
		told.pages++;
		printf("0 fund 0x%" PRIx64 " 1\n#= %s\n0 topup 0.%zu\n", step.arguments[0], reply,
		       told.begun);
		return;
	case PKVM_HYP_DONATE_HOST:
		if (is_of_vm(&step))
			return;
		break;
	case PKVM_UNSHARE_GUEST:
	case PKVM_RECLAIM_PAGE:
		step.arguments[0] = 0;
		step.arguments[1] = told.begun;
		/* A dying VM's page has this one way back in the model. */
		if (told.is_dying)
			step.call = PKVM_RECLAIM_PAGE;
		break;
	case PKVM_SHARE_GUEST:
	case PKVM_DONATE_GUEST:
	case PKVM_GUEST_SHARE_HOST:
	case PKVM_GUEST_UNSHARE_HOST:
	case PKVM_GUEST_RELAX:
		if (!told.is_loaded)
			printf("0 vcpu_load 0.%zu 0\n", told.begun);
		told.is_loaded = true;
		break;
	default:
		break;
	}
	text_of_step(&step, call, sizeof(call));
	printf("0 %s\n", call);
	/* An abort answers nothing. */
	if (step.call != PKVM_HOST_ABORT)
		printf("#= %s\n", reply);
}

/* --- A call that is over --- */

static void made_one(uint64_t at_line, const struct pkvm_step *step, uint64_t value)
{
	struct made made = {.maker = BY_LINUX};
	struct judgement judgement;
	char call[160], reply[256];
	bool is_way_back;

	/* An abort answers nothing. */
	if (step->call != PKVM_HOST_ABORT)
		made.ended.error = -(int)(int32_t)value;
	made.reply.refusal = refusal_of(step, made.ended.error);
	text_of_step(step, call, sizeof(call));
	text_of_reply(&made, reply, sizeof(reply));
	record(&after);
	judge(&before, 0, step, &made, &after, &judgement);
	count_step(step, &made, &judgement);
	is_way_back = judgement.name && !strcmp(judgement.name, "unshared_while_dying");
	if (is_traced && judgement.verdict == KNOWN && !is_way_back)
		printf("# %s: 0 %s -> %s\n", judgement.name, call, reply);
	else if (is_traced)
		tell_step(*step, reply);
	else if (judgement.verdict == DIFFERS)
		tell(at_line, 0, step, &made, &judgement);
}

/* What the hypervisor has at first beside its pool: its text, its data, its stacks. */
static void begin_trace(void)
{
	record(&before);
	printf("geometry %" PRIu64 "\nlog 1048576\n", machine.layout.address_bits);
	for (size_t i = 0; i < machine.regions_len; i++)
		printf("%s 0x%" PRIx64 " 0x%" PRIx64 "\n",
		       machine.regions[i].kind ? "device" : "memory", machine.regions[i].first,
		       machine.regions[i].count);
	printf("carve 0x%" PRIx64 " 0x%" PRIx64 "\nboot\n", machine.layout.carve_first,
	       machine.layout.carve_count);
	for (size_t i = 0; i < before.runs_len; i++) {
		struct pkvm_run it = before.runs[i];

		if (it.tree != HOST || it.word.says != PKVM_ANNOTATED ||
		    it.page - machine.layout.carve_first < machine.layout.carve_count)
			continue;
		for (; it.count; it.page += 512, it.count -= it.count < 512 ? it.count : 512)
			printf("0 donate_hyp 0x%" PRIx64 " %" PRIu64 "\n#= ok\n", it.page,
			       it.count < 512 ? it.count : 512);
	}
}

/* A call that isn't the model's begins. */
static void event(const char *name, const uint64_t *arguments)
{
	if (!strcmp(name, "__pkvm_start_teardown_vm")) {
		vm_dies((arguments[0] - 0x1000) % SLOTS);
		if (is_traced)
			tell_dying();
	} else if (!strcmp(name, "__pkvm_finalize_teardown_vm"))
		vm_ended((arguments[0] - 0x1000) % SLOTS);
}

/* A VM's tables are there. */
static void vm_is_made(uint64_t vm)
{
	uint64_t slot = vm_began(vm);

	if (is_traced)
		tell_began(slot);
}

static void read_record(FILE *calls)
{
	char line[512], name[64];
	uint64_t a[5], number_of_it, frame, open_call = 0, at_line = 0;
	struct pkvm_step step = {0};
	bool is_open = false, is_begun = false;
	uint64_t vm = 0, vm_call = UINT64_MAX;

	while (fgets(line, sizeof(line), calls)) {
		const struct kind *kind;

		at_line++;
		memset(a, 0, sizeof(a));
		if (sscanf(line, "page %" SCNx64 " %" SCNu64, &frame, &number_of_it) == 2) {
			if (frame < FRAMES)
				page_of[frame] = pages + number_of_it * PAGE;
		} else if (sscanf(line, "name %63s %" SCNx64, name, a) == 2) {
			if (names_len == sizeof(names) / sizeof(*names))
				refuse("the record has too many names");
			strcpy(names[names_len].name, name);
			names[names_len++].value = a[0];
		} else if (sscanf(line,
				  "call %" SCNu64 " %63s %" SCNx64 " %" SCNx64 " %" SCNx64
				  " %" SCNx64 " %" SCNx64,
				  &number_of_it, name, a, a + 1, a + 2, a + 3, a + 4) >= 2) {
			if (!is_begun)
				machine_of_record();
			if (!is_begun && is_traced)
				begin_trace();
			is_begun = true;
			kind = kind_of(name);
			if (is_open && kind)
				refuse("line %" PRIu64 ": a call in a call", at_line);
			if (!kind) {
				if (!strcmp(name, "kvm_guest_prepare_stage2"))
					vm = a[0], vm_call = number_of_it;
				event(name, a);
				continue;
			}
			step = step_of(kind, a);
			open_call = number_of_it;
			is_open = true;
			record(&before);
		} else if (sscanf(line, "return %" SCNu64 " %" SCNx64, &number_of_it, a) == 2) {
			if (number_of_it == vm_call && !a[0])
				vm_is_made(vm);
			if (!is_open || number_of_it != open_call)
				continue;
			made_one(at_line, &step, a[0]);
			is_open = false;
		} else {
			refuse("line %" PRIu64 " of the record is none", at_line);
		}
	}
}

/* --- The audit of the last tables --- */

/* Owner rows as they follow from maps and pools alone: a frame of the pool that is neither free
 * nor a table is in no use.
 */
static void plain_rows(struct recorded *to, uint64_t moved)
{
	static bool is_used[FRAMES];
	struct pkvm_row *rows = calloc(memory_pages() + 1, sizeof(*rows));
	size_t len = 0;

	if (!rows)
		refuse("out of memory");
	for (size_t i = 0; i < to->frames_len; i++)
		is_used[to->frames[i].frame % FRAMES] = true;
	for (size_t i = 0; i < to->tables_len; i++)
		is_used[to->tables[i].frame % FRAMES] = true;
	for (size_t i = 0; i < to->rows_len; i++) {
		for (uint64_t k = 0; k < to->rows[i].count; k++) {
			struct pkvm_row row = to->rows[i];

			row.frame += k;
			row.count = 1;
			row.owner.borrower_page += row.owner.is_lent ? k : 0;
			if (row.owner.is_lent && row.owner.borrower == HYP)
				row.owner.borrower_page += moved;
			if (!is_used[row.frame % FRAMES])
				row.owner.usage = PKVM_USE_PLAIN;
			/* What the hypervisor lends to the host has no row in the model, which
			 * takes it for the host's.
			 */
			if (row.owner.is_lent && row.owner.owner == HYP &&
			    row.owner.borrower == HOST)
				row.owner.owner = HOST;
			rows[len++] = row;
		}
	}
	to->state.rows = rows;
	to->state.rows_len = len;
}

/* A table's words as the library knows them: EL2's are of stage 1, and its other mappings are left
 * out.
 */
static void library_words(const struct pkvm_table *table, uint64_t *words)
{
	uint64_t level = 4 - table->height, shift = 9 * (3 - level);
	const uint64_t *from = linux_table(table->frame);

	for (uint64_t i = 0; i < 512; i++) {
		uint64_t page = (table->index << 9 | i) << shift;
		struct pkvm_word word = said_by_hyp(level, from[i]);

		words[i] = as_without_lpa2(level, from[i]);
		if (table->tree != HYP || !from[i])
			continue;
		words[i] = 0;
		if (word.says == PKVM_TABLE || page - machine.linear < LINEAR)
			if (pkvm_encode(level, &word, &words[i]))
				words[i] = from[i];
	}
}

/* Whether a text of pkvm_audit tells that tables differ from what is kept, or that maps aren't
 * sound. What else isn't legal is left out: EL2's pages, say, lie elsewhere than the model's.
 */
static bool is_difference(const char *text)
{
	static const char *fronts[] = {"disagree ", "two owners ", "two borrowers ", "no share "};

	for (size_t i = 0; i < sizeof(fronts) / sizeof(*fronts); i++)
		if (!strncmp(text, fronts[i], strlen(fronts[i])))
			return true;
	return false;
}

/* Both trees have one geometry in an audit, so a root of level 1 gets a table above it, with a word
 * for each of its pages. The frame of the root then.
 */
static uint64_t root_above(uint64_t tree, struct recorded *to, struct pkvm_page *tables)
{
	enum { NO_MEMORY = 0x3ffff00, TABLE = 3 };
	struct linux_tree it = linux_tree(tree);
	struct pkvm_table above = {tree, 4, 0, NO_MEMORY + tree};
	uint64_t *words;

	if (!it.level)
		return it.root;
	words = calloc(512, sizeof(*words));
	to->tables = realloc(to->tables, (to->tables_len + 1) * sizeof(*to->tables));
	if (!words || !to->tables)
		refuse("out of memory");
	for (uint64_t k = 0; k < it.pages; k++)
		words[k] = (it.root + k) << 12 | TABLE;
	tables[to->tables_len] = (struct pkvm_page){above.frame, words, 512};
	to->tables[to->tables_len++] = above;
	to->state.tables = to->tables;
	to->state.tables_len = to->tables_len;
	return above.frame;
}

/* Whether the last tables are what is kept, and sound. EL2's pages are told where they lie. */
static bool audit(void)
{
	static struct recorded now;
	uint64_t moved = machine.linear - LINEAR;
	struct pkvm_layout layout = machine.layout;
	struct pkvm_root roots[2] = {{.tree = HOST}, {.tree = HYP}};
	struct pkvm_page *tables;
	struct pkvm_refused why = {0};
	char text[512] = "";
	size_t len = 0;
	int32_t status;

	frames_told = SIZE_MAX;
	record(&now);
	tables = calloc(now.tables_len + 2, sizeof(*tables));
	if (!tables)
		refuse("out of memory");
	for (size_t i = 0; i < now.tables_len; i++) {
		uint64_t *words = malloc(PAGE);

		if (!words)
			refuse("out of memory");
		library_words(&now.tables[i], words);
		tables[i] = (struct pkvm_page){now.tables[i].frame, words, 512};
	}
	for (size_t i = 0; i < now.runs_len; i++) {
		if (now.runs[i].tree == HYP)
			now.runs[i].page += moved;
		/* Stage 1 says that they are devices, and this is stage 2. */
		if (now.runs[i].tree == HOST && now.runs[i].word.says == PKVM_LEAF)
			now.runs[i].word.kind = PKVM_NORMAL;
	}
	plain_rows(&now, moved);
	layout.address_bits = 48;
	for (uint64_t tree = HOST; tree <= HYP; tree++)
		roots[tree].frame = root_above(tree, &now, tables);
	status = pkvm_audit(&layout, &now.state, tables, now.tables_len, roots, 2, (uint8_t *)text,
			    sizeof(text) - 1, &len, &why);
	text[len] = 0;
	if (status == PKVM_DISAGREES && !is_difference(text))
		status = PKVM_AGREES;
	printf("audit of %zu tables: ", now.tables_len);
	if (status == PKVM_AGREES)
		printf("agrees and sound\n");
	else if (status == PKVM_DISAGREES)
		printf("%s\n", text);
	else
		printf("status %d fault %" PRIu64 " list %" PRIu64 " index %" PRIu64 "\n", status,
		       why.fault, why.list, why.index);
	return status == PKVM_AGREES;
}

/* --- The program --- */

static void *file_of(const char *folder, const char *name, FILE **file)
{
	char path[4096];
	void *text;
	long size;

	snprintf(path, sizeof(path), "%s/%s", folder, name);
	*file = fopen(path, "rb");
	if (!*file)
		refuse("%s can't be opened", path);
	fseek(*file, 0, SEEK_END);
	size = ftell(*file);
	rewind(*file);
	text = malloc((size_t)size + 1);
	if (!text || fread(text, 1, (size_t)size, *file) != (size_t)size)
		refuse("%s can't be read", path);
	rewind(*file);
	return text;
}

int main(int argc, char **argv)
{
	FILE *calls, *file;
	bool is_good;

	if (argc < 2 || argc > 3 || (argc == 3 && strcmp(argv[2], "--trace")))
		refuse("a folder with a record, and --trace or nothing");
	is_traced = argc == 3;
	page_of = calloc(FRAMES, sizeof(*page_of));
	pages = file_of(argv[1], "pages", &file);
	free(file_of(argv[1], "calls", &calls));
	if (!page_of)
		refuse("out of memory");
	find_roots(calls);
	read_record(calls);
	if (is_traced)
		return print_summary(stderr) ? 0 : 1;
	/* An audit has no root of level -1, as EL2's is with 52 bits of address. */
	is_good = linux_has_guests || linux_tree(HYP).level > 3 || audit();
	return print_summary(stdout) && is_good ? 0 : 1;
}
