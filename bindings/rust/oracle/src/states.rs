//! Layouts and states.
use crate::calls::{Vm, VmKind};
use crate::numbered::numbered;
use crate::words::{Party, Word};
use alloc::vec::Vec;
use core::ops::Range;
use pkvm_oracle_sys as sys;

numbered! {
    /// The kind of a region.
    RegionKind {
        /// Memory.
        Memory = sys::PKVM_MEMORY,
        /// Device registers.
        Registers = sys::PKVM_REGISTERS,
    }
}

/// A range of frames of one kind.
#[derive(Clone, Copy, Debug, PartialEq, Eq)]
pub struct Region {
    /// Its kind.
    pub kind: RegionKind,
    /// The first frame.
    pub first: u64,
    /// How many.
    pub count: u64,
}

/// What a hypervisor with tables of its own may choose besides.
#[derive(Clone, Copy, Debug, Default, PartialEq, Eq)]
pub struct Freedoms {
    /// Which pages of its own the host has mapped.
    pub lazy_host: bool,
    /// Of which kind of memory the host has a device's page.
    pub any_kind: bool,
    /// By which number it refuses what a test of a rule refuses.
    pub any_refusal: bool,
}

impl Freedoms {
    fn number(self) -> u64 {
        let bit = |is: bool, bit: u64| if is { bit } else { 0 };
        sys::PKVM_OWN_TABLES
            | bit(self.lazy_host, sys::PKVM_LAZY_HOST)
            | bit(self.any_kind, sys::PKVM_ANY_KIND)
            | bit(self.any_refusal, sys::PKVM_ANY_REFUSAL)
    }
}

/// What a hypervisor runs on.
#[derive(Clone, Debug, PartialEq, Eq)]
pub struct Layout {
    /// 39 or 48.
    pub address_bits: u64,
    /// The number of CPUs.
    pub cpus: u64,
    /// The frames that the hypervisor's tables come from.
    pub carve: Range<u64>,
    /// The regions, at most 16.
    pub regions: Vec<Region>,
    /// What [`judge`](crate::judge) leaves to a hypervisor that has tables and free frames of its own, which it doesn't read then; none: they
    /// are compared too. Nothing else reads it.
    pub freedoms: Option<Freedoms>,
}

impl Layout {
    pub(crate) fn with<T>(&self, then: impl FnOnce(&sys::pkvm_layout) -> T) -> T {
        let raw = |it: &Region| sys::pkvm_region {
            kind: it.kind.number(),
            first: it.first,
            count: it.count,
        };
        let regions: Vec<sys::pkvm_region> = self.regions.iter().map(raw).collect();
        then(&sys::pkvm_layout {
            address_bits: self.address_bits,
            cpus: self.cpus,
            carve_first: self.carve.start,
            carve_count: self.carve.end.saturating_sub(self.carve.start),
            regions: regions.as_ptr(),
            regions_len: regions.len(),
            freedoms: self.freedoms.map_or(0, Freedoms::number),
        })
    }
}

/// A run of pages of one tree.
#[derive(Clone, Copy, Debug, PartialEq, Eq)]
pub struct Run {
    /// Whose tree it is.
    pub tree: Party,
    /// The first page.
    pub page: u64,
    /// How many.
    pub count: u64,
    /// What the first has; a leaf's frame grows with the page.
    pub word: Word,
}

/// A table of one tree, the root among them.
#[derive(Clone, Copy, Debug, PartialEq, Eq)]
pub struct Table {
    /// Whose tree it is.
    pub tree: Party,
    /// 1 is a table of level 3, and so on: it covers 512 ^ height pages.
    pub height: u64,
    /// Which of these blocks it covers.
    pub index: u64,
    /// Its frame.
    pub frame: u64,
}

/// A free frame of a pool.
#[derive(Clone, Copy, Debug, PartialEq, Eq)]
pub struct Frame {
    /// Whose pool it is.
    pub pool: Party,
    /// The frame.
    pub frame: u64,
}

numbered! {
    /// How far a slot of the table of VMs is.
    Stand {
        /// No VM is there.
        Vacant = sys::PKVM_VACANT,
        /// It is reserved.
        Reserved = sys::PKVM_RESERVED,
        /// Its VM can be loaded.
        Open = sys::PKVM_OPEN,
        /// Its VM is torn down.
        Closing = sys::PKVM_CLOSING,
    }
}

/// A slot of the table of VMs, 0 to 63.
#[derive(Clone, Copy, Debug, PartialEq, Eq)]
pub struct Slot {
    /// The slot and its generation.
    pub vm: Vm,
    /// How far it is.
    pub stand: Stand,
    /// The kind of its VM.
    pub kind: VmKind,
    /// How many vCPUs it has, at most 8.
    pub vcpus: u64,
}

/// A vCPU that a CPU has loaded, as the table of VMs has it.
#[derive(Clone, Copy, Debug, PartialEq, Eq)]
pub struct Load {
    /// The slot.
    pub slot: u64,
    /// The vCPU, 0 to 7.
    pub vcpu: u64,
    /// The CPU.
    pub cpu: u64,
}

numbered! {
    /// How far the guest of a slot is.
    Phase {
        /// There is none.
        Empty = sys::PKVM_EMPTY,
        /// It can run.
        Live = sys::PKVM_LIVE,
        /// Its pages are given back.
        Dying = sys::PKVM_DYING,
    }
}

/// What a guest has beside its tree and its pool.
#[derive(Clone, Copy, Debug, PartialEq, Eq)]
pub struct Guest {
    /// The slot and the generation in which it was made.
    pub vm: Vm,
    /// How far it is.
    pub phase: Phase,
    /// Its kind.
    pub kind: VmKind,
}

numbered! {
    /// How far a CPU is with the VM that it is making or ending.
    Stage {
        /// Its slot is reserved.
        Booked = sys::PKVM_BOOKED,
        /// Its guest has tables.
        Installed = sys::PKVM_INSTALLED,
        /// It is torn down.
        ClosingVm = sys::PKVM_CLOSING_VM,
        /// Its guest is marked dying.
        DyingVm = sys::PKVM_DYING_VM,
        /// Its guest has ended.
        Finished = sys::PKVM_FINISHED,
    }
}

/// The VM that a CPU is making or ending.
#[derive(Clone, Copy, Debug, PartialEq, Eq)]
pub struct Ticket {
    /// The VM.
    pub vm: Vm,
    /// Its kind.
    pub kind: VmKind,
    /// How far the CPU is.
    pub stage: Stage,
}

/// A CPU's own state.
#[derive(Clone, Debug, Default, PartialEq, Eq)]
pub struct Cpu {
    /// Below the layout's number.
    pub cpu: u64,
    /// The vCPU that is loaded: its VM, and which one of it.
    pub vcpu: Option<(Vm, u64)>,
    /// The frames that it funded for a guest.
    pub hand: Option<Range<u64>>,
    /// The VM that it is making or ending.
    pub ticket: Option<Ticket>,
}

/// What a frame is used for.
#[derive(Clone, Copy, Debug, Default, PartialEq, Eq)]
pub enum Usage {
    /// For nothing else.
    #[default]
    Plain,
    /// It is of the shared pool.
    SharedPool,
    /// It is of the pool of the guest in a slot.
    GuestPool(u64),
    /// It is in the hand of a CPU.
    Hand(u64),
}

/// Who has a frame.
#[derive(Clone, Copy, Debug, Default, PartialEq, Eq)]
pub struct Owner {
    /// Its owner.
    pub owner: Party,
    /// Who borrows it, at which page of its own.
    pub lent: Option<(Party, u64)>,
    /// What it is used for.
    pub usage: Usage,
}

impl Owner {
    pub(crate) const RAW: sys::pkvm_owner = sys::pkvm_owner {
        owner: sys::PKVM_HOST,
        is_lent: 0,
        borrower: 0,
        borrower_page: 0,
        usage: sys::PKVM_USE_PLAIN,
        user: 0,
    };

    pub(crate) fn raw(self) -> sys::pkvm_owner {
        let (borrower, borrower_page) = self.lent.unwrap_or_default();
        let (usage, user) = match self.usage {
            Usage::Plain => (sys::PKVM_USE_PLAIN, 0),
            Usage::SharedPool => (sys::PKVM_USE_SHARED_POOL, 0),
            Usage::GuestPool(slot) => (sys::PKVM_USE_GUEST_POOL, slot),
            Usage::Hand(cpu) => (sys::PKVM_USE_HAND, cpu),
        };
        sys::pkvm_owner {
            owner: self.owner.number(),
            is_lent: self.lent.is_some().into(),
            borrower: borrower.number(),
            borrower_page,
            usage,
            user,
        }
    }

    pub(crate) fn of(raw: sys::pkvm_owner) -> Option<Owner> {
        Some(Owner {
            owner: Party::of(raw.owner),
            lent: (raw.is_lent != 0).then(|| (Party::of(raw.borrower), raw.borrower_page)),
            usage: match raw.usage {
                sys::PKVM_USE_PLAIN => Usage::Plain,
                sys::PKVM_USE_SHARED_POOL => Usage::SharedPool,
                sys::PKVM_USE_GUEST_POOL => Usage::GuestPool(raw.user),
                sys::PKVM_USE_HAND => Usage::Hand(raw.user),
                _ => return None,
            },
        })
    }
}

/// A run of frames with one owner row.
#[derive(Clone, Copy, Debug, PartialEq, Eq)]
pub struct Row {
    /// The first frame.
    pub frame: u64,
    /// How many.
    pub count: u64,
    /// Who has them; a lent page grows with the frame.
    pub owner: Owner,
}

/// A state. The members of its lists may have any order; no slot, guest or CPU is there twice. A slot that isn't listed is as at boot,
/// such a guest is empty, and such a CPU has nothing; so `State::default()` is one with no map, no table and no free frame.
#[derive(Clone, Debug, Default, PartialEq, Eq)]
pub struct State {
    /// The runs of all maps.
    pub runs: Vec<Run>,
    /// The tables of all trees.
    pub tables: Vec<Table>,
    /// The free frames of all pools.
    pub frames: Vec<Frame>,
    /// The slots of the table of VMs.
    pub slots: Vec<Slot>,
    /// The vCPUs that are loaded.
    pub loads: Vec<Load>,
    /// The guests.
    pub guests: Vec<Guest>,
    /// The CPUs.
    pub cpus: Vec<Cpu>,
    /// The owner rows.
    pub rows: Vec<Row>,
}

/// The lists of a state, as C has their members.
#[derive(Default)]
pub(crate) struct Lists {
    runs: Vec<sys::pkvm_run>,
    tables: Vec<sys::pkvm_table>,
    frames: Vec<sys::pkvm_frame>,
    slots: Vec<sys::pkvm_slot>,
    loads: Vec<sys::pkvm_load>,
    guests: Vec<sys::pkvm_guest>,
    cpus: Vec<sys::pkvm_cpu>,
    rows: Vec<sys::pkvm_row>,
}

impl State {
    pub(crate) fn with<T>(&self, then: impl FnOnce(&sys::pkvm_state) -> T) -> T {
        let lists = Lists {
            runs: self.runs.iter().map(raw_run).collect(),
            tables: self.tables.iter().map(raw_table).collect(),
            frames: self.frames.iter().map(raw_frame).collect(),
            slots: self.slots.iter().map(raw_slot).collect(),
            loads: self.loads.iter().map(raw_load).collect(),
            guests: self.guests.iter().map(raw_guest).collect(),
            cpus: self.cpus.iter().map(raw_cpu).collect(),
            rows: self.rows.iter().map(raw_row).collect(),
        };
        then(&sys::pkvm_state {
            runs: lists.runs.as_ptr(),
            runs_len: lists.runs.len(),
            tables: lists.tables.as_ptr(),
            tables_len: lists.tables.len(),
            frames: lists.frames.as_ptr(),
            frames_len: lists.frames.len(),
            slots: lists.slots.as_ptr(),
            slots_len: lists.slots.len(),
            loads: lists.loads.as_ptr(),
            loads_len: lists.loads.len(),
            guests: lists.guests.as_ptr(),
            guests_len: lists.guests.len(),
            cpus: lists.cpus.as_ptr(),
            cpus_len: lists.cpus.len(),
            rows: lists.rows.as_ptr(),
            rows_len: lists.rows.len(),
        })
    }
}

impl Lists {
    /// Room for this many members, which are to be written.
    pub(crate) fn room(&mut self, sizes: &sys::pkvm_sizes) -> sys::pkvm_room {
        fn list<T>(list: &mut Vec<T>, size: u64) -> (*mut T, usize) {
            list.clear();
            list.reserve_exact(size as usize);
            (list.as_mut_ptr(), size as usize)
        }
        let (runs, runs_len) = list(&mut self.runs, sizes.runs);
        let (tables, tables_len) = list(&mut self.tables, sizes.tables);
        let (frames, frames_len) = list(&mut self.frames, sizes.frames);
        let (slots, slots_len) = list(&mut self.slots, sizes.slots);
        let (loads, loads_len) = list(&mut self.loads, sizes.loads);
        let (guests, guests_len) = list(&mut self.guests, sizes.guests);
        let (cpus, cpus_len) = list(&mut self.cpus, sizes.cpus);
        let (rows, rows_len) = list(&mut self.rows, sizes.rows);
        sys::pkvm_room {
            runs,
            runs_len,
            tables,
            tables_len,
            frames,
            frames_len,
            slots,
            slots_len,
            loads,
            loads_len,
            guests,
            guests_len,
            cpus,
            cpus_len,
            rows,
            rows_len,
        }
    }

    /// The state that the first members of these lists are.
    ///
    /// # Safety
    ///
    /// As many members of each list are written as `sizes` says, no more than there was room for.
    pub(crate) unsafe fn state(&mut self, sizes: &sys::pkvm_sizes) -> Option<State> {
        // SAFETY: the caller's.
        unsafe {
            self.runs.set_len(sizes.runs as usize);
            self.tables.set_len(sizes.tables as usize);
            self.frames.set_len(sizes.frames as usize);
            self.slots.set_len(sizes.slots as usize);
            self.loads.set_len(sizes.loads as usize);
            self.guests.set_len(sizes.guests as usize);
            self.cpus.set_len(sizes.cpus as usize);
            self.rows.set_len(sizes.rows as usize);
        }
        Some(State {
            runs: self.runs.iter().map(run_of).collect::<Option<_>>()?,
            tables: self.tables.iter().map(table_of).collect(),
            frames: self.frames.iter().map(frame_of).collect(),
            slots: self.slots.iter().map(slot_of).collect::<Option<_>>()?,
            loads: self.loads.iter().map(load_of).collect(),
            guests: self.guests.iter().map(guest_of).collect::<Option<_>>()?,
            cpus: self.cpus.iter().map(cpu_of).collect::<Option<_>>()?,
            rows: self.rows.iter().map(row_of).collect::<Option<_>>()?,
        })
    }
}

fn raw_run(it: &Run) -> sys::pkvm_run {
    sys::pkvm_run {
        tree: it.tree.number(),
        page: it.page,
        count: it.count,
        word: it.word.raw(),
    }
}

fn run_of(raw: &sys::pkvm_run) -> Option<Run> {
    Some(Run {
        tree: Party::of(raw.tree),
        page: raw.page,
        count: raw.count,
        word: Word::of(raw.word)?,
    })
}

fn raw_table(it: &Table) -> sys::pkvm_table {
    sys::pkvm_table {
        tree: it.tree.number(),
        height: it.height,
        index: it.index,
        frame: it.frame,
    }
}

fn table_of(raw: &sys::pkvm_table) -> Table {
    Table {
        tree: Party::of(raw.tree),
        height: raw.height,
        index: raw.index,
        frame: raw.frame,
    }
}

fn raw_frame(it: &Frame) -> sys::pkvm_frame {
    sys::pkvm_frame {
        pool: it.pool.number(),
        frame: it.frame,
    }
}

fn frame_of(raw: &sys::pkvm_frame) -> Frame {
    Frame {
        pool: Party::of(raw.pool),
        frame: raw.frame,
    }
}

fn raw_slot(it: &Slot) -> sys::pkvm_slot {
    sys::pkvm_slot {
        slot: it.vm.slot,
        stand: it.stand.number(),
        generation: it.vm.generation,
        kind: it.kind.number(),
        vcpus: it.vcpus,
    }
}

fn slot_of(raw: &sys::pkvm_slot) -> Option<Slot> {
    Some(Slot {
        vm: Vm {
            slot: raw.slot,
            generation: raw.generation,
        },
        stand: Stand::of(raw.stand)?,
        kind: VmKind::of(raw.kind)?,
        vcpus: raw.vcpus,
    })
}

fn raw_load(it: &Load) -> sys::pkvm_load {
    sys::pkvm_load {
        slot: it.slot,
        vcpu: it.vcpu,
        cpu: it.cpu,
    }
}

fn load_of(raw: &sys::pkvm_load) -> Load {
    Load {
        slot: raw.slot,
        vcpu: raw.vcpu,
        cpu: raw.cpu,
    }
}

fn raw_guest(it: &Guest) -> sys::pkvm_guest {
    sys::pkvm_guest {
        slot: it.vm.slot,
        phase: it.phase.number(),
        generation: it.vm.generation,
        kind: it.kind.number(),
    }
}

fn guest_of(raw: &sys::pkvm_guest) -> Option<Guest> {
    Some(Guest {
        vm: Vm {
            slot: raw.slot,
            generation: raw.generation,
        },
        phase: Phase::of(raw.phase)?,
        kind: VmKind::of(raw.kind)?,
    })
}

fn raw_cpu(it: &Cpu) -> sys::pkvm_cpu {
    const NO_VM: Vm = Vm {
        slot: 0,
        generation: 0,
    };
    let (vcpu_vm, vcpu) = it.vcpu.unwrap_or((NO_VM, 0));
    let hand = it.hand.clone().unwrap_or(0..0);
    let ticket = it.ticket.unwrap_or(Ticket {
        vm: NO_VM,
        kind: VmKind::Plain,
        stage: Stage::Booked,
    });
    sys::pkvm_cpu {
        cpu: it.cpu,
        has_vcpu: it.vcpu.is_some().into(),
        vcpu_slot: vcpu_vm.slot,
        vcpu_generation: vcpu_vm.generation,
        vcpu,
        has_hand: it.hand.is_some().into(),
        hand_first: hand.start,
        hand_count: hand.end.saturating_sub(hand.start),
        has_ticket: it.ticket.is_some().into(),
        ticket_slot: ticket.vm.slot,
        ticket_generation: ticket.vm.generation,
        ticket_kind: ticket.kind.number(),
        ticket_stage: ticket.stage.number(),
    }
}

fn cpu_of(raw: &sys::pkvm_cpu) -> Option<Cpu> {
    let vcpu_vm = Vm {
        slot: raw.vcpu_slot,
        generation: raw.vcpu_generation,
    };
    let ticket = match raw.has_ticket {
        0 => None,
        _ => Some(Ticket {
            vm: Vm {
                slot: raw.ticket_slot,
                generation: raw.ticket_generation,
            },
            kind: VmKind::of(raw.ticket_kind)?,
            stage: Stage::of(raw.ticket_stage)?,
        }),
    };
    Some(Cpu {
        cpu: raw.cpu,
        vcpu: (raw.has_vcpu != 0).then_some((vcpu_vm, raw.vcpu)),
        hand: (raw.has_hand != 0)
            .then(|| raw.hand_first..raw.hand_first.saturating_add(raw.hand_count)),
        ticket,
    })
}

fn raw_row(it: &Row) -> sys::pkvm_row {
    sys::pkvm_row {
        frame: it.frame,
        count: it.count,
        owner: it.owner.raw(),
    }
}

fn row_of(raw: &sys::pkvm_row) -> Option<Row> {
    Some(Row {
        frame: raw.frame,
        count: raw.count,
        owner: Owner::of(raw.owner)?,
    })
}
