//! The functions, structs and numbers of `include/pkvm_oracle.h`, by the same names. What each means stands there, and only there;
//! the crate `pkvm-oracle` wraps them.
//!
//! ```
//! use pkvm_oracle_sys as sys;
//!
//! // SAFETY: the functions take nothing.
//! unsafe {
//!     assert_eq!(sys::pkvm_version(), sys::PKVM_VERSION);
//!     println!("proved: {}", sys::pkvm_is_proved());
//! }
//! ```
#![no_std]
#![allow(non_camel_case_types)]

macro_rules! numbers {
    ($about:literal $kind:ty: $($name:ident = $number:expr),*) => {
        $(#[doc = $about] pub const $name: $kind = $number;)*
    };
}

macro_rules! structs {
    ($($(#[$about:meta])* $name:ident { $($field:ident: $kind:ty),* })*) => {
        $(
            $(#[$about])*
            #[allow(missing_docs)]
            #[repr(C)]
            #[derive(Clone, Copy, Debug, PartialEq, Eq)]
            pub struct $name {
                $(pub $field: $kind),*
            }
        )*
    };
}

/// The version of the header that this crate stands for.
pub const PKVM_VERSION: u64 = 0x3_0000_0000;

numbers! {
    "Numbers of owners, trees and pools; a guest has `PKVM_GUEST` and its slot." u64:
    PKVM_HOST = 0, PKVM_HYP = 1, PKVM_GUEST = 2
}
numbers! {
    "What a word says." u64:
    PKVM_MALFORMED = 0, PKVM_UNMAPPED = 1, PKVM_ANNOTATED = 2, PKVM_LEAF = 3, PKVM_TABLE = 4
}
numbers! {
    "Rights of a leaf." u64:
    PKVM_R = 4, PKVM_RX = 5, PKVM_RW = 6, PKVM_RWX = 7
}
numbers! {
    "Kinds of a leaf." u64:
    PKVM_NORMAL = 0, PKVM_DEVICE = 1
}
numbers! {
    "States of a leaf." u64:
    PKVM_OWNED = 0, PKVM_SHARED_OWNED = 1, PKVM_SHARED_BORROWED = 2
}
numbers! {
    "Errors, statuses of more than one function." i32:
    PKVM_NO_LEVEL = -1, PKVM_NO_ROOM = -2, PKVM_BAD_NUMBER = -3, PKVM_NO_WORD = -4, PKVM_BAD_STEP = -5,
    PKVM_BAD_REPLY = -6, PKVM_BAD_CPU = -7, PKVM_BAD_LAYOUT = -8, PKVM_BAD_BEFORE = -9, PKVM_BAD_AFTER = -10,
    PKVM_LAST_GENERATION = -11, PKVM_NO_MEMORY = -12, PKVM_BAD_TABLES = -13
}
numbers! {
    "How a replay ended." i32:
    PKVM_CLEAN = 0, PKVM_DISAGREED = 1, PKVM_FAULT = 2
}
numbers! {
    "Kinds of a region." u64:
    PKVM_MEMORY = 0, PKVM_REGISTERS = 1
}
numbers! {
    "What a hypervisor may choose." u64:
    PKVM_OWN_TABLES = 1, PKVM_LAZY_HOST = 2, PKVM_ANY_KIND = 4, PKVM_ANY_REFUSAL = 8
}
numbers! {
    "Stands of a slot." u64:
    PKVM_VACANT = 0, PKVM_RESERVED = 1, PKVM_OPEN = 2, PKVM_CLOSING = 3
}
numbers! {
    "Kinds of a VM." u64:
    PKVM_PLAIN = 0, PKVM_PROTECTED = 1
}
numbers! {
    "Phases of a guest." u64:
    PKVM_EMPTY = 0, PKVM_LIVE = 1, PKVM_DYING = 2
}
numbers! {
    "Stages of a ticket." u64:
    PKVM_BOOKED = 0, PKVM_INSTALLED = 1, PKVM_CLOSING_VM = 2, PKVM_DYING_VM = 3, PKVM_FINISHED = 4
}
numbers! {
    "Uses of a frame." u64:
    PKVM_USE_PLAIN = 0, PKVM_USE_SHARED_POOL = 1, PKVM_USE_GUEST_POOL = 2, PKVM_USE_HAND = 3
}
numbers! {
    "Why a layout, a state or tables are refused." u64:
    PKVM_FAULT_NONE = 0, PKVM_FAULT_GEOMETRY = 1, PKVM_FAULT_REGIONS = 2, PKVM_FAULT_NO_PAGE = 3,
    PKVM_FAULT_PAST_LIMIT = 4, PKVM_FAULT_REGIONS_SHARE = 5, PKVM_FAULT_CARVE_OUTSIDE = 6, PKVM_FAULT_UNKNOWN = 7,
    PKVM_FAULT_ROWS_LARGE = 8, PKVM_FAULT_ROWS_SHARE = 9, PKVM_FAULT_TWICE = 10, PKVM_FAULT_LARGE = 11,
    PKVM_FAULT_RUNS_SHARE = 12, PKVM_FAULT_TABLE_TWICE = 13, PKVM_FAULT_FRAME_TWICE = 14,
    PKVM_FAULT_PAGE_LENGTH = 15, PKVM_FAULT_PAGE_TWICE = 16, PKVM_FAULT_ROOT_TREE = 17, PKVM_FAULT_ROOT_TWICE = 18,
    PKVM_FAULT_ROOT_PAGE = 19, PKVM_FAULT_LOOP = 20, PKVM_FAULT_TWO_LEVELS = 21, PKVM_FAULT_REACHED_TWICE = 22,
    PKVM_FAULT_FREEDOM = 23, PKVM_FAULT_NOT_OWN_TABLES = 24,
    PKVM_FAULT_CPUS = 25, PKVM_FAULT_CARVE_SMALL = 26, PKVM_FAULT_ROOT_PROFILE = 27, PKVM_FAULT_ROOT_LEVELS = 28,
    PKVM_FAULT_ROOT_PAGES = 29, PKVM_FAULT_ROOT_SKIPS = 30
}
numbers! {
    "By whose rules words are written: one of the first three, and what is added to it." u64:
    PKVM_MODEL = 0, PKVM_LINUX_6_12 = 1, PKVM_LINUX_7_3 = 2, PKVM_FWB = 16, PKVM_HVHE = 32, PKVM_LPA2 = 64
}
numbers! {
    "Who alone may execute." u64:
    PKVM_EL0_ALONE = 1, PKVM_ABOVE_EL0_ALONE = 2
}
numbers! {
    "Normal memory of another kind." u64:
    PKVM_UNCACHED = 1, PKVM_AS_STAGE_1 = 2
}
numbers! {
    "The lists in which the member at fault is." u64:
    PKVM_LIST_NONE = 0, PKVM_LIST_RUNS = 1, PKVM_LIST_TABLES = 2, PKVM_LIST_FRAMES = 3, PKVM_LIST_SLOTS = 4,
    PKVM_LIST_LOADS = 5, PKVM_LIST_GUESTS = 6, PKVM_LIST_CPUS = 7, PKVM_LIST_ROWS = 8, PKVM_LIST_PAGES = 9,
    PKVM_LIST_ROOTS = 10
}
numbers! {
    "Calls." u64:
    PKVM_SHARE_HYP = 1, PKVM_UNSHARE_HYP = 2, PKVM_DONATE_HYP = 3, PKVM_HYP_DONATE_HOST = 4, PKVM_HOST_ABORT = 5,
    PKVM_HOST_TRANSLATE = 6, PKVM_HYP_TRANSLATE = 7, PKVM_OWNER_OF = 8, PKVM_FUND = 9, PKVM_UNFUND = 10,
    PKVM_SHARE_GUEST = 11, PKVM_UNSHARE_GUEST = 12, PKVM_DONATE_GUEST = 13, PKVM_GUEST_SHARE_HOST = 14,
    PKVM_GUEST_UNSHARE_HOST = 15, PKVM_INSTALL = 16, PKVM_TOPUP = 17, PKVM_RECLAIM_PAGE = 18,
    PKVM_RECLAIM_POOL = 19, PKVM_FINISH_GUEST = 20, PKVM_GUEST_RELAX = 21, PKVM_GUEST_TRANSLATE = 22,
    PKVM_MARK_DYING = 23, PKVM_VM_RESERVE = 24, PKVM_VM_OPEN = 25, PKVM_VCPU_LOAD = 26, PKVM_VCPU_PUT = 27,
    PKVM_TEARDOWN = 28, PKVM_VM_RELEASE = 29
}
numbers! {
    "Refusals." u64:
    PKVM_EPERM = 1, PKVM_ENOVM = 2, PKVM_ECONTENDED = 11, PKVM_ENOMEMORY = 12, PKVM_EBUSY = 16, PKVM_EINVALID = 22,
    PKVM_ENOPOOL = 28, PKVM_ELOGFULL = 75, PKVM_STOPPED = 65536
}
numbers! {
    "What a call gives." u64:
    PKVM_GIVES_NOTHING = 0, PKVM_GIVES_VM = 1, PKVM_GIVES_FRAME = 2, PKVM_GIVES_ENTRY = 3, PKVM_GIVES_ROW = 4
}
numbers! {
    "Verdicts." i32:
    PKVM_AGREES = 0, PKVM_DISAGREES = 1
}
numbers! {
    "What is asked of the tables of a legal state." u64:
    PKVM_COARSEST_TREES = 0, PKVM_ANY_TREES = 1
}
structs! {
    /// What a word says.
    pkvm_word { says: u64, frame: u64, owner: u64, rights: u64, kind: u64, state: u64 }
    /// What a word says beyond `pkvm_word`.
    pkvm_beyond {
        has_guest: u64, handle: u64, guest_page: u64, is_poisoned: u64, is_locked: u64, is_cleared: u64,
        is_unreadable: u64, is_guarded: u64, is_aged: u64, is_stateless: u64, alone: u64, memory: u64, leaf: pkvm_word
    }
    /// A range of frames of one kind.
    pkvm_region { kind: u64, first: u64, count: u64 }
    /// What a hypervisor runs on.
    pkvm_layout {
        address_bits: u64, cpus: u64, carve_first: u64, carve_count: u64, regions: *const pkvm_region,
        regions_len: usize, freedoms: u64
    }
    /// A run of pages of one tree.
    pkvm_run { tree: u64, page: u64, count: u64, word: pkvm_word }
    /// A table of one tree.
    pkvm_table { tree: u64, height: u64, index: u64, frame: u64 }
    /// A free frame of a pool.
    pkvm_frame { pool: u64, frame: u64 }
    /// A slot of the table of VMs.
    pkvm_slot { slot: u64, stand: u64, generation: u64, kind: u64, vcpus: u64 }
    /// A vCPU that a CPU has loaded.
    pkvm_load { slot: u64, vcpu: u64, cpu: u64 }
    /// What a guest has beside its tree and its pool.
    pkvm_guest { slot: u64, phase: u64, generation: u64, kind: u64 }
    /// A CPU's own state.
    pkvm_cpu {
        cpu: u64, has_vcpu: u64, vcpu_slot: u64, vcpu_generation: u64, vcpu: u64, has_hand: u64, hand_first: u64,
        hand_count: u64, has_ticket: u64, ticket_slot: u64, ticket_generation: u64, ticket_kind: u64,
        ticket_stage: u64
    }
    /// Who has a frame.
    pkvm_owner { owner: u64, is_lent: u64, borrower: u64, borrower_page: u64, usage: u64, user: u64 }
    /// A run of frames with one owner row.
    pkvm_row { frame: u64, count: u64, owner: pkvm_owner }
    /// A state.
    pkvm_state {
        runs: *const pkvm_run, runs_len: usize, tables: *const pkvm_table, tables_len: usize,
        frames: *const pkvm_frame, frames_len: usize, slots: *const pkvm_slot, slots_len: usize,
        loads: *const pkvm_load, loads_len: usize, guests: *const pkvm_guest, guests_len: usize,
        cpus: *const pkvm_cpu, cpus_len: usize, rows: *const pkvm_row, rows_len: usize
    }
    /// Why something is refused.
    pkvm_refused { fault: u64, list: u64, index: u64 }
    /// A call and its arguments.
    pkvm_step { call: u64, arguments: [u64; 4] }
    /// A call's reply.
    pkvm_reply {
        refusal: u64, gives: u64, slot: u64, generation: u64, frame: u64, entry: pkvm_word, row: pkvm_owner
    }
    /// A call of a CPU, with its reply.
    pkvm_call { cpu: u64, step: pkvm_step, reply: pkvm_reply }
    /// Room for the lists of a state.
    pkvm_room {
        runs: *mut pkvm_run, runs_len: usize, tables: *mut pkvm_table, tables_len: usize, frames: *mut pkvm_frame,
        frames_len: usize, slots: *mut pkvm_slot, slots_len: usize, loads: *mut pkvm_load, loads_len: usize,
        guests: *mut pkvm_guest, guests_len: usize, cpus: *mut pkvm_cpu, cpus_len: usize, rows: *mut pkvm_row,
        rows_len: usize
    }
    /// How many members the lists of a state have.
    pkvm_sizes { runs: u64, tables: u64, frames: u64, slots: u64, loads: u64, guests: u64, cpus: u64, rows: u64 }
    /// A page with a table.
    pkvm_page { frame: u64, words: *const u64, words_len: usize }
    /// A range of pages.
    pkvm_range { first: u64, count: u64 }
    /// The root of a tree.
    pkvm_root {
        tree: u64, frame: u64, profile: u64, levels: u64, pages: u64, skips: *const pkvm_range, skips_len: usize
    }
}

#[allow(missing_docs)]
unsafe extern "C" {
    pub fn pkvm_version() -> u64;
    pub fn pkvm_is_proved() -> i32;
    pub fn pkvm_decode(level: u64, word: u64, out: *mut pkvm_word) -> i32;
    pub fn pkvm_decode_as(
        tree: u64,
        profile: u64,
        level: u64,
        word: u64,
        out: *mut pkvm_word,
        beyond: *mut pkvm_beyond,
    ) -> i32;
    pub fn pkvm_encode(level: u64, says: *const pkvm_word, out: *mut u64) -> i32;
    pub fn pkvm_replay(
        trace: *const u8,
        trace_len: usize,
        report: *mut u8,
        report_len: usize,
        written: *mut usize,
    ) -> i32;
    pub fn pkvm_judge(
        layout: *const pkvm_layout,
        before: *const pkvm_state,
        call: *const pkvm_call,
        after: *const pkvm_state,
        text: *mut u8,
        text_room: usize,
        text_len: *mut usize,
        refused: *mut pkvm_refused,
    ) -> i32;
    pub fn pkvm_predict_reply(
        layout: *const pkvm_layout,
        before: *const pkvm_state,
        cpu: u64,
        step: *const pkvm_step,
        reply: *mut pkvm_reply,
        refused: *mut pkvm_refused,
    ) -> i32;
    pub fn pkvm_predict(
        layout: *const pkvm_layout,
        before: *const pkvm_state,
        cpu: u64,
        step: *const pkvm_step,
        reply: *mut pkvm_reply,
        room: *mut pkvm_room,
        sizes: *mut pkvm_sizes,
        refused: *mut pkvm_refused,
    ) -> i32;
    pub fn pkvm_boot(
        layout: *const pkvm_layout,
        room: *mut pkvm_room,
        sizes: *mut pkvm_sizes,
        refused: *mut pkvm_refused,
    ) -> i32;
    pub fn pkvm_suggest(
        layout: *const pkvm_layout,
        state: *const pkvm_state,
        random: u64,
        hostile: u64,
        call: *mut pkvm_call,
        refused: *mut pkvm_refused,
    ) -> i32;
    pub fn pkvm_trace_start(
        layout: *const pkvm_layout,
        text: *mut u8,
        text_room: usize,
        text_len: *mut usize,
        refused: *mut pkvm_refused,
    ) -> i32;
    pub fn pkvm_trace_of(
        layout: *const pkvm_layout,
        call: *const pkvm_call,
        text: *mut u8,
        text_room: usize,
        text_len: *mut usize,
    ) -> i32;
    pub fn pkvm_audit(
        layout: *const pkvm_layout,
        kept: *const pkvm_state,
        pages: *const pkvm_page,
        pages_len: usize,
        roots: *const pkvm_root,
        roots_len: usize,
        text: *mut u8,
        text_room: usize,
        text_len: *mut usize,
        refused: *mut pkvm_refused,
    ) -> i32;
    pub fn pkvm_check(
        layout: *const pkvm_layout,
        state: *const pkvm_state,
        flags: u64,
        text: *mut u8,
        text_room: usize,
        text_len: *mut usize,
        refused: *mut pkvm_refused,
    ) -> i32;
    pub fn pkvm_fault_text(
        fault: u64,
        text: *mut u8,
        text_room: usize,
        text_len: *mut usize,
    ) -> i32;
}
