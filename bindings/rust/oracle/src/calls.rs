//! Calls and replies.
use crate::numbered::numbered;
use crate::states::Owner;
use crate::words::{Rights, Word, NO_WORD};
use pkvm_oracle_sys as sys;

/// A VM, by its slot and the generation of that slot.
#[derive(Clone, Copy, Debug, PartialEq, Eq, Hash)]
pub struct Vm {
    /// The slot, 0 to 63.
    pub slot: u64,
    /// The generation.
    pub generation: u64,
}

numbered! {
    /// The kind of a VM.
    VmKind {
        /// The host may borrow its pages to it.
        Plain = sys::PKVM_PLAIN,
        /// Its pages are its own.
        Protected = sys::PKVM_PROTECTED,
    }
}

/// An argument of a call: one number, or two.
trait Argument: Sized {
    fn put(self, into: &mut [u64; 4], at: &mut usize);

    /// What `put` put there. None where the number stands for nothing.
    fn take(from: &[u64; 4], at: &mut usize) -> Option<Self>;
}

impl Argument for u64 {
    fn put(self, into: &mut [u64; 4], at: &mut usize) {
        into[*at] = self;
        *at += 1;
    }

    fn take(from: &[u64; 4], at: &mut usize) -> Option<u64> {
        *at += 1;
        from.get(*at - 1).copied()
    }
}

impl Argument for Vm {
    fn put(self, into: &mut [u64; 4], at: &mut usize) {
        self.slot.put(into, at);
        self.generation.put(into, at);
    }

    fn take(from: &[u64; 4], at: &mut usize) -> Option<Vm> {
        Some(Vm {
            slot: u64::take(from, at)?,
            generation: u64::take(from, at)?,
        })
    }
}

impl Argument for Rights {
    fn put(self, into: &mut [u64; 4], at: &mut usize) {
        self.number().put(into, at);
    }

    fn take(from: &[u64; 4], at: &mut usize) -> Option<Rights> {
        Rights::of(u64::take(from, at)?)
    }
}

impl Argument for VmKind {
    fn put(self, into: &mut [u64; 4], at: &mut usize) {
        self.number().put(into, at);
    }

    fn take(from: &[u64; 4], at: &mut usize) -> Option<VmKind> {
        VmKind::of(u64::take(from, at)?)
    }
}

macro_rules! calls {
    ($(#[doc = $of:literal] $variant:ident { $($(#[doc = $about:literal])? $field:ident: $kind:ty),* } = $number:ident,)*) => {
        /// A call. Pages and frames are numbers of 4 KiB; a count is of frames, from the first on.
        #[allow(missing_docs)]
        #[derive(Clone, Copy, Debug, PartialEq, Eq, Hash)]
        #[non_exhaustive]
        pub enum Call {
            $(#[doc = $of] $variant { $($(#[doc = $about])? $field: $kind),* },)*
        }

        impl Call {
            pub(crate) fn raw(self) -> sys::pkvm_step {
                let mut arguments = [0; 4];
                #[allow(unused_mut)]
                let mut at = 0;
                match self {
                    $(Call::$variant { $($field),* } => {
                        $($field.put(&mut arguments, &mut at);)*
                        let _ = at;
                        sys::pkvm_step { call: sys::$number, arguments }
                    })*
                }
            }

            pub(crate) fn of(raw: sys::pkvm_step) -> Option<Call> {
                #[allow(unused_mut)]
                let mut at = 0;
                match raw.call {
                    $(sys::$number => {
                        $(let $field = Argument::take(&raw.arguments, &mut at)?;)*
                        let _ = at;
                        Some(Call::$variant { $($field),* })
                    })*
                    _ => None,
                }
            }
        }
    };
}

calls! {
    /// The host shares a page with the hypervisor.
    ShareHyp { frame: u64 } = PKVM_SHARE_HYP,
    /// The host takes it back.
    UnshareHyp { frame: u64 } = PKVM_UNSHARE_HYP,
    /// The host gives pages to the hypervisor.
    DonateHyp { frame: u64, count: u64 } = PKVM_DONATE_HYP,
    /// The hypervisor gives pages back.
    HypDonateHost { frame: u64, count: u64 } = PKVM_HYP_DONATE_HOST,
    /// The host touches a page that it hasn't mapped.
    HostAbort { page: u64 } = PKVM_HOST_ABORT,
    /// What the host's tree says of a page.
    HostTranslate { page: u64 } = PKVM_HOST_TRANSLATE,
    /// What the hypervisor's tree says of a page.
    HypTranslate { page: u64 } = PKVM_HYP_TRANSLATE,
    /// Who has a frame.
    OwnerOf { frame: u64 } = PKVM_OWNER_OF,
    /// The host gives frames for a guest's tables, into the CPU's hand.
    Fund { frame: u64, count: u64 } = PKVM_FUND,
    /// It takes them back.
    Unfund {} = PKVM_UNFUND,
    /// The host lends pages to the plain guest that is loaded.
    ShareGuest { frame: u64, page: u64, rights: Rights, count: u64 } = PKVM_SHARE_GUEST,
    /// It takes one back.
    UnshareGuest { vm: Vm, page: u64 } = PKVM_UNSHARE_GUEST,
    /// The host gives pages to the protected guest that is loaded.
    DonateGuest { frame: u64, page: u64, count: u64 } = PKVM_DONATE_GUEST,
    /// The loaded guest shares a page with the host.
    GuestShareHost { page: u64 } = PKVM_GUEST_SHARE_HOST,
    /// It takes it back.
    GuestUnshareHost { page: u64 } = PKVM_GUEST_UNSHARE_HOST,
    /// The frames in the hand become the reserved guest's tables.
    Install {} = PKVM_INSTALL,
    /// The frames in the hand go to a guest's pool.
    Topup { vm: Vm } = PKVM_TOPUP,
    /// The host takes a page of a dying guest.
    ReclaimPage { vm: Vm, page: u64 } = PKVM_RECLAIM_PAGE,
    /// The host takes the pool of a dying guest.
    ReclaimPool { vm: Vm } = PKVM_RECLAIM_POOL,
    /// The guest that is closing ends.
    FinishGuest {} = PKVM_FINISH_GUEST,
    /// A page of the loaded guest gets more rights.
    GuestRelax { page: u64, rights: Rights } = PKVM_GUEST_RELAX,
    /// What a guest's tree says of a page.
    GuestTranslate { vm: Vm, page: u64 } = PKVM_GUEST_TRANSLATE,
    /// The guest that is torn down is marked so.
    MarkDying {} = PKVM_MARK_DYING,
    /// A slot is reserved.
    VmReserve { kind: VmKind, vcpus: u64 } = PKVM_VM_RESERVE,
    /// The reserved VM can be loaded.
    VmOpen {} = PKVM_VM_OPEN,
    /// The CPU loads a vCPU.
    VcpuLoad { vm: Vm, vcpu: u64 } = PKVM_VCPU_LOAD,
    /// It puts it.
    VcpuPut {} = PKVM_VCPU_PUT,
    /// A VM can't be loaded any more.
    Teardown { vm: Vm } = PKVM_TEARDOWN,
    /// Its slot becomes vacant.
    VmRelease {} = PKVM_VM_RELEASE,
}

numbered! {
    /// Why a call isn't made.
    #[non_exhaustive]
    Refusal {
        /// It isn't allowed.
        Perm = sys::PKVM_EPERM,
        /// There is no such VM.
        NoVm = sys::PKVM_ENOVM,
        /// Another CPU holds what it needs.
        Contended = sys::PKVM_ECONTENDED,
        /// The machine has no memory.
        NoMemory = sys::PKVM_ENOMEMORY,
        /// What it would change is in use.
        Busy = sys::PKVM_EBUSY,
        /// An argument can't be.
        Invalid = sys::PKVM_EINVALID,
        /// The pool of frames for tables is too small.
        NoPool = sys::PKVM_ENOPOOL,
        /// The log of a CPU is full.
        LogFull = sys::PKVM_ELOGFULL,
    }
}

/// What a call that was made gives.
#[derive(Clone, Copy, Debug, PartialEq, Eq)]
#[non_exhaustive]
pub enum Value {
    /// Nothing.
    Nothing,
    /// A VM.
    Vm(Vm),
    /// A frame.
    Frame(u64),
    /// What a page's word says.
    Entry(Word),
    /// Who has a frame.
    Row(Owner),
}

/// A call's reply.
pub type Reply = Result<Value, Refusal>;

/// What is said of a call.
#[derive(Clone, Copy, Debug, PartialEq, Eq)]
pub enum Said {
    /// A reply that the model has.
    Reply(Reply),
    /// A refusal by a number, which needn't be one that the model has.
    Refusal(u64),
    /// The call stopped the machine.
    Stopped,
}

impl From<Reply> for Said {
    fn from(reply: Reply) -> Said {
        Said::Reply(reply)
    }
}

pub(crate) fn raw_said(said: Said) -> sys::pkvm_reply {
    match said {
        Said::Reply(reply) => raw_reply(reply),
        Said::Refusal(refusal) => sys::pkvm_reply {
            refusal,
            ..NO_REPLY
        },
        Said::Stopped => sys::pkvm_reply {
            refusal: sys::PKVM_STOPPED,
            ..NO_REPLY
        },
    }
}

pub(crate) const NO_REPLY: sys::pkvm_reply = sys::pkvm_reply {
    refusal: 0,
    gives: sys::PKVM_GIVES_NOTHING,
    slot: 0,
    generation: 0,
    frame: 0,
    entry: NO_WORD,
    row: Owner::RAW,
};

pub(crate) fn raw_reply(reply: Reply) -> sys::pkvm_reply {
    let value = match reply {
        Ok(value) => value,
        Err(refusal) => {
            return sys::pkvm_reply {
                refusal: refusal.number(),
                ..NO_REPLY
            };
        }
    };
    match value {
        Value::Nothing => NO_REPLY,
        Value::Vm(vm) => sys::pkvm_reply {
            gives: sys::PKVM_GIVES_VM,
            slot: vm.slot,
            generation: vm.generation,
            ..NO_REPLY
        },
        Value::Frame(frame) => sys::pkvm_reply {
            gives: sys::PKVM_GIVES_FRAME,
            frame,
            ..NO_REPLY
        },
        Value::Entry(word) => sys::pkvm_reply {
            gives: sys::PKVM_GIVES_ENTRY,
            entry: word.raw(),
            ..NO_REPLY
        },
        Value::Row(owner) => sys::pkvm_reply {
            gives: sys::PKVM_GIVES_ROW,
            row: owner.raw(),
            ..NO_REPLY
        },
    }
}

pub(crate) fn reply_of(raw: sys::pkvm_reply) -> Option<Reply> {
    if raw.refusal != 0 {
        return Refusal::of(raw.refusal).map(Err);
    }
    Some(Ok(match raw.gives {
        sys::PKVM_GIVES_NOTHING => Value::Nothing,
        sys::PKVM_GIVES_VM => Value::Vm(Vm {
            slot: raw.slot,
            generation: raw.generation,
        }),
        sys::PKVM_GIVES_FRAME => Value::Frame(raw.frame),
        sys::PKVM_GIVES_ENTRY => Value::Entry(Word::of(raw.entry)?),
        sys::PKVM_GIVES_ROW => Value::Row(Owner::of(raw.row)?),
        _ => return None,
    }))
}
