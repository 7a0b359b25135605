//! A proved oracle of protected KVM's page ownership. It decodes words of stage 2 tables, judges a hypervisor's calls by the states
//! before and after them, predicts and suggests them, compares kept states with tables in memory, and writes and replays traces. `docs/C_LIBRARY.md` of the
//! repository says what to record in a hypervisor, and when.
//!
//! ```
//! use pkvm_oracle::{Call, Layout, Refusal, Region, RegionKind, State, Value, Verdict, judge};
//!
//! let layout = Layout {
//!     address_bits: 39,
//!     cpus: 1,
//!     carve: 0x40600..0x40640,
//!     regions: vec![Region { kind: RegionKind::Memory, first: 0x40000, count: 0x800 }],
//!     freedoms: None,
//! };
//! let (before, after) = (State::default(), State::default());
//! let share = Call::ShareHyp { frame: 0x1000 }; // which isn't memory
//! assert_eq!(judge(&layout, &before, 0, share, Err(Refusal::Invalid), &after)?, Verdict::Agrees);
//! let verdict = judge(&layout, &before, 0, share, Ok(Value::Nothing), &after)?;
//! assert_eq!(verdict, Verdict::Differs("disagree reply said ok spec invalid".into()));
//! # Ok::<(), pkvm_oracle::Error>(())
//! ```
#![no_std]

extern crate alloc;

use alloc::string::String;
use alloc::vec;
use alloc::vec::Vec;
use core::ops::Range;
use pkvm_oracle_sys as sys;

mod calls;
mod check;
mod errors;
mod numbered;
mod profiles;
mod random;
mod states;
mod words;

pub use calls::{Call, Refusal, Reply, Said, Value, Vm, VmKind};
pub use check::{check, Trees};
pub use errors::{Error, Fault, List, Place, Refused};
pub use profiles::{decode_as, Alone, Beyond, Memory, OtherLeaf, Profile, Release};
pub use random::{boot, suggest, trace_of, trace_start};
pub use states::{
    Cpu, Frame, Freedoms, Guest, Layout, Load, Owner, Phase, Region, RegionKind, Row, Run, Slot,
    Stage, Stand, State, Table, Ticket, Usage,
};
pub use words::{Kind, Party, Rights, Sharing, Word};

/// Nothing of a layout or a state is refused.
const NOTHING: sys::pkvm_refused = sys::pkvm_refused {
    fault: 0,
    list: 0,
    index: 0,
};

/// A version.
#[derive(Clone, Copy, Debug, PartialEq, Eq, PartialOrd, Ord)]
pub struct Version {
    /// Changes where a program has to.
    pub major: u32,
    /// Changes where something is added.
    pub minor: u16,
    /// Changes else.
    pub patch: u16,
}

impl Version {
    fn of(number: u64) -> Version {
        Version {
            major: (number >> 32) as u32,
            minor: (number >> 16) as u16,
            patch: number as u16,
        }
    }

    /// That of this crate.
    #[must_use]
    pub fn of_crate() -> Version {
        Version::of(sys::PKVM_VERSION)
    }

    /// That of the library that is linked.
    #[must_use]
    pub fn of_library() -> Version {
        // SAFETY: the function takes nothing.
        Version::of(unsafe { sys::pkvm_version() })
    }
}

/// Whether the library that is linked was built of sources that were proved.
#[must_use]
pub fn is_proved() -> bool {
    // SAFETY: the function takes nothing.
    unsafe { sys::pkvm_is_proved() != 0 }
}

/// What a word of a table of a level, 0 to 3, says.
///
/// ```
/// use pkvm_oracle::{Kind, Rights, Sharing, Word, decode, encode};
///
/// let leaf = decode(3, 0x0080_0000_4000_07ff)?;
/// let shared = Word::Leaf {
///     frame: 0x40000,
///     rights: Rights::RWX,
///     kind: Kind::Normal,
///     sharing: Sharing::SharedOwned,
/// };
/// assert_eq!(leaf, shared);
/// assert_eq!(encode(3, shared)?, 0x0080_0000_4000_07ff);
/// # Ok::<(), pkvm_oracle::Error>(())
/// ```
///
/// # Errors
///
/// [`Error::Level`].
pub fn decode(level: u64, word: u64) -> Result<Word, Error> {
    let mut out = Word::Malformed.raw();
    // SAFETY: `out` is written alone.
    match unsafe { sys::pkvm_decode(level, word, &mut out) } {
        0 => Word::of(out).ok_or(Error::Unknown(0)),
        status => Err(Error::of(status, NOTHING)),
    }
}

/// The one word of a table of a level, 0 to 3, that says this.
///
/// # Errors
///
/// [`Error::Level`], [`Error::NoWord`].
pub fn encode(level: u64, says: Word) -> Result<u64, Error> {
    let mut out = 0;
    // SAFETY: the word is read, and `out` written alone.
    match unsafe { sys::pkvm_encode(level, &says.raw(), &mut out) } {
        0 => Ok(out),
        // A malformed word, which no word says.
        sys::PKVM_BAD_NUMBER => Err(Error::NoWord),
        status => Err(Error::of(status, NOTHING)),
    }
}

/// How a replay ended.
#[derive(Clone, Copy, Debug, PartialEq, Eq)]
pub enum Outcome {
    /// The report ends with `end`, and nothing disagreed.
    Clean,
    /// Something disagreed.
    Disagreed,
    /// A line of the trace is wrong.
    Fault,
}

/// Replays a whole trace, each step judged and audited, and gives its report.
///
/// ```
/// let trace = b"memory 0x40000 0x800\ncarve 0x40600 0x40\nboot\n0 share_hyp 0x40100\n";
/// let (outcome, report) = pkvm_oracle::replay(trace)?;
/// assert_eq!(outcome, pkvm_oracle::Outcome::Clean);
/// assert!(report.ends_with(b"4 0 ok\nend steps 1 disagreements 0\n"));
/// # Ok::<(), pkvm_oracle::Error>(())
/// ```
///
/// # Errors
///
/// [`Error::NoMemory`].
pub fn replay(trace: &[u8]) -> Result<(Outcome, Vec<u8>), Error> {
    let mut report = vec![0; 4096];
    loop {
        let mut written = 0;
        // SAFETY: the trace is read, and the report written up to its length.
        let status = unsafe {
            sys::pkvm_replay(
                trace.as_ptr(),
                trace.len(),
                report.as_mut_ptr(),
                report.len(),
                &mut written,
            )
        };
        let outcome = match status {
            sys::PKVM_CLEAN => Outcome::Clean,
            sys::PKVM_DISAGREED => Outcome::Disagreed,
            sys::PKVM_FAULT => Outcome::Fault,
            sys::PKVM_NO_ROOM => {
                report = vec![0; written];
                continue;
            }
            status => return Err(Error::of(status, NOTHING)),
        };
        report.truncate(written);
        return Ok((outcome, report));
    }
}

/// What the oracle says.
#[derive(Clone, Debug, PartialEq, Eq)]
pub enum Verdict {
    /// All is as it must be.
    Agrees,
    /// It isn't: the first difference.
    Differs(String),
}

/// Asks for a verdict: with the text's room, and again with what it needs where that is too small.
fn verdict(
    ask: impl Fn(&mut [u8], &mut usize, &mut sys::pkvm_refused) -> i32,
) -> Result<Verdict, Error> {
    let mut text = vec![0; 512];
    loop {
        let (mut length, mut refused) = (0, NOTHING);
        match ask(&mut text, &mut length, &mut refused) {
            sys::PKVM_AGREES => return Ok(Verdict::Agrees),
            sys::PKVM_DISAGREES => {
                text.truncate(length);
                let told = String::from_utf8_lossy(&text).into_owned();
                return Ok(Verdict::Differs(told));
            }
            sys::PKVM_NO_ROOM => text = vec![0; length],
            status => return Err(Error::of(status, refused)),
        }
    }
}

/// Judges a call of a CPU by the state before it, its reply and the state after it, up to the layout's freedoms. They agree where reply and
/// state are the model's, or where the call was refused for want of memory and changed nothing. A refusal by a number that the model hasn't
/// disagrees, but where any refusal may be said; so does a call that stopped the machine.
///
/// # Errors
///
/// The first that is so: [`Error::Cpu`], [`Error::Layout`], [`Error::Before`], [`Error::Generation`], [`Error::After`],
/// [`Error::NoMemory`].
pub fn judge(
    layout: &Layout,
    before: &State,
    cpu: u64,
    call: Call,
    reply: impl Into<Said>,
    after: &State,
) -> Result<Verdict, Error> {
    let call = sys::pkvm_call {
        cpu,
        step: call.raw(),
        reply: calls::raw_said(reply.into()),
    };
    layout.with(|layout| {
        before.with(|before| {
            after.with(|after| {
                verdict(|text, length, refused| {
                    // SAFETY: layout, states and call are read, the text is written up to its length, and the last two alone.
                    unsafe {
                        sys::pkvm_judge(
                            layout,
                            before,
                            &call,
                            after,
                            text.as_mut_ptr(),
                            text.len(),
                            length,
                            refused,
                        )
                    }
                })
            })
        })
    })
}

/// The reply that the model gives to a call of a CPU on a state.
///
/// ```
/// use pkvm_oracle::{Call, Layout, Region, RegionKind, State, Value, Word, reply_to};
///
/// let layout = Layout {
///     address_bits: 48,
///     cpus: 2,
///     carve: 0x40600..0x40640,
///     regions: vec![Region { kind: RegionKind::Memory, first: 0x40000, count: 0x800 }],
///     freedoms: None,
/// };
/// let translate = Call::HostTranslate { page: 0x40000 };
/// let reply = reply_to(&layout, &State::default(), 1, translate)?;
/// assert_eq!(reply, Ok(Value::Entry(Word::Unmapped)));
/// # Ok::<(), pkvm_oracle::Error>(())
/// ```
///
/// # Errors
///
/// The first that is so: [`Error::Cpu`], [`Error::Layout`], [`Error::Before`], [`Error::Generation`], [`Error::NoMemory`].
pub fn reply_to(layout: &Layout, before: &State, cpu: u64, call: Call) -> Result<Reply, Error> {
    let (mut reply, mut refused) = (calls::NO_REPLY, NOTHING);
    let step = call.raw();
    let status = layout.with(|layout| {
        before.with(|before| {
            // SAFETY: layout, state and step are read, and the last two written alone.
            unsafe { sys::pkvm_predict_reply(layout, before, cpu, &step, &mut reply, &mut refused) }
        })
    });
    match status {
        0 => calls::reply_of(reply).ok_or(Error::Unknown(0)),
        status => Err(Error::of(status, refused)),
    }
}

/// The reply that the model gives to a call of a CPU on a state, and the state after it, which has all 64 slots and guests and all CPUs.
///
/// ```
/// use pkvm_oracle::{
///     Call, Layout, Region, RegionKind, Stand, State, Value, Verdict, Vm, VmKind, judge, predict,
/// };
///
/// let layout = Layout {
///     address_bits: 39,
///     cpus: 2,
///     carve: 0x40600..0x40640,
///     regions: vec![Region { kind: RegionKind::Memory, first: 0x40000, count: 0x800 }],
///     freedoms: None,
/// };
/// let state = State::default();
/// let reserve = Call::VmReserve { kind: VmKind::Protected, vcpus: 3 };
/// let (reply, after) = predict(&layout, &state, 1, reserve)?;
/// let vm = Vm { slot: 0, generation: 1 };
/// assert_eq!(reply, Ok(Value::Vm(vm)));
/// assert_eq!((after.slots[0].vm, after.slots[0].stand), (vm, Stand::Reserved));
/// assert_eq!(after.cpus[1].ticket.map(|it| it.vm), Some(vm));
///
/// assert_eq!(judge(&layout, &state, 1, reserve, reply, &after)?, Verdict::Agrees);
/// let verdict = judge(&layout, &state, 1, reserve, reply, &state)?;
/// assert_eq!(verdict, Verdict::Differs("disagree vm 0".into()));
/// # Ok::<(), pkvm_oracle::Error>(())
/// ```
///
/// # Errors
///
/// As of [`reply_to`].
pub fn predict(
    layout: &Layout,
    before: &State,
    cpu: u64,
    call: Call,
) -> Result<(Reply, State), Error> {
    let (mut reply, mut lists) = (calls::NO_REPLY, states::Lists::default());
    let mut sizes = sys::pkvm_sizes {
        runs: 0,
        tables: 0,
        frames: 0,
        slots: 64,
        loads: 0,
        guests: 64,
        cpus: 0,
        rows: 0,
    };
    let step = call.raw();
    loop {
        let mut refused = NOTHING;
        let mut room = lists.room(&sizes);
        let status = layout.with(|layout| {
            before.with(|before| {
                // SAFETY: layout, state and step are read, the lists are written up to their lengths, and the last two alone.
                unsafe {
                    sys::pkvm_predict(
                        layout,
                        before,
                        cpu,
                        &step,
                        &mut reply,
                        &mut room,
                        &mut sizes,
                        &mut refused,
                    )
                }
            })
        });
        match status {
            0 => {
                // SAFETY: so many members were written, and there was room for them.
                let after = unsafe { lists.state(&sizes) };
                let reply = calls::reply_of(reply);
                return reply.zip(after).ok_or(Error::Unknown(0));
            }
            sys::PKVM_NO_ROOM => {}
            status => return Err(Error::of(status, refused)),
        }
    }
}

/// A page with a table, as it lies in memory.
#[derive(Clone, Copy, Debug, PartialEq, Eq)]
pub struct Page<'a> {
    /// Its frame.
    pub frame: u64,
    /// Its 512 words.
    pub words: &'a [u64],
}

/// The root of a tree.
#[derive(Clone, Debug, Default, PartialEq, Eq)]
pub struct Root {
    /// Whose tree it is.
    pub tree: Party,
    /// The frame of the root, or of the first of its pages.
    pub frame: u64,
    /// By whose rules its words are written.
    pub profile: Profile,
    /// How many levels of tables there are, 1 to 4; 0 for as many as the layout's address bits say.
    pub levels: u64,
    /// How many pages are concatenated: 1, 2, 4, 8 or 16; 0 for 1.
    pub pages: u64,
    /// Pages that are left out.
    pub skips: Vec<Range<u64>>,
}

/// Compares a kept state with the trees that are found by walking pages of tables from their roots, by frame numbers, each by its
/// root's profile, levels and pages; a leaf whose words say no states takes that of the kept leaf of its page. They agree where
/// maps, owner rows and tables do, and the state is legal, as [`check`] has it of [`Trees::Coarsest`]. Else the first difference is
/// told, or without one, two owners or two borrowers of a frame, or a borrower of one that nobody shares, or what [`check`] tells.
///
/// ```
/// use pkvm_oracle::{
///     Error, Fault, Layout, Page, Party, Place, Region, RegionKind, Root, State, Verdict, audit,
/// };
///
/// let layout = Layout {
///     address_bits: 39,
///     cpus: 1,
///     carve: 0x40600..0x40640,
///     regions: vec![Region { kind: RegionKind::Memory, first: 0x40000, count: 0x800 }],
///     freedoms: None,
/// };
/// let mut words = [0; 512];
/// words[3] = 4; // pages 0xc0000 to 0xfffff are kept for owner 1
/// let page = Page { frame: 0x40600, words: &words };
/// let root = Root { tree: Party::Hyp, frame: 0x40600, ..Root::default() };
/// let verdict = audit(&layout, &State::default(), &[page], &[root.clone()])?;
/// let told = "disagree hyp 0xc0000 kept unmapped walked annot 1";
/// assert_eq!(verdict, Verdict::Differs(told.into()));
///
/// words[0] = 0x40600003; // a table below itself
/// let page = Page { frame: 0x40600, words: &words };
/// let Err(Error::Tables(why)) = audit(&layout, &State::default(), &[page], &[root.clone()]) else {
///     panic!()
/// };
/// assert_eq!(why.fault, Fault::Loop);
/// assert_eq!(why.place, Place::Table { tree: 1, frame: 0x40600 });
/// # Ok::<(), Error>(())
/// ```
///
/// # Errors
///
/// The first that is so: [`Error::Layout`], [`Error::Before`], [`Error::Tables`], [`Error::NoMemory`].
pub fn audit(
    layout: &Layout,
    kept: &State,
    pages: &[Page<'_>],
    roots: &[Root],
) -> Result<Verdict, Error> {
    let raw = |it: &Page<'_>| sys::pkvm_page {
        frame: it.frame,
        words: it.words.as_ptr(),
        words_len: it.words.len(),
    };
    let pages: Vec<sys::pkvm_page> = pages.iter().map(raw).collect();
    let raw = |it: &Range<u64>| sys::pkvm_range {
        first: it.start,
        count: it.end.saturating_sub(it.start),
    };
    let skips: Vec<Vec<sys::pkvm_range>> = roots
        .iter()
        .map(|it| it.skips.iter().map(raw).collect())
        .collect();
    let raw = |(it, skips): (&Root, &Vec<sys::pkvm_range>)| sys::pkvm_root {
        tree: it.tree.number(),
        frame: it.frame,
        profile: it.profile.number(),
        levels: it.levels,
        pages: it.pages,
        skips: skips.as_ptr(),
        skips_len: skips.len(),
    };
    let roots: Vec<sys::pkvm_root> = roots.iter().zip(&skips).map(raw).collect();
    layout.with(|layout| {
        kept.with(|kept| {
            verdict(|text, length, refused| {
                // SAFETY: all but the last three are read, the text is written up to its length, and the last two alone.
                unsafe {
                    sys::pkvm_audit(
                        layout,
                        kept,
                        pages.as_ptr(),
                        pages.len(),
                        roots.as_ptr(),
                        roots.len(),
                        text.as_mut_ptr(),
                        text.len(),
                        length,
                        refused,
                    )
                }
            })
        })
    })
}
