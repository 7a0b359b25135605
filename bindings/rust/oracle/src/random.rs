//! What tests by random calls are made of: the state at boot, a call that may come next, and a trace of what was done.
use crate::{calls, states, Call, Error, Layout, State, NOTHING};
use alloc::string::String;
use alloc::vec;
use pkvm_oracle_sys as sys;

/// The state at boot, which has all 64 slots and guests and all CPUs.
///
/// ```
/// use pkvm_oracle::{Layout, Region, RegionKind, Trees, Verdict, boot, check};
///
/// let layout = Layout {
///     address_bits: 39,
///     cpus: 2,
///     carve: 0x40600..0x40640,
///     regions: vec![Region { kind: RegionKind::Memory, first: 0x40000, count: 0x800 }],
///     freedoms: None,
/// };
/// let state = boot(&layout)?;
/// assert_eq!((state.tables.len(), state.frames[0].frame), (6, 0x40606));
/// assert_eq!(check(&layout, &state, Trees::Coarsest)?, Verdict::Agrees);
/// # Ok::<(), pkvm_oracle::Error>(())
/// ```
///
/// # Errors
///
/// [`Error::Layout`], [`Error::NoMemory`].
pub fn boot(layout: &Layout) -> Result<State, Error> {
    let mut lists = states::Lists::default();
    let mut sizes = sys::pkvm_sizes {
        runs: 8,
        tables: 16,
        frames: 64,
        slots: 64,
        loads: 0,
        guests: 64,
        cpus: 64,
        rows: 8,
    };
    loop {
        let mut refused = NOTHING;
        let mut room = lists.room(&sizes);
        let status = layout.with(|layout| {
            // SAFETY: the layout is read, the lists are written up to their lengths, and the last two alone.
            unsafe { sys::pkvm_boot(layout, &mut room, &mut sizes, &mut refused) }
        });
        match status {
            // SAFETY: so many members were written, and there was room for them.
            0 => return unsafe { lists.state(&sizes) }.ok_or(Error::Unknown(0)),
            sys::PKVM_NO_ROOM => {}
            status => return Err(Error::of(status, refused)),
        }
    }
}

/// A call that may come next, and the CPU that makes it. The model refuses it for `hostile` of a hundred numbers `random`, and makes
/// it for the others. The same arguments give the same call.
///
/// ```
/// use pkvm_oracle::{Layout, Region, RegionKind, boot, predict, suggest};
///
/// let layout = Layout {
///     address_bits: 39,
///     cpus: 2,
///     carve: 0x40600..0x40640,
///     regions: vec![Region { kind: RegionKind::Memory, first: 0x40000, count: 0x800 }],
///     freedoms: None,
/// };
/// let mut state = boot(&layout)?;
/// for random in 0..100 {
///     let (cpu, call) = suggest(&layout, &state, random, 0)?;
///     let (reply, after) = predict(&layout, &state, cpu, call)?;
///     assert!(cpu < 2 && reply.is_ok());
///     state = after;
/// }
/// # Ok::<(), pkvm_oracle::Error>(())
/// ```
///
/// # Errors
///
/// The first that is so: [`Error::Percentage`], [`Error::Cpu`], [`Error::Layout`], [`Error::Before`], [`Error::NoMemory`].
pub fn suggest(
    layout: &Layout,
    state: &State,
    random: u64,
    hostile: u64,
) -> Result<(u64, Call), Error> {
    let mut call = sys::pkvm_call {
        cpu: 0,
        step: Call::Unfund {}.raw(),
        reply: calls::NO_REPLY,
    };
    let mut refused = NOTHING;
    let status = layout.with(|layout| {
        state.with(|state| {
            // SAFETY: layout and state are read, and the last two written alone.
            unsafe { sys::pkvm_suggest(layout, state, random, hostile, &mut call, &mut refused) }
        })
    });
    match status {
        0 => Call::of(call.step)
            .map(|step| (call.cpu, step))
            .ok_or(Error::Unknown(0)),
        sys::PKVM_BAD_NUMBER => Err(Error::Percentage),
        status => Err(Error::of(status, refused)),
    }
}

/// Asks for text: with room for it, and again with what it needs where that is too small.
fn told(
    ask: impl Fn(&mut [u8], &mut usize, &mut sys::pkvm_refused) -> i32,
) -> Result<String, Error> {
    let mut text = vec![0; 256];
    loop {
        let (mut length, mut refused) = (0, NOTHING);
        match ask(&mut text, &mut length, &mut refused) {
            0 => {
                text.truncate(length);
                return String::from_utf8(text).map_err(|_| Error::Unknown(0));
            }
            sys::PKVM_NO_ROOM => text = vec![0; length],
            status => return Err(Error::of(status, refused)),
        }
    }
}

/// The lines that a trace of the layout begins with, `boot` the last, each with its end. Those of calls come behind them.
///
/// ```
/// use pkvm_oracle::{Call, Layout, Outcome, Region, RegionKind, replay, trace_of, trace_start};
///
/// let layout = Layout {
///     address_bits: 39,
///     cpus: 1,
///     carve: 0x40600..0x40640,
///     regions: vec![Region { kind: RegionKind::Memory, first: 0x40000, count: 0x800 }],
///     freedoms: None,
/// };
/// let mut trace = trace_start(&layout)?;
/// let line = trace_of(&layout, 0, Call::DonateHyp { frame: 0x40100, count: 2 })?;
/// assert_eq!(line, "0 donate_hyp 0x40100 2\n");
/// trace += &line;
/// let (outcome, report) = replay(trace.as_bytes())?;
/// assert_eq!(outcome, Outcome::Clean);
/// assert!(report.ends_with(b"end steps 1 disagreements 0\n"));
/// # Ok::<(), pkvm_oracle::Error>(())
/// ```
///
/// # Errors
///
/// [`Error::Layout`], [`Error::NoMemory`].
pub fn trace_start(layout: &Layout) -> Result<String, Error> {
    layout.with(|layout| {
        told(|text, length, refused| {
            // SAFETY: the layout is read, the text is written up to its length, and the last two alone.
            unsafe { sys::pkvm_trace_start(layout, text.as_mut_ptr(), text.len(), length, refused) }
        })
    })
}

/// The line of a trace that makes the call of a CPU, with its end.
///
/// # Errors
///
/// [`Error::Cpu`], [`Error::NoMemory`].
pub fn trace_of(layout: &Layout, cpu: u64, call: Call) -> Result<String, Error> {
    let call = sys::pkvm_call {
        cpu,
        step: call.raw(),
        reply: calls::NO_REPLY,
    };
    layout.with(|layout| {
        told(|text, length, _| {
            // SAFETY: layout and call are read, the text is written up to its length, and the last alone.
            unsafe { sys::pkvm_trace_of(layout, &call, text.as_mut_ptr(), text.len(), length) }
        })
    })
}
