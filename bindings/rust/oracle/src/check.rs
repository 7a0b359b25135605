//! Whether a state is legal.
use crate::{verdict, Error, Layout, State, Verdict};
use pkvm_oracle_sys as sys;

/// Which tables the trees of a legal state have.
#[derive(Clone, Copy, Debug, PartialEq, Eq)]
pub enum Trees {
    /// Those that their maps need, and no others.
    Coarsest,
    /// Any: for a hypervisor that splits and folds blocks in another way than the model.
    Any,
}

/// Whether a state is legal: the model's runs lead to legal states alone. They agree where it is; else a fault is told, by name and
/// place.
///
/// ```
/// use pkvm_oracle::{Frame, Layout, Party, Region, RegionKind, State, Trees, Verdict, check};
///
/// let layout = Layout {
///     address_bits: 39,
///     cpus: 1,
///     carve: 0x40600..0x40640,
///     regions: vec![Region { kind: RegionKind::Memory, first: 0x40000, count: 0x800 }],
///     freedoms: None,
/// };
/// // A free frame of the hypervisor's that the host may map.
/// let free = Frame { pool: Party::Hyp, frame: 0x40600 };
/// let state = State { frames: vec![free], ..State::default() };
/// let verdict = check(&layout, &state, Trees::Any)?;
/// let told = "no condition 0x40600: host unmapped, hyp unmapped, row owner 0 lent - use plain, shared pool";
/// assert_eq!(verdict, Verdict::Differs(told.into()));
/// # Ok::<(), pkvm_oracle::Error>(())
/// ```
///
/// # Errors
///
/// The first that is so: [`Error::Layout`], [`Error::Before`], [`Error::NoMemory`].
pub fn check(layout: &Layout, state: &State, trees: Trees) -> Result<Verdict, Error> {
    let flags = match trees {
        Trees::Coarsest => sys::PKVM_COARSEST_TREES,
        Trees::Any => sys::PKVM_ANY_TREES,
    };
    layout.with(|layout| {
        state.with(|state| {
            verdict(|text, length, refused| {
                // SAFETY: layout and state are read, the text is written up to its length, and the last two alone.
                unsafe {
                    sys::pkvm_check(
                        layout,
                        state,
                        flags,
                        text.as_mut_ptr(),
                        text.len(),
                        length,
                        refused,
                    )
                }
            })
        })
    })
}
