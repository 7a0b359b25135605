//! Words by whose rules others write them.
use crate::numbered::numbered;
use crate::{Error, Party, Word, NOTHING};
use pkvm_oracle_sys as sys;

numbered! {
    /// The Linux releases whose words are known.
    Release {
        /// 6.12.
        V6_12 = sys::PKVM_LINUX_6_12,
        /// 7.3.
        V7_3 = sys::PKVM_LINUX_7_3,
    }
}

/// By whose rules the words of a tree are written.
#[derive(Clone, Copy, Debug, Default, PartialEq, Eq, Hash)]
pub enum Profile {
    /// The model's own.
    #[default]
    Model,
    /// Linux'.
    Linux {
        /// Its release.
        release: Release,
        /// Of the host and of guests: stage 2 forces memory attributes.
        fwb: bool,
        /// Of the hypervisor: EL2 runs with HCR_EL2.E2H set.
        hvhe: bool,
        /// Addresses have 52 bits.
        lpa2: bool,
    },
}

impl Profile {
    /// Linux' words of a release, with nothing added.
    #[must_use]
    pub fn linux(release: Release) -> Profile {
        Profile::Linux {
            release,
            fwb: false,
            hvhe: false,
            lpa2: false,
        }
    }

    pub(crate) fn number(self) -> u64 {
        let add = |is: bool, number: u64| if is { number } else { 0 };
        match self {
            Profile::Model => sys::PKVM_MODEL,
            Profile::Linux {
                release,
                fwb,
                hvhe,
                lpa2,
            } => {
                release.number()
                    + add(fwb, sys::PKVM_FWB)
                    + add(hvhe, sys::PKVM_HVHE)
                    + add(lpa2, sys::PKVM_LPA2)
            }
        }
    }
}

numbered! {
    /// Who alone may execute what a leaf maps.
    Alone {
        /// EL0.
        El0 = sys::PKVM_EL0_ALONE,
        /// The level above EL0.
        AboveEl0 = sys::PKVM_ABOVE_EL0_ALONE,
    }
}

numbered! {
    /// Memory that a leaf says as [`Kind::Normal`](crate::Kind::Normal).
    Memory {
        /// It isn't cacheable.
        Uncached = sys::PKVM_UNCACHED,
        /// It is as stage 1 says.
        AsStage1 = sys::PKVM_AS_STAGE_1,
    }
}

/// A leaf that [`Word`] has no place for: it was cleared, or refuses reads.
#[derive(Clone, Copy, Debug, PartialEq, Eq, Hash)]
pub struct OtherLeaf {
    /// Its first frame.
    pub frame: u64,
    /// The sum of 4 for read, 2 for write and 1 for execute.
    pub rights: u64,
    /// 0 Normal memory, 1 a device's.
    pub kind: u64,
    /// 0 owned, 1 shared by the owner, 2 borrowed; 0 if the word says none.
    pub state: u64,
}

/// What a word says beyond [`Word`].
#[derive(Clone, Copy, Debug, Default, PartialEq, Eq, Hash)]
pub struct Beyond {
    /// The guest that an annotation names by its handle, and the guest's page.
    pub guest: Option<(u64, u64)>,
    /// The page was taken from its guest by force.
    pub is_poisoned: bool,
    /// The entry is being changed.
    pub is_locked: bool,
    /// A leaf's valid bit was cleared. What else is said is of it.
    pub is_cleared: bool,
    /// The leaf refuses reads.
    pub is_unreadable: bool,
    /// Branches must land on landing pads (BTI).
    pub is_guarded: bool,
    /// The leaf's access flag is clear.
    pub is_aged: bool,
    /// The leaf's word says no state.
    pub is_stateless: bool,
    /// Who alone may execute.
    pub alone: Option<Alone>,
    /// Memory of another kind.
    pub memory: Option<Memory>,
    /// The leaf that was cleared or refuses reads.
    pub leaf: Option<OtherLeaf>,
}

impl Beyond {
    fn of(raw: sys::pkvm_beyond) -> Beyond {
        Beyond {
            guest: (raw.has_guest != 0).then_some((raw.handle, raw.guest_page)),
            is_poisoned: raw.is_poisoned != 0,
            is_locked: raw.is_locked != 0,
            is_cleared: raw.is_cleared != 0,
            is_unreadable: raw.is_unreadable != 0,
            is_guarded: raw.is_guarded != 0,
            is_aged: raw.is_aged != 0,
            is_stateless: raw.is_stateless != 0,
            alone: Alone::of(raw.alone),
            memory: Memory::of(raw.memory),
            leaf: (raw.leaf.says == sys::PKVM_LEAF).then_some(OtherLeaf {
                frame: raw.leaf.frame,
                rights: raw.leaf.rights,
                kind: raw.leaf.kind,
                state: raw.leaf.state,
            }),
        }
    }
}

/// What a word of a table of a level, 0 to 3, of somebody's tree says by a profile, and what it says beyond that.
///
/// ```
/// use pkvm_oracle::{Party, Profile, Release, Word, decode_as};
///
/// // Linux 7.3: the host's page is page 0x12 of the guest with handle 0x1003.
/// let profile = Profile::linux(Release::V7_3);
/// let (word, beyond) = decode_as(Party::Host, profile, 3, 0x2000_0000_0121_0034)?;
/// assert_eq!(word, Word::Annotated(Party::Guest(3)));
/// assert_eq!(beyond.guest, Some((0x1003, 0x12)));
/// # Ok::<(), pkvm_oracle::Error>(())
/// ```
///
/// # Errors
///
/// [`Error::Level`], [`Error::NoProfile`].
pub fn decode_as(
    tree: Party,
    profile: Profile,
    level: u64,
    word: u64,
) -> Result<(Word, Beyond), Error> {
    let mut out = Word::Malformed.raw();
    let mut beyond = sys::pkvm_beyond {
        has_guest: 0,
        handle: 0,
        guest_page: 0,
        is_poisoned: 0,
        is_locked: 0,
        is_cleared: 0,
        is_unreadable: 0,
        is_guarded: 0,
        is_aged: 0,
        is_stateless: 0,
        alone: 0,
        memory: 0,
        leaf: out,
    };
    let (tree, profile) = (tree.number(), profile.number());
    // SAFETY: `out` and `beyond` are written alone.
    match unsafe { sys::pkvm_decode_as(tree, profile, level, word, &mut out, &mut beyond) } {
        0 => Ok((Word::of(out).ok_or(Error::Unknown(0))?, Beyond::of(beyond))),
        sys::PKVM_BAD_NUMBER => Err(Error::NoProfile),
        status => Err(Error::of(status, NOTHING)),
    }
}
