//! What words of tables say.
use crate::numbered::numbered;
use pkvm_oracle_sys as sys;

/// Whom a frame or a page belongs to, whose tree it is, or whose pool. The shared pool is the hypervisor's.
#[derive(Clone, Copy, Debug, Default, PartialEq, Eq, Hash)]
pub enum Party {
    /// The host.
    #[default]
    Host,
    /// The hypervisor.
    Hyp,
    /// The guest in a slot.
    Guest(u64),
}

impl Party {
    pub(crate) fn number(self) -> u64 {
        match self {
            Party::Host => sys::PKVM_HOST,
            Party::Hyp => sys::PKVM_HYP,
            Party::Guest(slot) => sys::PKVM_GUEST.saturating_add(slot),
        }
    }

    pub(crate) fn of(number: u64) -> Party {
        match number {
            sys::PKVM_HOST => Party::Host,
            sys::PKVM_HYP => Party::Hyp,
            guest => Party::Guest(guest - sys::PKVM_GUEST),
        }
    }
}

numbered! {
    /// What a leaf lets be done.
    Rights {
        /// Read.
        R = sys::PKVM_R,
        /// Read and execute.
        RX = sys::PKVM_RX,
        /// Read and write.
        RW = sys::PKVM_RW,
        /// All three.
        RWX = sys::PKVM_RWX,
    }
}

numbered! {
    /// The kind of memory that a leaf maps.
    Kind {
        /// Normal memory.
        Normal = sys::PKVM_NORMAL,
        /// Device registers.
        Device = sys::PKVM_DEVICE,
    }
}

numbered! {
    /// Who else has a leaf's frame.
    Sharing {
        /// Nobody.
        Owned = sys::PKVM_OWNED,
        /// The owner shares it.
        SharedOwned = sys::PKVM_SHARED_OWNED,
        /// It is borrowed.
        SharedBorrowed = sys::PKVM_SHARED_BORROWED,
    }
}

/// What a word of a table says.
#[derive(Clone, Copy, Debug, PartialEq, Eq, Hash)]
pub enum Word {
    /// Nothing else that is known.
    Malformed,
    /// It is invalid, and names nobody.
    Unmapped,
    /// It is invalid, and names an owner.
    Annotated(Party),
    /// A page or a block.
    Leaf {
        /// Its first frame.
        frame: u64,
        /// What it lets be done.
        rights: Rights,
        /// Its kind of memory.
        kind: Kind,
        /// Who else has the frame.
        sharing: Sharing,
    },
    /// A table of the next level.
    Table {
        /// Its frame.
        frame: u64,
    },
}

const NONE: sys::pkvm_word = sys::pkvm_word {
    says: sys::PKVM_MALFORMED,
    frame: 0,
    owner: 0,
    rights: 0,
    kind: 0,
    state: 0,
};

impl Word {
    pub(crate) fn raw(self) -> sys::pkvm_word {
        match self {
            Word::Malformed => NONE,
            Word::Unmapped => sys::pkvm_word {
                says: sys::PKVM_UNMAPPED,
                ..NONE
            },
            Word::Annotated(owner) => sys::pkvm_word {
                says: sys::PKVM_ANNOTATED,
                owner: owner.number(),
                ..NONE
            },
            Word::Leaf {
                frame,
                rights,
                kind,
                sharing,
            } => sys::pkvm_word {
                says: sys::PKVM_LEAF,
                frame,
                owner: 0,
                rights: rights.number(),
                kind: kind.number(),
                state: sharing.number(),
            },
            Word::Table { frame } => sys::pkvm_word {
                says: sys::PKVM_TABLE,
                frame,
                ..NONE
            },
        }
    }

    pub(crate) fn of(raw: sys::pkvm_word) -> Option<Word> {
        Some(match raw.says {
            sys::PKVM_MALFORMED => Word::Malformed,
            sys::PKVM_UNMAPPED => Word::Unmapped,
            sys::PKVM_ANNOTATED => Word::Annotated(Party::of(raw.owner)),
            sys::PKVM_LEAF => Word::Leaf {
                frame: raw.frame,
                rights: Rights::of(raw.rights)?,
                kind: Kind::of(raw.kind)?,
                sharing: Sharing::of(raw.state)?,
            },
            sys::PKVM_TABLE => Word::Table { frame: raw.frame },
            _ => return None,
        })
    }
}

pub(crate) const NO_WORD: sys::pkvm_word = NONE;
