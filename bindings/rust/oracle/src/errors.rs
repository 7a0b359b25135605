//! Why there is no answer.
use crate::numbered::numbered;
use core::fmt;
use pkvm_oracle_sys as sys;

macro_rules! faults {
    ($($(#[$of:meta])* $variant:ident = $number:ident,)*) => {
        numbered! {
            /// Why a layout, a state or tables are refused.
            #[non_exhaustive]
            Fault {
                $($(#[$of])* $variant = sys::$number,)*
            }
        }
    };
}

faults! {
    /// The address bits are neither 39 nor 48.
    Geometry = PKVM_FAULT_GEOMETRY,
    /// There are over 16 regions.
    Regions = PKVM_FAULT_REGIONS,
    /// A region or the carve-out has no page.
    NoPage = PKVM_FAULT_NO_PAGE,
    /// A region ends over page 2^26, or there are over 524,288 pages of memory.
    PastLimit = PKVM_FAULT_PAST_LIMIT,
    /// Two regions share a page.
    RegionsShare = PKVM_FAULT_REGIONS_SHARE,
    /// The carve-out isn't in one memory region.
    CarveOutside = PKVM_FAULT_CARVE_OUTSIDE,
    /// A number is invalid: unknown, or impossible there.
    Unknown = PKVM_FAULT_UNKNOWN,
    /// A frame of the rows or a lent page is over 2^63.
    RowsLarge = PKVM_FAULT_ROWS_LARGE,
    /// Two runs of rows share a frame.
    RowsShare = PKVM_FAULT_ROWS_SHARE,
    /// Two slots, guests or CPUs have one number.
    Twice = PKVM_FAULT_TWICE,
    /// A page, a frame or a slot is so large that a sum could pass 64 bits.
    Large = PKVM_FAULT_LARGE,
    /// Two runs of one tree share a page.
    RunsShare = PKVM_FAULT_RUNS_SHARE,
    /// Two tables of one tree are at one block, or have one frame.
    TableTwice = PKVM_FAULT_TABLE_TWICE,
    /// A pool has a frame twice.
    FrameTwice = PKVM_FAULT_FRAME_TWICE,
    /// A page of tables hasn't 512 words.
    PageLength = PKVM_FAULT_PAGE_LENGTH,
    /// Two pages have one frame.
    PageTwice = PKVM_FAULT_PAGE_TWICE,
    /// A root is of a tree that can't be.
    RootTree = PKVM_FAULT_ROOT_TREE,
    /// A tree has two roots.
    RootTwice = PKVM_FAULT_ROOT_TWICE,
    /// A frame of the root has no page.
    RootPage = PKVM_FAULT_ROOT_PAGE,
    /// A table is below itself.
    Loop = PKVM_FAULT_LOOP,
    /// A table is reached at two levels.
    TwoLevels = PKVM_FAULT_TWO_LEVELS,
    /// A table is reached twice.
    ReachedTwice = PKVM_FAULT_REACHED_TWICE,
    /// The freedoms have a bit beyond the last. This crate hands none in.
    Freedom = PKVM_FAULT_FREEDOM,
    /// The freedoms have another bit without that of own tables. This crate hands none in.
    NotOwnTables = PKVM_FAULT_NOT_OWN_TABLES,
    /// The CPUs of a layout that is to boot aren't 1 to 64.
    Cpus = PKVM_FAULT_CPUS,
    /// The carve-out has fewer frames than boot needs tables.
    CarveSmall = PKVM_FAULT_CARVE_SMALL,
    /// A root's tree has no such profile.
    RootProfile = PKVM_FAULT_ROOT_PROFILE,
    /// A root has over 4 levels.
    RootLevels = PKVM_FAULT_ROOT_LEVELS,
    /// A root has a number of pages that isn't 1, 2, 4, 8 or 16, or ends over frame 2^64.
    RootPages = PKVM_FAULT_ROOT_PAGES,
    /// A range that is left out has no page, or ends over page 2^52.
    RootSkips = PKVM_FAULT_ROOT_SKIPS,
}

impl Fault {
    /// The fault in words.
    #[must_use]
    pub fn text(self) -> &'static str {
        match self {
            Fault::Geometry => "address bits that are neither 39 nor 48",
            Fault::Regions => "over 16 regions",
            Fault::NoPage => "a region or the carve-out has no page",
            Fault::PastLimit => {
                "a region ends over page 2^26, or there are over 524288 pages of memory"
            }
            Fault::RegionsShare => "two regions share a page",
            Fault::CarveOutside => "the carve-out isn't in one memory region",
            Fault::Unknown => "an invalid number",
            Fault::RowsLarge => "a frame of the rows or a lent page is too large",
            Fault::RowsShare => "two runs of rows share a frame",
            Fault::Twice => "two slots, guests or CPUs have one number",
            Fault::Large => "a page, a frame or a slot is too large",
            Fault::RunsShare => "two runs of one tree share a page",
            Fault::TableTwice => "two tables of one tree are at one block, or have one frame",
            Fault::FrameTwice => "a pool has a frame twice",
            Fault::PageLength => "a page of tables hasn't 512 words",
            Fault::PageTwice => "two pages have one frame",
            Fault::RootTree => "a root is of a tree that can't be",
            Fault::RootTwice => "a tree has two roots",
            Fault::RootPage => "a frame of a root has no page",
            Fault::Loop => "a table is below itself",
            Fault::TwoLevels => "a table is reached at two levels",
            Fault::ReachedTwice => "a table is reached twice",
            Fault::Freedom => "a freedom that there is not",
            Fault::NotOwnTables => "freedoms without that of own tables",
            Fault::Cpus => "CPUs that aren't 1 to 64",
            Fault::CarveSmall => "the carve-out has fewer frames than boot needs tables",
            Fault::RootProfile => "a root's tree has no such profile",
            Fault::RootLevels => "a root has over 4 levels",
            Fault::RootPages => "a root's pages aren't 1, 2, 4, 8 or 16, or end over frame 2^64",
            Fault::RootSkips => "a range that is left out has no page, or ends over page 2^52",
        }
    }
}

numbered! {
    /// The list in which a member is at fault.
    #[non_exhaustive]
    List {
        /// `State::runs`.
        Runs = sys::PKVM_LIST_RUNS,
        /// `State::tables`.
        Tables = sys::PKVM_LIST_TABLES,
        /// `State::frames`.
        Frames = sys::PKVM_LIST_FRAMES,
        /// `State::slots`.
        Slots = sys::PKVM_LIST_SLOTS,
        /// `State::loads`.
        Loads = sys::PKVM_LIST_LOADS,
        /// `State::guests`.
        Guests = sys::PKVM_LIST_GUESTS,
        /// `State::cpus`.
        Cpus = sys::PKVM_LIST_CPUS,
        /// `State::rows`.
        Rows = sys::PKVM_LIST_ROWS,
        /// The pages of an audit.
        Pages = sys::PKVM_LIST_PAGES,
        /// The roots of an audit.
        Roots = sys::PKVM_LIST_ROOTS,
    }
}

/// Where a fault is.
#[derive(Clone, Copy, Debug, PartialEq, Eq)]
#[non_exhaustive]
pub enum Place {
    /// No member is told.
    Untold,
    /// The member of a list.
    Member(List, u64),
    /// A table that a walk comes to again.
    Table {
        /// The number of the tree: 0 the host's, 1 the hypervisor's, 2 + v the guest's in slot v.
        tree: u64,
        /// The table's frame.
        frame: u64,
    },
}

/// What of a layout, a state or tables is refused: the first fault in the order of [`Fault`], and where it is.
#[derive(Clone, Copy, Debug, PartialEq, Eq)]
#[non_exhaustive]
pub struct Refused {
    /// The fault.
    pub fault: Fault,
    /// Where it is.
    pub place: Place,
}

impl Refused {
    pub(crate) fn of(raw: sys::pkvm_refused) -> Option<Refused> {
        let fault = Fault::of(raw.fault)?;
        let place = match fault {
            Fault::Loop | Fault::TwoLevels | Fault::ReachedTwice => Place::Table {
                tree: raw.list,
                frame: raw.index,
            },
            _ => List::of(raw.list).map_or(Place::Untold, |list| Place::Member(list, raw.index)),
        };
        Some(Refused { fault, place })
    }
}

impl fmt::Display for Refused {
    fn fmt(&self, f: &mut fmt::Formatter<'_>) -> fmt::Result {
        f.write_str(self.fault.text())?;
        match self.place {
            Place::Untold => Ok(()),
            Place::Member(list, index) => write!(f, ": member {index} of {list:?}"),
            Place::Table { tree, frame } => write!(f, ": frame 0x{frame:x}, in tree {tree}"),
        }
    }
}

/// Why there is no answer.
#[derive(Clone, Copy, Debug, PartialEq, Eq)]
#[non_exhaustive]
pub enum Error {
    /// The level isn't 0 to 3.
    Level,
    /// No word of this level says it.
    NoWord,
    /// The tree has no such profile.
    NoProfile,
    /// The percentage of refused calls is over 100.
    Percentage,
    /// The layout hasn't the CPU.
    Cpu,
    /// The layout is refused.
    Layout(Refused),
    /// The state before the call, or the kept one, is refused.
    Before(Refused),
    /// The call releases a slot whose generation is the greatest number.
    Generation,
    /// The state after the call is refused.
    After(Refused),
    /// Memory was refused.
    NoMemory,
    /// Pages of tables and their roots make no trees.
    Tables(Refused),
    /// A status, or a number of what was written, that this crate doesn't know.
    Unknown(i32),
}

impl Error {
    /// The error of a status below 0.
    pub(crate) fn of(status: i32, refused: sys::pkvm_refused) -> Error {
        let with = |error: fn(Refused) -> Error| {
            Refused::of(refused).map_or(Error::Unknown(status), error)
        };
        match status {
            sys::PKVM_NO_LEVEL => Error::Level,
            sys::PKVM_NO_WORD => Error::NoWord,
            sys::PKVM_BAD_CPU => Error::Cpu,
            sys::PKVM_BAD_LAYOUT => with(Error::Layout),
            sys::PKVM_BAD_BEFORE => with(Error::Before),
            sys::PKVM_LAST_GENERATION => Error::Generation,
            sys::PKVM_BAD_AFTER => with(Error::After),
            sys::PKVM_NO_MEMORY => Error::NoMemory,
            sys::PKVM_BAD_TABLES => with(Error::Tables),
            other => Error::Unknown(other),
        }
    }
}

impl fmt::Display for Error {
    fn fmt(&self, f: &mut fmt::Formatter<'_>) -> fmt::Result {
        match self {
            Error::Level => f.write_str("no such level"),
            Error::NoWord => f.write_str("no word of this level says it"),
            Error::NoProfile => f.write_str("the tree has no such profile"),
            Error::Percentage => f.write_str("over 100 percent"),
            Error::Cpu => f.write_str("no such CPU"),
            Error::Layout(why) => write!(f, "the layout: {why}"),
            Error::Before(why) => write!(f, "the state before the call, or the kept one: {why}"),
            Error::Generation => f.write_str("the released slot's generation can't rise"),
            Error::After(why) => write!(f, "the state after the call: {why}"),
            Error::NoMemory => f.write_str("out of memory"),
            Error::Tables(why) => write!(f, "the tables: {why}"),
            Error::Unknown(status) => write!(f, "status {status}"),
        }
    }
}

impl core::error::Error for Error {}
