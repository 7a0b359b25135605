//! A page that the host shares with the hypervisor, from a state after boot.
use pkvm_oracle::{
    check, judge, predict, reply_to, Call, Error, Fault, Frame, Freedoms, Kind, Layout, List,
    Owner, Party, Place, Refusal, Region, RegionKind, Rights, Row, Run, Said, Sharing, State,
    Table, Trees, Usage, Value, Verdict, Version, Word,
};

const CARVE: u64 = 0x40600;
const HYP: u64 = 0x4000000;

fn layout() -> Layout {
    let region = |kind, first, count| Region { kind, first, count };
    Layout {
        address_bits: 39,
        cpus: 2,
        carve: CARVE..CARVE + 0x40,
        regions: vec![
            region(RegionKind::Memory, 0x40000, 0x800),
            region(RegionKind::Registers, 0x9000, 0x10),
        ],
        freedoms: None,
    }
}

fn leaf(frame: u64, rights: Rights, sharing: Sharing) -> Word {
    Word::Leaf {
        frame,
        rights,
        kind: Kind::Normal,
        sharing,
    }
}

fn booted() -> State {
    let table = |tree, height, index, at| Table {
        tree,
        height,
        index,
        frame: CARVE + at,
    };
    let run = |tree, page, word| Run {
        tree,
        page,
        count: 0x40,
        word,
    };
    State {
        runs: vec![
            run(Party::Host, CARVE, Word::Annotated(Party::Hyp)),
            run(
                Party::Hyp,
                HYP + CARVE,
                leaf(CARVE, Rights::RW, Sharing::Owned),
            ),
        ],
        tables: vec![
            table(Party::Host, 3, 0, 0),
            table(Party::Host, 2, 1, 1),
            table(Party::Host, 1, 0x203, 2),
            table(Party::Hyp, 3, 0, 3),
            table(Party::Hyp, 2, 0x101, 4),
            table(Party::Hyp, 1, 0x20203, 5),
        ],
        frames: (6..0x40)
            .map(|at| Frame {
                pool: Party::Hyp,
                frame: CARVE + at,
            })
            .collect(),
        rows: vec![Row {
            frame: CARVE,
            count: 0x40,
            owner: Owner {
                owner: Party::Hyp,
                lent: None,
                usage: Usage::SharedPool,
            },
        }],
        ..State::default()
    }
}

#[test]
fn versions_fit() {
    assert_eq!(Version::of_library(), Version::of_crate());
    let version = Version::of_crate();
    let own = format!("{}.{}.{}", version.major, version.minor, version.patch);
    assert_eq!(own, env!("CARGO_PKG_VERSION"));
}

#[test]
fn a_share_and_what_it_leaves() {
    let share = Call::ShareHyp { frame: 0x40100 };
    let (reply, after) = predict(&layout(), &booted(), 1, share).unwrap();
    assert_eq!(reply, Ok(Value::Nothing));
    let shared = leaf(0x40100, Rights::RWX, Sharing::SharedOwned);
    let run = after
        .runs
        .iter()
        .find(|it| it.tree == Party::Host && it.page == 0x40100);
    assert_eq!(run.map(|it| (it.count, it.word)), Some((1, shared)));
    assert_eq!(after.frames.len(), booted().frames.len() - 2);
    let row = after
        .rows
        .iter()
        .find(|it| it.frame <= 0x40100 && 0x40100 < it.frame + it.count);
    assert_eq!(
        row.map(|it| it.owner.lent),
        Some(Some((Party::Hyp, HYP + 0x40100)))
    );

    let verdict = judge(&layout(), &booted(), 1, share, reply, &after);
    assert_eq!(verdict, Ok(Verdict::Agrees));
    let again = reply_to(&layout(), &after, 0, share);
    assert_eq!(again, Ok(Err(Refusal::Perm)));
    let owner = reply_to(&layout(), &after, 0, Call::OwnerOf { frame: CARVE });
    assert_eq!(owner, Ok(Ok(Value::Row(booted().rows[0].owner))));
}

#[test]
fn a_share_that_forgets_the_mark() {
    let share = Call::ShareHyp { frame: 0x40100 };
    let (reply, mut after) = predict(&layout(), &booted(), 0, share).unwrap();
    for run in &mut after.runs {
        if let Word::Leaf {
            frame: 0x40100,
            rights: Rights::RWX,
            sharing,
            ..
        } = &mut run.word
        {
            *sharing = Sharing::Owned;
        }
    }
    let told = "disagree host 0x40100 post leaf 0x40100 rwx normal owned spec leaf 0x40100 rwx normal shared_owned";
    let verdict = judge(&layout(), &booted(), 0, share, reply, &after);
    assert_eq!(verdict, Ok(Verdict::Differs(told.into())));
}

#[test]
fn what_a_hypervisor_may_choose() {
    let share = Call::ShareHyp { frame: 0x40100 };
    let (reply, mut after) = predict(&layout(), &booted(), 0, share).unwrap();
    let mut before = booted();
    for state in [&mut before, &mut after] {
        state.tables.clear();
        state.frames.clear();
    }
    let free = |any_refusal| Layout {
        freedoms: Some(Freedoms {
            any_refusal,
            ..Freedoms::default()
        }),
        ..layout()
    };
    let agrees = Ok(Verdict::Agrees);
    let differs = |told: &str| Ok(Verdict::Differs(told.into()));
    let verdict =
        |layout: &Layout, call, said: Said, after| judge(layout, &before, 0, call, said, after);
    assert_eq!(verdict(&free(false), share, reply.into(), &after), agrees);
    assert_ne!(verdict(&layout(), share, reply.into(), &after), agrees);
    let carved = Call::ShareHyp { frame: CARVE };
    let refused = Said::Refusal(34);
    assert_eq!(verdict(&free(true), carved, refused, &before), agrees);
    let told = differs("disagree reply said 34 spec perm");
    assert_eq!(verdict(&free(false), carved, refused, &before), told);
    assert_eq!(verdict(&layout(), carved, refused, &before), told);
    let told = differs("disagree reply said 34 spec ok");
    assert_eq!(verdict(&free(true), share, refused, &before), told);
    let told = differs("disagree reply said stopped spec ok");
    assert_eq!(verdict(&free(true), share, Said::Stopped, &before), told);
}

#[test]
fn what_is_refused() {
    let share = Call::ShareHyp { frame: 0x40100 };
    assert_eq!(reply_to(&layout(), &booted(), 2, share), Err(Error::Cpu));
    let narrow = Layout {
        address_bits: 40,
        ..layout()
    };
    let Err(Error::Layout(why)) = reply_to(&narrow, &booted(), 0, share) else {
        panic!("40 bits are refused")
    };
    assert_eq!((why.fault, why.place), (Fault::Geometry, Place::Untold));

    let mut twice = booted();
    twice.frames.push(twice.frames[3]);
    let Err(Error::Before(why)) = predict(&layout(), &twice, 0, share) else {
        panic!("a frame twice is refused")
    };
    assert_eq!(
        (why.fault, why.place),
        (Fault::FrameTwice, Place::Member(List::Frames, 0x3a))
    );
    let told =
        "the state before the call, or the kept one: a pool has a frame twice: member 58 of Frames";
    assert_eq!(Error::Before(why).to_string(), told);
    let Err(Error::After(why)) = judge(&layout(), &booted(), 0, share, Ok(Value::Nothing), &twice)
    else {
        panic!("a frame twice is refused")
    };
    assert_eq!(why.fault, Fault::FrameTwice);
}

#[test]
fn each_number_is_of_one_variant() {
    for fault in Fault::ALL {
        assert_eq!(Fault::of(fault.number()), Some(*fault));
    }
    for refusal in Refusal::ALL {
        assert_eq!(Refusal::of(refusal.number()), Some(*refusal));
    }
    assert_eq!(
        (Fault::ALL.len(), Refusal::ALL.len(), List::ALL.len()),
        (30, 8, 10)
    );
    assert_eq!(
        (Fault::of(0), Fault::of(31), Refusal::of(0)),
        (None, None, None)
    );
}

#[test]
fn legal_states() {
    let share = Call::ShareHyp { frame: 0x40100 };
    let (_, mut after) = predict(&layout(), &booted(), 1, share).unwrap();
    let agrees = Ok(Verdict::Agrees);
    assert_eq!(check(&layout(), &booted(), Trees::Coarsest), agrees);
    assert_eq!(check(&layout(), &after, Trees::Coarsest), agrees);
    after
        .tables
        .retain(|it| (it.height, it.index) != (1, 0x200));
    let freed = Frame {
        pool: Party::Hyp,
        frame: CARVE + 6,
    };
    after.frames.push(freed);
    assert_eq!(check(&layout(), &after, Trees::Any), agrees);
    let told = "missing table host 1 0x200";
    let verdict = check(&layout(), &after, Trees::Coarsest);
    assert_eq!(verdict, Ok(Verdict::Differs(told.into())));
    after.frames[0].frame = CARVE;
    let told = "held twice 0x40600: table host 3 0x0, shared pool";
    let verdict = check(&layout(), &after, Trees::Any);
    assert_eq!(verdict, Ok(Verdict::Differs(told.into())));
}

#[test]
fn faults_are_called_as_in_the_library() {
    for fault in Fault::ALL {
        let (mut text, mut length) = ([0; 128], 0);
        // SAFETY: the text is written up to its length, and the length alone.
        let status = unsafe {
            pkvm_oracle_sys::pkvm_fault_text(fault.number(), text.as_mut_ptr(), 128, &mut length)
        };
        assert_eq!((status, &text[..length]), (0, fault.text().as_bytes()));
    }
}
