//! Random calls on the states that they lead to.
use pkvm_oracle::{
    boot, judge, predict, replay, suggest, trace_of, trace_start, Call, Error, Fault, Layout,
    Outcome, Party, Place, Region, RegionKind, Rights, Run, State, Verdict, Vm, VmKind, Word,
};

fn layout() -> Layout {
    Layout {
        address_bits: 39,
        cpus: 2,
        carve: 0x40600..0x40640,
        regions: vec![Region {
            kind: RegionKind::Memory,
            first: 0x40000,
            count: 0x800,
        }],
        freedoms: None,
    }
}

#[test]
fn a_walk_is_replayed() -> Result<(), Error> {
    let layout = layout();
    let mut state = boot(&layout)?;
    let mut trace = trace_start(&layout)?;
    let mut refusals = 0;
    for random in 0..300 {
        let (cpu, call) = suggest(&layout, &state, random, 20)?;
        assert_eq!(suggest(&layout, &state, random, 20)?, (cpu, call));
        let (reply, after) = predict(&layout, &state, cpu, call)?;
        let verdict = judge(&layout, &state, cpu, call, reply, &after)?;
        assert_eq!(verdict, Verdict::Agrees);
        refusals += u64::from(reply.is_err());
        trace += &trace_of(&layout, cpu, call)?;
        state = after;
    }
    assert!((30..90).contains(&refusals), "{refusals}");
    let (outcome, report) = replay(trace.as_bytes())?;
    assert_eq!(outcome, Outcome::Clean);
    assert!(report.ends_with(b"end steps 300 disagreements 0\n"));
    Ok(())
}

#[test]
fn calls_are_written() -> Result<(), Error> {
    let vm = Vm {
        slot: 3,
        generation: 2,
    };
    let calls = [
        (Call::Unfund {}, "unfund"),
        (
            Call::ReclaimPage { vm, page: 0x80000 },
            "reclaim_page 3.2 0x80000",
        ),
        (
            Call::VmReserve {
                kind: VmKind::Protected,
                vcpus: 2,
            },
            "vm_reserve protected 2",
        ),
        (
            Call::ShareGuest {
                frame: 0x40100,
                page: 0x80000,
                rights: Rights::RX,
                count: 7,
            },
            "share_guest 0x40100 0x80000 rx 7",
        ),
    ];
    for (call, words) in calls {
        assert_eq!(trace_of(&layout(), 1, call)?, format!("1 {words}\n"));
    }
    assert_eq!(trace_of(&layout(), 2, Call::Unfund {}), Err(Error::Cpu));
    Ok(())
}

#[test]
fn what_is_refused_has_a_name() {
    let fault = |result: Result<State, Error>| match result {
        Err(Error::Layout(why)) => (why.fault, why.place),
        other => panic!("{other:?}"),
    };
    let small = Layout {
        carve: 0x40600..0x40605,
        ..layout()
    };
    let many = Layout {
        cpus: 65,
        ..layout()
    };
    assert_eq!(fault(boot(&small)), (Fault::CarveSmall, Place::Untold));
    assert_eq!(fault(boot(&many)), (Fault::Cpus, Place::Untold));
    assert!(matches!(trace_start(&many), Err(Error::Layout(_))));
    let state = State::default();
    assert_eq!(suggest(&layout(), &state, 1, 101), Err(Error::Percentage));
    let none = Layout {
        cpus: 0,
        ..layout()
    };
    assert_eq!(suggest(&none, &state, 1, 0), Err(Error::Cpu));
    let run = Run {
        tree: Party::Guest(64),
        page: 0,
        count: 1,
        word: Word::Malformed,
    };
    let state = State {
        runs: vec![run],
        ..state
    };
    assert!(matches!(
        suggest(&layout(), &state, 1, 0),
        Err(Error::Before(_))
    ));
}
