//! many scripts under one roof.

use reference::history::Event;
use reference::job::Record;
use reference::mistake::Mistake;
use reference::rounds::{kind, Reply, Roof};
use reference::run::{self, Limits};
use reference::source::*;

fn event(kind: u32, body: Vec<u8>, budget: u32) -> Event {
    Event {
        kind,
        budget,
        places: 512,
        lines: 256,
        body,
    }
}

/// A newcomer with a root of 10 and one public variable.
fn newcomer(script: &[Record], budget: u32) -> Event {
    let nodes = [root_node([0, 0, 0], 10)];
    let bytes = job(&[public_variable(0)], &nodes, script).encode();
    event(kind::NEWCOMER, bytes, budget)
}

/// One without an end: two steps again and again.
fn forever() -> Event {
    newcomer(&[repeat(1), end()], 1_000_000)
}

/// One of so many steps, one more than a multiple of three, and then of `rest`.
fn counting(steps: u32, rest: &[Record], budget: u32) -> Event {
    assert_eq!(steps % 3, 1);
    let count = [
        repeat(less(variable(0), constant(steps as i32 / 3))),
        assign(0, sum(variable(0), constant(1))),
        end(),
    ];
    newcomer(&[&count[..], rest].concat(), budget)
}

fn turn() -> Event {
    event(kind::TURN, Vec::new(), 0)
}

fn replies(events: &[Event]) -> Vec<Reply> {
    let mut roof = Roof::new(Mistake::None);
    events.iter().map(|event| roof.expect(event)).collect()
}

/// A turn in short: the run, its steps, and ending's number, index and steps of an answer.
fn had(reply: &Reply) -> (usize, u64, Option<(u32, usize, u64)>) {
    let Reply::Turn { run, took, ended } = reply else {
        panic!("no turn: {reply:?}");
    };
    let answer = ended.as_ref();
    let answer = answer.map(|outcome| (outcome.ending.number(), outcome.index, outcome.steps));
    (*run, *took, answer)
}

fn number(reply: &Reply) -> u32 {
    match reply {
        Reply::TurnedBack(outcome) => {
            assert_eq!((outcome.index, outcome.steps, &outcome.last), (0, 0, &None));
            outcome.ending.number()
        }
        other => panic!("not turned back: {other:?}"),
    }
}

/// "take turns in a circle, each of 5,000 steps"; "a newcomer joins at the back".
#[test]
fn a_circle() {
    let events = [
        forever(),
        forever(),
        turn(),
        forever(),
        turn(),
        turn(),
        turn(),
        turn(),
        turn(),
    ];
    let runs: Vec<usize> = replies(&events)
        .iter()
        .filter(|reply| **reply != Reply::Taken)
        .map(|reply| {
            let (run, took, ended) = had(reply);
            assert_eq!((took, ended), (5_000, None));
            run
        })
        .collect();
    assert_eq!(runs, [0, 1, 0, 3, 1, 0]);
}

/// "or fewer only where the run ends; a run at its script's end or budget after its
/// turn's last step ends in that turn"
#[test]
fn ends_at_the_edge() {
    let ends = |newcomer: Event| {
        let replies = replies(&[newcomer, turn(), turn(), turn()]);
        replies[1..]
            .iter()
            .map_while(|reply| (*reply != Reply::Idle).then(|| had(reply)))
            .collect::<Vec<_>>()
    };
    // The script's end.
    let one = [nothing()];
    assert_eq!(
        ends(counting(4_999, &[], 9_000)),
        [(0, 4_999, Some((0, 0, 4_999)))]
    );
    assert_eq!(
        ends(counting(4_999, &one, 9_000)),
        [(0, 5_000, Some((0, 0, 5_000)))]
    );
    let later = [(0, 5_000, None), (0, 1, Some((0, 0, 5_001)))];
    assert_eq!(ends(counting(4_999, &[nothing(); 2], 9_000)), later);
    let twice = [(0, 5_000, None), (0, 5_000, Some((0, 0, 10_000)))];
    assert_eq!(ends(counting(9_997, &[nothing(); 3], 20_000)), twice);
    // "At the script's end the run has finished, even with the budget used up."
    assert_eq!(
        ends(counting(4_999, &one, 5_000)),
        [(0, 5_000, Some((0, 0, 5_000)))]
    );
    // The budget.
    let budget = |budget| ends(newcomer(&[repeat(1), end()], budget));
    assert_eq!(budget(1), [(0, 1, Some((25, 1, 1)))]);
    assert_eq!(budget(4_999), [(0, 4_999, Some((25, 1, 4_999)))]);
    assert_eq!(budget(5_000), [(0, 5_000, Some((25, 0, 5_000)))]);
    assert_eq!(
        budget(5_001),
        [(0, 5_000, None), (0, 1, Some((25, 1, 5_001)))]
    );
    assert_eq!(
        budget(10_000),
        [(0, 5_000, None), (0, 5_000, Some((25, 0, 10_000)))]
    );
    // Any other stop needs its record: right behind step 5,000 it comes in the next turn,
    // with a budget of 5,000 not at all.
    let stops = [nothing(), up()];
    let next = [(0, 5_000, None), (0, 0, Some((22, 4, 5_000)))];
    assert_eq!(ends(counting(4_999, &stops, 5_001)), next);
    assert_eq!(
        ends(counting(4_999, &stops, 5_000)),
        [(0, 5_000, Some((25, 4, 5_000)))]
    );
    assert_eq!(
        ends(counting(4_999, &stops[1..], 5_000)),
        [(0, 4_999, Some((22, 3, 4_999)))]
    );
}

/// An empty script takes a place, and ends in its first turn.
#[test]
fn an_empty_script() {
    let replies = replies(&[newcomer(&[], 1), turn(), turn()]);
    assert_eq!(replies[0], Reply::Taken);
    assert_eq!(had(&replies[1]), (0, 0, Some((0, 0, 0))));
    assert_eq!(replies[2], Reply::Idle);
    let eight_and_one = vec![newcomer(&[], 1); 9];
    assert_eq!(number(&self::replies(&eight_and_one)[8]), 15);
}

/// "15, a newcomer while eight runs are unended, checked before the job is read"; "A
/// newcomer whose job is turned back takes no place"; "the place of an ended run is
/// used again".
#[test]
fn eight_places() {
    let short = newcomer(&[nothing()], 100);
    let broken = event(kind::NEWCOMER, Vec::new(), 100);
    let mut events = vec![forever(); 7];
    events.extend([broken.clone(), newcomer(&[], 0)]);
    events.extend([
        short.clone(),
        short.clone(),
        broken.clone(),
        newcomer(&[], 0),
    ]);
    let before = replies(&events);
    assert!(before[..7].iter().all(|reply| *reply == Reply::Taken));
    assert_eq!([number(&before[7]), number(&before[8])], [1, 9]);
    assert_eq!(before[9], Reply::Taken);
    assert!(before[10..].iter().all(|reply| number(reply) == 15));
    // The short one is the eighth in the circle; a turn that ends no run frees no place.
    events.extend(vec![turn(); 7]);
    events.extend([short.clone(), turn(), broken, short.clone(), short]);
    let after = replies(&events);
    assert_eq!(number(&after[20]), 15);
    assert_eq!(had(&after[21]), (9, 1, Some((0, 0, 1))));
    assert_eq!(number(&after[22]), 1);
    assert_eq!(after[23], Reply::Taken);
    assert_eq!(number(&after[24]), 15);
}

/// "Each run [...] ends with exactly the ending, steps, lines, variables and tree it
/// has alone": a loop under cover, whose turns end in open blocks.
#[test]
fn what_stands_between_turns() {
    let script = [
        cover(),
        repeat(less(variable(0), constant(3_000))),
        assign(0, sum(variable(0), constant(1))),
        come_back(less(constant(2_998), variable(0))),
        print_for(1, variable(0)),
        end(),
        end(),
    ];
    let one = newcomer(&script, 1_000_000);
    let newcomers = [one.clone(), forever()];
    let replies = replies(&[&newcomers[..], &vec![turn(); 7]].concat());
    assert_eq!(had(&replies[2]), (0, 5_000, None));
    assert_eq!(had(&replies[3]), (1, 5_000, None));
    let Reply::Turn {
        run: 0,
        ended: Some(outcome),
        ..
    } = &replies[8]
    else {
        panic!("{:?}", replies[8]);
    };
    // A cover, five steps a turn of the loop, two lines, the last guard.
    assert_eq!((outcome.ending.number(), outcome.steps), (0, 15_004));
    assert_eq!(outcome.numbers(), [2_999, 3_000]);
    assert_eq!(*outcome, run::outcome(&one.body, &Limits::ample(1_000_000)));
}
