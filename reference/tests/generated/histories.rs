use reference::coverage::Coverage;
use reference::generate;
use reference::history::{store, Event, Expected, Model};
use reference::mistake::Mistake;
use reference::print;
use reference::public;
use reference::run::{self, Outcome};

const SEEDS: u64 = 2_000;

/// Where a program may put the nodes of a tree, in preorder.
type Places = fn(usize, usize) -> Vec<usize>;

const IN_ORDER: Places = |count, _| (0..count).collect();

/// From the last place on, but for the root.
const FROM_THE_END: Places = |count, places| {
    let mut all = vec![0];
    all.extend((1..places).rev().take(count - 1));
    all
};

/// Lets a model learn at each dump where a program has put the nodes; no event
/// may hang on anything else.
fn play(
    events: &[Event],
    mistake: Mistake,
    places: Places,
    coverage: &mut Coverage,
) -> Vec<Expected> {
    let mut model = Model::new(mistake);
    let mut lent = 0;
    let mut all = Vec::new();
    for event in events {
        let expected = coverage.add_event(&mut model, event);
        if let Expected::Outcome(Outcome { last: Some(_), .. }) = &expected {
            lent = event.lent();
        }
        if let (Expected::Table { records: None, .. }, Some(tree)) =
            (&expected, model.hidden_tree())
        {
            let mut table = model.held.table.clone();
            store(tree, &places(tree.count(), lent), &mut table);
            // Only a wrong monitor leaves a tree that breaks the rules.
            if model.learn(&table).is_err() {
                assert_ne!(mistake, Mistake::None);
                return vec![Expected::Open];
            }
        }
        all.push(expected);
    }
    all
}

#[test]
fn every_kind_number_and_reason_comes_up() {
    for places in [IN_ORDER, FROM_THE_END] {
        let mut coverage = Coverage::new();
        for seed in 0..SEEDS {
            let events = generate::history(seed);
            let expected = play(&events, Mistake::None, places, &mut coverage);
            assert!(!expected.contains(&Expected::Open), "seed {seed}");
        }
        println!("{SEEDS} seeds\n{coverage}");
        assert_eq!(coverage.missing_of_histories(), Vec::<String>::new());
    }
}

#[test]
fn every_mistake_shows() {
    for mistake in Mistake::FOLLOWING.into_iter().chain(Mistake::WRITING) {
        let found = (0..SEEDS).find(|&seed| {
            let events = generate::history(seed);
            let outcomes = |mistake| play(&events, mistake, IN_ORDER, &mut Coverage::new());
            outcomes(mistake) != outcomes(Mistake::None)
        });
        println!("{mistake:?}: history {found:?}");
        assert!(found.is_some(), "{mistake:?}");
    }
}

/// What a job leaves, a follow-on script can go on with; a job's script gives
/// the same as a script behind the job without it.
#[test]
fn a_job_is_its_tree_and_a_script() {
    for seed in 0..SEEDS {
        let case = generate::valid(seed);
        let whole = run::outcome(&case.bytes, &case.limits);
        let mut job = reference::job::decode(&case.bytes).expect("accepted");
        let body = reference::job::section(&std::mem::take(&mut job.script));
        let (_, standing) = run::start(&job.encode(), &case.limits, Mistake::None, &mut |_, _| {});
        let standing = Ok(standing.expect("accepted"));
        let (parted, after) = reference::follow::follow(
            &standing,
            &body,
            &case.limits,
            Mistake::None,
            &mut |_, _| {},
        );
        assert_eq!(parted, whole, "seed {seed}\n{}", print::case(&case));
        let mut table = vec![Default::default(); 512];
        let after = after.expect("run");
        store(
            &after.tree,
            &FROM_THE_END(after.tree.count(), 512),
            &mut table,
        );
        let again = reference::follow::standing(&table, &after.variables, Mistake::None);
        let again = again.expect("what a run leaves can be held");
        assert_eq!((again.tree, again.variables), (after.tree, after.variables));
    }
}

fn outcomes(events: &[Event], mistake: Mistake) -> Vec<Outcome> {
    let mut model = Model::new(mistake);
    let outcome = |event: &Event| match model.expect(event) {
        Expected::Outcome(outcome) => outcome,
        other => panic!("{other:?}"),
    };
    events.iter().map(outcome).collect()
}

#[test]
fn histories_leak_nothing() {
    for seed in 0..SEEDS {
        let pair = generate::history_pair(seed);
        assert!(pair.well_formed(), "seed {seed}");
        let [left, right] = [&pair.left, &pair.right].map(|events| outcomes(events, Mistake::None));
        assert_eq!(
            public::history_leak(&left, &right, pair.reader),
            None,
            "seed {seed}"
        );
    }
}
