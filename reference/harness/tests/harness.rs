//! The harness itself: it finds nothing where nothing is wrong, and it finds
//! what is wrong. The programs run over the stand-in and the fast version.

use std::process::{Command, Output};

use harness::bench::Bench;
use harness::differential::{portal_unlike, spare, Side, Sides, Unlike};
use harness::frame::{self, Frame};
use harness::memory;
use harness::portal::{Portal, UNLINKED};
use harness::programs;
use harness::replay::Replay;
use harness::rounds::Player;
use harness::workloads;
use reference::generate::{self, Case};
use reference::history::Event;
use reference::job::Record;
use reference::mistake::Mistake;
use reference::run::{self, Limits};
use reference::source::*;

const DIFFERENTIAL: &str = env!("CARGO_BIN_EXE_differential");
const LEAK: &str = env!("CARGO_BIN_EXE_leak");
const SOAK: &str = env!("CARGO_BIN_EXE_soak");
const PROGRAMS: &str = env!("CARGO_BIN_EXE_programs");
const HISTORIES: &str = env!("CARGO_BIN_EXE_histories");
const HISTORY_STANDIN: &str = env!("CARGO_BIN_EXE_history_standin");
const HISTORY_PAIRS: &str = env!("CARGO_BIN_EXE_history_pairs");
const ROUNDS: &str = env!("CARGO_BIN_EXE_rounds");
const ROUNDS_STANDIN: &str = env!("CARGO_BIN_EXE_rounds_standin");
const BUDGETS: &str = env!("CARGO_BIN_EXE_budgets");
const STANDIN: &str = env!("CARGO_BIN_EXE_replay_standin");
const CLEANER: &str = env!("CARGO_BIN_EXE_cleaner");
const CLEAN_STANDIN: &str = env!("CARGO_BIN_EXE_clean_standin");
const ARRANGER: &str = env!("CARGO_BIN_EXE_arranger");
const ARRANGE_STANDIN: &str = env!("CARGO_BIN_EXE_arrange_standin");

fn started(program: &str, words: &[&str]) -> Output {
    let output = Command::new(program)
        .args(words)
        .env_remove("REPLAY")
        .env_remove("ROUNDS")
        .output();
    output.expect("the program starts")
}

/// What a program printed, where it ended with `status`.
fn ended(program: &str, words: &[&str], status: i32) -> String {
    let output = started(program, words);
    let text = String::from_utf8(output.stdout).expect("text");
    assert_eq!(output.status.code(), Some(status), "{words:?}\n{text}");
    text
}

fn both(words: &[&str], status: i32) -> String {
    let sides = ["--replay", STANDIN, "--portal", "fast", "--jobs", "3000"];
    ended(DIFFERENTIAL, &[&sides[..], words].concat(), status)
}

#[test]
fn no_difference_where_there_is_none() {
    let text = both(&[], 0);
    assert!(text.contains("3000 jobs"), "{text}");
}

/// Each side by itself finds the same mistake, and a job of one record shows
/// it.
#[test]
fn a_planted_mistake_is_found_by_each_side() {
    let others = [
        ["--no-portal", "--no-fast"],
        ["--no-replay", "--no-fast"],
        ["--no-replay", "--no-portal"],
    ];
    let names = ["replay", "the portal", "the fast version"];
    for (without, name) in others.into_iter().zip(names) {
        let text = both(
            &[&without[..], &["--mistake", "MeanOfWrappedSum"]].concat(),
            1,
        );
        let small = text.split("the smallest job that shows it").nth(1);
        let small = small.expect("a smallest job").trim();
        assert!(small.starts_with(&format!("{name} differs")), "{small}");
        assert!(small.contains("mean of"), "{small}");
        assert!(
            !small.contains("\n     1  "),
            "one record is enough: {small}"
        );
        assert!(
            small.contains("expected") && small.contains("got"),
            "{small}"
        );
    }
}

#[test]
fn every_planted_mistake_is_found() {
    let words = ["--replay", STANDIN, "--portal", "fast", "--each-mistake"];
    let text = ended(DIFFERENTIAL, &words, 0);
    assert!(text.contains("each mistake was found"), "{text}");
}

/// A program that prints something else, and one that prints nothing.
#[test]
fn another_program_is_no_replay() {
    for program in ["cat", "true"] {
        let words = ["--replay", program, "--no-portal", "--jobs", "10"];
        let text = ended(DIFFERENTIAL, &words, 1);
        assert!(text.contains("replay differs"), "{text}");
    }
}

/// Nothing is tried in place of what is missing.
#[test]
fn what_is_missing_is_said() {
    assert_eq!(
        started(DIFFERENTIAL, &["--portal", "fast"]).status.code(),
        Some(2)
    );
    assert_eq!(started(SOAK, &[]).status.code(), Some(2));
    for (program, words) in [(LEAK, &[][..]), (DIFFERENTIAL, &["--no-replay"])] {
        let mut unlinked = Command::new(program);
        unlinked.args(words).env(UNLINKED, "1");
        let output = unlinked.output().expect("the program starts");
        assert_eq!(output.status.code(), Some(2));
    }
}

#[test]
fn no_leak_where_there_is_none() {
    let text = ended(LEAK, &["--portal", "fast", "--pairs", "3000"], 0);
    assert!(
        text.contains("3000 pairs") && text.contains("no leak"),
        "{text}"
    );
}

/// Pairs that carry one command out, and what is no command.
#[test]
fn pairs_with_a_command() {
    let words = ["--portal", "fast", "--pairs", "1000", "--command", "17"];
    let text = ended(LEAK, &words, 0);
    assert!(text.contains("1000 pairs"), "{text}");
    assert_eq!(generate::pair_with(17, 5), generate::pair_with(17, 5));
    ended(LEAK, &["--portal", "fast", "--command", "99"], 2);
}

/// Through `replay`: whole outcomes.
#[test]
fn no_leak_through_replay() {
    let text = ended(LEAK, &["--replay", STANDIN, "--pairs", "3000"], 0);
    assert!(
        text.contains("3000 pairs") && text.contains("no leak"),
        "{text}"
    );
    let leaky = Command::new(LEAK)
        .args(["--replay", STANDIN, "--pairs", "3000"])
        .env("STANDIN_MISTAKE", "RootResetsCursorLevel")
        .output()
        .expect("the program starts");
    let text = String::from_utf8_lossy(&leaky.stdout);
    assert_eq!(leaky.status.code(), Some(1), "{text}");
    assert!(text.contains("the smallest pair"), "{text}");
    let text = ended(LEAK, &["--replay", "cat", "--pairs", "10"], 1);
    assert!(text.contains("replay tells no outcome"), "{text}");
}

/// What is printed for an outcome tells it whole.
#[test]
fn outcomes_can_be_read_back() {
    for seed in 0..3_000 {
        let case = Frame::of(&generate::case(seed)).case();
        let outcome = run::outcome(&case.bytes, &case.limits);
        assert_eq!(frame::parse(&frame::text(&outcome)), Some(outcome));
    }
    assert_eq!(frame::parse("ending 0 index 0 steps 0 lines 1\n"), None);
    assert_eq!(frame::parse("ending 20 index 0 steps 0 lines 0\n"), None);
    assert_eq!(frame::parse("index 0 ending 0 steps 0 lines 0\n"), None);
    assert_eq!(frame::parse(""), None);
}

#[test]
fn growth_is_told_from_a_few_pages() {
    let constant = |samples: &[(u64, u64)]| memory::constant(samples, "jobs");
    assert!(constant(&[(1, 900), (2, 904), (3, 900)]));
    assert!(!constant(&[(1, 900), (2, 904), (3, 1_100)]));
    assert!(!constant(&[]));
}

/// Each row of the bench is a run that goes on to the end of its budget or of its
/// script, as far as it is looked at here.
#[test]
fn rows_of_the_bench() {
    let mut bench = Bench::new(Portal::Reference(Mistake::None));
    let growing = workloads::by_nodes()
        .into_iter()
        .chain(workloads::by_records());
    let growing = growing.flat_map(|growth| growth.workloads);
    for mut workload in workloads::table().into_iter().chain(growing) {
        workload.budget = workload.budget.min(3_000);
        if bench.can(&workload) {
            bench.compare(&workload);
            bench.steps(&workload);
        }
    }
}

#[test]
fn soak() {
    let text = ended(SOAK, &["--replay", STANDIN, "--jobs", "60000"], 0);
    assert!(
        text.contains("60000 jobs") && text.contains("constant memory"),
        "{text}"
    );
    let text = ended(SOAK, &["--replay", "cat", "--jobs", "1000"], 1);
    assert!(text.contains("drift at 0 jobs"), "{text}");
}

#[test]
fn soak_of_newcomers() {
    let text = ended(SOAK, &["--rounds", ROUNDS_STANDIN, "--jobs", "60000"], 0);
    assert!(text.contains("constant memory"), "{text}");
    let jobs = text.lines().find_map(|line| line.split_once(" jobs in "));
    let jobs: u64 = jobs.expect("a count").0.parse().expect("a number");
    assert!(jobs >= 60_000, "{text}");
    for program in ["cat", "true"] {
        ended(SOAK, &["--rounds", program, "--jobs", "1000"], 1);
    }
}

/// Orders of newcomers and turns: the stand-in over the fast version, and over the
/// reference.
#[test]
fn orders_through_a_stand_in() {
    let words = ["--rounds", ROUNDS_STANDIN, "--seconds", "600", "--orders"];
    let text = ended(ROUNDS, &[&words[..], &["1000"]].concat(), 0);
    assert!(
        text.contains("1000 orders") && text.contains("no difference"),
        "{text}"
    );
    let text = ended(
        ROUNDS,
        &[&words[..], &["300", "--each-mistake"]].concat(),
        0,
    );
    assert!(text.contains("each mistake was found"), "{text}");
}

/// An order that shows a mistake becomes small; another program is no `rounds`, and
/// neither is one with a mistake.
#[test]
fn a_mistake_in_an_order_is_found() {
    let words = ["--rounds", ROUNDS_STANDIN, "--no-fast", "--mistake"];
    let text = ended(ROUNDS, &[&words[..], &["EndsATurnLate"]].concat(), 1);
    let small = text.split("the smallest order that shows it").nth(1);
    let order = small.and_then(|small| small.split("\nevent ").next());
    let order = order.expect("a smallest order");
    assert!(order.lines().count() < 30, "{order}");
    for program in ["cat", "true"] {
        let text = ended(ROUNDS, &["--rounds", program, "--no-fast"], 1);
        assert!(text.contains("differs from the reference"), "{text}");
    }
    let wrong = Command::new(ROUNDS)
        .args(["--rounds", ROUNDS_STANDIN, "--no-fast"])
        .env("STANDIN_MISTAKE", "UnendedToTheFront")
        .status();
    assert_eq!(wrong.expect("the program starts").code(), Some(1));
}

/// What `rounds` prints, to the letter of PROGRAMS.md: a ninth newcomer, a turn that ends
/// no run, one that does, none left, and an event of no kind.
#[test]
fn what_rounds_prints() {
    let nodes = [root_node([0, 0, 0], 10)];
    let newcomer = |script: &[Record]| Event {
        kind: 0,
        budget: 6_000,
        places: 512,
        lines: 256,
        body: job(&[house_variable(-1)], &nodes, script).encode(),
    };
    let other = |kind| Event {
        kind,
        ..Event::default()
    };
    let short = newcomer(&[print(value())]);
    let mut events = vec![newcomer(&[repeat(1), end()]), short];
    events.extend(vec![newcomer(&[]); 7]);
    events.extend([other(1), other(1), other(9)]);
    let mut player = Player::new(Some(Mistake::None));
    let text: String = events.iter().map(|event| player.play(event)).collect();
    let taken: String = (0..8).map(|k| format!("newcomer {k}\ntaken\n")).collect();
    let rest = "newcomer 8\nending 15 index 0 steps 0 lines 0\nturn 9\nrun 0 took 5000\n\
                turn 10\nrun 1 took 1\nending 0 index 0 steps 1 lines 1\nline 10 0\n\
                variable 1 -1\nnode 0 0 0 0 10\nunknown 11\n";
    assert_eq!(text, taken + rest);
    let idle = Player::new(None).play(&other(1));
    assert_eq!(idle, "turn 0\nidle\n");
}

/// A stand-in whose streams end in cut frames.
#[test]
fn cut_frames() {
    let sides = |path: &str| Sides {
        replay: Some(Replay { path: path.into() }),
        portal: None,
        fast: false,
        mistake: Mistake::None,
    };
    assert_eq!(sides(STANDIN).truncations(0).ok(), Some(32));
    assert!(sides("true").truncations(0).is_err());
}

/// A case that prints 10 twice.
fn printing() -> Case {
    Case {
        bytes: job(
            &[],
            &[root_node([0, 0, 0], 10)],
            &[print(value()), print(value())],
        )
        .encode(),
        limits: Limits::ample(100),
    }
}

fn with_portal(case: &Case, portal: impl Fn(&[u8], u64, &mut [u8]) -> u64) -> Option<Unlike> {
    portal_unlike(&portal, case, 3, Mistake::None)
}

/// Each byte of the area counts, and those around it.
#[test]
fn bytes_of_the_area() {
    let right = fast::entry::portal;
    let case = printing();
    assert_eq!(with_portal(&case, right), None);
    let writes = |place: usize| {
        move |job: &[u8], budget, area: &mut [u8]| {
            let answer = right(job, budget, area);
            area[place] ^= 1;
            answer
        }
    };
    let length = 5 * case.limits.lines + 3;
    for place in [0, 4, 5, 9, 10, 11, length - 4, length - 1] {
        assert!(with_portal(&case, writes(place)).is_some(), "byte {place}");
    }
    let beyond = |job: &[u8], budget, area: &mut [u8]| {
        let answer = right(job, budget, area);
        // SAFETY: the harness keeps more bytes behind the area.
        unsafe { *area.as_mut_ptr().add(area.len()) ^= 1 };
        answer
    };
    assert!(with_portal(&case, beyond).is_some());
    let answers =
        |more: u64| move |job: &[u8], budget, area: &mut [u8]| right(job, budget, area) + more;
    assert!(with_portal(&case, answers(1)).is_some());
    assert!(with_portal(&case, answers(1 << 32)).is_some());
}

/// "Turned back: nothing is written".
#[test]
fn a_refused_job_that_writes() {
    let mut case = printing();
    case.limits.budget = 0;
    let right = fast::entry::portal;
    assert_eq!(with_portal(&case, right), None);
    let writes = |job: &[u8], budget, area: &mut [u8]| {
        area[0] ^= 1;
        right(job, budget, area)
    };
    assert!(with_portal(&case, writes).is_some());
}

/// Areas of all five remainders come up, with valid and with damaged jobs.
#[test]
fn areas_of_odd_lengths() {
    for remainder in 0..5 {
        for rest in 0..5 {
            assert!((0..100).any(|seed| spare(seed) == remainder && seed % 5 == rest));
        }
    }
}

/// What only a frame can have comes up: too many places, too many lines, jobs
/// that are cut to 23,049 bytes.
#[test]
fn frames_at_their_edges() {
    let frames: Vec<Frame> = (0..20_000)
        .map(|seed| Frame::varied(&generate::case(seed), seed))
        .collect();
    let some = |test: &dyn Fn(&Frame) -> bool| assert!(frames.iter().any(test));
    some(&|frame| frame.places == 513);
    some(&|frame| frame.places == 65_535);
    some(&|frame| frame.lines > 1_024);
    some(&|frame| frame.job.len() == 23_048);
    some(&|frame| frame.job.len() == 23_049);
    some(&|frame| frame.job.len() > 23_050);
    some(&|frame| frame.budget == u32::MAX);
}

/// The example of how `inspect` prints, which is trial 6 with 7 for h; and a
/// refusal, a stop and an empty input.
#[test]
fn what_inspect_prints() {
    let script = [
        cover(),
        when(variable(1)),
        first_child(),
        end(),
        root(),
        print(value()),
    ];
    let variables = [public_variable(0), house_variable(7)];
    let nodes = [root_node([0, 0, 0], 10), node(0, [0, 0, 0], 3)];
    let text = |bytes: &[u8]| programs::inspect(bytes).output;
    let expected = "ending 0 finished\nrecord 0\nsteps 6\nlines 1\n  10 0\nvariables 2\n  \
                    0: level 0, value 0\n  1: level 1, value 7\ntree 2\n  \
                    value 10, existence 0, content 0, list 0\n    \
                    value 3, existence 0, content 0, list 0\n";
    assert_eq!(text(&job(&variables, &nodes, &script).encode()), expected);
    let refused = [root_node([0, 0, 0], 10), node(1, [0, 0, 0], 3)];
    let expected = "ending 5 parent rule broken\nrecord 1\n";
    assert_eq!(text(&job(&[], &refused, &[]).encode()), expected);
    let expected = "ending 22 node does not exist\nrecord 0\nsteps 0\nlines 0\nvariables 0\n\
                    tree 1\n  value 10, existence 0, content 0, list 0\n";
    assert_eq!(text(&job(&[], &nodes[..1], &[up()]).encode()), expected);
    assert_eq!(text(&[]), "ending 1 wrong size\nrecord 0\n");
}

/// A program that prints something else is found.
#[test]
fn another_program_is_no_board() {
    let words = ["--board", "cat", "--inspect", "cat", "--jobs", "5"];
    let text = ended(PROGRAMS, &words, 1);
    assert!(text.contains("board differs"), "{text}");
}

/// The header's fields stand where the format says.
#[test]
fn header_of_a_frame() {
    let frame = Frame {
        job: vec![7; 0x0102],
        budget: 0x0a0b_0c0d,
        places: 0x0203,
        lines: 0x0405,
    };
    let mut bytes = Vec::new();
    frame.write(&mut bytes);
    let header = [2, 1, 0, 0, 0x0d, 0x0c, 0x0b, 0x0a, 3, 2, 5, 4];
    assert_eq!(bytes[..12], header);
    assert_eq!(bytes[12..], [7; 0x0102]);
}

/// A difference by itself is found again by itself.
#[test]
fn a_case_by_itself() {
    let sides = Sides {
        replay: Some(Replay {
            path: STANDIN.into(),
        }),
        portal: Some(Portal::Fast),
        fast: true,
        mistake: Mistake::SumSaturates,
    };
    let case = Case {
        bytes: job(
            &[],
            &[root_node([0, 0, 0], 0)],
            &[print(sum(constant(i32::MAX), constant(1)))],
        )
        .encode(),
        limits: Limits::ample(10),
    };
    for side in [Side::Replay, Side::Portal, Side::Fast] {
        assert!(sides.unlike(side, &case, 0).is_some(), "{side:?}");
    }
}

/// Histories: the stand-in over the fast version, and over the reference, which
/// puts its nodes elsewhere.
#[test]
fn histories_through_a_stand_in() {
    let words = [
        "--history",
        HISTORY_STANDIN,
        "--histories",
        "1000",
        "--seconds",
        "600",
    ];
    let text = ended(HISTORIES, &words, 0);
    assert!(text.contains("1000 histories"), "{text}");
    let other = Command::new(HISTORIES)
        .args(words)
        .env("STANDIN_MISTAKE", "None")
        .output()
        .expect("the program starts");
    assert_eq!(other.status.code(), Some(0));
}

/// What stands is written back, loaded and gone on with; a mistake in that is found.
#[test]
fn moved_histories_through_a_stand_in() {
    let words = ["--history", HISTORY_STANDIN, "--moved", "--histories"];
    let text = ended(HISTORIES, &[&words[..], &["1000"]].concat(), 0);
    assert!(
        text.contains("1000 histories") && text.contains("no difference"),
        "{text}"
    );
    let wrong = ["100", "--mistake", "WrittenByLevels"];
    let text = ended(HISTORIES, &[&words[..], &wrong[..]].concat(), 1);
    assert!(
        text.contains("the smallest history that shows it"),
        "{text}"
    );
}

/// A history that shows a mistake becomes small, but for the nodes of a table
/// that is put in whole; a table that breaks what was
/// promised of it is found.
#[test]
fn a_mistake_in_a_history_is_found() {
    let words = ["--history", HISTORY_STANDIN, "--no-fast", "--mistake"];
    let text = ended(HISTORIES, &[&words[..], &["StopTakenBack"]].concat(), 1);
    let small = text.split("the smallest history that shows it").nth(1);
    let events = small.and_then(|small| small.split("\nevent ").next());
    let events = events.expect("a smallest history");
    assert!(events.lines().count() < 40, "{events}");
    for program in ["cat", "true"] {
        let text = ended(HISTORIES, &["--history", program, "--no-fast"], 1);
        assert!(text.contains("differs from the reference"), "{text}");
    }
}

#[test]
fn no_leak_in_histories() {
    let words = [
        "--history",
        HISTORY_STANDIN,
        "--pairs",
        "500",
        "--seconds",
        "600",
    ];
    let text = ended(HISTORY_PAIRS, &words, 0);
    assert!(
        text.contains("500 pairs") && text.contains("no leak"),
        "{text}"
    );
    let words = ["--player", "reference", "--mistake", "CursorStays"];
    let text = ended(HISTORY_PAIRS, &words, 1);
    assert!(text.contains("the smallest pair"), "{text}");
    let text = ended(HISTORY_PAIRS, &["--history", "cat", "--pairs", "10"], 1);
    assert!(text.contains("no outcome"), "{text}");
}

/// The streams of a program for stored jobs: no difference where there is none,
/// each planted mistake found, in the reference and in the program.
fn stored(harness: &str, name: &str, stand_in: &str, mistakes: &[Mistake]) {
    let option = format!("--{name}");
    // Not from seed 0 on, whose job is the greatest: to make that one small takes half a minute.
    let common = [option.as_str(), stand_in, "--jobs", "1000", "--seed", "1"];
    let jobs = |words: &[&str], status| ended(harness, &[&common[..], words].concat(), status);
    let text = jobs(&[], 0);
    let same = format!("1000 jobs through {name}, no difference");
    assert!(text.contains(&same), "{text}");
    jobs(&["--each-mistake"], 0);
    for mistake in mistakes {
        let mistake = format!("{mistake:?}");
        let text = jobs(&["--mistake", &mistake], 1);
        let unlike = format!("{name} differs from the reference");
        assert!(text.contains(&unlike), "{text}");
        let wrong = Command::new(harness)
            .args(common)
            .env("STANDIN_MISTAKE", mistake)
            .status();
        assert_eq!(wrong.expect("the program starts").code(), Some(1));
    }
}

#[test]
fn cleaning() {
    stored(CLEANER, "clean", CLEAN_STANDIN, &Mistake::CLEANING);
}

#[test]
fn rearranging() {
    stored(ARRANGER, "arrange", ARRANGE_STANDIN, &Mistake::ARRANGING);
}

/// Larger budgets change nothing said, through each program; each planted mistake is
/// found, in a portal and in the programs.
#[test]
fn two_budgets() {
    let programs = [
        ["--replay", STANDIN],
        ["--history", HISTORY_STANDIN],
        ["--rounds", ROUNDS_STANDIN],
    ];
    let words = ["--portal", "fast", "--jobs", "2000", "--seconds", "600"];
    let text = ended(BUDGETS, &[&words[..], &programs.concat()].concat(), 0);
    assert_eq!(
        text.matches("nothing said was changed").count(),
        4,
        "{text}"
    );
    let text = ended(BUDGETS, &["--each-mistake", "--jobs", "2000"], 0);
    assert!(text.contains("each mistake was found"), "{text}");
    for program in programs {
        let wrong = Command::new(BUDGETS)
            .args(["--no-portal", "--jobs", "2000"])
            .args(program)
            .env("STANDIN_MISTAKE", "SpentPrintsSteps")
            .output()
            .expect("the program starts");
        let text = String::from_utf8_lossy(&wrong.stdout);
        assert_eq!(wrong.status.code(), Some(1), "{text}");
        assert!(
            text.contains("a larger budget changes what was said"),
            "{text}"
        );
    }
}
