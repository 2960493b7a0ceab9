//! spare bytes, the order of their check, and the cleaning program.

use super::*;
use reference::clean::{clean, output, Change};
use reference::job::{command, decode, decode_first, decode_unordered, section, FIRST_READS};
use reference::mistake::Mistake;

/// Variables, nodes and script with a byte changed at `place`.
fn noted(job: &Job, place: usize, byte: u8) -> Vec<u8> {
    let mut bytes = job.encode();
    bytes[place] = byte;
    bytes
}

/// The places of the bytes of the record that may be nothing but what they are, by
/// check 12.
fn spare_of(record: Record) -> Vec<usize> {
    let job = match record.command {
        command::IF | command::WHILE | command::IF_BACK => trial_job(1, &[record, end()]),
        command::ELSE => trial_job(1, &[when(0), record, end()]),
        command::END => trial_job(1, &[when(0), record]),
        _ => trial_job(1, &[record]),
    };
    let index = (record.command == command::ELSE || record.command == command::END) as usize;
    assert!(decode(&job.encode()).is_ok());
    let start = 2 * 8 + 2 * 12 + 16 * index;
    (1..16)
        .filter(|byte| {
            let old = job.encode()[start + byte];
            (1..=255).all(|note| refusal_of(&noted(&job, start + byte, old ^ note)) == (12, index))
        })
        .collect()
}

/// "1 to 3" of a variable, "5 to 7" of a node, "fields that a command or kind
/// doesn't read".
#[test]
fn which_bytes_are_spare() {
    let job = trial_job(1, &[]);
    let spare: Vec<usize> = (0..40)
        .filter(|&place| refusal_of(&noted(&job, place, 1)).0 == 12)
        .collect();
    let expected = [1, 2, 3, 9, 10, 11, 21, 22, 23, 33, 34, 35];
    assert_eq!(spare, expected);

    let all_but_command: Vec<usize> = (1..16).collect();
    for command in [0, 3, 5, 7, 8, 9, 10, 13, 14, 18, 19] {
        assert_eq!(
            spare_of(bare(command)),
            all_but_command,
            "command {command}"
        );
    }
    // "Bytes 5 and 6 stop being spare for commands 11 and 12, byte 5 for 16 and byte
    // 1 for 6" (R-12).
    let all_but_set: Vec<usize> = (1..16).filter(|&byte| byte != 5).collect();
    assert_eq!(spare_of(cover()), all_but_set);
    // Operator 0: the right kind and its number; kinds 2 and 3: the number.
    let right_side = [4, 5, 6, 7, 12, 13, 14, 15];
    let left_number = [8, 9, 10, 11];
    let target = [1];
    let of = |parts: &[&[usize]]| {
        let mut places = parts.concat();
        places.sort();
        places
    };
    assert_eq!(spare_of(print(4)), of(&[&right_side]));
    assert_eq!(spare_of(print(variable(0))), of(&[&right_side]));
    assert_eq!(spare_of(print(value())), of(&[&left_number, &right_side]));
    assert_eq!(spare_of(assign(0, 4)), of(&[&right_side]));
    let right_side_but_sets = [4, 7, 12, 13, 14, 15];
    assert_eq!(
        spare_of(new_first_child(3, children())),
        of(&[&left_number, &right_side_but_sets])
    );
    assert_eq!(
        spare_of(print_for(6, sum(value(), constant(1)))),
        [5, 6, 7, 8, 9, 10, 11]
    );
    let always = [5, 6, 7];
    let right_number = [12, 13, 14, 15];
    assert_eq!(
        spare_of(when(sum(constant(1), constant(2)))),
        of(&[&target, &always])
    );
    assert_eq!(
        spare_of(come_back(difference(children(), constant(2)))),
        of(&[&target, &always, &left_number])
    );
    assert_eq!(
        spare_of(set_value(mean(value(), children()))),
        of(&[&target, &always, &left_number, &right_number])
    );
    assert_eq!(
        spare_of(repeat(less(variable(1), value()))),
        of(&[&target, &always, &right_number])
    );
}

/// "checked after 7 and before 8; its index is the record's own in its section,
/// and sections are searched in file order"
#[test]
fn order_of_the_checks() {
    let mut job = trial_job(1, &[end(), root(), root()]);
    assert_eq!(refusal(&job), (8, 0));
    job.script[2].spare = 1;
    assert_eq!(refusal(&job), (12, 2));
    job.script[1].target = 9;
    assert_eq!(refusal(&job), (12, 1));
    job.nodes[1].spare = [7, 0, 0];
    assert_eq!(refusal(&job), (12, 1));
    job.nodes[0].spare = [0, 7, 0];
    assert_eq!(refusal(&job), (12, 0));
    job.variables[1].spare = [0, 7, 0];
    assert_eq!(refusal(&job), (12, 1));
    job.script[2].command = 20;
    assert_eq!(refusal(&job), (7, 2));
    job.nodes[1].existence = 2;
    assert_eq!(refusal(&job), (6, 1));
    // The budget comes after.
    let spare = trial_job(
        1,
        &[Record {
            target: 1,
            ..root()
        }],
    );
    let limits = Limits::ample(0);
    assert_eq!(answer(&run_with(&spare, &limits)), (12, 0, 0, vec![]));
}

/// "`1 0 5 7` for node 0 whose byte 5 was 7"
#[test]
fn the_report() {
    let job = trial_job(1, &[root(), print(4)]);
    let mut noted = job.clone();
    noted.variables[1].spare[1] = 9;
    noted.nodes[0].spare[0] = 7;
    noted.script[0].target = 2;
    noted.script[1].right_kind = 3;
    noted.script[1].right = 0x0100_0000;
    let written = output(&noted.encode(), Mistake::None);
    assert_eq!(written.standard_output, job.encode());
    assert_eq!(
        written.standard_error,
        "0 1 2 9\n1 0 5 7\n2 0 1 2\n2 1 4 3\n2 1 15 1\n"
    );
    // "A job already clean comes out the same with an empty report."
    let again = output(&job.encode(), Mistake::None);
    assert_eq!(again.standard_output, job.encode());
    assert_eq!(again.standard_error, "");
}

/// "A job that the old rules turn back gets its old number [...] is not cleaned
/// and puts nothing on standard output."
#[test]
fn a_refused_job() {
    let mut job = trial_job(1, &[root(), bare(17)]);
    job.nodes[0].spare = [7; 3];
    let written = output(&job.encode(), Mistake::None);
    assert_eq!(written.standard_output, []);
    assert_eq!(written.standard_error, "refused 7 at 1\n");
    job.script[1] = end();
    let written = output(&job.encode(), Mistake::None);
    assert_eq!(written.standard_error, "refused 8 at 1\n");
    assert_eq!(
        output(&[1; 7], Mistake::None).standard_error,
        "refused 1 at 0\n"
    );
}

/// "The cleaned job runs exactly as the old one did.", where the old one is run
/// without check 12.
#[test]
fn generated_jobs_run_as_before() {
    for seed in 0..2_000 {
        let case = reference::generate::dirty(seed);
        let Ok((cleaned, changes)) = clean(&case.bytes, Mistake::None) else {
            continue;
        };
        let old = decode_first(&case.bytes, Mistake::None).expect("accepted");
        // The cleaner is older than 13.
        let new = decode_unordered(&cleaned, Mistake::None).expect("accepted");
        assert_eq!(
            section(&new.script),
            section(&old.plain(&FIRST_READS, Mistake::None).script)
        );
        let outcome = run::outcome(&cleaned, &case.limits);
        assert_ne!(outcome.ending.number(), 12);
        assert_eq!(
            clean(&cleaned, Mistake::None),
            Ok((cleaned.clone(), vec![]))
        );
        let key = |change: &Change| (change.section, change.record, change.byte);
        assert!(changes.windows(2).all(|two| key(&two[0]) < key(&two[1])));
        assert!(changes.iter().all(|change| change.old != 0));
        let differ = cleaned.iter().zip(&case.bytes).filter(|(a, b)| a != b);
        assert_eq!(differ.count(), changes.len());
    }
}

#[test]
fn the_greatest_job_has_more_than_ten_thousand_changes() {
    let case = reference::generate::full_of_notes(3);
    assert_eq!(case.bytes.len(), 23_048);
    let (cleaned, changes) = clean(&case.bytes, Mistake::None).expect("accepted");
    assert!(changes.len() > 10_000, "{}", changes.len());
    assert!(decode(&cleaned).is_ok());
}
