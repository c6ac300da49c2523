//! The points of the paper and of the requests, by number. They are held against this program first: else it and the proved one could share
//! a misreading.

use crate::analysis::{self, allowed, demand, terms, uncapped, workload, By, Found, Terms, Verdict};
use crate::listing::Round::{Down, Up};
use crate::report::{Program, BENCH, REPORT};
use crate::table::{Lock, Refusal, Table, Task, TIME};
use crate::{cap, card, cards, cases, easier, edges, falls, groups, listing, no_easier, probe, programs, reads, report, rounds, salvage, salvages, story, wait, waits};

/// Stops the comparison if a point fails.
pub fn hold() {
    case_a();
    workloads();
    fields();
    written();
    refusals();
    thirds();
    decimals();
    each_field();
    rounded();
    longest();
    archived();
    answers();
    cap::hold();
    shortened();
    salvaged();
    counted();
    rounds::hold();
    no_easier::hold();
    longer();
    reads::hold();
    alphas();
    waiting();
    waits::hold();
    grouped();
    groups::hold();
    probe::hold();
    println!("the points of the paper and of the requests hold in this program");
}

fn table(text: &str) -> Table {
    listing::read(text.as_bytes()).expect("an accepted listing")
}

/// What is said of the task at `i` (from 0) of a checked table.
fn found(table: &Table, i: usize) -> Found {
    analysis::found(&table.merged(), i)
}

fn found_by(table: &Table, i: usize, by: By) -> Found {
    analysis::found_by(&table.merged(), i, by)
}

/// Case A with another deadline of task 3.
fn with_deadline(d: &str) -> Table {
    table(&cases::CASE_A.replace("30 6 30", &format!("30 6 {d}")))
}

/// The rounds are those of request 6/12, which names them for case A. At 14.5 the repeated demand counts too, at 14.499 the one past D is the
/// last. The column of the waits, which `report` alone has, is request 8/12's.
fn case_a() {
    let printed = "task verdict bound_us rounds wait_us\n1 meets 3250 2 -\n2 meets 4000 1 -\n3 meets 14500 6 -\n";
    assert_eq!(report::text(cases::CASE_A.as_bytes(), Program::Report), printed);
    let benched = "task verdict bound_us rounds\n1 meets 3250 2\n2 meets 4000 1\n3 open - 5\n";
    assert_eq!(report::text(cases::CASE_A.as_bytes(), Program::Bench), benched);
    let lengths = [6_000, 11_000, 12_500, 13_500, 14_250, 14_500, 14_500];
    let all = [Found::meets(3_250, 2), Found::meets(4_000, 1), Found::meets(14_500, 6)];
    // request 3/12 leaves it as it was
    for by in [By::Capped, By::Uncapped] {
        assert_eq!([0, 1, 2].map(|i| found_by(&with_deadline("30"), i, by)), all);
        assert_eq!(found_by(&with_deadline("14.5"), 2, by), Found::meets(14_500, 6));
        assert_eq!(found_by(&with_deadline("14.499"), 2, by), Found::misses(5));
        for pair in lengths.windows(2) {
            assert_eq!(demand(&with_deadline("30").merged(), 2, pair[0], by), pair[1]);
        }
    }
}

fn workloads() {
    let task = |t, d| Task { t, c: d, d, ..Task::default() };
    for by in [workload, uncapped] {
        assert_eq!([0, 4, 5, 7, 8].map(|t| by(&task(10, 8), t, 3)), [0, 3, 3, 5, 6]);
    }
    // the point that request 3/12 has in place of the paper's
    assert_eq!([8, 9].map(|x| uncapped(&task(10, 10), 2, x)), [4, 3]);
    assert_eq!([8, 9].map(|x| workload(&task(10, 10), 2, x)), [2, 2]);
}

fn fields() {
    let good = [("2.5", 2_500), ("2.05", 2_050), ("2.005", 2_005), ("2.500", 2_500), ("10000", 10_000_000)];
    for (text, us) in good {
        assert_eq!(times(text), [Ok(us); 2], "{text}");
    }
    // 2.5000 was among these before request 1/12
    for text in ["2.", ".5", "100000"] {
        assert_eq!(times(text), [Err(3); 2], "{text}");
    }
    refused("cpus 2\ntask 10000.001 1 1\n", (4, 2));
    refused("cpus 2\ntask 0 1 1\n", (4, 2));
}

/// No leading zeros, none at the end of a fraction, and no point without one.
fn written() {
    let texts = [(0, "0"), (5, "0.005"), (50, "0.05"), (500, "0.5"), (2_000, "2"), (2_005, "2.005"), (2_050, "2.05"), (2_500, "2.5"), (62_500, "62.5"), (10_000_000, "10000")];
    for (us, text) in texts {
        assert_eq!(listing::time_text(us), text);
    }
}

/// A time field rounded down, and rounded up.
fn times(text: &str) -> [Result<u64, u32>; 2] {
    [Down, Up].map(|round| listing::time(text.as_bytes(), round))
}

fn refused(text: &str, refusal: Refusal) {
    assert_eq!(listing::read(text.as_bytes()), Err(refusal), "{text}");
}

fn refusals() {
    refused("cpus 2\n", (9, 2));
    refused("cpus 65\n", (4, 1));
    refused(&cases::tasks(33), (8, 34));
}

/// With m 3 and O, F and L each 1 the quotient is 1. Each rounded by itself, they would give 3 up, or 0 down.
fn thirds() {
    let table = table(cases::THIRDS);
    let Verdict::Meets(bound) = found(&table, 3).verdict else { panic!("task 4 misses") };
    let Terms { db, s, o, f, l } = terms(&table.merged(), 3, bound, workload);
    assert_eq!((table.m, db, s, o, f, l), (3, 6, 1, 1, 1, 1));
    assert_eq!(bound, table.tasks[3].c + db + s + 1);
}

/// Request 1/12: four to six decimals, in every field and beside each other. T and D go down, C, c and CT up.
fn decimals() {
    let run_times = [
        ("2.5000", Ok(2_500)),
        ("2.5001", Ok(2_501)),
        ("0.000001", Ok(1)),
        ("0.9995", Ok(1_000)),
        ("10000.000001", Err((4, 2))),
        ("99999.999999", Err((4, 2))),
        ("2.0000001", Err((3, 2))),
        ("2.", Err((3, 2))),
    ];
    for (text, us) in run_times {
        assert_eq!(first(&format!("task 10000 {text} 10000")).map(|task| task.c), us, "{text} as C");
    }
    let periods = [
        ("2.5000", Ok(2_500)),
        ("2.5009", Ok(2_500)),
        ("0.0009", Err((4, 2))),
        ("10000.000999", Ok(TIME)),
        ("10000.001", Err((4, 2))),
        ("99999.999999", Err((4, 2))),
        ("2.0000001", Err((3, 2))),
        ("2.", Err((3, 2))),
    ];
    for (text, us) in periods {
        assert_eq!(first(&format!("task {text} 0.001 0.001")).map(|task| task.t), us, "{text} as T");
    }
    assert_eq!(times("99999.999999"), [Ok(99_999_999), Ok(100_000_000)]);
    // 5 and 7 look at the rounded values
    refused("cpus 2\ntask 10 2.0001 2.0009\n", (5, 2));
    assert_eq!(first("task 10.0001 1 10.0009"), Ok(Task { t: 10_000, c: 1_000, d: 10_000, ..Task::default() }));
    refused("cpus 2\ntask 10 1 10\nuse 1 1 0.5001 0.5\n", (7, 3));
    refused("cpus 2\ntask 10 5 10\nuse 1 2 0.5 1.0001\n", (7, 3));
    assert_eq!(first("task 10 5 10\nuse 1 2 0.5001 1.0002").map(|task| task.locks[0]), Ok(Lock { n: 2, c: 501, ct: 1_001 }));
    // they fit as typed, but are rounded up one by one
    refused("cpus 2\ntask 10 1 10\nuse 1 1 0.5001 0.5001\nuse 2 1 0.4999 0.4999\n", (7, 4));
    // past the last task 3 still comes before 8, and 8 before 4
    refused(&(cases::tasks(32) + "task 10 2.5000001 10\n"), (3, 34));
    refused(&(cases::tasks(32) + "task 10 10000.000001 10\n"), (8, 34));
    // case A from a tracer is case A, and is written as it
    assert_eq!(table(cases::TRACED), table(cases::CASE_A));
    assert_eq!(listing::write(&table(cases::TRACED)), cases::CASE_A);
}

/// The first task of a listing that has these lines from the second on.
fn first(lines: &str) -> Result<Task, Refusal> {
    listing::read(format!("cpus 2\n{lines}\n").as_bytes()).map(|table| table.tasks[0])
}

/// What the comparison tries by hand: every spelling in every field, where each goes its own way and its range is that of the rounded value;
/// and fields beside each other.
fn each_field() {
    let ranged = |us: u64, line: u32| if (1..=TIME).contains(&us) { Ok(us) } else { Err((4, line)) };
    for &(text, down, up) in cases::SPELLED {
        assert_eq!(times(text), [Ok(down), Ok(up)], "{text}");
        assert_eq!(first(&format!("task {text} 0.001 0.001")).map(|task| task.t), ranged(down, 2), "{text} as T");
        assert_eq!(first(&format!("task 10000 {text} 10000")).map(|task| task.c), ranged(up, 2), "{text} as C");
        assert_eq!(first(&format!("task 10000 0.001 {text}")).map(|task| task.d), ranged(down, 2), "{text} as D");
        let lock = first(&format!("task 10000 10000 10000\nuse 1 1 {text} {text}")).map(|task| task.locks[0]);
        assert_eq!(lock.map(|lock| lock.c), ranged(up, 3), "{text} as c");
        assert_eq!(lock.map(|lock| lock.ct), ranged(up, 3), "{text} as CT");
    }
    for text in cases::MISSPELLED {
        assert_eq!(times(text), [Err(3); 2], "{text}");
        for lines in cases::misspelled(text) {
            answered(&lines, 3);
        }
    }
    for (number, all) in cases::BESIDE {
        for lines in *all {
            answered(lines, *number);
        }
    }
}

/// These lines, from the second on, get this refusal at the last one, or are accepted if it is 0.
fn answered(lines: &str, number: u32) {
    let last = lines.lines().count() as u32 + 1;
    let refusal = first(lines).err();
    assert_eq!(refusal, if number == 0 { None } else { Some((number, last)) }, "{lines}");
}

/// The verdict is that of the rounded figures, even where the figures as typed would miss.
fn rounded() {
    let figures = |text: &str| table(text).used().iter().map(|task| (task.t, task.c, task.d)).collect::<Vec<_>>();
    assert_eq!(figures(cases::ROUNDED), [(11, 9, 9), (11, 2, 11)]);
    assert_eq!(found(&table(cases::ROUNDED), 1).verdict, Verdict::Meets(11));
    assert_eq!(figures(cases::AS_TYPED), [(11_000, 9_000, 9_198), (11_000, 2_000, 11_000)]);
    assert_eq!(found(&table(cases::AS_TYPED), 1).verdict, Verdict::Misses);
}

/// The longest listing: every field at its longest, and every total at its most. And the longest text that is written of a table.
fn longest() {
    let text = cases::longest();
    assert_eq!(text.len(), 22_506);
    let lock = Lock { n: 1_000, c: 1, ct: 1_000 };
    let task = Task { t: TIME, c: 16_000, d: TIME, alpha: 64, locks: [lock; 16] };
    assert_eq!(table(&text), Table { m: 4, n: 32, groups: [16; 16], tasks: [task; 32] });
    assert_eq!(listing::write(&probe::longest()).len(), 16_127);
}

/// Request 2/12: the blocks of case A, and RFC 1071's own example of a sum.
fn archived() {
    assert_eq!(card::checksum(&[0x00, 0x01, 0xf2, 0x03, 0xf4, 0xf5, 0xf6, 0xf7]), !0xddf2);
    let case_a = cards::archive(cases::CASE_A);
    let header = [0x54, 0x42, 0x01, 0x02, 0x03, 0x01, 0x00, 0x00];
    let times = [0x00, 0x00, 0x27, 0x10, 0x00, 0x00, 0x09, 0xc4, 0x00, 0x00, 0x27, 0x10];
    let lock = [0x00, 0x01, 0x00, 0x00, 0x01, 0xf4, 0x00, 0x00, 0x01, 0xf4];
    let first = [&header[..], &times, &lock, &[0; 480], &[0x4b, 0xed]].concat();
    assert_eq!(case_a[..512], first);
    assert_eq!([512, 1_024, 1_536].map(|end| [case_a[end - 2], case_a[end - 1]]), [[0x4b, 0xed], [0x0f, 0x61], [0x9d, 0x1b]]);
    assert_eq!(cards::archive(cards::ZERO_CHECK)[510..], [0, 0]);
    // the sixteenth lock ends where the zeros begin
    assert_eq!(card::write(&cards::full())[170..182], [0x03, 0xd9, 0x00, 0x01, 0x20, 0x80, 0x00, 0x02, 0x31, 0xf0, 0x00, 0x00]);
    assert_eq!(programs::archive(b"cpus 2\ntask 0 1 1\n"), Err("refused 4 line 2\n".into()));
    assert_eq!(programs::unarchive(&cards::archive(cases::TRACED)), Ok(cases::CASE_A.into()));
    assert_eq!(programs::unarchive(&[0; 512]), Err("refused 13 place 1\n".into()));
}

/// The named cards are answered as they say. Reader and writer undo each other, and no table has a second archive.
fn answers() {
    for (name, bytes, refusal) in cards::named() {
        assert_eq!(card::read(&bytes).err(), refusal, "{name}");
    }
    assert_eq!(card::read(&card::write(&cards::full())), Ok(cards::full()));
    for (name, bytes) in cards::all() {
        if let Ok(table) = card::read(&bytes) {
            assert_eq!(card::write(&table), bytes, "{name}");
        }
    }
}

/// Request 3/12: the examples are the story that the search finds. Task 2 is made shorter; by the paper's workload task 3 then misses.
fn shortened() {
    assert_eq!(story::find(), cases::STORY);
    let verdicts = |by: By| cases::STORY.map(|text| [0, 1, 2].map(|i| found_by(&table(text), i, by).verdict));
    let [before, after] = [[1_000, 6_000, 4_000], [1_000, 5_000, 4_000]].map(|bounds| bounds.map(Verdict::Meets));
    assert_eq!(verdicts(By::Capped), [before, after]);
    assert_eq!(verdicts(By::Uncapped), [before, [after[0], after[1], Verdict::Misses]]);
}

/// Request 5/12: the named cards are listed and answered as they say, and what the program writes of them.
fn salvaged() {
    for salvages::Named { name, card, fates, saved } in salvages::named() {
        let found = salvage::salvage(&card, salvage::BLOCKS, salvage::BLOCKS * card::BLOCK);
        let letters: String = found.list.iter().filter_map(|fate| fate.to_string().chars().next()).collect();
        assert_eq!((letters, found.archive), (fates, saved), "{name}");
    }
    let a = cards::archive(cases::CASE_A);
    let back = cards::blocks(&a, &[3, 2, 1, 1]);
    let list = "1 moved\n2 kept\n3 moved\n4 doubled\n";
    assert_eq!(programs::salvage(&back), (a.clone(), list.into()));
    assert_eq!(programs::salvage(&a[512..]), (vec![], "1 moved\n2 moved\nrefused 14 place 0\n".into()));
    assert_eq!(programs::salvage(&[0; 512]), (vec![], "1 bad\nrefused 14 place 0\n".into()));
    assert_eq!(programs::salvage(&a[1..]), (vec![], "refused 15 place 0\n".into()));
    // room for the archive is not enough, nor for the blocks that are left
    for (entries, room) in [(3, 2_048), (4, 2_047), (4, 1_536), (3, 1_536), (0, 0)] {
        assert_eq!(salvage::salvage(&back, entries, room), salvage::Salvaged { list: vec![], archive: Err((11, 0)) });
    }
    assert_eq!(salvage::salvage(&back, 4, 2_048).archive, Ok(a));
}

/// What is said of the task at `i` under each of these allowances.
fn under<const N: usize>(table: &Table, i: usize, allowances: [u64; N]) -> [Found; N] {
    allowances.map(|allowance| allowed(&table.merged(), i, found(table, i), allowance))
}

/// Request 6/12: rounds and allowances.
fn counted() {
    let (bound, [one, two, four, five]) = (Found::meets(14_500, 6), [1, 2, 4, 5].map(Found::open));
    assert_eq!(under(&with_deadline("30"), 2, [1, 2, 5, 6, 7, REPORT]), [one, two, five, bound, bound, bound]);
    assert_eq!(under(&with_deadline("14.5"), 2, [4, 5, 6]), [four, five, bound]);
    assert_eq!(under(&with_deadline("14.499"), 2, [4, 5, 6]), [four, Found::misses(5), Found::misses(5)]);
    assert_eq!([0, 1].map(|i| under(&with_deadline("30"), i, [1])), [[one], [Found::meets(4_000, 1)]]);
    // in one round a demand repeats, or passes D
    assert_eq!([0, 1].map(|i| found(&table(cases::ONE_ROUND), i)), [Found::meets(1, 1), Found::misses(1)]);
    // whatever t is, task 4's demand is 13
    let thirds = |d: &str| found(&table(&cases::THIRDS.replace("10 0.005 1", &format!("10 0.005 {d}"))), 3);
    assert_eq!(["1", "0.013", "0.012"].map(thirds), [Found::meets(13, 2), Found::meets(13, 2), Found::misses(1)]);
    // no task takes more than D - C + 1, and these do take as many
    for rounds in [2, 3, 5, 100] {
        let [met, missed] = [cases::steps(rounds), cases::no_end(rounds)].map(|text| table(&text));
        assert_eq!([&met, &missed].map(|table| table.tasks[1].d - table.tasks[1].c + 1), [rounds, rounds]);
        assert_eq!([found(&met, 1), found(&missed, 1)], [Found::meets(rounds, rounds), Found::misses(rounds)]);
    }
    assert_eq!(cases::steps(3), "cpus 1\ntask 0.003 0.002 0.002\ntask 0.003 0.001 0.003\n");
    easier_takes_more();
}

/// A harder table may take fewer rounds, and get a bound where the easier one is open. The smallest pair is the one that the search finds.
fn easier_takes_more() {
    let harder = table(&cases::one_processor());
    assert!(no_easier::is_harder(&table(cases::CASE_A), &harder));
    assert_eq!([0, 1, 2].map(|i| found(&harder, i)), [Found::meets(3_250, 2), Found::meets(14_500, 7), Found::meets(22_000, 4)]);
    assert_eq!([under(&with_deadline("30"), 2, [BENCH]), under(&harder, 2, [BENCH])], [[Found::open(5)], [Found::meets(22_000, 4)]]);
    let [easier, harder] = cases::EASIER;
    assert!(no_easier::is_harder(&table(easier), &table(harder)));
    assert_eq!(easier::find(), easier::Pair { easier: easier.into(), harder: harder.into(), task: 2, allowance: 2 });
    assert_eq!([easier, harder].map(|text| found(&table(text), 1)), [Found::meets(4_000, 3), Found::meets(4_000, 2)]);
    assert_eq!([easier, harder].map(|text| under(&table(text), 1, [2])), [[Found::open(2)], [Found::meets(4_000, 2)]]);
}

/// The verdicts on each task.
fn verdicts<const N: usize>(text: &str) -> [Verdict; N] {
    std::array::from_fn(|i| found(&table(text), i).verdict)
}

/// Whether the second listing is harder than the first by demand 3, longer by request 7/12, and no easier, which each of these is.
fn relations(first: &str, second: &str) -> [bool; 3] {
    let [first, second] = [first, second].map(table);
    [no_easier::is_harder, no_easier::is_longer, no_easier::is_no_easier].map(|is| is(&first, &second))
}

/// Request 7/12: longer run times by themselves, and beside demand 3's changes.
fn longer() {
    use Verdict::{Meets, Misses};
    let [harder, longer, both] = [[true, false, true], [false, true, true], [false, false, true]];
    let (two, one) = (cases::CASE_A, &cases::one_processor());
    assert_eq!([two, one].map(verdicts), [[3_250, 4_000, 14_500], [3_250, 14_500, 22_000]].map(|bounds| bounds.map(Meets)));
    assert_eq!([relations(two, one), relations(one, two)], [harder, [false; 3]]);
    // task 2 runs longer
    let [on_two, on_one] = [two, one].map(cases::longer_run);
    assert_eq!(verdicts(&on_two), [3_250, 5_000, 15_500].map(Meets));
    assert_eq!(verdicts(&on_one), [Meets(3_250), Misses, Meets(26_000)]);
    assert_eq!([relations(two, &on_two), relations(one, &on_one), relations(two, &on_one)], [longer, longer, both]);
    // and more often
    let more_often = &cases::longer_run_more_often(one);
    assert_eq!(verdicts(more_often), [3_250, 15_000, 29_500].map(Meets));
    assert_eq!([relations(one, more_often), relations(more_often, one)], [both, [false; 3]]);
    // two changes of which neither is accepted without the other
    let request = &cases::longer_request();
    assert_eq!(verdicts(request), [3_750, 4_000, 16_000].map(Meets));
    assert_eq!([relations(two, request), relations(request, two)], [both, [false; 3]]);
    cases::half_longer_request().iter().for_each(|half| refused(half, (7, 3)));
    each_condition();
    holding_longer();
}

/// Case A with one condition broken, of which each counts. The others are kept, but that C falls only where a CT or C less all CT does too.
fn each_condition() {
    let task_3 = "task 30 6 30\nuse 1 2 0.75 1.5\n";
    let broken = [
        ("processors", "cpus 2", "cpus 3"),
        ("periods", "10 2.5 10", "10.001 2.5 10"),
        ("deadlines", "20 4 15", "20 4 14.999"),
        ("deadlines", "20 4 15", "20 4 15.001"),
        ("C", "20 4 15", "20 3.999 15"),
        ("counts", "1 2 0.75 1.5", "1 1 1.5 1.5"),
        ("longest requests", "1 2 0.75 1.5", "1 3 0.749 1.5"),
        ("CT", "1 2 0.75 1.5", "1 2 0.75 1.499"),
        ("C less all CT", "1 1 0.5 0.5", "1 2 0.5 0.501"),
        ("pairs in use", "20 4 15\n", "20 4.5 15\nuse 2 1 0.5 0.5\n"),
        ("tasks", task_3, ""),
        ("groups", "cpus 2\n", "cpus 2\ngroup 1 1\n"),
        ("groups of resources that nobody uses", "cpus 2\n", "cpus 2\ngroup 1 9\n"),
    ];
    for (what, figures, others) in broken {
        assert!(cases::CASE_A.contains(figures), "{figures} is not in case A");
        assert_eq!(relations(cases::CASE_A, &cases::CASE_A.replace(figures, others)), [false; 3], "{what}");
    }
    assert_eq!(relations(cases::CASE_A, cases::CASE_A), [true; 3]);
}

/// The condition on C less all CT, without which a bound may fall. The smallest pair is the one that the search finds.
fn holding_longer() {
    let [first, second] = cases::FALLS;
    assert_eq!(falls::find(), falls::Pair { first: first.into(), second: second.into(), bounds: [5_000, 3_000] });
    assert_eq!([first, second].map(verdicts), [[2_000, 5_000], [2_000, 3_000]].map(|bounds| bounds.map(Verdict::Meets)));
    assert_eq!(relations(first, second), [false; 3]);
    let [first, second] = [first, second].map(table);
    assert!(no_easier::no_figure_is_easier(&first, &second) && !no_easier::no_less_outside_locks(&first, &second));
    // as typed, C less all CT is the same; as read, it shrinks
    let typed = cases::FALLS_AS_READ.map(|text| table(text).used().iter().map(|task| (task.c, task.outside_locks())).collect::<Vec<_>>());
    assert_eq!(typed, [[(2, 1), (1, 1)], [(2, 0), (1, 1)]]);
    assert_eq!(cases::FALLS_AS_READ.map(verdicts), [[2, 5], [2, 3]].map(|bounds| bounds.map(Verdict::Meets)));
}

/// Request 8/12: where alpha stands in a listing and in a table, what is refused, and what is written of it.
fn alphas() {
    for (text, refusal) in cases::alphas() {
        assert_eq!(listing::read(text.as_bytes()).err(), refusal, "{text}");
    }
    for (name, table, refusal) in edges::alphas() {
        assert_eq!(table.check().err(), refusal, "{name}");
    }
    assert_eq!(first("task 10 5 10\nalpha 0064").map(|task| task.alpha), Ok(64));
    assert_eq!(first("task 10 5 10").map(|task| task.alpha), Ok(0));
    assert_eq!(report::text(b"cpus 2\ntask 10 5 10\nalpha 2\ntask 10 5 10\n", Program::Report), "refused 17 line 0\n");
    // it is written after its task line, before the use lines; and tables that differ in it are not the same
    assert_eq!(listing::write(&table(cases::WAITING)), cases::WAITING);
    assert_eq!(listing::write(&table(&cases::WAITING.replace("alpha 2", "alpha 0002"))), cases::WAITING);
    assert_eq!(table(cases::WAITING).without_alpha(), table(&cases::without_alpha(cases::WAITING)));
    assert_ne!(table(cases::WAITING), table(&cases::without_alpha(cases::WAITING)));
    assert_ne!(table(cases::WAITING), table(&cases::WAITING.replace("alpha 2", "alpha 1")));
    dropped();
}

/// The archive has no alpha: the card is that of the table without, and what is read of it too.
fn dropped() {
    let without = cases::without_alpha(cases::WAITING);
    let card = card::write(&table(cases::WAITING));
    assert_eq!(card, card::write(&table(&without)));
    assert_eq!(card::read(&card), Ok(table(&without)));
    assert_eq!(programs::archive(cases::WAITING.as_bytes()), Ok(card.clone()));
    assert_eq!(programs::unarchive(&card), Ok(without.into()));
    assert_eq!(programs::archive(b"cpus 2\ntask 10 5 10\nalpha 2\ntask 10 5 10\n"), Err("refused 17 line 0\n".into()));
}

/// Request 8/12: the waits, which `report` alone prints. The verdicts do not read alpha.
fn waiting() {
    for (text, waits) in cases::waits() {
        assert_eq!(wait::all(&table(&text)), waits.into_iter().map(Some).collect::<Vec<_>>(), "{text}");
    }
    let printed = |column: [&str; 4]| {
        let rows = ["task verdict bound_us rounds", "1 meets 1000 1", "2 meets 1400 2", "3 meets 3300 3"];
        rows.iter().zip(column).map(|(row, cell)| format!("{row}{cell}\n")).collect::<String>()
    };
    let both = [Program::Report, Program::Bench];
    let benched = printed([""; 4]);
    let reported = printed([" wait_us", " 2200", " 400", " 0"]);
    assert_eq!(report::texts(cases::WAITING.as_bytes(), both), [reported, benched.clone()]);
    let reported = printed([" wait_us", " -", " -", " -"]);
    assert_eq!(report::texts(cases::without_alpha(cases::WAITING).as_bytes(), both), [reported, benched]);
}

/// Request 9/12: where groups stand in a listing and in a table, what is refused, and what is written of them.
fn grouped() {
    for (text, refusal) in cases::groups() {
        assert_eq!(listing::read(text.as_bytes()).err(), refusal, "{text}");
    }
    for (name, table, refusal) in edges::groups() {
        assert_eq!(table.check().err(), refusal, "{name}");
    }
    let text = "cpus 2\ngroup 16 2\ngroup 3 16\ntask 10 5 10\nuse 2 1 1 1\n";
    let read = table(text);
    assert_eq!((read.groups[1], read.groups[15], read.groups.iter().sum()), (16, 3, 19));
    assert_eq!(table(cases::CASE_A).groups, [0; 16]);
    assert_eq!(report::text(b"cpus 2\ngroup 1 1\ngroup 2 1\n", Program::Report), "refused 19 line 3\n");
    assert_eq!(report::text(b"cpus 2\ngroup 1 1\ngroup 2 2\n", Program::Bench), "refused 9 line 2\n");
    // they are written after `cpus`, those of resources that nobody uses too; and tables that differ in one are not the same
    assert_eq!(listing::write(&read), text);
    assert_eq!(listing::write(&table(&text.replace("group 16 2", "group 0016 002"))), text);
    assert_eq!(read.without_groups(), table(&cases::without_groups(text)));
    for other in ["group 16 2\n", "group 15 2\ngroup 3 16\n", "group 16 1\ngroup 3 16\n", "group 16 2\ngroup 3 15\n", ""] {
        assert_ne!(read, table(&text.replace("group 16 2\ngroup 3 16\n", other)), "{other}");
    }
    not_on_a_card(text);
    held_in_one_go();
}

/// A card of version 1 has no groups: a table with one is refused, be its resource used or not, and what is read of a card has none.
fn not_on_a_card(text: &str) {
    assert_eq!(programs::archive(text.as_bytes()), Err("refused 20 line 0\n".into()));
    let of_nobody = cases::with_lines(cases::CASE_A, "group 1 9\n");
    assert_eq!(programs::archive(of_nobody.as_bytes()), Err("refused 20 line 0\n".into()));
    assert_eq!(programs::archive(b"cpus 2\ngroup 1 1\ngroup 1 1\n"), Err("refused 19 line 3\n".into()));
    assert_eq!(programs::archive(b"cpus 2\ngroup 1 1\n"), Err("refused 9 line 2\n".into()));
    let table = table(&of_nobody);
    assert_eq!(card::archived(&table), Err((20, 0)));
    assert_eq!(card::archived(&Table { m: 0, ..table.clone() }), Err((4, 0)));
    let without = table.without_groups();
    let written = card::archived(&without);
    assert_eq!(written.as_deref().map(card::read), Ok(Ok(without)));
}

/// What a group presumes, by the bounds of the listing that breaks it in the simulation.
fn held_in_one_go() {
    let meets = |bounds: [u64; 2]| bounds.map(Verdict::Meets);
    assert_eq!(verdicts(cases::OVERLAPPING), meets([3_000, 6_000]));
    assert_eq!(verdicts(cases::OVERLAPPING_TYPED), meets([4_000, 6_000]));
}
