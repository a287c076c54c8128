//! Times reading, checking, writing afresh and running through the static library of crates/exports: how reading grows with a
//! sheet's length and a run with its steps, how much of the reading's time the writing takes, and reading and checking a full
//! sheet, and runs, beside SWI-Prolog with the same texts.

use std::hint::black_box;
use std::process::{Command, exit};
use std::time::Instant;

unsafe extern "C" {
    /// crates/exports (include/pilvaust.h): 0 where the sheet is accepted, and its counts among the numbers.
    fn pilvaust_read(sheet: *const u8, len: usize, numbers: *mut usize, numbers_len: usize) -> usize;
    fn pilvaust_check(sheet: *const u8, len: usize, numbers: *mut usize, numbers_len: usize) -> usize;
    /// A sheet written afresh into a buffer: 0 where it is written, and its length among the numbers.
    fn pilvaust_format(
        sheet: *const u8,
        len: usize,
        out: *mut u8,
        room: usize,
        numbers: *mut usize,
        numbers_len: usize,
    ) -> usize;
    /// A goal run over a sheet, `stored` being the mark for a sheet stored earlier: 0 where the run ended, and its report among the numbers.
    fn pilvaust_run(
        sheet: *const u8,
        len: usize,
        goal: *const u8,
        goal_len: usize,
        allowance: usize,
        wanted: usize,
        stored: bool,
        text: *mut u8,
        room: usize,
        numbers: *mut usize,
        numbers_len: usize,
    ) -> usize;
    /// Workings of a goal checked: 0 where they are accepted, and the line's length among the numbers.
    fn pilvaust_check_workings(
        sheet: *const u8,
        len: usize,
        goal: *const u8,
        goal_len: usize,
        workings: *const u8,
        workings_len: usize,
        text: *mut u8,
        room: usize,
        numbers: *mut usize,
        numbers_len: usize,
    ) -> usize;
    /// The C library's: the CPU time of this process, in microseconds.
    fn clock() -> i64;
}

const SHORT: usize = 4_096;
const FULL: usize = 16_384;
const GROUP: usize = 256;
const ROUNDS: usize = 2_001;
const LOADS: usize = 501;
const ROOM: usize = 8_192;
const STEPS: usize = 65_536;
const ANSWERS: usize = 64;
const SHORT_RUN: usize = 6_000;
const LONG_RUN: usize = 60_000;
const BATCHES: usize = 21;
const RUNS: usize = 200;
const LONG_RUNS: usize = 10;
const SWI_RUNS: usize = 1_000;
const DONE: usize = 1;
const OUT_OF_STEPS: usize = 2;
/// The places of an answer's numbers, as in include/pilvaust.h.
const DECLARATION_COUNT: usize = 8;
const CLAUSE_COUNT: usize = 9;
const VERDICT_NUMBERS: usize = 10;
const LENGTH: usize = 8;
const FORMAT_NUMBERS: usize = 9;
const KIND: usize = 8;
const ANSWER_COUNT: usize = 9;
const STEP_COUNT: usize = 10;
const RUN_NUMBERS: usize = 12;
const MOST_GROWTH: f64 = 5.0;
const MOST_MICROSECONDS: f64 = 2_000.0;
const MOST_OF_SWI: f64 = 0.05;
const MOST_RUN_GROWTH: f64 = 12.0;
const MOST_OF_READING: f64 = 0.5;
const WORKINGS_NUMBERS: usize = 9;
const MOST_OF_RUN: f64 = 1.0;
const SHEET_FILE: &str = "bench/out/sheet.pl";
const GOAL_FILE: &str = "bench/out/goal.pl";

/// The counts of declarations and clauses of a sheet that is accepted.
#[derive(Clone, Copy, Debug, PartialEq)]
struct Counts {
    declarations: usize,
    clauses: usize,
}

fn counts(refusal: usize, numbers: &[usize; VERDICT_NUMBERS]) -> Counts {
    assert_eq!(refusal, 0, "refused: {numbers:?}");
    Counts { declarations: numbers[DECLARATION_COUNT], clauses: numbers[CLAUSE_COUNT] }
}

fn read(sheet: &[u8]) -> Counts {
    let mut numbers = [0; VERDICT_NUMBERS];
    // SAFETY: the function reads `len` bytes from `sheet`, writes at most so many numbers, and keeps nothing.
    let refusal = unsafe { pilvaust_read(sheet.as_ptr(), sheet.len(), numbers.as_mut_ptr(), VERDICT_NUMBERS) };
    counts(refusal, &numbers)
}

fn check(sheet: &[u8]) -> Counts {
    let mut numbers = [0; VERDICT_NUMBERS];
    // SAFETY: as for `read`.
    let refusal = unsafe { pilvaust_check(sheet.as_ptr(), sheet.len(), numbers.as_mut_ptr(), VERDICT_NUMBERS) };
    counts(refusal, &numbers)
}

/// Written afresh: the sheet is read and checked, its output measured and then written.
fn format(sheet: &[u8]) -> usize {
    let mut out = [0; FULL];
    let mut numbers = [0; FORMAT_NUMBERS];
    // SAFETY: the function reads `len` bytes from `sheet`, writes at most `FULL` to `out` and so many numbers, and keeps nothing.
    let refusal = unsafe {
        pilvaust_format(sheet.as_ptr(), sheet.len(), out.as_mut_ptr(), FULL, numbers.as_mut_ptr(), FORMAT_NUMBERS)
    };
    assert_eq!(refusal, 0, "refused: {numbers:?}");
    black_box(&out);
    numbers[LENGTH]
}

/// What a run reports.
#[derive(Clone, Copy, Debug, PartialEq)]
struct Report {
    kind: usize,
    answers: usize,
    steps: usize,
}

/// A run of a goal over a sheet, to its end or until it has taken that many steps.
fn run(case: &Case, allowance: usize) -> Report {
    let (sheet, goal) = (black_box(case.sheet.as_bytes()), black_box(case.goal.as_bytes()));
    let mut text = [0; ROOM];
    let mut numbers = [0; RUN_NUMBERS];
    // SAFETY: the function reads so many bytes from `sheet` and `goal`, writes at most `ROOM` to `text` and so many numbers, and keeps nothing.
    let refusal = unsafe {
        pilvaust_run(
            sheet.as_ptr(),
            sheet.len(),
            goal.as_ptr(),
            goal.len(),
            allowance,
            ANSWERS,
            false,
            text.as_mut_ptr(),
            ROOM,
            numbers.as_mut_ptr(),
            RUN_NUMBERS,
        )
    };
    assert_eq!(refusal, 0, "{}: refused {numbers:?}", case.name);
    black_box(&text);
    Report { kind: numbers[KIND], answers: numbers[ANSWER_COUNT], steps: numbers[STEP_COUNT] }
}

/// A goal replayed over a sheet by some workings: the number of the refusal, 0 where they are accepted.
fn replay(case: &Case, workings: &[u8]) -> usize {
    let (sheet, goal) = (black_box(case.sheet.as_bytes()), black_box(case.goal.as_bytes()));
    let mut text = [0; ROOM];
    let mut numbers = [0; WORKINGS_NUMBERS];
    // SAFETY: as for `run`, and so many bytes of `workings`.
    let refusal = unsafe {
        pilvaust_check_workings(
            sheet.as_ptr(),
            sheet.len(),
            goal.as_ptr(),
            goal.len(),
            workings.as_ptr(),
            workings.len(),
            text.as_mut_ptr(),
            ROOM,
            numbers.as_mut_ptr(),
            WORKINGS_NUMBERS,
        )
    };
    black_box(&text);
    refusal
}

/// A sheet of that many bytes: groups of 256 bytes, each filled up by a comment.
fn sheet(bytes: usize, group: fn(usize) -> String) -> Vec<u8> {
    let mut text = Vec::new();
    for number in 0..bytes / GROUP {
        let mut part = group(number) + "%";
        assert!(part.len() < GROUP, "{} bytes", part.len());
        part += &"-".repeat(GROUP - 1 - part.len());
        text.extend((part + "\n").bytes());
    }
    text
}

/// One declaration and four clauses that keep to its marks: a full sheet is at both limits, and is accepted.
fn rules(number: usize) -> String {
    format!(
        ":- mode ends{number:02}(+,-).\n\
         ends{number:02}(off,rinse).\n\
         ends{number:02}(low,T) :- ends{number:02}(low,U), ends{number:02}(U,T).\n\
         ends{number:02}(steady(S),T) :- ends{number:02}(S,T), T = rinse.\n\
         ends{number:02}(S,T) :- S = f(g(T),7), true.\n"
    )
}

/// One declaration, three facts and a rule, with remarks, as a clinic would write them; at both limits too.
fn clinic(number: usize) -> String {
    format!(
        ":- mode ends{number:02}(+,-).   % the state in which a session ends, from a state on\n\
         ends{number:02}(run,off).\n\
         ends{number:02}(off,rinse).\n\
         ends{number:02}(rinse,stored).\n\
         ends{number:02}(low(S),T) :- ends{number:02}(S,U), ends{number:02}(U,T).\n"
    )
}

/// One clause with 32 variables, some of them met again.
fn variables(number: usize) -> String {
    let names: Vec<String> = (0..40).map(|n| format!("V{:02}", n % 32)).collect();
    let atoms: Vec<String> = names.chunks(8).map(|eight| format!("p({})", eight.join(","))).collect();
    format!("q{number:02} :- {}.\n", atoms.join(","))
}

/// One clause with four terms of sixteen brackets each.
fn brackets(_: usize) -> String {
    let nested = "f(".repeat(16) + "a" + &")".repeat(16);
    format!("p :- X = {nested}, {nested} = X,\n{nested} = {nested}.\n")
}

/// Three clauses of terms without blanks, with hardly a comment: as much is written as is read.
fn terms(number: usize) -> String {
    let term = |name: &str| format!("ended(Aa,low(Bb,{name}),cons(Aa,{number}))");
    let clause = format!("p({},Bb):-Bb={}.\n", term("seven"), term("eight"));
    if number == 0 { format!(":- mode p(*,*).\n{}", clause.repeat(2)) } else { clause.repeat(3) }
}

fn comments(_: usize) -> String {
    "p. \t\r".to_string()
}

/// A sheet and a goal to run over it.
struct Case {
    name: &'static str,
    sheet: String,
    goal: String,
    answers: usize,
}

fn nested(functor: &str, levels: usize, inner: &str) -> String {
    format!("{functor}(").repeat(levels) + inner + &")".repeat(levels)
}

const REVERSE: &str = ":- mode append(+,+,-).\n\
    :- mode reverse(+,-).\n\
    append(nil,Y,Y).\n\
    append(cons(H,T),Y,cons(H,Z)) :- append(T,Y,Z).\n\
    reverse(nil,nil).\n\
    reverse(cons(H,T),R) :- reverse(T,S), append(S,cons(H,nil),R).\n";

/// A list of 20 elements, in two equations: a term has at most 16 brackets open at once.
fn twenty() -> String {
    let ten = |from: usize, rest: &str| {
        let elements: String = (from..from + 10).map(|n| format!("cons(e{n},")).collect();
        elements + rest + &")".repeat(10)
    };
    format!("M = {}, L = {}", ten(10, "nil"), ten(0, "M"))
}

fn reverse() -> Case {
    Case { name: "reverse", sheet: REVERSE.to_string(), goal: format!("{}, reverse(L,R).", twenty()), answers: 1 }
}

fn plus() -> Case {
    let sheet = ":- mode add(+,+,-).\n\
        add(z,N,N).\n\
        add(s(M),N,s(P)) :- add(M,N,P).\n";
    let goal =
        format!("A = {}, B = {}, C = {}, add(C,C,X).", nested("s", 16, "z"), nested("s", 16, "A"), nested("s", 8, "B"));
    Case { name: "plus", sheet: sheet.to_string(), goal, answers: 1 }
}

/// 240 levels gone down, each step on the way to the answer.
fn down() -> Case {
    let sheet = ":- mode down(+).\n\
        down(s(N)) :- down(N).\n\
        down(z).\n";
    let levels: String = (0..15)
        .rev()
        .map(|n| {
            let inner = if n == 14 { "z".to_string() } else { format!("T{}", n + 1) };
            format!("T{n} = {}, ", nested("s", 16, &inner))
        })
        .collect();
    Case { name: "down", sheet: sheet.to_string(), goal: levels + "down(T0).", answers: 1 }
}

/// Goals with the workings of their answer: a clause so many times, and then another.
fn replayed() -> [(Case, Vec<u8>); 2] {
    let workings = |times: usize, again: u8, last: u8| [[1, again, 0].repeat(times), vec![1, last, 0]].concat();
    [(plus(), workings(40, 2, 1)), (down(), workings(240, 1, 2))]
}

/// From each of ten nodes an edge to the next and to the one after it: 55 paths from the first to the last.
fn paths() -> Case {
    let mut sheet = ":- mode edge(+,-).\n\
        :- mode path(+,+,-).\n\
        path(X,X,here).\n\
        path(X,Y,to(Z,P)) :- edge(X,Z), path(Z,Y,P).\n"
        .to_string();
    sheet += &edges();
    Case { name: "paths", sheet, goal: "path(n0,n9,P).".to_string(), answers: 55 }
}

fn edges() -> String {
    let from = |from: usize| (from + 1..10.min(from + 3)).map(move |to| format!("edge(n{from},n{to}).\n"));
    (0..10).flat_map(from).collect()
}

/// The same paths, with both ways to go on in one clause.
fn sides() -> Case {
    let sheet = ":- mode edge(+,-).\n\
        :- mode path(+,+,-).\n\
        path(X,Y,P) :- (X = Y, P = here; edge(X,Z), path(Z,Y,Q), P = to(Z,Q)).\n"
        .to_string();
    Case { name: "sides", sheet: sheet + &edges(), goal: "path(n0,n9,P).".to_string(), answers: 55 }
}

/// Two towers of 4,096 levels, each 16 times 16 equations with 16 levels each, unified.
fn towers() -> Case {
    let join = |literal: &dyn Fn(usize) -> String| (0..16).map(literal).collect::<Vec<_>>().join(", ");
    let levels = join(&|n| format!("T{n} = {}", nested("s", 16, &format!("T{}", n + 1))));
    let parts = join(&|n| format!("part(T{n},T{})", n + 1));
    let sheet = format!(
        ":- mode part(*,*).\n\
         :- mode tower(*,*).\n\
         :- mode towers.\n\
         part(T0,T16) :- {levels}.\n\
         tower(T0,T16) :- {parts}.\n\
         towers :- tower(A,z), tower(B,z), A = B.\n"
    );
    Case { name: "towers", sheet, goal: "towers.".to_string(), answers: 1 }
}

const BITS: &str = ":- mode bit(-).\n\
    bit(zero).\n\
    bit(one).\n";

/// Counts through 15 bits: more steps than a run may take.
fn bits() -> Case {
    let goal = (0..15).map(|n| format!("bit(B{n}), ")).collect::<String>() + "fail.";
    Case { name: "bits", sheet: BITS.to_string(), goal, answers: 0 }
}

/// The same with 12 bits, and a list reversed for each number.
fn reverses() -> Case {
    let bits = (0..12).map(|n| format!("bit(B{n}), ")).collect::<String>();
    let goal = format!("{}, {bits}reverse(L,R), fail.", twenty());
    Case { name: "reverses", sheet: BITS.to_string() + REVERSE, goal, answers: 0 }
}

fn microseconds<T>(answer: fn(&[u8]) -> T, sheet: &[u8]) -> f64 {
    let start = Instant::now();
    black_box(answer(black_box(sheet)));
    start.elapsed().as_secs_f64() * 1e6
}

fn median(mut times: Vec<f64>) -> f64 {
    times.sort_by(f64::total_cmp);
    times[times.len() / 2]
}

/// The largest ratio of the time for a full sheet to that for one of a quarter of its length.
fn growth() -> f64 {
    let makes: [(&str, fn(usize) -> String, usize, usize); 4] = [
        ("rules", rules, 1, 4),
        ("variables", variables, 0, 1),
        ("brackets", brackets, 0, 1),
        ("comments", comments, 0, 1),
    ];
    println!("{:10} {:>10} {:>10} {:>6}", "reading", "4,096", "16,384", "ratio");
    let mut largest: f64 = 0.0;
    for (name, group, declarations, clauses) in makes {
        let (short, full) = (sheet(SHORT, group), sheet(FULL, group));
        for text in [&short, &full] {
            let groups = text.len() / GROUP;
            let expected = Counts { declarations: groups * declarations, clauses: groups * clauses };
            assert_eq!(read(text), expected, "{name}");
        }
        // In turn, so that whatever else the machine does falls on both.
        let (mut shorts, mut fulls) = (Vec::new(), Vec::new());
        for _ in 0..ROUNDS {
            shorts.push(microseconds(read, &short));
            fulls.push(microseconds(read, &full));
        }
        let (short, full) = (median(shorts), median(fulls));
        println!("{name:10} {short:7.1} µs {full:7.1} µs {:6.2}", full / short);
        largest = largest.max(full / short);
    }
    largest
}

/// What SWI-Prolog prints: a time in microseconds, and a count, which is known.
fn swi(words: &[&str], count: usize) -> f64 {
    let output = Command::new("swipl").args(words).output().expect("swipl runs (Debian's swi-prolog-nox)");
    let text = String::from_utf8_lossy(&output.stdout);
    let words: Vec<&str> = text.split_whitespace().collect();
    let [time, counted] = words[..] else {
        panic!("swipl: {text}{}", String::from_utf8_lossy(&output.stderr));
    };
    assert_eq!(counted, count.to_string(), "swipl: {text}");
    time.parse().expect("a number")
}

/// The median CPU time of SWI-Prolog for loading a sheet, in microseconds.
fn swi_microseconds(sheet: &[u8]) -> f64 {
    std::fs::write(SHEET_FILE, sheet).expect("the sheet is written");
    swi(&["bench/load.pl", "--", SHEET_FILE, &LOADS.to_string()], 256)
}

/// The same for all answers of a goal over a sheet that is loaded.
fn swi_run_microseconds(case: &Case) -> f64 {
    std::fs::write(SHEET_FILE, &case.sheet).expect("the sheet is written");
    std::fs::write(GOAL_FILE, format!("{}\n", case.goal)).expect("the goal is written");
    let (batches, runs) = (BATCHES.to_string(), SWI_RUNS.to_string());
    swi(&["bench/goal.pl", "--", SHEET_FILE, GOAL_FILE, &batches, &runs], case.answers)
}

/// The largest time to read and check a full sheet, in microseconds, and its largest part of SWI-Prolog's time to load it.
fn beside_swi() -> (f64, f64) {
    let makes: [(&str, fn(usize) -> String); 2] = [("rules", rules), ("clinic", clinic)];
    println!("{:10} {:>10} {:>10} {:>6}", "checking", "checked", "loaded", "ratio");
    let (mut slowest, mut largest): (f64, f64) = (0.0, 0.0);
    for (name, group) in makes {
        let full = sheet(FULL, group);
        assert_eq!(check(&full), Counts { declarations: 64, clauses: 256 }, "{name}");
        let checked = median((0..ROUNDS).map(|_| microseconds(check, &full)).collect());
        let loaded = swi_microseconds(&full);
        println!("{name:10} {checked:7.1} µs {loaded:7.1} µs {:6.3}", checked / loaded);
        slowest = slowest.max(checked);
        largest = largest.max(checked / loaded);
    }
    (slowest, largest)
}

/// The largest part of the time for reading a full sheet that measuring and writing it afresh takes: what that adds to checking.
fn of_reading() -> f64 {
    let makes: [(&str, fn(usize) -> String); 3] = [("rules", rules), ("clinic", clinic), ("terms", terms)];
    println!("{:10} {:>10} {:>10} {:>6} {:>10}", "writing", "read", "written", "ratio", "bytes");
    let mut largest: f64 = 0.0;
    for (name, group) in makes {
        let full = sheet(FULL, group);
        let bytes = format(&full);
        // One after another, and the part taken in each round, so that whatever else the machine does falls on all.
        let (mut reads, mut writes, mut parts) = (Vec::new(), Vec::new(), Vec::new());
        for _ in 0..ROUNDS {
            let read = microseconds(read, &full);
            let written = microseconds(format, &full) - microseconds(check, &full);
            reads.push(read);
            writes.push(written);
            parts.push(written / read);
        }
        let (read, written, part) = (median(reads), median(writes), median(parts));
        println!("{name:10} {read:7.1} µs {written:7.1} µs {part:6.3} {bytes:10}");
        largest = largest.max(part);
    }
    largest
}

/// The CPU time of a run in microseconds, over so many runs.
fn run_microseconds(case: &Case, allowance: usize, runs: usize) -> f64 {
    // SAFETY: it takes nothing and has no other effect.
    let now = || unsafe { clock() };
    let start = now();
    for _ in 0..runs {
        black_box(run(case, allowance));
    }
    (now() - start) as f64 / runs as f64
}

/// The largest ratio of the time for a run of 60,000 steps to that for one of 6,000.
fn run_growth() -> f64 {
    println!("{:10} {:>12} {:>12} {:>6}", "steps", "6,000", "60,000", "ratio");
    let mut largest: f64 = 0.0;
    for case in [bits(), reverses()] {
        for steps in [SHORT_RUN, LONG_RUN] {
            assert_eq!(
                run(&case, steps),
                Report { kind: OUT_OF_STEPS, answers: 0, steps },
                "{}",
                case.name
            );
        }
        let (mut shorts, mut longs) = (Vec::new(), Vec::new());
        for _ in 0..BATCHES {
            shorts.push(run_microseconds(&case, SHORT_RUN, LONG_RUNS));
            longs.push(run_microseconds(&case, LONG_RUN, LONG_RUNS));
        }
        let (short, long) = (median(shorts), median(longs));
        println!("{:10} {short:9.1} µs {long:9.1} µs {:6.2}", case.name, long / short);
        largest = largest.max(long / short);
    }
    largest
}

/// The CPU time of a replay in microseconds, over so many.
fn replay_microseconds(case: &Case, workings: &[u8], runs: usize) -> f64 {
    // SAFETY: as in `run_microseconds`.
    let now = || unsafe { clock() };
    let start = now();
    for _ in 0..runs {
        black_box(replay(case, workings));
    }
    (now() - start) as f64 / runs as f64
}

/// The largest part of the time of a run's steps that the moves of a replay to the same answer take: both without what a run of one step takes, and
/// a replay of no records up to its first call.
fn of_run() -> f64 {
    println!("{:10} {:>10} {:>10} {:>6} {:>6} {:>6}", "replayed", "run", "replay", "ratio", "steps", "records");
    let mut largest: f64 = 0.0;
    for (case, workings) in replayed() {
        assert_eq!((run(&case, STEPS).answers, replay(&case, &workings)), (1, 0), "{}", case.name);
        let equations = case.goal.matches('=').count() + 1;
        let (mut runs, mut replays, mut parts) = (Vec::new(), Vec::new(), Vec::new());
        for _ in 0..BATCHES {
            let run = run_microseconds(&case, STEPS, RUNS) - run_microseconds(&case, equations, RUNS);
            let replay = replay_microseconds(&case, &workings, RUNS) - replay_microseconds(&case, &[], RUNS);
            runs.push(run);
            replays.push(replay);
            parts.push(replay / run);
        }
        let (run_time, replay_time, part) = (median(runs), median(replays), median(parts));
        let (steps, records) = (run(&case, STEPS).steps, workings.len() / 3);
        println!("{:10} {run_time:7.1} µs {replay_time:7.1} µs {part:6.2} {steps:6} {records:6}", case.name);
        largest = largest.max(part);
    }
    largest
}

/// Runs beside SWI-Prolog, and how long a step takes.
fn runs_beside_swi() {
    println!(
        "{:10} {:>10} {:>10} {:>6} {:>6} {:>9} {:>10} {:>9}",
        "running", "run", "SWI", "ratio", "steps", "a step", "one step", "further"
    );
    for case in [reverse(), plus(), paths(), sides(), towers()] {
        let report = run(&case, STEPS);
        assert_eq!((report.kind, report.answers), (DONE, case.answers), "{}", case.name);
        let steps = report.steps as f64;
        let (mut ones, mut alls) = (Vec::new(), Vec::new());
        for _ in 0..BATCHES {
            ones.push(run_microseconds(&case, 1, RUNS));
            alls.push(run_microseconds(&case, STEPS, RUNS));
        }
        let (one, all) = (median(ones), median(alls));
        let swi = swi_run_microseconds(&case);
        println!(
            "{:10} {all:7.1} µs {swi:7.1} µs {:6.2} {steps:6} {:6.0} ns {one:7.1} µs {:6.0} ns",
            case.name,
            all / swi,
            all * 1e3 / steps,
            (all - one) * 1e3 / (steps - 1.0)
        );
    }
}

/// One reading, checking or run by its name, so that the instructions of it alone can be counted (`bench/instructions`).
fn once(name: &str) {
    let makes: [(&str, fn(usize) -> String); 5] =
        [("rules", rules), ("clinic", clinic), ("variables", variables), ("brackets", brackets), ("comments", comments)];
    for (make, group) in makes {
        if name == format!("read-{make}") {
            black_box(read(&sheet(FULL, group)));
        }
        if name == format!("check-{make}") {
            black_box(check(&sheet(FULL, group)));
        }
    }
    for (make, group) in [("rules", rules as fn(usize) -> String), ("clinic", clinic), ("terms", terms)] {
        if name == format!("format-{make}") {
            black_box(format(&sheet(FULL, group)));
        }
    }
    for case in [reverse(), plus(), paths(), sides(), towers(), bits(), reverses()] {
        if name == case.name {
            black_box(run(&case, STEPS));
        }
    }
    for (case, workings) in replayed() {
        if name == format!("replay-{}", case.name) {
            black_box(replay(&case, &workings));
        }
        if name == format!("run-{}", case.name) {
            black_box(run(&case, STEPS));
        }
    }
}

fn main() {
    if let Some(name) = std::env::args().nth(1) {
        return once(&name);
    }
    let growth = growth();
    let (checked, of_swi) = beside_swi();
    let of_reading = of_reading();
    let run_growth = run_growth();
    let of_run = of_run();
    runs_beside_swi();
    let mut failed = false;
    for (what, figure, most) in [
        ("largest ratio of reading times", growth, MOST_GROWTH),
        ("µs to read and check a full sheet", checked, MOST_MICROSECONDS),
        ("of SWI-Prolog's time to load it", of_swi, MOST_OF_SWI),
        ("of the time of reading it to write it afresh", of_reading, MOST_OF_READING),
        ("largest ratio of run times", run_growth, MOST_RUN_GROWTH),
        ("of the time of a run's steps to replay its answer", of_run, MOST_OF_RUN),
    ] {
        println!("{figure:.3} {what}, to be at most {most}");
        failed |= figure > most;
    }
    exit(failed.into());
}
