//! Times of the proved planner, additions, mendings and check beside those of the same in plain Rust, as Markdown.
//!
//! `speed [ROUNDS]`: the best of so many rounds is taken, 7 if none is named. Where `FIBRE_PLAN_BEFORE` names another
//! archive, that one is measured too.
mod addition;
mod baseline;
mod before;
mod case;
mod clock;
mod mending;
mod plain_add;
mod plain_check;
mod plain_mend;
mod ways;

use before::Before;
use case::{Case, Times};
use inputs::{Family, Numbers, FAMILIES};
use std::env;

const LINKS: usize = 512;
const CIRCUITS: usize = 2048;
const WAVELENGTHS: [usize; 4] = [1, 4, 16, 40];
/// How many of the circuits are old where the others are added.
const OLD: [usize; 2] = [1024, 1920];
/// How many of a hundred assignments are damaged where a register is mended.
const DAMAGED: [usize; 3] = [1, 5, 50];
const NUMBERS: [Numbers; 2] = [Numbers::Rising, Numbers::Shuffled];

/// The cases at full size.
fn full_size() -> Vec<Case> {
    let mut cases = Vec::new();
    for family in FAMILIES {
        for numbers in NUMBERS {
            cases.extend(WAVELENGTHS.map(|wavelengths| Case {
                family,
                numbers,
                links: LINKS,
                circuits: CIRCUITS,
                wavelengths,
            }));
        }
    }
    cases
}

fn print_cases(measured: &[(Case, Times)]) {
    println!("| family | numbers | w | ours, µs | plain Rust, µs | ratio | test 7, share |");
    println!("|---|---|---:|---:|---:|---:|---:|");
    for (case, times) in measured {
        println!(
            "| {:?} | {:?} | {} | {:.0} | {:.0} | {:.2} | {:.0} % |",
            case.family,
            case.numbers,
            case.wavelengths,
            times.ours,
            times.plain,
            times.ratio(),
            100.0 * times.share_of_seven()
        );
    }
}

/// The geometric mean and the worst of some ratios.
fn mean_and_worst(ratios: &[f64]) -> (f64, f64) {
    let logs: f64 = ratios.iter().map(|r| r.ln()).sum();
    let worst = ratios.iter().copied().fold(0.0, f64::max);
    ((logs / ratios.len() as f64).exp(), worst)
}

/// The cases of a summary's line.
type Chosen = Box<dyn Fn(&Case) -> bool>;

/// The lines of a summary: their names, and which cases they are about.
fn groups() -> Vec<(String, Chosen)> {
    let mut groups: Vec<(String, Chosen)> = vec![("all".to_owned(), Box::new(|_| true))];
    for family in FAMILIES {
        let chosen: Chosen = Box::new(move |case| case.family == family);
        groups.push((format!("{family:?}"), chosen));
    }
    for w in WAVELENGTHS {
        let chosen: Chosen = Box::new(move |case| case.wavelengths == w);
        groups.push((format!("w = {w}"), chosen));
    }
    for numbers in NUMBERS {
        let chosen: Chosen = Box::new(move |case| case.numbers == numbers);
        groups.push((format!("{numbers:?}"), chosen));
    }
    groups
}

/// A line for each group of cases, with the mean and the worst of each of some ratios.
fn print_ratios<T>(measured: &[(Case, T)], ratios: &[fn(&T) -> f64]) {
    for (name, chosen) in groups() {
        let times = || measured.iter().filter(|(case, _)| chosen(case));
        print!("| {name} |");
        for ratio in ratios {
            let of_all: Vec<f64> = times().map(|(_, times)| ratio(times)).collect();
            let (mean, worst) = mean_and_worst(&of_all);
            print!(" {mean:.2} | {worst:.2} |");
        }
        println!();
    }
}

fn print_summary(measured: &[(Case, Times)]) {
    println!("| cases | geometric mean | worst | mean without tests 1 to 7 | worst without them |");
    println!("|---|---:|---:|---:|---:|");
    print_ratios(measured, &[Times::ratio, Times::ratio_after_tests]);
}

/// Our time over that of the archive before.
fn print_before(measured: &[(Case, Times)]) {
    println!("### Ours over the archive before\n");
    println!("| cases | geometric mean | worst |");
    println!("|---|---:|---:|");
    print_ratios(measured, &[Times::ratio_before]);
    println!();
}

/// The least and the greatest of some times.
fn range<T>(measured: &[(Case, T)], time: fn(&T) -> f64) -> String {
    let times = || measured.iter().map(|(_, times)| time(times));
    let (least, greatest) = (
        times().fold(f64::MAX, f64::min),
        times().fold(0.0, f64::max),
    );
    format!("{least:.0} to {greatest:.0} µs")
}

/// Our check's time over that of plain Rust, which finds clashes in two ways.
fn print_checks(measured: &[(Case, Times)]) {
    println!("### A yes to each of these plans: our check over plain Rust's\n");
    println!("| cases | by sorting, geometric mean | worst | by hashing, geometric mean | worst |");
    println!("|---|---:|---:|---:|---:|");
    print_ratios(
        measured,
        &[Times::ratio_to_sorting, Times::ratio_to_hashing],
    );
    println!(
        "\nOurs {}; by sorting {}; by hashing {}.",
        range(measured, |times| times.check),
        range(measured, |times| times.sorting_check),
        range(measured, |times| times.hashing_check)
    );
}

/// Our time for an addition or a mending over that of plain Rust, which finds places in two ways.
fn print_ways(what: &str, measure: impl Fn(&Case) -> ways::Times) {
    let measured: Vec<(Case, ways::Times)> = full_size()
        .into_iter()
        .map(|case| (case, measure(&case)))
        .collect();
    println!("\n### {what}: ours over plain Rust's\n");
    let ratios: [fn(&ways::Times) -> f64; 3] = [
        ways::Times::ratio_to_lists,
        ways::Times::ratio_to_hashing,
        ways::Times::ratio_to_faster,
    ];
    let names = ["with lists", "with a `HashMap`", "the faster of the two"];
    let columns = names.map(|name| format!(" {name}, geometric mean | worst |"));
    println!("| cases |{}", columns.concat());
    println!("|---|{}", "---:|---:|".repeat(names.len()));
    print_ratios(&measured, &ratios);
    println!(
        "\nOurs {}; with lists {}; with a `HashMap` {}.",
        range(&measured, |times| times.ours),
        range(&measured, |times| times.lists),
        range(&measured, |times| times.hashing)
    );
}

/// Our time and the ratio for each family, at some sizes.
fn print_growth(sizes: &[(usize, usize)], rounds: usize) {
    println!(
        "| links | circuits |{}",
        FAMILIES.map(|f| format!(" {f:?} |")).concat()
    );
    println!("|---:|---:|{}", "---:|".repeat(FAMILIES.len()));
    for &(links, circuits) in sizes {
        let cell = |family: Family| {
            let case = Case {
                family,
                numbers: Numbers::Shuffled,
                links,
                circuits,
                wavelengths: 4,
            };
            let times = case.measure(rounds, None);
            format!(" {:.0} ({:.2}) |", times.ours, times.ratio())
        };
        println!("| {links} | {circuits} |{}", FAMILIES.map(cell).concat());
    }
}

fn main() {
    let rounds = env::args().nth(1).map_or(7, |text| {
        text.parse().expect("the argument is a number of rounds")
    });
    let before = Before::named();
    let measured: Vec<(Case, Times)> = full_size()
        .into_iter()
        .map(|case| (case, case.measure(rounds, before.as_ref())))
        .collect();
    println!("### {LINKS} links, {CIRCUITS} circuits, best of {rounds}\n");
    print_summary(&measured);
    println!();
    if before.is_some() {
        print_before(&measured);
    }
    print_cases(&measured);
    println!();
    print_checks(&measured);
    for old in OLD {
        let what = format!("{} circuits added to {old}", CIRCUITS - old);
        print_ways(&what, |case| addition::measure(case, old, rounds));
    }
    for share in DAMAGED {
        let what = format!("A register mended, {share} % of the assignments damaged");
        print_ways(&what, |case| mending::measure(case, share, rounds));
    }
    println!("\n### Growth: ours in µs, and the ratio; numbers shuffled, w = 4\n");
    print_growth(
        &[16, 128, 512, 2048].map(|circuits| (LINKS, circuits)),
        rounds,
    );
    println!();
    print_growth(&[16, 128, 512].map(|links| (links, CIRCUITS)), rounds);
}
