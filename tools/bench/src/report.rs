//! The tables, in Markdown.

use crate::machines::NAME;
use crate::measure::{answer, measure, Subject, Times};
use crate::programs::{all, image_only, long, Program, GROUPS};

/// How a call's time grows with the run.
const STEPS: [u32; 4] = [1_000, 10_000, 100_000, 1_000_000];

/// How the check's time grows with the image.
const INSTRUCTIONS: [usize; 4] = [4, 40, 400, 4096];

/// Measures everything, and prints it.
pub fn print() {
    let programs = all();
    let figures: Vec<[u32; 8]> = programs.iter().map(figures).collect();
    let images = INSTRUCTIONS.map(image_only);
    let mut subjects: Vec<Subject> = programs.iter().map(Subject::new).collect();
    let setups = programs.iter().zip(&figures);
    subjects.extend(setups.map(|(program, figures)| Subject::setup(program, figures)));
    subjects.extend(STEPS.map(|steps| Subject::new(&long(steps))));
    subjects.extend(images.iter().map(Subject::new));
    measure(&mut subjects);

    let times: Vec<Times> = subjects.iter().map(|subject| subject.best).collect();
    let (whole, times) = times.split_at(programs.len());
    let (setups, times) = times.split_at(programs.len());
    let (growth, checks) = times.split_at(STEPS.len());
    let rows: Vec<Row> = (0..programs.len())
        .map(|index| Row::new(&programs[index], figures[index][3], whole[index], setups[index]))
        .collect();
    println!("{}\n", processor());
    print_groups(&rows);
    print_programs(&rows);
    print_growth(growth);
    print_checks(&images, checks);
}

/// The kind of machine that this was measured on.
fn processor() -> String {
    let text = std::fs::read_to_string("/proc/cpuinfo").unwrap_or_default();
    let values = |key: &str| -> Vec<String> {
        let lines = text.lines().filter_map(|line| line.split_once(':'));
        let own = lines.filter(|(name, _)| name.trim() == key);
        own.map(|(_, value)| value.trim().to_string()).collect()
    };
    let named = ["model name", "cpu family", "model"].map(|key| values(key).first().cloned().unwrap_or_default());
    let [name, family, model] = named;
    format!(
        "{name} (family {family}, model {model}), {} cores",
        values("processor").len()
    )
}

fn figures(program: &Program) -> [u32; 8] {
    match answer(program) {
        Some(Ok(figures)) => figures,
        _ => panic!("{} isn't run", program.name),
    }
}

/// A measured program: times of a step, those of whole calls divided by the steps, and those without the call's setup.
struct Row<'a> {
    program: &'a Program,
    steps: u32,
    whole: Times,
    net: Times,
}

impl Row<'_> {
    fn new(program: &Program, steps: u32, whole: Times, setup: Times) -> Row<'_> {
        let count = f64::from(steps);
        Row {
            program,
            steps,
            whole: whole.over(count),
            net: whole.minus(setup).over(count),
        }
    }
}

/// The geometric mean.
fn mean(ratios: impl Iterator<Item = f64>) -> f64 {
    let logarithms: Vec<f64> = ratios.map(f64::ln).collect();
    (logarithms.iter().sum::<f64>() / logarithms.len() as f64).exp()
}

fn print_groups(rows: &[Row<'_>]) {
    println!("| | {NAME}/Rust | whole calls |");
    println!("|---|---|---|");
    for group in GROUPS {
        let own = || rows.iter().filter(|row| row.program.group == group);
        let net = mean(own().map(|row| row.net.ratio()));
        let whole = mean(own().map(|row| row.whole.ratio()));
        println!("| {group} | {net:.2} | {whole:.2} |");
    }
}

fn print_programs(rows: &[Row<'_>]) {
    print!("\n| | program | steps a call | {NAME} ns | Rust ns | {NAME}/Rust | {NAME} M/s | Rust M/s ");
    println!("| whole calls: {NAME} ns | Rust ns | {NAME}/Rust |");
    println!("|---|---|---|---|---|---|---|---|---|---|---|");
    for row in rows {
        let (net, whole) = (row.net, row.whole);
        print!("| {} | {} | {} ", row.program.group, row.program.name, row.steps);
        print!("| {:.2} | {:.2} | {:.2} ", net.proved, net.plain, net.ratio());
        print!("| {:.0} | {:.0} ", 1e3 / net.proved, 1e3 / net.plain);
        println!("| {:.2} | {:.2} | {:.2} |", whole.proved, whole.plain, whole.ratio());
    }
}

fn print_growth(times: &[Times]) {
    println!("\n| steps a call | {NAME} ns a step | Rust ns a step | {NAME}/Rust |");
    println!("|---|---|---|---|");
    for (steps, times) in STEPS.into_iter().zip(times) {
        let times = times.over(f64::from(steps));
        println!(
            "| {steps} | {:.2} | {:.2} | {:.2} |",
            times.proved,
            times.plain,
            times.ratio()
        );
    }
}

fn print_checks(images: &[Program], times: &[Times]) {
    println!("\n| instructions | bytes | {NAME} ns a byte | Rust ns a byte | {NAME}/Rust | {NAME} MB/s | Rust MB/s |");
    println!("|---|---|---|---|---|---|---|");
    for ((count, program), times) in INSTRUCTIONS.into_iter().zip(images).zip(times) {
        let bytes = program.image.len();
        let times = times.over(bytes as f64);
        print!("| {count} | {bytes} | {:.3} | {:.3} ", times.proved, times.plain);
        println!(
            "| {:.2} | {:.0} | {:.0} |",
            times.ratio(),
            1e3 / times.proved,
            1e3 / times.plain
        );
    }
}
