//! Times the proved library against the reference, and against plain C for a sheet
//! rewritten or converted, a line from points, a height and the elements of one curve.

mod archive;
mod arguments;
mod baseline;
#[cfg(before)]
mod before;
mod command;
mod compare;
mod inputs;
mod job;
mod library;
mod measure;
mod profiles;
mod programs;
mod reference_side;
mod side;
mod surveys;
mod table;

use archive::Archive;
use arguments::{Options, Request, USAGE};
use baseline::Baseline;
use compare::{compare, largest_baseline_difference};
use inputs::Inputs;
use job::{work, work_baseline, Job, JOBS, PEG_BESIDE_STATIONS};
use library::Library;
use measure::{alternate, sure, time, Work};
use reference_side::Reference;
use std::process::ExitCode;
use std::time::Duration;

/// The least time of a round.
const ROUND: Duration = Duration::from_micros(500);
const QUICK_ROUND: Duration = Duration::from_micros(100);

fn main() -> ExitCode {
    let words: Vec<String> = std::env::args().skip(1).collect();
    let request = match arguments::read(&words) {
        Ok(request) => request,
        Err(problem) => {
            eprint!("bench: {problem}\n{USAGE}");
            return ExitCode::from(2);
        }
    };
    match answer(request) {
        Ok(()) => ExitCode::SUCCESS,
        Err(problem) => {
            eprintln!("bench: {problem}");
            ExitCode::FAILURE
        }
    }
}

fn answer(request: Request) -> Result<(), String> {
    match request {
        Request::Help => print!("{USAGE}"),
        Request::Jobs => JOBS.iter().for_each(|job| println!("{}", job.name)),
        Request::Once { job, side, times } => once(&job, &side, times)?,
        Request::Measure(options) => measure_all(&options)?,
    }
    Ok(())
}

/// Makes one side's calls of a job and prints how many they were.
fn once(job: &str, side: &str, times: usize) -> Result<(), String> {
    let job = Job::named(job).ok_or(format!("{job} is no job"))?;
    let inputs = Inputs::make();
    let calls = times * job.input_count(&inputs);
    match side {
        "library" => work(job, &mut Library::new(), &inputs, times),
        "reference" => work(job, &mut Reference::new(), &inputs, times),
        "c" if job.task.in_c() => work_baseline(job, &mut Baseline::new(), &inputs, times),
        _ => return Err(format!("{side} is no side of this job")),
    }
    println!("{calls}");
    Ok(())
}

fn measure_all(options: &Options) -> Result<(), String> {
    let programs = options.station_programs()?;
    let command = options.command_programs()?;
    let inputs = Inputs::make();
    let archive = Archive::make(options);
    for job in JOBS {
        compare(job, &inputs)?;
    }
    archive::compare(&archive)?;
    print_preface(options, &inputs);
    table::print_heading();
    for job in JOBS {
        measure_job(job, options, &inputs)?;
    }
    let process = match programs {
        Some(programs) => Some(programs::measure(&programs, options.rounds())?),
        None => None,
    };
    let rates = match command {
        Some(programs) => Some(command::measure(&programs, options, &inputs)?),
        None => None,
    };
    print_notes(&inputs, process, rates);
    print_peg_ratios(options, &inputs)?;
    archive::measure(&archive, options)
}

fn print_preface(options: &Options, inputs: &Inputs) {
    let rounds = options.rounds();
    println!("Medians of {rounds} rounds, the library and the others in turn.");
    println!("Ratio: the library's time / the other's, below 1 where the library is faster.");
    println!("Inputs, in turn: {}.", inputs.words());
    println!("Buffers are used again and not cleared first.");
    println!("All answers are compared before they are timed.\n");
}

/// `process` is the time of a process that does nothing, ns, where programs were
/// timed; `rates` is what the command does in a second.
fn print_notes(inputs: &Inputs, process: Option<f64>, rates: Option<String>) {
    println!("\n(*) The reference has no call for a check: it reads and calculates.");
    if let Some(time) = process {
        println!("(**) Process start dominates: `true`, which does nothing, takes {time:.0} ns.");
    }
    if let Some(rates) = rates {
        println!("(***) Times of one sheet, read from its file, in metres. {rates}");
    }
    let difference = largest_baseline_difference(inputs);
    println!("C: plain C. Sheets, lines from points and heights with every check, and the same");
    println!(
        "answers; elements in f64 without checks, at most {difference:.1} µm from the library."
    );
    if cfg!(before) {
        println!("Before: the library that POKYANDI_BEFORE named when the bench was built.");
    }
}

/// The time of a peg over that of the stations of the same sheets.
fn print_peg_ratios(options: &Options, inputs: &Inputs) -> Result<(), String> {
    println!("Peg / stations of the same sheets, library alone:");
    for names in PEG_BESIDE_STATIONS {
        let [peg, stations] = names.map(|name| Job::named(name).expect("it is a job"));
        let times = times_of_a_round(stations, options, inputs)?;
        let library = |job| {
            let mut library = Library::new();
            sure(move || work(job, &mut library, inputs, times))
        };
        let mut works = [library(peg), library(stations)];
        let calls = times * stations.input_count(inputs);
        let results = alternate(options.rounds(), calls, &mut works)?;
        table::print_ratio(names[0], &results[0], &results[1]);
    }
    Ok(())
}

/// Times a job whose answers have been compared.
fn measure_job(job: Job, options: &Options, inputs: &Inputs) -> Result<(), String> {
    let times = times_of_a_round(job, options, inputs)?;
    let mut works = works(job, inputs, times);
    let calls = times * job.input_count(inputs);
    let results = alternate(options.rounds(), calls, &mut works)?;
    let mut others = results[2..].iter();
    let c = if job.task.in_c() { others.next() } else { None };
    table::print_row(
        job.title,
        &results[0],
        &[Some(&results[1]), c, others.next()],
    );
    Ok(())
}

/// The work of library and reference, of C where it has the job, and of the library
/// before where there is one and it is timed with the job.
fn works(job: Job, inputs: &Inputs, times: usize) -> Vec<Work<'_>> {
    let (mut library, mut reference) = (Library::new(), Reference::new());
    let mut works = vec![
        sure(move || work(job, &mut library, inputs, times)),
        sure(move || work(job, &mut reference, inputs, times)),
    ];
    if job.task.in_c() {
        let mut baseline = Baseline::new();
        works.push(sure(move || {
            work_baseline(job, &mut baseline, inputs, times)
        }));
    }
    #[cfg(before)]
    works.extend(before::work(job, inputs, times));
    works
}

/// How many times a round goes through the inputs, the same for both sides.
fn times_of_a_round(job: Job, options: &Options, inputs: &Inputs) -> Result<usize, String> {
    let least = if options.quick { QUICK_ROUND } else { ROUND };
    let mut works = works(job, inputs, 1);
    alternate(2, 1, &mut works)?;
    let once = time(&mut works[0])?.max(Duration::from_nanos(1));
    Ok(least.as_nanos().div_ceil(once.as_nanos()) as usize)
}
