//! Before a job is timed, the answers of all sides are compared for each input.

use crate::baseline::Baseline;
#[cfg(before)]
use crate::before::Before;
use crate::inputs::{Inputs, Road, Spiral};
use crate::job::{Job, Task};
use crate::library::Library;
use crate::profiles::Height;
use crate::reference_side::Reference;
use crate::side::Side;
use reference::curve::Curve;
use reference::edition::{Edition, FIRST, SECOND};
use reference::samples::surveys::Survey;
use std::fmt::Debug;

/// The C baseline may differ by so much from the library, µm: document 01's
/// bound between working rule and exact value of TT, the widest of the six.
const BASELINE_BOUND: f64 = 300.0;
/// Most characters of an answer in a message.
const MOST_SHOWN: usize = 200;

/// Fails when an input has two answers.
pub fn compare(job: Job, inputs: &Inputs) -> Result<(), String> {
    let (mut library, mut reference) = (Library::new(), Reference::new());
    for i in 0..job.input_count(inputs) {
        let same = match job.task {
            Task::Points => compare_survey(&job.surveys(inputs)[i], &mut library, &mut reference),
            Task::Height => compare_height(&job.heights(inputs)[i], &mut library, &mut reference),
            Task::Elements => compare_curve(inputs.curves[i], &mut library, &mut reference),
            Task::LookUp => compare_spiral(inputs.spirals[i], &mut library, &mut reference),
            Task::Table => same(library.unit_spiral_table(), reference.unit_spiral_table()),
            task => compare_road(task, &job.roads(inputs)[i], &mut library, &mut reference),
        };
        same.map_err(|problem| format!("{}, input {i}: {problem}", job.name))?;
    }
    Ok(())
}

fn compare_road(
    task: Task,
    Road {
        sheet,
        second,
        line,
        station,
    }: &Road,
    library: &mut Library,
    reference: &mut Reference,
) -> Result<(), String> {
    match task {
        Task::Read => same(library.read(sheet), reference.read(sheet)),
        Task::Write => compare_write(line, library, reference),
        Task::Rewrite => compare_rewrite(sheet, library, reference),
        Task::RewriteSecond => compare_rewrite_of_either(second, library, reference),
        Task::Convert => compare_convert(sheet, SECOND, library, reference),
        Task::ConvertBack => compare_convert(second, FIRST, library, reference),
        Task::Edition => same(library.edition(sheet), reference.edition(sheet)),
        Task::Stations => same(library.stations(sheet), reference.stations(sheet)),
        Task::Peg => same(library.peg(sheet, *station), reference.peg(sheet, *station)),
        Task::Check => same(library.check(sheet), reference.check(sheet)),
        Task::Text => same(library.text(sheet), reference.text(sheet)),
        Task::Points | Task::Height | Task::Elements | Task::LookUp | Task::Table => {
            unreachable!("they have inputs of their own")
        }
    }
}

fn compare_write(
    line: &[u32],
    library: &mut Library,
    reference: &mut Reference,
) -> Result<(), String> {
    let answer = library.write(line);
    #[cfg(before)]
    same_as("the library before", answer, Before::new().write(line))?;
    same(answer, reference.write(line))
}

/// Fails when a sheet of edition 1 read and written again has two answers.
pub fn compare_rewrite(
    sheet: &[u8],
    library: &mut Library,
    reference: &mut Reference,
) -> Result<(), String> {
    #[cfg(before)]
    same_as(
        "the library before",
        library.rewrite(sheet),
        Before::new().rewrite(sheet),
    )?;
    compare_rewrite_of_either(sheet, library, reference)
}

/// The same of a sheet of either edition, without the library before.
fn compare_rewrite_of_either(
    sheet: &[u8],
    library: &mut Library,
    reference: &mut Reference,
) -> Result<(), String> {
    let answer = library.rewrite(sheet);
    same(answer, reference.rewrite(sheet))?;
    same_as("the C baseline", answer, Baseline::new().rewrite(sheet))
}

/// Fails when a sheet brought to an edition has two answers.
pub fn compare_convert(
    sheet: &[u8],
    asked: Edition,
    library: &mut Library,
    reference: &mut Reference,
) -> Result<(), String> {
    let answer = library.convert(sheet, asked.number);
    same(answer, reference.convert(sheet, asked.number))?;
    let mut baseline = Baseline::new();
    let converted = baseline.convert(sheet, asked.number);
    same_as("the C baseline", answer, converted)
}

fn compare_survey(
    survey: &Survey,
    library: &mut Library,
    reference: &mut Reference,
) -> Result<(), String> {
    let answer = library.line_from_points(survey);
    same(answer, reference.line_from_points(survey))?;
    same_as(
        "the C baseline",
        answer,
        Baseline::new().line_from_points(survey),
    )
}

fn compare_height(
    Height { profile, station }: &Height,
    library: &mut Library,
    reference: &mut Reference,
) -> Result<(), String> {
    let answer = library.height(profile, *station);
    same(answer, reference.height(profile, *station))?;
    let mut baseline = Baseline::new();
    same_as("the C baseline", answer, baseline.height(profile, *station))
}

fn compare_curve(
    curve: Curve,
    library: &mut Library,
    reference: &mut Reference,
) -> Result<(), String> {
    same(library.elements(curve), reference.elements(curve))?;
    same(library.kept_elements(), reference.kept_elements())?;
    let difference = baseline_difference(curve, library);
    if difference > BASELINE_BOUND {
        return Err(format!(
            "the C baseline differs by {difference:.1} µm from the library"
        ));
    }
    Ok(())
}

fn compare_spiral(
    Spiral { thousandth, length }: Spiral,
    library: &mut Library,
    reference: &mut Reference,
) -> Result<(), String> {
    same(
        library.unit_spiral(thousandth, length),
        reference.unit_spiral(thousandth, length),
    )
}

fn same<T: PartialEq + Debug>(library: T, reference: T) -> Result<(), String> {
    same_as("the reference", library, reference)
}

fn same_as<T: PartialEq + Debug>(name: &str, library: T, other: T) -> Result<(), String> {
    if library == other {
        return Ok(());
    }
    let shown = |answer: T| -> String { format!("{answer:?}").chars().take(MOST_SHOWN).collect() };
    Err(format!(
        "the library answers {}, {name} {}",
        shown(library),
        shown(other)
    ))
}

/// The largest difference between the C baseline's elements of a curve and those
/// that the library keeps of it, µm.
fn baseline_difference(curve: Curve, library: &Library) -> f64 {
    let mut baseline = Baseline::new();
    let numbers = baseline.elements(curve).iter();
    numbers
        .zip(library.kept_elements())
        .map(|(number, exact)| (number - exact as f64).abs())
        .fold(0.0, f64::max)
}

/// The largest such difference of all curves.
pub fn largest_baseline_difference(inputs: &Inputs) -> f64 {
    let mut library = Library::new();
    inputs.curves.iter().fold(0.0, |largest, curve| {
        let answer = library.elements(*curve);
        assert!(answer.is_ok(), "the curves are accepted");
        baseline_difference(*curve, &library).max(largest)
    })
}
