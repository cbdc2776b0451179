//! The jobs: a call, and the inputs that it is made with one after the other.

use crate::baseline::Baseline;
use crate::inputs::{Inputs, Road, Spiral};
use crate::profiles::Height;
use crate::side::Side;
use reference::edition::{FIRST, SECOND};
use reference::samples::surveys::Survey;
use std::hint::black_box;

/// The call of a job.
#[derive(Clone, Copy, PartialEq, Eq)]
pub enum Task {
    Read,
    Write,
    Rewrite,
    /// Of sheets of edition 2.
    RewriteSecond,
    /// From edition 1 to 2.
    Convert,
    /// From edition 2 to 1.
    ConvertBack,
    Edition,
    Stations,
    Peg,
    Check,
    Text,
    Points,
    Height,
    Elements,
    LookUp,
    Table,
}

impl Task {
    /// Whether it is timed in plain C too.
    pub fn in_c(self) -> bool {
        matches!(
            self,
            Task::Rewrite
                | Task::RewriteSecond
                | Task::Convert
                | Task::ConvertBack
                | Task::Points
                | Task::Height
                | Task::Elements
        )
    }
}

/// How many curves the sheets or lines of a job have: 64, 8, one or none; how many
/// vertices its profiles: 32, 4 or none.
#[derive(Clone, Copy, PartialEq, Eq)]
pub enum Size {
    Full,
    Eight,
    Four,
    Single,
    Straight,
}

#[derive(Clone, Copy)]
pub struct Job {
    /// A word for the command line.
    pub name: &'static str,
    /// What the call does.
    pub title: &'static str,
    pub task: Task,
    size: Size,
}

pub const JOBS: [Job; 38] = [
    full("read-64", "read, 64 curves", Task::Read),
    full("write-64", "written, 64 curves", Task::Write),
    full("rewrite-64", "read and written, 64 curves", Task::Rewrite),
    full(
        "stations-64",
        "read and calculated, 64 curves",
        Task::Stations,
    ),
    full("peg-64", "read, peg calculated, 64 curves", Task::Peg),
    full("check-64", "checked, 64 curves (*)", Task::Check),
    full("text-64", "text, 64 curves", Task::Text),
    eight("read-8", "read, 8 curves", Task::Read),
    eight("write-8", "written, 8 curves", Task::Write),
    eight("rewrite-8", "read and written, 8 curves", Task::Rewrite),
    single("read-1", "read, 1 curve", Task::Read),
    single("write-1", "written, 1 curve", Task::Write),
    single("rewrite-1", "read and written, 1 curve", Task::Rewrite),
    single("stations-1", "read and calculated, 1 curve", Task::Stations),
    single("peg-1", "read, peg calculated, 1 curve", Task::Peg),
    single("check-1", "checked, 1 curve (*)", Task::Check),
    single("text-1", "text, 1 curve", Task::Text),
    straight("read-0", "read, no curve", Task::Read),
    straight("write-0", "written, no curve", Task::Write),
    straight("rewrite-0", "read and written, no curve", Task::Rewrite),
    full("convert-64", "to edition 2, 64 curves", Task::Convert),
    full("back-64", "to edition 1, 64 curves", Task::ConvertBack),
    full("edition-64", "edition, 64 curves", Task::Edition),
    full(
        "rewrite-second-64",
        "edition 2 rewritten, 64 curves",
        Task::RewriteSecond,
    ),
    eight("convert-8", "to edition 2, 8 curves", Task::Convert),
    eight("back-8", "to edition 1, 8 curves", Task::ConvertBack),
    single("convert-1", "to edition 2, 1 curve", Task::Convert),
    single("back-1", "to edition 1, 1 curve", Task::ConvertBack),
    single("edition-1", "edition, 1 curve", Task::Edition),
    single(
        "rewrite-second-1",
        "edition 2 rewritten, 1 curve",
        Task::RewriteSecond,
    ),
    full("points-64", "line from 66 points", Task::Points),
    single("points-1", "line from 3 points", Task::Points),
    full("height-32", "height, 32 vertices", Task::Height),
    job("height-4", "height, 4 vertices", Task::Height, Size::Four),
    straight("height-0", "height, no vertex", Task::Height),
    full("elements", "elements of one curve", Task::Elements),
    full("look-up", "X and Y of one spiral, looked up", Task::LookUp),
    full("table", "unit spiral table", Task::Table),
];

const fn full(name: &'static str, title: &'static str, task: Task) -> Job {
    job(name, title, task, Size::Full)
}

const fn eight(name: &'static str, title: &'static str, task: Task) -> Job {
    job(name, title, task, Size::Eight)
}

const fn single(name: &'static str, title: &'static str, task: Task) -> Job {
    job(name, title, task, Size::Single)
}

const fn straight(name: &'static str, title: &'static str, task: Task) -> Job {
    job(name, title, task, Size::Straight)
}

const fn job(name: &'static str, title: &'static str, task: Task, size: Size) -> Job {
    Job {
        name,
        title,
        task,
        size,
    }
}

/// A peg beside the stations of the same sheets.
pub const PEG_BESIDE_STATIONS: [[&str; 2]; 2] =
    [["peg-64", "stations-64"], ["peg-1", "stations-1"]];

impl Job {
    /// The job with this name.
    pub fn named(name: &str) -> Option<Job> {
        JOBS.into_iter().find(|job| job.name == name)
    }

    /// The roads of the job.
    pub fn roads(self, inputs: &Inputs) -> &[Road] {
        match self.size {
            Size::Full => &inputs.full,
            Size::Eight => &inputs.eight,
            Size::Single => &inputs.single,
            Size::Straight => &inputs.straight,
            Size::Four => unreachable!("no sheets have this size"),
        }
    }

    /// The lines of the job, by their points.
    pub fn surveys(self, inputs: &Inputs) -> &[Survey] {
        match self.size {
            Size::Full => &inputs.surveys.full,
            Size::Single => &inputs.surveys.single,
            Size::Eight | Size::Four | Size::Straight => {
                unreachable!("no lines by points have this size")
            }
        }
    }

    /// The profiles of the job, with their stations.
    pub fn heights(self, inputs: &Inputs) -> &[Height] {
        match self.size {
            Size::Full => &inputs.profiles.full,
            Size::Four => &inputs.profiles.four,
            Size::Straight => &inputs.profiles.straight,
            Size::Eight | Size::Single => unreachable!("no profiles have this size"),
        }
    }

    /// How many inputs the job goes through.
    pub fn input_count(self, inputs: &Inputs) -> usize {
        match self.task {
            Task::Points => self.surveys(inputs).len(),
            Task::Height => self.heights(inputs).len(),
            Task::Elements => inputs.curves.len(),
            Task::LookUp => inputs.spirals.len(),
            Task::Table => 1,
            _ => self.roads(inputs).len(),
        }
    }
}

/// Makes the job's call once with each input, and that `times` times.
#[inline(never)]
pub fn work<S: Side>(job: Job, side: &mut S, inputs: &Inputs, times: usize) {
    for _ in 0..times {
        match job.task {
            Task::Points => each_survey(side, job.surveys(inputs)),
            Task::Height => each_height(side, job.heights(inputs)),
            Task::Elements => each_curve(side, inputs),
            Task::LookUp => each_spiral(side, inputs),
            Task::Table => keep(side.unit_spiral_table()),
            task => each_road(task, side, job.roads(inputs)),
        }
    }
}

fn each_survey<S: Side>(side: &mut S, surveys: &[Survey]) {
    for survey in surveys {
        keep(side.line_from_points(black_box(survey)));
    }
}

fn each_height<S: Side>(side: &mut S, heights: &[Height]) {
    for Height { profile, station } in heights {
        keep(side.height(black_box(profile), black_box(*station)));
    }
}

fn each_curve<S: Side>(side: &mut S, inputs: &Inputs) {
    for curve in &inputs.curves {
        keep(side.elements(*black_box(curve)));
    }
}

fn each_spiral<S: Side>(side: &mut S, inputs: &Inputs) {
    for spiral in &inputs.spirals {
        let Spiral { thousandth, length } = *black_box(spiral);
        keep(side.unit_spiral(thousandth, length));
    }
}

fn each_road<S: Side>(task: Task, side: &mut S, roads: &[Road]) {
    for Road {
        sheet,
        second,
        line,
        station,
    } in roads
    {
        let sheet = black_box(&sheet[..]);
        let second = black_box(&second[..]);
        match task {
            Task::Read => keep(side.read(sheet)),
            Task::Write => keep(side.write(black_box(line))),
            Task::Rewrite => keep(side.rewrite(sheet)),
            Task::RewriteSecond => keep(side.rewrite(second)),
            Task::Convert => keep(side.convert(sheet, black_box(SECOND.number))),
            Task::ConvertBack => keep(side.convert(second, black_box(FIRST.number))),
            Task::Edition => keep(side.edition(sheet)),
            Task::Stations => keep(side.stations(sheet)),
            Task::Peg => keep(side.peg(sheet, black_box(*station))),
            Task::Check => keep(side.check(sheet)),
            Task::Text => keep(side.text(sheet)),
            Task::Points | Task::Height | Task::Elements | Task::LookUp | Task::Table => {
                unreachable!("they have inputs of their own")
            }
        }
    }
}

/// The same in plain C, where it has the job.
#[inline(never)]
pub fn work_baseline(job: Job, baseline: &mut Baseline, inputs: &Inputs, times: usize) {
    for _ in 0..times {
        match job.task {
            Task::Rewrite | Task::RewriteSecond | Task::Convert | Task::ConvertBack => {
                each_road_in_c(job.task, baseline, job.roads(inputs));
            }
            Task::Points => {
                for survey in job.surveys(inputs) {
                    keep(baseline.line_from_points(black_box(survey)));
                }
            }
            Task::Height => {
                for Height { profile, station } in job.heights(inputs) {
                    keep(baseline.height(black_box(profile), black_box(*station)));
                }
            }
            Task::Elements => {
                for curve in &inputs.curves {
                    keep(baseline.elements(*black_box(curve)));
                }
            }
            _ => unreachable!("it is not timed in C"),
        }
    }
}

fn each_road_in_c(task: Task, baseline: &mut Baseline, roads: &[Road]) {
    for Road { sheet, second, .. } in roads {
        let sheet = black_box(&sheet[..]);
        let second = black_box(&second[..]);
        match task {
            Task::Rewrite => keep(baseline.rewrite(sheet)),
            Task::RewriteSecond => keep(baseline.rewrite(second)),
            Task::Convert => keep(baseline.convert(sheet, black_box(SECOND.number))),
            Task::ConvertBack => keep(baseline.convert(second, black_box(FIRST.number))),
            _ => unreachable!("it is not timed in C"),
        }
    }
}

/// Takes an answer, so that the compiler must work it out.
pub fn keep<T>(answer: T) {
    black_box(answer);
}
