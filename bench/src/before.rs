//! The library of the landing before, where POKYANDI_BEFORE named its folder when the
//! bench was built: what it reads, writes, rewrites, checks, prints and calculates, in
//! edition 1.

use crate::inputs::{Inputs, Road};
use crate::job::{keep, Job, Task};
use crate::measure::{sure, Work};
use crate::side::Answer;
use pokyandi::{Reason, Refusal, ELEMENT_NUMBERS, LINE_NUMBERS, PEG_NUMBERS, ROW_NUMBERS};
use pokyandi::{SHEET_BYTES, TEXT_BYTES};
use reference::curve::Curve;
use reference::points::Heading;
use reference::samples::surveys::Survey;
use std::hint::black_box;

extern "C" {
    fn before_read(
        sheet: *const u8,
        sheet_bytes: usize,
        line: *mut u32,
        line_numbers: usize,
    ) -> u64;

    fn before_check(sheet: *const u8, sheet_bytes: usize) -> u64;

    fn before_text(sheet: *const u8, sheet_bytes: usize, text: *mut u8, text_bytes: usize) -> u64;

    fn before_from_points(
        speed: u32,
        crossfall: u32,
        start: u32,
        points: *const i64,
        point_numbers: usize,
        curves: *const u32,
        curve_numbers: usize,
        line: *mut u32,
        line_numbers: usize,
    ) -> u64;

    fn before_write(
        edition: u32,
        line: *const u32,
        line_numbers: usize,
        bytes: *mut u8,
        bytes_room: usize,
    ) -> u64;

    fn before_rewrite(
        sheet: *const u8,
        sheet_bytes: usize,
        bytes: *mut u8,
        bytes_room: usize,
    ) -> u64;

    fn before_stations(
        sheet: *const u8,
        sheet_bytes: usize,
        row: *mut u64,
        row_numbers: usize,
    ) -> u64;

    fn before_peg(
        sheet: *const u8,
        sheet_bytes: usize,
        station: u64,
        peg: *mut i64,
        peg_numbers: usize,
    ) -> u64;

    fn before_elements(
        deflection: u32,
        radius: u32,
        spiral: u32,
        numbers: *mut u64,
        numbers_room: usize,
    ) -> u64;
}

/// It keeps the buffers that its calls fill, as a [`crate::side::Side`] does.
pub struct Before {
    line: [u32; LINE_NUMBERS],
    text: [u8; TEXT_BYTES],
    bytes: [u8; SHEET_BYTES],
    row: [u64; ROW_NUMBERS],
    peg: [i64; PEG_NUMBERS],
    elements: [u64; ELEMENT_NUMBERS],
}

impl Before {
    pub fn new() -> Before {
        Before {
            line: [0; LINE_NUMBERS],
            text: [0; TEXT_BYTES],
            bytes: [0; SHEET_BYTES],
            row: [0; ROW_NUMBERS],
            peg: [0; PEG_NUMBERS],
            elements: [0; ELEMENT_NUMBERS],
        }
    }

    /// The sheet of a line in numbers, in edition 1.
    pub fn write(&mut self, line: &[u32]) -> Answer<&[u8]> {
        let count = write(line, &mut self.bytes)?;
        Ok(&self.bytes[..count])
    }

    /// The sheet read and written again.
    pub fn rewrite(&mut self, sheet: &[u8]) -> Answer<&[u8]> {
        let count = rewrite(sheet, &mut self.bytes)?;
        Ok(&self.bytes[..count])
    }

    fn read(&mut self, sheet: &[u8]) -> Answer<&[u32]> {
        let count = read(sheet, &mut self.line)?;
        Ok(&self.line[..count])
    }

    fn check(&mut self, sheet: &[u8]) -> Answer<usize> {
        Ok(check(sheet)?)
    }

    fn text(&mut self, sheet: &[u8]) -> Answer<&[u8]> {
        let count = text(sheet, &mut self.text)?;
        Ok(&self.text[..count])
    }

    fn line_from_points(&mut self, survey: &Survey) -> Answer<&[u32]> {
        let count = from_points(survey, &mut self.line)?;
        Ok(&self.line[..count])
    }

    fn stations(&mut self, sheet: &[u8]) -> Answer<&[u64]> {
        let count = stations(sheet, &mut self.row)?;
        Ok(&self.row[..count])
    }

    fn peg(&mut self, sheet: &[u8], station: u64) -> Answer<&[i64]> {
        let count = peg(sheet, station, &mut self.peg)?;
        Ok(&self.peg[..count])
    }

    fn elements(&mut self, Curve { a, r, l }: Curve) -> Answer<()> {
        elements(a, r, l, &mut self.elements)?;
        Ok(())
    }
}

// The calls are bound as the library's are in another crate, and cost the same.

#[inline(never)]
fn read(sheet: &[u8], line: &mut [u32]) -> Result<usize, Refusal> {
    // SAFETY: pointers and lengths are those of slices; the line is borrowed alone.
    counted(unsafe { before_read(sheet.as_ptr(), sheet.len(), line.as_mut_ptr(), line.len()) })
}

#[inline(never)]
fn check(sheet: &[u8]) -> Result<usize, Refusal> {
    // SAFETY: pointer and length are those of a slice.
    counted(unsafe { before_check(sheet.as_ptr(), sheet.len()) })
}

#[inline(never)]
fn text(sheet: &[u8], text: &mut [u8]) -> Result<usize, Refusal> {
    // SAFETY: pointers and lengths are those of slices; the text is borrowed alone.
    counted(unsafe { before_text(sheet.as_ptr(), sheet.len(), text.as_mut_ptr(), text.len()) })
}

#[inline(never)]
fn from_points(survey: &Survey, line: &mut [u32]) -> Result<usize, Refusal> {
    let Heading { v, e, start } = survey.heading;
    let (points, curves) = (&survey.points, &survey.curves);
    // SAFETY: pointers and lengths are those of slices; the line is borrowed alone.
    counted(unsafe {
        before_from_points(
            v,
            e,
            start,
            points.as_ptr(),
            points.len(),
            curves.as_ptr(),
            curves.len(),
            line.as_mut_ptr(),
            line.len(),
        )
    })
}

#[inline(never)]
fn write(line: &[u32], bytes: &mut [u8]) -> Result<usize, Refusal> {
    // SAFETY: pointers and lengths are those of slices; the bytes are borrowed alone.
    counted(unsafe {
        before_write(
            1,
            line.as_ptr(),
            line.len(),
            bytes.as_mut_ptr(),
            bytes.len(),
        )
    })
}

#[inline(never)]
fn rewrite(sheet: &[u8], bytes: &mut [u8]) -> Result<usize, Refusal> {
    // SAFETY: pointers and lengths are those of slices; the bytes are borrowed alone.
    counted(unsafe { before_rewrite(sheet.as_ptr(), sheet.len(), bytes.as_mut_ptr(), bytes.len()) })
}

#[inline(never)]
fn stations(sheet: &[u8], row: &mut [u64]) -> Result<usize, Refusal> {
    // SAFETY: pointers and lengths are those of slices; the row is borrowed alone.
    counted(unsafe { before_stations(sheet.as_ptr(), sheet.len(), row.as_mut_ptr(), row.len()) })
}

#[inline(never)]
fn peg(sheet: &[u8], station: u64, peg: &mut [i64]) -> Result<usize, Refusal> {
    let (numbers, room) = (peg.as_mut_ptr(), peg.len());
    // SAFETY: pointers and lengths are those of slices; the peg is borrowed alone.
    counted(unsafe { before_peg(sheet.as_ptr(), sheet.len(), station, numbers, room) })
}

#[inline(never)]
fn elements(a: u32, r: u32, l: u32, numbers: &mut [u64]) -> Result<usize, Refusal> {
    // SAFETY: pointer and length are those of a slice that is borrowed alone.
    counted(unsafe { before_elements(a, r, l, numbers.as_mut_ptr(), numbers.len()) })
}

fn counted(answer: u64) -> Result<usize, Refusal> {
    let lower = answer as u32;
    match Reason::of((answer >> 32) as u32) {
        None => Ok(lower as usize),
        Some(reason) => Err(Refusal {
            reason,
            place: lower,
        }),
    }
}

/// Makes the job's call once with each input, and that `times` times; nothing where
/// the job is another call's.
pub fn work(job: Job, inputs: &Inputs, times: usize) -> Option<Work<'_>> {
    let mut before = Before::new();
    match job.task {
        Task::Read
        | Task::Write
        | Task::Rewrite
        | Task::Stations
        | Task::Peg
        | Task::Check
        | Task::Text => Some(sure(move || {
            for _ in 0..times {
                each_road(job.task, &mut before, job.roads(inputs));
            }
        })),
        Task::Points => Some(sure(move || {
            for _ in 0..times {
                each_survey(&mut before, job.surveys(inputs));
            }
        })),
        Task::Elements => Some(sure(move || {
            for _ in 0..times {
                each_curve(&mut before, &inputs.curves);
            }
        })),
        _ => None,
    }
}

fn each_road(task: Task, before: &mut Before, roads: &[Road]) {
    for Road {
        sheet,
        line,
        station,
        ..
    } in roads
    {
        let sheet = black_box(&sheet[..]);
        match task {
            Task::Read => keep(before.read(sheet)),
            Task::Check => keep(before.check(sheet)),
            Task::Text => keep(before.text(sheet)),
            Task::Write => keep(before.write(black_box(line))),
            Task::Rewrite => keep(before.rewrite(sheet)),
            Task::Stations => keep(before.stations(sheet)),
            Task::Peg => keep(before.peg(sheet, black_box(*station))),
            _ => unreachable!("the library before is not timed so"),
        }
    }
}

fn each_survey(before: &mut Before, surveys: &[Survey]) {
    for survey in surveys {
        keep(before.line_from_points(black_box(survey)));
    }
}

fn each_curve(before: &mut Before, curves: &[Curve]) {
    for curve in curves {
        keep(before.elements(*black_box(curve)));
    }
}
