//! One input: a call, its sheet, curve, line, points, profile or what it looks up, and
//! the room that is lent.

use crate::side::{stretches_of, text_of};
use reference::curve::Curve;
use reference::edition::{Edition, FIRST};
use reference::line::MOST_CURVES;
use reference::line_numbers::number_count;
use reference::samples::sheet_fields::{edition_said, COUNT};
use reference::samples::surveys::Survey;
use reference::sheet::sheet_length;

/// The calls.
#[derive(Clone, Copy, Debug, PartialEq, Eq)]
pub enum Call {
    Stations,
    Check,
    Rewrite,
    Elements,
    Text,
    Read,
    Write,
    Peg,
    FromPoints,
    Height,
    Edition,
    Convert,
    UnitSpiral,
    UnitSpiralTable,
}

impl Call {
    pub const ALL: [Call; 14] = [
        Call::Stations,
        Call::Check,
        Call::Rewrite,
        Call::Elements,
        Call::Text,
        Call::Read,
        Call::Write,
        Call::Peg,
        Call::FromPoints,
        Call::Height,
        Call::Edition,
        Call::Convert,
        Call::UnitSpiral,
        Call::UnitSpiralTable,
    ];

    pub fn name(self) -> &'static str {
        match self {
            Call::Stations => "stations",
            Call::Check => "check",
            Call::Rewrite => "rewrite",
            Call::Elements => "elements",
            Call::Text => "text",
            Call::Read => "read",
            Call::Write => "write",
            Call::Peg => "peg",
            Call::FromPoints => "points",
            Call::Height => "height",
            Call::Edition => "edition",
            Call::Convert => "convert",
            Call::UnitSpiral => "look-up",
            Call::UnitSpiralTable => "table",
        }
    }

    /// Most entries that are lent, somewhat over what any input needs.
    pub fn most_room(self) -> usize {
        match self {
            Call::Stations => 300,
            Call::Check | Call::Edition => 0,
            Call::Rewrite | Call::Convert => 740,
            Call::Elements => 12,
            Call::Text => 5_600,
            Call::Read => 340,
            Call::Write => 740,
            Call::Peg => 12,
            Call::FromPoints => 340,
            Call::Height | Call::UnitSpiral => 6,
            Call::UnitSpiralTable => 1_010,
        }
    }

    /// The refusals that the call can give.
    pub fn refusals(self) -> Vec<u8> {
        match self {
            Call::Stations => (1..=16).collect(),
            Call::Check => (1..=15).collect(),
            Call::Rewrite | Call::Read => (1..=11).chain([16]).collect(),
            Call::Elements => vec![9, 10, 11, 14, 16],
            Call::Text => vec![16],
            Call::Write => vec![2, 3, 4, 5, 6, 8, 9, 10, 11, 16],
            Call::Peg => (1..=17).collect(),
            Call::FromPoints => vec![3, 4, 5, 6, 8, 10, 11, 12, 13, 14, 15, 16, 18, 19, 20],
            Call::Height => vec![3, 4, 6, 16, 17, 21, 22, 23],
            Call::Edition => (1..=11).collect(),
            Call::Convert => (1..=11).chain([16, 24]).collect(),
            Call::UnitSpiral => vec![11, 16, 25],
            Call::UnitSpiralTable => vec![16],
        }
    }
}

/// A call with its sheet, its curve, the numbers of its line, its points or the
/// numbers of its profile; a peg and a height with the station too, a line that is
/// written and a sheet that is converted with the edition; a look-up with the
/// thousandth and the length.
#[derive(Clone, Debug, PartialEq, Eq)]
pub enum Request {
    Stations(Vec<u8>),
    Check(Vec<u8>),
    Rewrite(Vec<u8>),
    Elements(Curve),
    Text(Vec<u8>),
    Read(Vec<u8>),
    Write(u32, Vec<u32>),
    Peg(Vec<u8>, u64),
    FromPoints(Survey),
    Height(Vec<i64>, u64),
    Edition(Vec<u8>),
    Convert(Vec<u8>, u32),
    UnitSpiral(u32, u32),
    UnitSpiralTable,
}

impl Request {
    /// The requests of a sheet.
    pub const OF_A_SHEET: [fn(Vec<u8>) -> Request; 8] = [
        Request::Stations,
        Request::Check,
        Request::Rewrite,
        Request::Text,
        Request::Read,
        Request::peg_midway,
        Request::Edition,
        Request::other_edition,
    ];

    /// The peg midway between start and end; at 0 where the sheet is refused.
    fn peg_midway(sheet: Vec<u8>) -> Request {
        let stretches = stretches_of(&sheet);
        let ends = stretches.first().zip(stretches.last());
        let station = ends.map_or(0, |(first, last)| (first.begin + last.end) / 2);
        Request::Peg(sheet, station)
    }

    /// The sheet in the other edition than it says.
    fn other_edition(sheet: Vec<u8>) -> Request {
        let asked = edition_said(&sheet).other().number;
        Request::Convert(sheet, asked)
    }

    pub fn call(&self) -> Call {
        match self {
            Request::Stations(_) => Call::Stations,
            Request::Check(_) => Call::Check,
            Request::Rewrite(_) => Call::Rewrite,
            Request::Elements(_) => Call::Elements,
            Request::Text(_) => Call::Text,
            Request::Read(_) => Call::Read,
            Request::Write(..) => Call::Write,
            Request::Peg(..) => Call::Peg,
            Request::FromPoints(_) => Call::FromPoints,
            Request::Height(..) => Call::Height,
            Request::Edition(_) => Call::Edition,
            Request::Convert(..) => Call::Convert,
            Request::UnitSpiral(..) => Call::UnitSpiral,
            Request::UnitSpiralTable => Call::UnitSpiralTable,
        }
    }

    /// How many curves the sheet or line says that it has or the points have, at
    /// most 64; 0 where it is not said.
    pub fn curves(&self) -> usize {
        match self {
            Request::Elements(_)
            | Request::Height(..)
            | Request::UnitSpiral(..)
            | Request::UnitSpiralTable => 0,
            Request::Stations(sheet)
            | Request::Check(sheet)
            | Request::Rewrite(sheet)
            | Request::Text(sheet)
            | Request::Read(sheet)
            | Request::Peg(sheet, _)
            | Request::Edition(sheet)
            | Request::Convert(sheet, _) => curves_of(sheet),
            Request::Write(_, line) => line.first().map_or(0, |n| at_most_64(*n)),
            Request::FromPoints(survey) => survey.curve_count().min(MOST_CURVES),
        }
    }

    /// How many entries an accepted answer has; for a faulty sheet or line, those
    /// of one with as many curves.
    pub fn needed(&self) -> usize {
        let n = self.curves();
        match self {
            Request::Stations(_) => 4 * n + 1,
            Request::Check(_) | Request::Edition(_) => 0,
            Request::Rewrite(sheet) => sheet_length(edition_said(sheet), n),
            Request::Write(edition, _) | Request::Convert(_, edition) => {
                sheet_length(Edition::of(*edition).unwrap_or(FIRST), n)
            }
            Request::Elements(_) => pokyandi::ELEMENT_NUMBERS,
            Request::Text(sheet) => text_of(sheet).len(),
            Request::Read(_) | Request::FromPoints(_) => number_count(n),
            Request::Peg(..) => pokyandi::PEG_NUMBERS,
            Request::Height(..) => pokyandi::HEIGHT_NUMBERS,
            Request::UnitSpiral(..) => pokyandi::OFFSET_NUMBERS,
            Request::UnitSpiralTable => pokyandi::TABLE_NUMBERS,
        }
    }
}

/// How many curves a sheet says that it has, at most 64; 0 where it is too short
/// to say it.
pub fn curves_of(sheet: &[u8]) -> usize {
    match sheet {
        [_, _, ..] => at_most_64(COUNT.value(sheet)),
        _ => 0,
    }
}

fn at_most_64(n: u32) -> usize {
    (n as usize).min(MOST_CURVES)
}

/// How many entries are lent.
#[derive(Clone, Copy, Debug, PartialEq, Eq)]
pub enum Room {
    Entries(usize),
    /// What is needed, and so many more or fewer.
    Needed(isize),
}

/// One input.
#[derive(Clone, Debug, PartialEq, Eq)]
pub struct Input {
    pub request: Request,
    pub room: Room,
    /// What the memory holds before the call, and where its lent part begins.
    pub pattern: u64,
}

impl Input {
    /// How many entries are lent.
    pub fn room_entries(&self) -> usize {
        let entries = match self.room {
            Room::Entries(entries) => entries,
            Room::Needed(more) => self.request.needed().saturating_add_signed(more),
        };
        entries.min(self.request.call().most_room())
    }
}

#[cfg(test)]
mod tests {
    use super::*;
    use reference::edition::SECOND;
    use reference::line::Line;
    use reference::samples::point_edges::case_1;
    use reference::samples::profile_edges::crest;
    use reference::samples::sheet_fields::{sheet_in, sheet_of};

    #[test]
    fn needs_of_case_1() {
        let sheet = sheet_of(&Line::case_1());
        let requests = Request::OF_A_SHEET.map(|request| request(sheet.clone()));
        let needs = requests.map(|request| request.needed());
        assert_eq!(needs, [5, 0, 21, 20 + 4 * 16 + 17, 10, 5, 0, 21]);
        let line = Request::Write(1, Line::case_1().numbers());
        assert_eq!(line.needed(), 21);
        let curve = Request::Elements(Line::case_1().curve(1));
        assert_eq!(curve.needed(), 6);
        assert_eq!(Request::FromPoints(case_1()).needed(), 10);
        assert_eq!(Request::Height(crest().numbers(), 0).needed(), 1);
        assert_eq!(Request::UnitSpiral(500, 40_000).needed(), 2);
        assert_eq!(Request::UnitSpiralTable.needed(), 1_002);
    }

    #[test]
    fn needs_of_faulty_sheets_and_lines() {
        assert_eq!(Request::Stations(vec![]).needed(), 1);
        assert_eq!(Request::Stations(vec![0xFF; 7]).needed(), 257);
        assert_eq!(Request::Rewrite(vec![0xFF; 7]).needed(), 706);
        assert_eq!(Request::Text(vec![]).needed(), "REFUSED 1 0\n".len());
        assert_eq!(Request::Read(vec![]).needed(), 5);
        assert_eq!(
            Request::Read(vec![0xFF; 7]).needed(),
            pokyandi::LINE_NUMBERS
        );
        assert_eq!(Request::Peg(vec![], 0).needed(), 5);
        assert_eq!(Request::Write(3, vec![]).needed(), 10);
        assert_eq!(Request::Write(2, vec![u32::MAX]).needed(), 706);
        assert_eq!(Request::Convert(vec![], 2).needed(), 10);
        let of_points = |count| {
            let points = vec![0; count];
            let survey = Survey { points, ..case_1() };
            Request::FromPoints(survey).needed()
        };
        let needs = [0, 5, 7, 132, 134, 1_000].map(of_points);
        assert_eq!(needs, [5, 5, 10, 325, 325, 325]);
        assert_eq!(Request::Height(vec![], 0).needed(), 1);
        assert_eq!(Request::UnitSpiral(501, u32::MAX).needed(), 2);
    }

    /// Sheets of three curves have 42 bytes in edition 1, 43 in edition 2.
    #[test]
    fn needs_of_both_editions() {
        let line = Line::new(40, 8, 0, &[1; 4], &[Curve::new(1, 20_000, 0); 3]);
        for (edition, needed) in [(FIRST, [42, 43, 42]), (SECOND, [43, 42, 43])] {
            let sheet = sheet_in(edition, &line);
            let write = Request::Write(edition.number, line.numbers());
            let requests = [
                Request::Rewrite(sheet.clone()),
                Request::other_edition(sheet),
                write,
            ];
            assert_eq!(requests.map(|request| request.needed()), needed);
        }
    }

    #[test]
    fn rooms() {
        let room = |room| {
            let request = Request::Stations(vec![]);
            let pattern = 0;
            Input {
                request,
                room,
                pattern,
            }
            .room_entries()
        };
        assert_eq!(room(Room::Entries(7)), 7);
        assert_eq!(room(Room::Entries(301)), 300);
        assert_eq!(
            [0, 1, -1, -2].map(|more| room(Room::Needed(more))),
            [1, 2, 0, 0]
        );
    }
}
