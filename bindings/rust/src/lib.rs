//! Stations of road alignments from packed sheets, heights of profiles, and the unit
//! spiral table: safe functions over the proved static library `libpokyandi.a`, whose header is `include/pokyandi.h`.
//!
//! A call writes its count of entries at the front of the buffer that it is
//! lent, leaves those behind them as they are, and answers the count. A refusal
//! leaves every entry as it was. Any bytes and numbers are taken.
//!
//! ```
//! // Speed 70, crossfall 8, start 0, no curve, one distance of 500 m.
//! let sheet = [0x10, 0x11, 0xA0, 0x00, 0x00, 0x00, 0x00, 0xF4, 0x24, 0x00];
//! let mut row = [0; pokyandi::ROW_NUMBERS];
//! let count = pokyandi::stations(&sheet, &mut row).unwrap();
//! assert_eq!(row[..count], [500_000_000]);
//!
//! // 20 m from the start.
//! let mut peg = [0; pokyandi::PEG_NUMBERS];
//! pokyandi::peg(&sheet, 20_000_000, &mut peg).unwrap();
//! assert_eq!(peg[pokyandi::peg::KIND], pokyandi::peg::STRAIGHT);
//! assert_eq!(peg[pokyandi::peg::LENGTH], 20_000_000);
//!
//! let mut line = [0; pokyandi::LINE_NUMBERS];
//! let count = pokyandi::read(&sheet, &mut line).unwrap();
//! assert_eq!(line[..count], [0, 70, 8, 0, 500_000]);
//!
//! // The same line in edition 2, whose start may reach 4,000,000 m.
//! let mut second = [0; pokyandi::SHEET_BYTES];
//! let bytes = pokyandi::convert(&sheet, 2, &mut second).unwrap();
//! assert_eq!(second[..bytes], [0x20, 0x11, 0xA0, 0x00, 0x00, 0x00, 0x00, 0x0F, 0x42, 0x40]);
//! assert_eq!(pokyandi::edition(&second[..bytes]), Ok(2));
//!
//! // The same line by the points of its start and its end.
//! let points = [0, 0, 300_000, 400_000];
//! let count = pokyandi::from_points(70, 8, 0, &points, &[], &mut line).unwrap();
//! assert_eq!(line[..count], [0, 70, 8, 0, 500_000]);
//!
//! // A profile at 40 km/h: start 0 at a height of 100 m, 3 percent up, and at 200 m
//! // a crest of 80 m to 2 percent down. The height at 200 m, mm, is on the curve.
//! let profile = [40, 0, 100_000, 30_000, 200_000, -20_000, 80_000];
//! let mut height = [0; pokyandi::HEIGHT_NUMBERS];
//! pokyandi::height(&profile, 200_000, &mut height).unwrap();
//! assert_eq!(height, [105_500]);
//!
//! // X and Y of a spiral of 48 m at half a radian, µm, from the unit spiral table.
//! let mut offsets = [0; pokyandi::OFFSET_NUMBERS];
//! pokyandi::unit_spiral(500, 48_000, &mut offsets).unwrap();
//! assert_eq!(offsets, [46_813_809, 7_858_279]);
//!
//! line[pokyandi::line::distance(0)] = 0;
//! let refusal = pokyandi::write(1, &line[..count], &mut [0; 10]).unwrap_err();
//! let words = "refused 8 at place 0: distance outside 1 to 20,000,000 mm";
//! assert_eq!(refusal.to_string(), words);
//! ```

mod calls;
mod names;
mod refusal;

pub use calls::{check, convert, edition, elements, from_points, height, peg, read};
pub use calls::{rewrite, stations, text, unit_spiral, unit_spiral_table, version, write};
pub use calls::{CURVE_NUMBERS, ELEMENT_NUMBERS, HEIGHT_NUMBERS, LINE_NUMBERS, PEG_NUMBERS};
pub use calls::{OFFSET_NUMBERS, POINT_NUMBERS, PROFILE_NUMBERS, ROW_NUMBERS, TABLE_NUMBERS};
pub use calls::{SHEET_BYTES, TEXT_BYTES};
pub use calls::{STACK_BYTES, VERSION};
pub use names::{curve, element, line, peg, profile, vertex};
pub use refusal::{Reason, Refusal};
