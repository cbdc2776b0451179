//! The calls of `include/pokyandi.h`.

use crate::refusal::{answered, counted, Refusal};

/// The version of this crate, 0.9.0: major × 1,000,000 + minor × 1,000 + patch.
pub const VERSION: u64 = 9_000;

/// Bytes of stack that are enough for every call, with what the dynamic linker
/// takes when a call first uses memcpy.
pub const STACK_BYTES: usize = 16_384;

/// Bytes of the longest sheet, one of 64 curves.
pub const SHEET_BYTES: usize = 706;
/// Numbers of the longest line.
pub const LINE_NUMBERS: usize = 325;
/// Numbers of the most points, those of the longest line: east and north of each.
pub const POINT_NUMBERS: usize = 132;
/// Numbers of its PIs: radius and spiral of each.
pub const CURVE_NUMBERS: usize = 128;
/// Numbers of the longest row of stations.
pub const ROW_NUMBERS: usize = 257;
/// Bytes that are enough for the text of every sheet.
pub const TEXT_BYTES: usize = 5_417;
/// Numbers of a peg.
pub const PEG_NUMBERS: usize = 5;
/// Numbers of a curve's elements.
pub const ELEMENT_NUMBERS: usize = 6;
/// Numbers of the longest profile, one of 32 vertices.
pub const PROFILE_NUMBERS: usize = 100;
/// Numbers of a height.
pub const HEIGHT_NUMBERS: usize = 1;
/// Numbers of what is looked up in the unit spiral table.
pub const OFFSET_NUMBERS: usize = 2;
/// Numbers of the unit spiral table, two of each of its 501 rows.
pub const TABLE_NUMBERS: usize = 1_002;

// A slice passes as its pointer and its length.
extern "C" {
    fn pokyandi_version() -> u64;
    fn pokyandi_stations(
        sheet: *const u8,
        sheet_bytes: usize,
        row: *mut u64,
        row_numbers: usize,
    ) -> u64;
    fn pokyandi_check(sheet: *const u8, sheet_bytes: usize) -> u64;
    fn pokyandi_text(sheet: *const u8, sheet_bytes: usize, text: *mut u8, text_bytes: usize)
        -> u64;
    fn pokyandi_peg(
        sheet: *const u8,
        sheet_bytes: usize,
        station: u64,
        peg: *mut i64,
        peg_numbers: usize,
    ) -> u64;
    fn pokyandi_elements(
        deflection: u32,
        radius: u32,
        spiral: u32,
        numbers: *mut u64,
        numbers_room: usize,
    ) -> u64;
    fn pokyandi_edition(sheet: *const u8, sheet_bytes: usize) -> u64;
    fn pokyandi_read(
        sheet: *const u8,
        sheet_bytes: usize,
        line: *mut u32,
        line_numbers: usize,
    ) -> u64;
    fn pokyandi_write(
        edition: u32,
        line: *const u32,
        line_numbers: usize,
        bytes: *mut u8,
        bytes_room: usize,
    ) -> u64;
    fn pokyandi_rewrite(
        sheet: *const u8,
        sheet_bytes: usize,
        bytes: *mut u8,
        bytes_room: usize,
    ) -> u64;
    fn pokyandi_convert(
        sheet: *const u8,
        sheet_bytes: usize,
        edition: u32,
        bytes: *mut u8,
        bytes_room: usize,
    ) -> u64;
    fn pokyandi_from_points(
        speed: u32,
        crossfall: u32,
        start: u32,
        points: *const i64,
        point_numbers: usize,
        curves: *const u32,
        curve_numbers: usize,
        line: *mut u32,
        line_numbers: usize,
    ) -> u64;
    fn pokyandi_height(
        profile: *const i64,
        profile_numbers: usize,
        station: u64,
        height: *mut i64,
        height_numbers: usize,
    ) -> u64;
    fn pokyandi_unit_spiral(
        thousandth: u32,
        length: u32,
        offsets: *mut u64,
        offsets_numbers: usize,
    ) -> u64;
    fn pokyandi_unit_spiral_table(ratios: *mut u64, ratios_numbers: usize) -> u64;
}

/// The version of the library that is linked.
pub fn version() -> u64 {
    // SAFETY: the call takes nothing.
    unsafe { pokyandi_version() }
}

/// The stations of a sheet in µm: TS, SC, CS, ST of each curve in order, then
/// the end; 4 × n + 1 numbers. Refusals: 1 to 15, then 16.
pub fn stations(sheet: &[u8], row: &mut [u64]) -> Result<usize, Refusal> {
    // SAFETY: pointers and lengths are those of slices; the row is borrowed alone.
    counted(unsafe { pokyandi_stations(sheet.as_ptr(), sheet.len(), row.as_mut_ptr(), row.len()) })
}

/// The same checks, 1 to 15, without a row: how many numbers the stations of
/// the sheet are.
pub fn check(sheet: &[u8]) -> Result<usize, Refusal> {
    // SAFETY: pointer and length are those of a slice.
    counted(unsafe { pokyandi_check(sheet.as_ptr(), sheet.len()) })
}

/// What the program `stations` prints for a sheet: the list of stations in
/// metres, or the line of a refusal 1 to 15. Refusal: 16.
pub fn text(sheet: &[u8], text: &mut [u8]) -> Result<usize, Refusal> {
    // SAFETY: pointers and lengths are those of slices; the text is borrowed alone.
    counted(unsafe { pokyandi_text(sheet.as_ptr(), sheet.len(), text.as_mut_ptr(), text.len()) })
}

/// The element under a station, by the indexes of [`crate::peg`](mod@crate::peg):
/// five numbers. The station is in µm, from the start to the end, both included;
/// one that two elements share belongs to the one that begins there, and the end
/// to the last straight. Refusals: 1 to 15, then 17, then 16.
pub fn peg(sheet: &[u8], station: u64, peg: &mut [i64]) -> Result<usize, Refusal> {
    // SAFETY: pointers and lengths are those of slices; the peg is borrowed alone.
    counted(unsafe {
        pokyandi_peg(
            sheet.as_ptr(),
            sheet.len(),
            station,
            peg.as_mut_ptr(),
            peg.len(),
        )
    })
}

/// The elements of one curve in µm, by the indexes of [`crate::element`]: six
/// numbers. The deflection is in seconds of arc, radius and spiral in mm.
/// Refusals: 9, 10, 11, 14, then 16, all with place 0.
pub fn elements(
    deflection: u32,
    radius: u32,
    spiral: u32,
    numbers: &mut [u64],
) -> Result<usize, Refusal> {
    // SAFETY: pointer and length are those of a slice, borrowed alone.
    counted(unsafe {
        pokyandi_elements(
            deflection,
            radius,
            spiral,
            numbers.as_mut_ptr(),
            numbers.len(),
        )
    })
}

/// The edition of a sheet, 1 or 2. Refusals: 1 to 11.
///
/// The editions differ in the start alone: it has 28 bits and may reach
/// 200,000,000 mm in edition 1, 32 bits and 4,000,000,000 mm in edition 2. Every
/// call takes sheets of either; refusal 6 of a sheet follows its edition.
pub fn edition(sheet: &[u8]) -> Result<u32, Refusal> {
    // SAFETY: pointer and length are those of a slice.
    answered(unsafe { pokyandi_edition(sheet.as_ptr(), sheet.len()) })
}

/// The line of a sheet, by the indexes of [`crate::line`] and [`crate::curve`]:
/// 5 + 5 × n numbers. Refusals: 1 to 11, then 16.
pub fn read(sheet: &[u8], line: &mut [u32]) -> Result<usize, Refusal> {
    // SAFETY: pointers and lengths are those of slices; the line is borrowed alone.
    counted(unsafe { pokyandi_read(sheet.as_ptr(), sheet.len(), line.as_mut_ptr(), line.len()) })
}

/// The sheet of a line in an edition: its bytes. Refusals: 2 for any edition but 1
/// and 2; 3 to 6, 6 by the edition; 8 to 11; then 16. The line has 5 + 5 × n
/// numbers, neither fewer nor more, else it is refused 3; a side other than 0 and 1
/// is refused 9 at its curve.
pub fn write(edition: u32, line: &[u32], bytes: &mut [u8]) -> Result<usize, Refusal> {
    // SAFETY: pointers and lengths are those of slices; the bytes are borrowed alone.
    counted(unsafe {
        pokyandi_write(
            edition,
            line.as_ptr(),
            line.len(),
            bytes.as_mut_ptr(),
            bytes.len(),
        )
    })
}

/// The sheet read and written again in its edition, which are the same bytes.
/// Refusals: 1 to 11, then 16.
pub fn rewrite(sheet: &[u8], bytes: &mut [u8]) -> Result<usize, Refusal> {
    // SAFETY: pointers and lengths are those of slices; the bytes are borrowed alone.
    counted(unsafe {
        pokyandi_rewrite(sheet.as_ptr(), sheet.len(), bytes.as_mut_ptr(), bytes.len())
    })
}

/// The sheet of the same line in the other edition: its bytes; there and back are
/// the same. Refusals: 1 to 11; 2 where the edition asked for is not the other one;
/// 24 for edition 1 where the start is over 200,000,000 mm; then 16.
pub fn convert(sheet: &[u8], edition: u32, bytes: &mut [u8]) -> Result<usize, Refusal> {
    // SAFETY: pointers and lengths are those of slices; the bytes are borrowed alone.
    counted(unsafe {
        pokyandi_convert(
            sheet.as_ptr(),
            sheet.len(),
            edition,
            bytes.as_mut_ptr(),
            bytes.len(),
        )
    })
}

/// The line through points, by the indexes of [`crate::line`] and
/// [`crate::curve`]: 5 + 5 × n numbers. The points are east and north of the start,
/// of each PI and of the end in turn, the curves radius and spiral of each PI in
/// turn, all in mm. A distance is rounded down to the mm, a deflection to the
/// second. Refusals: 3 for an odd count of point numbers or other than two curve
/// numbers for each PI; 3 for fewer than 2 or more than 66 points; 18; 8 of each
/// distance; point by point 20 and 19; 4 to 6, 6 for a start over 4,000,000,000, 10
/// to 15 of the line so made; then 16.
pub fn from_points(
    speed: u32,
    crossfall: u32,
    start: u32,
    points: &[i64],
    curves: &[u32],
    line: &mut [u32],
) -> Result<usize, Refusal> {
    // SAFETY: pointers and lengths are those of slices; the line is borrowed alone.
    counted(unsafe {
        pokyandi_from_points(
            speed,
            crossfall,
            start,
            points.as_ptr(),
            points.len(),
            curves.as_ptr(),
            curves.len(),
            line.as_mut_ptr(),
            line.len(),
        )
    })
}

/// The height of a profile at a station, in mm: one number. The profile is, by
/// the indexes of [`crate::profile`] and [`crate::vertex`], speed, start, start
/// height and first grade, then station, outgoing grade and curve length of each
/// vertex: 4 + 3 × n numbers. Lengths and heights are in mm, grades in millionths.
/// The height is rounded once, down. Refusals: 3 for any other count of numbers
/// and for more than 32 vertices; 4; 6; 22, 21 and 23, each vertex by vertex; 17
/// for a station below the start or over 200,000,000; then 16.
pub fn height(profile: &[i64], station: u64, height: &mut [i64]) -> Result<usize, Refusal> {
    // SAFETY: pointers and lengths are those of slices; the height is borrowed alone.
    counted(unsafe {
        pokyandi_height(
            profile.as_ptr(),
            profile.len(),
            station,
            height.as_mut_ptr(),
            height.len(),
        )
    })
}

/// X and Y of a spiral, in µm, from the unit spiral table: two numbers. The row is
/// the spiral angle in thousandths of a radian, 0 to 500, the length is in mm. They are
/// those of the curve whose spiral has this length and angle. Refusals: 25 for a
/// thousandth over 500, 11 for a length over 500,000, then 16, all with place 0.
pub fn unit_spiral(thousandth: u32, length: u32, offsets: &mut [u64]) -> Result<usize, Refusal> {
    // SAFETY: pointer and length are those of a slice, borrowed alone.
    counted(unsafe {
        pokyandi_unit_spiral(thousandth, length, offsets.as_mut_ptr(), offsets.len())
    })
}

/// The unit spiral table: x and y of the spiral of length one at 0, 1, .. 500
/// thousandths of a radian, row by row, at scale 10⁹; 1,002 numbers. Refusal: 16.
pub fn unit_spiral_table(ratios: &mut [u64]) -> Result<usize, Refusal> {
    // SAFETY: pointer and length are those of a slice, borrowed alone.
    counted(unsafe { pokyandi_unit_spiral_table(ratios.as_mut_ptr(), ratios.len()) })
}

#[cfg(test)]
mod tests {
    use super::*;

    #[test]
    fn package_crate_and_library_have_one_version() {
        let package = env!("CARGO_PKG_VERSION").split('.');
        let package = package.fold(0, |sum, part| 1_000 * sum + part.parse::<u64>().unwrap());
        assert_eq!([package, version()], [VERSION; 2]);
    }
}
