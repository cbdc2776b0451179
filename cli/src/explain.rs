//! A refusal in words: the value that was found, the limit that it misses, and the
//! formula behind it.

use crate::bits::fields_of;
use crate::commands::table::Spiral;
use crate::edition::{self, USUAL, WIDEST};
use crate::field::Field;
use crate::limits;
use crate::line::{Curve, Line};
use crate::quantity::{degrees, metres_of_mm, metres_of_signed_mm, metres_of_um};
use crate::survey::{self, Survey, AXES};
use pokyandi::{element, Reason, Refusal, SHEET_BYTES};

/// Why a sheet is refused, in one sentence.
pub fn of_sheet(sheet: &[u8], refusal: Refusal) -> String {
    let (edition, fields) = fields_of(sheet);
    let line = Line::of_sheet(sheet).unwrap_or(fields);
    match refusal.reason {
        Reason::Truncated | Reason::Trailing => headed(refusal, bytes(sheet, &line)),
        Reason::Edition => headed(refusal, other_edition(sheet, edition)),
        _ => of_line(&line, edition as u32, refusal),
    }
}

/// Why a number is refused as an edition, in one sentence.
pub fn of_edition(number: u64) -> String {
    let refusal = Refusal {
        reason: Reason::Edition,
        place: 0,
    };
    headed(refusal, edition::missed(number))
}

/// Why a line is refused in an edition, in one sentence.
pub fn of_line(line: &Line, edition: u32, refusal: Refusal) -> String {
    let place = refusal.place as usize;
    let curve = || line.curve(place);
    let found = match refusal.reason {
        Reason::CurveCount => too_many(line.curve_count()),
        Reason::Speed => Field::Speed.missed(line.speed()),
        Reason::Crossfall => Field::Crossfall.missed(line.crossfall()),
        Reason::Start => start_missed(line.start(), edition),
        Reason::FarStart => far_start(line.start()),
        Reason::Distance => Field::Distance.missed(line.distance(place)),
        Reason::Deflection => Field::Deflection.missed(curve().deflection),
        Reason::Radius => Field::Radius.missed(curve().radius),
        Reason::Spiral => long_spiral(curve()),
        Reason::LeastRadius => least_radius(line, curve()),
        Reason::LeastSpiral => least_spiral(line, curve()),
        Reason::ShortArc => short_arc(line, curve()),
        Reason::ShortStraight => short_straight(line, place),
        other => other.words().to_string(),
    };
    headed(refusal, found)
}

/// Why a line by its points is refused in an edition, in one sentence.
pub fn of_points(survey: &Survey, edition: u32, refusal: Refusal) -> String {
    let place = refusal.place as usize;
    let found = match refusal.reason {
        Reason::CurveCount => too_many(survey.curves.len()),
        Reason::Coordinate => far_coordinate(survey),
        Reason::Distance => far_or_same(survey.sketch().distance(place)),
        Reason::NoTurn => NO_TURN.into(),
        Reason::WideTurn => wide_turn(survey.sketch().curve(place)),
        _ => return of_line(&survey.sketch(), edition, refusal),
    };
    headed(refusal, found)
}

/// Why a spiral is refused that is looked up in the unit spiral table, in one sentence.
pub fn of_spiral(spiral: Spiral, refusal: Refusal) -> String {
    let found = match refusal.reason {
        Reason::Thousandth => wide_angle(spiral.thousandth),
        Reason::Spiral => beyond_table(spiral.length),
        other => other.words().to_string(),
    };
    headed(refusal, found)
}

/// `refused 12 at curve 3: ..`
fn headed(Refusal { reason, place }: Refusal, found: String) -> String {
    let number = reason.number();
    match reason {
        Reason::Distance | Reason::ShortStraight => {
            format!("refused {number} at distance {place}: {found}")
        }
        _ if place > 0 => format!("refused {number} at curve {place}: {found}"),
        _ => format!("refused {number}: {found}"),
    }
}

/// How many bytes there are, and how many there should be.
fn bytes(sheet: &[u8], line: &Line) -> String {
    let fewest = limits::fewest_bytes();
    let needed = limits::bytes_needed(sheet);
    let size = match sheet.len() {
        size if size > SHEET_BYTES => format!("more than {SHEET_BYTES} bytes"),
        size => counted(size, "byte"),
    };
    match sheet.len() {
        found if found == needed => {
            "a bit behind the last distance is set; the bits that fill the last byte are 0".into()
        }
        found if found < fewest => format!("the sheet has {size}; the shortest has {fewest}"),
        _ => format!(
            "the sheet has {size}; with {} it takes {needed}",
            counted(line.curve_count(), "curve")
        ),
    }
}

fn other_edition(sheet: &[u8], edition: u64) -> String {
    let is_text = sheet
        .iter()
        .all(|byte| *byte >= b' ' || byte.is_ascii_whitespace());
    let hint = match is_text {
        true => "; it looks like a text, whose sheet pokyandi make makes",
        false => "",
    };
    edition::missed(edition) + hint
}

/// A start that is out of range in its edition, and the edition that has room for it.
fn start_missed(start: u64, edition: u32) -> String {
    let wide = Field::Start(WIDEST);
    let (_, most) = limits::start_range(WIDEST);
    let hint = match edition != WIDEST && start <= most {
        true => {
            let most = wide.written(most);
            format!("; make the sheet in edition {WIDEST}, which goes up to {most}")
        }
        false => String::new(),
    };
    let missed = Field::Start(edition).missed(start);
    format!("{missed} in edition {edition}{hint}")
}

/// A start that keeps a sheet from the usual edition.
fn far_start(start: u64) -> String {
    let missed = Field::Start(USUAL).missed(start);
    format!("{missed} in edition {USUAL}; the sheet stays in edition {WIDEST}")
}

/// `1 curve`, `2 curves`
pub fn counted(count: usize, name: &str) -> String {
    format!("{count} {name}{}", if count == 1 { "" } else { "s" })
}

fn too_many(curves: usize) -> String {
    let most = limits::most_curves();
    let curves = counted(curves, "curve");
    format!("the line has {curves}; it may have {most} at most")
}

fn far_coordinate(survey: &Survey) -> String {
    let Some((point, axis)) = survey.far_coordinate() else {
        return Reason::Coordinate.words().into();
    };
    let found = metres_of_signed_mm(survey.points[point][axis]);
    let (name, range) = (AXES[axis], survey::range());
    format!(
        "{name} is {found}; it may be {range}: count from a nearer origin, \
         that is, take the same length off {name} of every point"
    )
}

/// A distance to the next point that is out of range.
fn far_or_same(distance: u64) -> String {
    let hint = match distance {
        0 => "is a point written twice?",
        _ => "divide the line",
    };
    let missed = Field::Distance.missed(distance);
    format!("to the next point {missed}; {hint}")
}

const NO_TURN: &str = "the line does not turn here by a second: this point lies in one line \
                       with the points before and after it; leave it out";

fn wide_turn(curve: Curve) -> String {
    let most = limits::widest_turn();
    let found = degrees(curve.deflection.max(most + 1));
    let (side, most) = (curve.side(), degrees(most));
    format!(
        "the line turns {side} by {found}; it may turn by {most} at most: \
         set a further PI between, so that two curves share the turn"
    )
}

fn long_spiral(Curve { radius, spiral, .. }: Curve) -> String {
    let most = limits::greatest_spiral(radius);
    let [spiral, radius, most] = [spiral, radius, most].map(metres_of_mm);
    format!("the spiral is {spiral}; at a radius of {radius} it may be 0.000 m to {most}")
}

fn wide_angle(thousandth: u64) -> String {
    let most = limits::last_row();
    format!(
        "the spiral angle is {thousandth} thousandths of a radian; it may be 0 to {most}, \
         by L / 2R of a spiral that is no longer than the radius"
    )
}

fn beyond_table(length: u64) -> String {
    let [length, most] = [length, limits::longest_looked_up()].map(metres_of_mm);
    format!("the spiral is {length}; it may be 0.000 m to {most}")
}

fn least_radius(line: &Line, Curve { radius, .. }: Curve) -> String {
    let (speed, crossfall) = (line.speed(), line.crossfall());
    let found = format!("the radius is {}", metres_of_mm(radius));
    let formula = format!("by V² / (127 (e + f)) at V = {speed} km/h, e = {crossfall} %");
    match limits::least_radius(line) {
        Some(least) => {
            let friction = friction(line, least);
            let least = metres_of_mm(least);
            format!("{found}; the least is {least}, {formula} and f = 0.{friction:02}")
        }
        None => format!("{found}; no radius is large enough, {formula} and the table's f"),
    }
}

/// The table's f in hundredths, which the least radius in mm tells.
fn friction(line: &Line, least_radius: u64) -> u64 {
    let sum = (100_000 * line.speed().pow(2)).div_ceil(127 * least_radius);
    sum.saturating_sub(line.crossfall())
}

fn least_spiral(line: &Line, Curve { radius, spiral, .. }: Curve) -> String {
    let found = format!("the spiral is {}", metres_of_mm(spiral));
    let speed = line.speed();
    let radius_words = metres_of_mm(radius);
    let formula = format!("by 0.036 V³ / R at V = {speed} km/h and R = {radius_words}");
    match limits::least_spiral(line, radius) {
        None => format!("{found}; none is long enough, {formula}{}", wider(line)),
        Some(least) => {
            let by = match limits::tabled_spiral(line) == Some(least) {
                true => format!("by the table at V = {speed} km/h"),
                false => formula,
            };
            format!("{found}; the least is {}, {by}", metres_of_mm(least))
        }
    }
}

/// What helps where no spiral that may stand at a radius is long enough.
fn wider(line: &Line) -> String {
    let radius = limits::least_radius_with_spiral(line);
    radius.map_or(String::new(), |radius| {
        let radius = metres_of_mm(radius);
        format!("; it takes a radius of {radius} at least, or no spirals")
    })
}

fn short_arc(line: &Line, curve: Curve) -> String {
    let arc = limits::simple_arc(curve) as i64 - 1_000 * curve.spiral as i64;
    let least = limits::least_deflection(curve).map_or(String::new(), |least| {
        format!("; it takes a deflection of {} at least", degrees(least))
    });
    let [radius, spiral] = [curve.radius, curve.spiral].map(metres_of_mm);
    format!(
        "the arc is {}, under 1 mm, by R A - L at R = {radius}, A = {} in radians and L = {spiral}\
         {least}{}",
        metres_of_um(arc),
        degrees(curve.deflection),
        shorter_spirals(line, curve)
    )
}

/// Which spirals would leave an arc, of those that are long enough.
fn shorter_spirals(line: &Line, curve: Curve) -> String {
    let longest = limits::longest_spiral_with_arc(curve);
    let least = limits::least_spiral(line, curve.radius);
    match (longest, least) {
        (Some(longest), Some(least)) if least <= longest => {
            format!(", or spirals of {} at most", metres_of_mm(longest))
        }
        (Some(_), _) => ", or no spirals".into(),
        _ => String::new(),
    }
}

fn short_straight(line: &Line, i: usize) -> String {
    let tangents = [i, i + 1].map(|i| (i, tangent(line, i)));
    let straight = tangents
        .iter()
        .fold(1_000 * line.distance(i) as i64, |rest, (_, tangent)| {
            rest - tangent.unwrap_or(0) as i64
        });
    let shown = |(i, tangent): &(usize, Option<u64>)| {
        tangent.map(|um| format!("TT {} of curve {i}", metres_of_um(um as i64)))
    };
    let less: Vec<String> = tangents.iter().filter_map(shown).collect();
    let least = limits::least_distance(line, i).map_or(String::new(), |least| {
        format!("; it takes a distance of {} at least", metres_of_mm(least))
    });
    format!(
        "the straight is {}, under 1 mm, by {} less {}{least}",
        metres_of_um(straight),
        metres_of_mm(line.distance(i)),
        less.join(" and ")
    )
}

/// TT of curve i, where there is one.
fn tangent(line: &Line, i: usize) -> Option<u64> {
    let is_there = (1..=line.curve_count()).contains(&i);
    let elements = is_there.then(|| line.curve(i).elements())?;
    elements.ok().map(|numbers| numbers[element::TT])
}

#[cfg(test)]
mod tests {
    use super::*;
    use crate::limits::{DEFLECTION, RADIUS, SPIRAL};
    use crate::line::example;
    use pokyandi::line::{CROSSFALL, SPEED};

    fn sentence(line: &Line) -> String {
        of_line(line, WIDEST, line.check().unwrap_err())
    }

    #[test]
    fn the_least_radius_tells_f() {
        let table = [18, 16, 15, 15, 14, 14, 13, 12, 11];
        for (speed, f) in limits::speeds().into_iter().zip(table) {
            for crossfall in 2..=12 {
                let line = example().with(SPEED, speed).with(CROSSFALL, crossfall);
                assert_eq!(friction(&line, limits::least_radius(&line).unwrap()), f);
            }
        }
    }

    #[test]
    fn spirals_that_are_too_short_for_their_radius() {
        let wide = example().with(RADIUS, 200_000).with(SPIRAL, 61_739);
        assert_eq!(
            sentence(&wide),
            "refused 13 at curve 1: the spiral is 61.739 m; the least is 61.740 m, \
             by 0.036 V³ / R at V = 70 km/h and R = 200.000 m"
        );
        let narrow = example().with(SPEED, 40).with(CROSSFALL, 12);
        let narrow = narrow.with(RADIUS, 47_999).with(SPIRAL, 47_999);
        assert_eq!(
            sentence(&narrow),
            "refused 13 at curve 1: the spiral is 47.999 m; none is long enough, \
             by 0.036 V³ / R at V = 40 km/h and R = 47.999 m; \
             it takes a radius of 48.000 m at least, or no spirals"
        );
    }

    #[test]
    fn arcs_that_other_spirals_would_leave() {
        let long = example().with(DEFLECTION, 30_000).with(SPIRAL, 60_000);
        assert!(sentence(&long).ends_with(", or spirals of 50.904 m at most"));
        let short = example().with(DEFLECTION, 23_573);
        assert!(sentence(&short).ends_with(", or no spirals"));
        let none = example().with(DEFLECTION, 1).with(SPIRAL, 0);
        assert!(sentence(&none.with(RADIUS, 200_000)).ends_with(" of 0°00'02\" at least"));
    }

    #[test]
    fn straights_between_two_curves() {
        let mut line = example();
        line.numbers.extend_from_within(5..);
        line.numbers[0] = 2;
        let line = line.with(pokyandi::line::distance(1), 361_978);
        assert_eq!(
            sentence(&line),
            "refused 15 at distance 1: the straight is -0.000560 m, under 1 mm, by 361.978 m less \
             TT 180.989280 m of curve 1 and TT 180.989280 m of curve 2; it takes a distance of 361.980 m at least"
        );
    }

    #[test]
    fn a_text_that_is_taken_for_a_sheet() {
        let text = b"speed 70\ncrossfall 8\n";
        let refusal = pokyandi::check(text).unwrap_err();
        assert_eq!(
            of_sheet(text, refusal),
            "refused 2: the edition is 7; it may be 1 or 2; it looks like a text, whose sheet pokyandi make makes"
        );
    }
}
