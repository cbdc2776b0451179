//! Prints every name of the crate that the C header has too, with its number,
//! and the words of refusals 0 to 26. `examples/c/names.c` prints the same from
//! the header.

use pokyandi::{curve, element, line, peg, profile, vertex, Reason};

fn main() {
    show("version", pokyandi::version());
    show_sizes();
    show_indexes();
    show_refusals();
}

fn show(name: &str, number: u64) {
    println!("{name} {number}");
}

fn show_sizes() {
    show("VERSION", pokyandi::VERSION);
    let sizes = [
        ("STACK_BYTES", pokyandi::STACK_BYTES),
        ("SHEET_BYTES", pokyandi::SHEET_BYTES),
        ("LINE_NUMBERS", pokyandi::LINE_NUMBERS),
        ("POINT_NUMBERS", pokyandi::POINT_NUMBERS),
        ("CURVE_NUMBERS", pokyandi::CURVE_NUMBERS),
        ("ROW_NUMBERS", pokyandi::ROW_NUMBERS),
        ("TEXT_BYTES", pokyandi::TEXT_BYTES),
        ("PEG_NUMBERS", pokyandi::PEG_NUMBERS),
        ("ELEMENT_NUMBERS", pokyandi::ELEMENT_NUMBERS),
        ("PROFILE_NUMBERS", pokyandi::PROFILE_NUMBERS),
        ("HEIGHT_NUMBERS", pokyandi::HEIGHT_NUMBERS),
        ("OFFSET_NUMBERS", pokyandi::OFFSET_NUMBERS),
        ("TABLE_NUMBERS", pokyandi::TABLE_NUMBERS),
    ];
    show_all(&sizes);
}

fn show_indexes() {
    let indexes = [
        ("X", element::X),
        ("Y", element::Y),
        ("K", element::K),
        ("P", element::P),
        ("D", element::D),
        ("TT", element::TT),
        ("PEG_KIND", peg::KIND),
        ("PEG_NUMBER", peg::NUMBER),
        ("PEG_LENGTH", peg::LENGTH),
        ("PEG_X", peg::X),
        ("PEG_Y", peg::Y),
        ("LINE_CURVES", line::CURVES),
        ("LINE_SPEED", line::SPEED),
        ("LINE_CROSSFALL", line::CROSSFALL),
        ("LINE_START", line::START),
        ("CURVE_SIDE", curve::SIDE),
        ("CURVE_DEFLECTION", curve::DEFLECTION),
        ("CURVE_RADIUS", curve::RADIUS),
        ("CURVE_SPIRAL", curve::SPIRAL),
        ("PROFILE_SPEED", profile::SPEED),
        ("PROFILE_START", profile::START),
        ("PROFILE_HEIGHT", profile::HEIGHT),
        ("PROFILE_GRADE", profile::GRADE),
        ("VERTEX_STATION", vertex::STATION),
        ("VERTEX_GRADE", vertex::GRADE),
        ("VERTEX_LENGTH", vertex::LENGTH),
    ];
    show_all(&indexes);
    show("RIGHT", curve::RIGHT.into());
    show("LEFT", curve::LEFT.into());
    let kinds = [
        ("STRAIGHT", peg::STRAIGHT),
        ("SPIRAL_IN", peg::SPIRAL_IN),
        ("ARC", peg::ARC),
        ("SPIRAL_OUT", peg::SPIRAL_OUT),
    ];
    for (name, kind) in kinds {
        show(name, kind as u64);
    }
    for i in 0..=64 {
        show_all(&[("curve", line::curve(i)), ("distance", line::distance(i))]);
    }
    for i in 1..=33 {
        show_all(&[("vertex", profile::vertex(i))]);
    }
}

fn show_all(names: &[(&str, usize)]) {
    for (name, number) in names {
        show(name, *number as u64);
    }
}

/// A reason has the name in capitals, its words set apart: LEAST_RADIUS.
fn show_refusals() {
    show("DONE", 0);
    for reason in Reason::ALL {
        show(&in_capitals(&format!("{reason:?}")), reason.number().into());
    }
    for number in 0..=26 {
        let words = Reason::of(number).map_or("not refused", Reason::words);
        println!("{number}: {words}");
    }
}

fn in_capitals(name: &str) -> String {
    let mut capitals = String::new();
    for letter in name.chars() {
        if letter.is_uppercase() && !capitals.is_empty() {
            capitals.push('_');
        }
        capitals.push(letter.to_ascii_uppercase());
    }
    capitals
}
