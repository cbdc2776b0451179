//! A line as plain text that a person writes: one item on each line, in the order
//! of the sheet. `#` begins a comment.
//!
//! ```text
//! speed 70
//! crossfall 8
//! start 0
//! distance 500.000m
//! curve right 49d22m44s 350m 40m
//! distance 400000
//! ```
//!
//! Before the curves may stand the edition of its sheet, `edition 2`. In place of
//! distances and curves it may have points, each by its east and north, with radius
//! and spiral at a PI.
//!
//! ```text
//! point 0m 500.000m
//! point 0m 0m 350m 40m
//! point -303607 -260425
//! ```

use crate::edition;
use crate::explain;
use crate::field::Field;
use crate::files::visible;
use crate::items::{remark, Item, Items, Place, Remark};
use crate::limits;
use crate::line::Line;
use crate::quantity::{degrees, metres_of_mm, number, signed_length, Quantity};
use crate::survey::{self, Survey, AXES};
use pokyandi::{Reason, Refusal};

/// How the edition is written, for messages.
const EDITION: &str = "edition 2";
/// How a distance is written.
const DISTANCE: &str = "distance 310.5m";
/// How the ends of a line and a PI are written as points.
const END: &str = "point -120.5m 85m";
const PI: &str = "point 90.1m 259m 120m 40m";

/// A line read from a text, with what its text says of it.
#[derive(Debug, PartialEq, Eq)]
pub struct Text {
    /// The edition of its sheet.
    pub edition: u32,
    content: Content,
    places: Places,
    /// Values that are probably in the wrong unit.
    pub warnings: Vec<Remark>,
}

/// How a text describes its line.
#[derive(Debug, PartialEq, Eq)]
enum Content {
    Line(Line),
    Points(Survey),
}

/// Where the fields of the line stand. In a text with points the distances stand at
/// the points where they begin; the last point is the place of none, but listed.
#[derive(Debug, PartialEq, Eq)]
struct Places {
    speed: Place,
    crossfall: Place,
    start: Place,
    distances: Vec<Place>,
    curves: Vec<Place>,
}

impl Text {
    /// The line that a text describes, or what is wrong with the text first. The
    /// edition that is asked for counts before the one that the text names.
    pub fn read(text: &[u8], asked: Option<u32>) -> Result<Text, Remark> {
        let mut items = Items::of(text)?;
        let named = items.take_edition()?;
        let edition = asked.or(named).unwrap_or(edition::USUAL);
        let (speed, speed_place) = items.take_value(Field::Speed, "speed 70")?;
        let (crossfall, crossfall_place) = items.take_value(Field::Crossfall, "crossfall 8")?;
        let (start, start_place) = items.take_value(Field::Start(edition), "start 12+340.5km")?;
        let head = [speed, crossfall, start];
        let (content, distances, curves) = match items.are_points()? {
            true => items.take_points(head)?,
            false => items.take_line(head)?,
        };
        let places = Places {
            speed: speed_place,
            crossfall: crossfall_place,
            start: start_place,
            distances,
            curves,
        };
        Ok(Text {
            edition,
            content,
            places,
            warnings: items.doubts,
        })
    }

    /// The line; of points the one that the library makes, or the first refusal.
    pub fn line(&self) -> Result<Line, Refusal> {
        match &self.content {
            Content::Line(line) => Ok(line.clone()),
            Content::Points(survey) => survey.line(),
        }
    }

    /// The distances and deflections that were made of points, where they arise in
    /// the text.
    pub fn found(&self, line: &Line) -> Vec<Remark> {
        if let Content::Line(_) = self.content {
            return Vec::new();
        }
        let mut found = Vec::new();
        for i in 0..=line.curve_count() {
            let place = self.places.distances[i].line;
            let mut say = |words| found.push(Remark { line: place, words });
            if i > 0 {
                let curve = line.curve(i);
                let (side, angle) = (curve.side(), degrees(curve.deflection));
                say(format!("curve {i}: {side} {angle}"));
            }
            say(format!("distance {i}: {}", metres_of_mm(line.distance(i))));
        }
        found
    }

    /// The place of a point with a coordinate out of range.
    fn far_point(&self) -> Option<&Place> {
        match &self.content {
            Content::Line(_) => None,
            Content::Points(survey) => self.places.distances.get(survey.far_coordinate()?.0),
        }
    }

    /// A refusal of the line in words, where it arises in the text.
    pub fn remark(&self, refusal: Refusal) -> Remark {
        let Places {
            speed,
            crossfall,
            start,
            distances,
            curves,
        } = &self.places;
        let place = refusal.place as usize;
        let Place { line, written } = match refusal.reason {
            Reason::Coordinate => self.far_point().unwrap_or(speed),
            Reason::CurveCount => curves.get(limits::most_curves() as usize).unwrap_or(speed),
            Reason::Speed => speed,
            Reason::Crossfall => crossfall,
            Reason::Start => start,
            Reason::Distance | Reason::ShortStraight => distances.get(place).unwrap_or(speed),
            _ => curves.get(place.wrapping_sub(1)).unwrap_or(speed),
        };
        let words = match &self.content {
            Content::Line(line) => explain::of_line(line, self.edition, refusal),
            Content::Points(survey) => explain::of_points(survey, self.edition, refusal),
        };
        let words = format!("{}: {words}", visible(written));
        Remark { line: *line, words }
    }
}

/// A warning where a value without a unit is so small that it was probably meant
/// in metres or degrees.
fn doubt(field: Field, Quantity { value, has_unit }: Quantity, line: usize) -> Option<Remark> {
    let (small, unit, letter) = match field {
        Field::Start(_) => (100_000, "metres", "m"),
        Field::Distance | Field::Radius => (10_000, "metres", "m"),
        Field::Spiral => (1_000, "metres", "m"),
        Field::Deflection => (100, "degrees", "d"),
        Field::Speed | Field::Crossfall => return None,
    };
    let is_doubtful = !has_unit && (1..small).contains(&value);
    let (name, written) = (field.name(), field.written(value));
    let words = format!("warning: {name} {value} is {written}; for {unit} write {value}{letter}");
    is_doubtful.then_some(Remark { line, words })
}

impl Items<'_> {
    /// Takes the edition, which may stand anywhere before the curves or points.
    fn take_edition(&mut self) -> Result<Option<u32>, Remark> {
        let taken = self.take_before(EDITION, |item| item.is("curve") || item.is("point"))?;
        let mut rest = self.rest.as_slice().iter();
        if let Some(Item { line, .. }) = rest.find(|item| item.is("edition")) {
            let words = match taken {
                Some(_) => "the edition is named a second time",
                None => "the edition stands above the curves or points",
            };
            return remark(*line, words.into());
        }
        taken.map(|item| item.edition()).transpose()
    }

    /// Whether points are to be taken; a text has no distances or curves then.
    fn are_points(&self) -> Result<bool, Remark> {
        let items = self.rest.as_slice();
        let are_points = match items.first() {
            Some(item) if item.is("point") => true,
            Some(item) if item.is("distance") => false,
            other => {
                let example = format!("{DISTANCE}, or: {END}");
                return self.wanted("distance or point", other, &example);
            }
        };
        let is_other = |item: &&Item| match are_points {
            true => item.is("distance") || item.is("curve"),
            false => item.is("point"),
        };
        match items.iter().find(is_other) {
            None => Ok(are_points),
            Some(Item { line, words }) => {
                let kind = words[0].to_ascii_lowercase();
                let words = format!(
                    "{kind} in a text with {}: a line has either points, or distances and curves",
                    if are_points { "points" } else { "distances" }
                );
                remark(*line, words)
            }
        }
    }

    /// Takes distances and curves: the line, and the places of both.
    fn take_line(&mut self, head: [u64; 3]) -> Result<(Content, Vec<Place>, Vec<Place>), Remark> {
        let [speed, crossfall, start] = head;
        let (distance, place) = self.take_value(Field::Distance, DISTANCE)?;
        let mut numbers = vec![0, speed, crossfall, start, distance];
        let (mut distances, mut curves) = (vec![place], Vec::new());
        while self.rest.len() > 0 {
            let (curve, place) = self.take_curve()?;
            numbers.extend(curve);
            curves.push(place);
            let (distance, place) = self.take_value(Field::Distance, DISTANCE)?;
            numbers.push(distance);
            distances.push(place);
        }
        numbers[pokyandi::line::CURVES] = curves.len() as u64;
        Ok((Content::Line(Line { numbers }), distances, curves))
    }

    /// Takes points: what they say, and the places of distances and curves.
    fn take_points(&mut self, head: [u64; 3]) -> Result<(Content, Vec<Place>, Vec<Place>), Remark> {
        let [speed, crossfall, start] = head;
        let (point, place) = self.take_end()?;
        let (mut points, mut curves, mut places) = (vec![point], Vec::new(), vec![place]);
        while self.rest.len() > 1 {
            let (point, curve, place) = self.take_pi()?;
            points.push(point);
            curves.push(curve);
            places.push(place);
        }
        let pis = places[1..].to_vec();
        let (point, place) = self.take_end()?;
        points.push(point);
        places.push(place);
        let survey = Survey {
            speed,
            crossfall,
            start,
            points,
            curves,
        };
        Ok((Content::Points(survey), places, pis))
    }

    /// Takes an item of one value.
    fn take_value(&mut self, field: Field, example: &str) -> Result<(u64, Place), Remark> {
        let item = self.take(example)?;
        Ok((self.value(&item, 1, field)?, item.place()))
    }

    /// Takes a curve: its numbers.
    fn take_curve(&mut self) -> Result<([u64; 4], Place), Remark> {
        let item = self.take("curve right 49d22m44s 350m 40m")?;
        let side = item.side()?;
        let deflection = self.value(&item, 2, Field::Deflection)?;
        let radius = self.value(&item, 3, Field::Radius)?;
        let spiral = self.value(&item, 4, Field::Spiral)?;
        Ok(([side, deflection, radius, spiral], item.place()))
    }

    /// Takes the first or the last point: its coordinates.
    fn take_end(&mut self) -> Result<([i64; 2], Place), Remark> {
        let item = self.take(END).map_err(|remark| {
            remark.and("the first and the last point have neither radius nor spiral")
        })?;
        Ok((item.coordinates()?, item.place()))
    }

    /// Takes a PI: its coordinates, its radius and spiral.
    fn take_pi(&mut self) -> Result<([i64; 2], [u64; 2], Place), Remark> {
        let item = self.take(PI).map_err(|remark| {
            remark.and("each point between the first and the last has radius and spiral")
        })?;
        let coordinates = item.coordinates()?;
        let radius = self.value(&item, 3, Field::Radius)?;
        let spiral = self.value(&item, 4, Field::Spiral)?;
        Ok((coordinates, [radius, spiral], item.place()))
    }

    /// The value of a field, at this word of an item; a doubt about it is kept.
    fn value(&mut self, item: &Item, word: usize, field: Field) -> Result<u64, Remark> {
        let quantity = field.read(item.words[word]).map_err(|words| Remark {
            line: item.line,
            words: visible(&words),
        })?;
        self.doubts.extend(doubt(field, quantity, item.line));
        Ok(quantity.value)
    }
}

impl Item<'_> {
    /// The edition that it names.
    fn edition(&self) -> Result<u32, Remark> {
        let word = self.words[1];
        let words = match number(word, "").map(|number| number.value) {
            Ok(number) => match edition::numbered(number) {
                Some(edition) => return Ok(edition),
                None => format!("edition {number}: {}", explain::of_edition(number)),
            },
            Err(_) => {
                let word = visible(word);
                format!(
                    "edition: {word} is no number; it may be {}",
                    edition::names()
                )
            }
        };
        remark(self.line, words)
    }

    /// East and north of a point.
    fn coordinates(&self) -> Result<[i64; 2], Remark> {
        let mut coordinates = [0; 2];
        for (i, axis) in AXES.into_iter().enumerate() {
            let told = |fault| Remark {
                line: self.line,
                words: visible(&format!("{axis}: {fault}; it may be {}", survey::range())),
            };
            coordinates[i] = signed_length(self.words[i + 1]).map_err(told)?.value;
        }
        Ok(coordinates)
    }

    fn side(&self) -> Result<u64, Remark> {
        let side = match self.words[1].to_ascii_lowercase().as_str() {
            "right" => pokyandi::curve::RIGHT,
            "left" => pokyandi::curve::LEFT,
            _ => {
                let words = format!("side: \"{}\" is not right or left", visible(self.words[1]));
                return remark(self.line, words);
            }
        };
        Ok(u64::from(side))
    }
}
