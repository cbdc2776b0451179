//! A profile as plain text that a person writes: one item on each line. `#` begins a
//! comment.
//!
//! ```text
//! speed 40
//! start 12+340.5km
//! height 845.250m
//! grade -3.5%
//! vertex 12+520km 4.25% 80m
//! ```

use super::field::ProfileField;
use super::{words, Profile};
use crate::files::visible;
use crate::items::{Item, Items, Place, Remark};
use crate::limits;
use crate::quantity::Quantity;
use pokyandi::{Reason, Refusal};

/// How a vertex is written, for messages.
const VERTEX: &str = "vertex 12+520km 4.25% 80m";

/// A profile read from a text, with what its text says of it.
#[derive(Debug, PartialEq, Eq)]
pub struct ProfileText {
    pub profile: Profile,
    places: Places,
    /// Values that are probably in the wrong unit.
    pub warnings: Vec<Remark>,
}

/// Where the fields of the profile stand.
#[derive(Debug, PartialEq, Eq)]
struct Places {
    speed: Place,
    start: Place,
    height: Place,
    grade: Place,
    vertices: Vec<Place>,
}

impl ProfileText {
    /// The profile that a text describes, or what is wrong with the text first.
    pub fn read(text: &[u8]) -> Result<ProfileText, Remark> {
        let mut items = Items::of(text)?;
        let (speed, speed_place) = items.take_number(ProfileField::Speed, "speed 70")?;
        let (start, start_place) = items.take_number(ProfileField::Start, "start 12+340.5km")?;
        let (height, height_place) = items.take_number(ProfileField::Height, "height 845.25m")?;
        let (grade, grade_place) = items.take_number(ProfileField::Grade, "grade -3.5%")?;
        let mut numbers = vec![speed, start, height, grade];
        let mut vertices = Vec::new();
        while items.rest.len() > 0 {
            let (vertex, place) = items.take_vertex()?;
            numbers.extend(vertex);
            vertices.push(place);
        }
        let places = Places {
            speed: speed_place,
            start: start_place,
            height: height_place,
            grade: grade_place,
            vertices,
        };
        Ok(ProfileText {
            profile: Profile { numbers },
            places,
            warnings: items.doubts,
        })
    }

    /// A refusal of the profile in words, where it arises in the text.
    pub fn remark(&self, refusal: Refusal) -> Remark {
        let Place { line, written } = self.place(refusal);
        let words = words::of_profile(&self.profile, refusal);
        let words = format!("{}: {words}", visible(written));
        Remark { line: *line, words }
    }

    fn place(&self, refusal: Refusal) -> &Place {
        let places = &self.places;
        let vertex = |i: usize| places.vertices.get(i.wrapping_sub(1));
        let place = match refusal.reason {
            Reason::CurveCount => vertex(limits::most_vertices() as usize + 1),
            Reason::Start => match words::first_out_of_range(&self.profile) {
                Some((ProfileField::Start, _)) => Some(&places.start),
                Some((ProfileField::Height, _)) => Some(&places.height),
                Some((_, i)) => vertex(i),
                None => None,
            },
            Reason::Grade if refusal.place == 0 => Some(&places.grade),
            _ => vertex(refusal.place as usize),
        };
        place.unwrap_or(&places.speed)
    }
}

/// A warning where a value without a unit is so small that it was probably meant in
/// metres.
fn doubt(field: ProfileField, quantity: Quantity<i64>, line: usize) -> Option<Remark> {
    let Quantity { value, has_unit } = quantity;
    let small = match field {
        ProfileField::Start | ProfileField::Station => 100_000,
        ProfileField::Height | ProfileField::Length => 10_000,
        ProfileField::Speed | ProfileField::Grade => return None,
    };
    let is_doubtful = !has_unit && (1..small).contains(&value.unsigned_abs());
    let (name, written) = (field.name(), field.written(value));
    let words = format!("warning: {name} {value} is {written}; for metres write {value}m");
    is_doubtful.then_some(Remark { line, words })
}

impl Items<'_> {
    /// Takes an item of one number.
    fn take_number(&mut self, field: ProfileField, example: &str) -> Result<(i64, Place), Remark> {
        let item = self.take(example)?;
        Ok((self.number(&item, 1, field)?, item.place()))
    }

    /// Takes a vertex: its numbers.
    fn take_vertex(&mut self) -> Result<([i64; 3], Place), Remark> {
        let item = self.take(VERTEX)?;
        let station = self.number(&item, 1, ProfileField::Station)?;
        let grade = self.number(&item, 2, ProfileField::Grade)?;
        let length = self.number(&item, 3, ProfileField::Length)?;
        Ok(([station, grade, length], item.place()))
    }

    /// The number of a field, at this word of an item; a doubt about it is kept.
    fn number(&mut self, item: &Item, word: usize, field: ProfileField) -> Result<i64, Remark> {
        let quantity = field.read(item.words[word]).map_err(|words| Remark {
            line: item.line,
            words: visible(&words),
        })?;
        self.doubts.extend(doubt(field, quantity, item.line));
        Ok(quantity.value)
    }
}
