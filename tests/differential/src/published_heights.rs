//! The heights that source documents 000 and 003 print along their vertical curves,
//! held against the library's.

use crate::side::{height_of, Side};
use reference::refusal::Refusal;

/// A profile in the numbers of the call, and what is printed of it.
struct PublishedProfile {
    name: &'static str,
    profile: &'static [i64],
    heights: &'static [Column],
    /// Heights of the straight grades before and behind its first vertex, as if it had
    /// no curve.
    grades: &'static [Column],
}

/// A station, mm, the way from one station to the next, and the heights that are
/// printed, m.
type Column = (u64, u64, &'static [&'static str]);

/// A speed at which every length passes; the stopping distances of the sources are
/// not those of a speed, or none.
const V: i64 = 40;

/// Between two stakes, mm.
const STAKE: u64 = 20_000;

/// Source document 000, chapter 8. Grades and lengths are printed or follow from
/// printed heights; those of the exercises are their printed answers. Example 4 is
/// unsymmetrical: two curves that touch below the PIV, the grade between them rounded
/// to a millionth. Exercise 19's ordinate of 0.924 m lies below the PIV, here at 0.
/// Source document 003, table 8: grades follow from the printed PIVs, rounded to a
/// millionth; odd lengths are taken 1 mm shorter; the ends of the circular curves lie
/// on the straight grades.
const PROFILES: [PublishedProfile; 17] = [
    PublishedProfile {
        name: "000, 8, example 1",
        profile: &[V, 1_480_000, 827_600, 20_000, 1_600_000, -60_000, 240_000],
        heights: &[(
            74 * STAKE,
            STAKE,
            &[
                "827.60", "827.93", "828.13", "828.20", "828.13", "827.93", "827.60", "827.13",
                "826.54", "825.80", "824.94", "823.94", "822.80",
            ],
        )],
        grades: &[(
            74 * STAKE,
            STAKE,
            &[
                "827.60", "828.00", "828.40", "828.80", "829.20", "829.60", "830.00", "828.80",
                "827.60", "826.40", "825.20", "824.00", "822.80",
            ],
        )],
    },
    PublishedProfile {
        name: "000, 8, example 2",
        profile: &[
            V, 0, 108_000, 0, 80_000, -40_000, 160_000, 280_000, 0, 160_000,
        ],
        heights: &[(0, 360_000, &["108.00", "100.00"])],
        grades: &[],
    },
    PublishedProfile {
        name: "000, 8, example 3",
        profile: &[
            V, 700_000, 488_000, 40_000, 1_000_000, -20_000, 600_000, 1_475_000, 50_000, 350_000,
        ],
        heights: &[(65 * STAKE, 5 * STAKE, &["494.00", "493.00"])],
        grades: &[],
    },
    PublishedProfile {
        name: "000, 8, example 4",
        profile: &[
            V, 100_000, 101_250, 35_000, 200_000, -172, 120_000, 345_000, -25_000, 170_000,
        ],
        heights: &[
            (
                5 * STAKE,
                STAKE,
                &[
                    "101.25", "101.95", "102.65", "103.29", "103.82", "104.22", "104.51", "104.69",
                    "104.74", "104.71", "104.62", "104.47", "104.26", "103.99", "103.67", "103.29",
                    "102.84",
                ],
            ),
            (430_000, STAKE, &["102.60"]),
            (22 * STAKE, STAKE, &["102.35", "101.85", "101.35"]),
        ],
        grades: &[],
    },
    PublishedProfile {
        name: "000, 8, example 4, PIV",
        profile: &[V, 100_000, 101_250, 35_000, 260_000, -25_000, 120_000],
        heights: &[],
        grades: &[
            (
                5 * STAKE,
                STAKE,
                &[
                    "101.25", "101.95", "102.65", "103.35", "104.05", "104.75", "105.45", "106.15",
                    "106.85", "106.35", "105.85", "105.35", "104.85", "104.35", "103.85", "103.35",
                    "102.85",
                ],
            ),
            (430_000, STAKE, &["102.60"]),
            (22 * STAKE, STAKE, &["102.35", "101.85", "101.35"]),
        ],
    },
    PublishedProfile {
        name: "000, 8, exercise 1",
        profile: &[V, 1_400_000, 669_200, 10_000, 1_480_000, -30_000, 160_000],
        heights: &[(
            70 * STAKE,
            STAKE,
            &[
                "669.20", "669.35", "669.40", "669.35", "669.20", "668.95", "668.60", "668.15",
                "667.60",
            ],
        )],
        grades: &[(
            70 * STAKE,
            STAKE,
            &[
                "669.20", "669.40", "669.60", "669.80", "670.00", "669.40", "668.80", "668.20",
                "667.60",
            ],
        )],
    },
    PublishedProfile {
        name: "000, 8, exercise 2",
        profile: &[V, 1_360_000, 558_200, -20_000, 1_520_000, 40_000, 320_000],
        heights: &[
            (
                68 * STAKE,
                STAKE,
                &[
                    "558.20", "557.84", "557.55", "557.34", "557.20", "557.14", "557.15", "557.24",
                    "557.40", "557.64", "557.95", "558.34", "558.80", "559.34", "559.95", "560.64",
                    "561.40",
                ],
            ),
            (73 * STAKE + 6_670, STAKE, &["557.13"]),
        ],
        grades: &[(
            68 * STAKE,
            STAKE,
            &[
                "558.20", "557.80", "557.40", "557.00", "556.60", "556.20", "555.80", "555.40",
                "555.00", "555.80", "556.60", "557.40", "558.20", "559.00", "559.80", "560.60",
                "561.40",
            ],
        )],
    },
    PublishedProfile {
        name: "000, 8, exercise 3",
        profile: &[V, 900_000, 124_000, -10_000, 1_000_000, -40_000, 200_000],
        heights: &[
            (
                45 * STAKE,
                STAKE,
                &[
                    "124.00", "123.77", "123.48", "123.13", "122.72", "122.25", "121.72", "121.13",
                    "120.48", "119.77", "119.00",
                ],
            ),
            // The end of the curve as its table has it.
            (54 * STAKE + 10_000, STAKE, &["119.00"]),
        ],
        grades: &[(
            45 * STAKE,
            STAKE,
            &[
                "124.00", "123.80", "123.60", "123.40", "123.20", "123.00", "122.20", "121.40",
                "120.60", "119.80", "119.00",
            ],
        )],
    },
    PublishedProfile {
        name: "000, 8, exercise 4",
        profile: &[V, 600_000, 82_000, 25_000, 800_000, 15_000, 400_000],
        heights: &[(
            30 * STAKE,
            STAKE,
            &[
                "82.00", "82.50", "82.98", "83.46", "83.92", "84.38", "84.82", "85.26", "85.68",
                "86.10", "86.50", "86.90", "87.28", "87.66", "88.02", "88.38", "88.72", "89.06",
                "89.38", "89.70", "90.00",
            ],
        )],
        grades: &[(
            30 * STAKE,
            STAKE,
            &[
                "82.00", "82.51", "83.00", "83.51", "84.00", "84.51", "85.00", "85.51", "86.00",
                "86.51", "87.00", "87.31", "87.60", "87.91", "88.20", "88.51", "88.80", "89.11",
                "89.40", "89.71", "90.00",
            ],
        )],
    },
    PublishedProfile {
        name: "000, 8, exercise 5",
        profile: &[V, 1_580_000, 668_800, 12_000, 1_680_000, 36_000, 200_000],
        heights: &[(
            79 * STAKE,
            STAKE,
            &[
                "668.80", "669.06", "669.38", "669.74", "670.14", "670.60", "671.10", "671.66",
                "672.26", "672.90", "673.60",
            ],
        )],
        grades: &[(
            79 * STAKE,
            STAKE,
            &[
                "668.80", "669.04", "669.28", "669.52", "669.76", "670.00", "670.72", "671.44",
                "672.16", "672.88", "673.60",
            ],
        )],
    },
    PublishedProfile {
        name: "000, 8, exercise 6",
        profile: &[
            V, 110_000, 102_200, 20_000, 500_000, -45_000, 780_000, 1_060_000, 31_000, 304_000,
        ],
        heights: &[
            (5 * STAKE + 10_000, 12 * STAKE, &["102.20", "104.60"]),
            (44 * STAKE + 10_000, 18_000, &["92.45", "91.64"]),
            (54 * STAKE + 8_000, STAKE, &["87.39"]),
            (60 * STAKE + 12_000, STAKE, &["89.51"]),
        ],
        grades: &[],
    },
    PublishedProfile {
        name: "000, 8, exercise 7",
        profile: &[V, 908_000, 91_640, -45_000, 1_060_000, 31_000, 304_000],
        heights: &[
            (45 * STAKE + 8_000, STAKE, &["91.640"]),
            (
                46 * STAKE,
                STAKE,
                &[
                    "91.118", "90.328", "89.638", "89.048", "88.558", "88.168", "87.878", "87.688",
                    "87.598", "87.608", "87.718", "87.928", "88.238", "88.648", "89.158",
                ],
            ),
            (54 * STAKE + 8_000, STAKE, &["87.590"]),
            (60 * STAKE + 12_000, STAKE, &["89.512"]),
        ],
        grades: &[
            (45 * STAKE + 8_000, STAKE, &["91.640"]),
            (
                46 * STAKE,
                STAKE,
                &[
                    "91.100", "90.200", "89.300", "88.400", "87.500", "86.600", "85.700", "84.800",
                    "85.420", "86.040", "86.660", "87.280", "87.900", "88.520", "89.140",
                ],
            ),
            (54 * STAKE + 8_000, STAKE, &["85.668"]),
            (60 * STAKE + 12_000, STAKE, &["89.512"]),
        ],
    },
    PublishedProfile {
        name: "000, 8, exercise 18",
        profile: &[V, 600_000, 101_000, 25_000, 700_000, -20_000, 200_000],
        heights: &[(
            30 * STAKE,
            STAKE / 2,
            &[
                "101.000", "101.239", "101.455", "101.649", "101.820", "101.969", "102.095",
                "102.199", "102.280", "102.339", "102.375", "102.389", "102.380", "102.349",
                "102.295", "102.219", "102.120", "101.999", "101.855", "101.689", "101.500",
            ],
        )],
        grades: &[(
            30 * STAKE,
            STAKE / 2,
            &[
                "101.000", "101.250", "101.500", "101.750", "102.000", "102.250", "102.500",
                "102.750", "103.000", "103.250", "103.500", "103.300", "103.100", "102.900",
                "102.700", "102.500", "102.300", "102.100", "101.900", "101.700", "101.500",
            ],
        )],
    },
    PublishedProfile {
        name: "000, 8, exercise 19",
        profile: &[
            V, 0, -1_680, 42_000, 20_000, -4_200, 40_000, 70_000, -35_000, 60_000,
        ],
        heights: &[(40_000, STAKE, &["-0.924"])],
        grades: &[],
    },
    PublishedProfile {
        name: "003, table 8, PIV 1 to 2",
        profile: &[V, 316_167, 622_900, -47_106, 946_656, 3_809, 305_488],
        heights: &[
            (411_391, STAKE, &["618.414"]),
            (793_911, STAKE, &["600.395"]),
            (1_099_401, STAKE, &["593.782"]),
        ],
        grades: &[],
    },
    PublishedProfile {
        name: "003, table 8, PIV 2 to 3",
        profile: &[V, 946_656, 593_200, 3_809, 1_642_459, -17_953, 119_674],
        heights: &[
            (1_582_617, STAKE, &["595.622"]),
            (1_702_291, STAKE, &["594.776"]),
        ],
        grades: &[],
    },
    PublishedProfile {
        name: "003, table 8, PIV 3 to 5",
        profile: &[V, 1_642_459, 595_850, -17_953, 2_508_619, 36_107, 216_240],
        heights: &[
            (2_400_498, STAKE, &["582.241"]),
            (2_616_739, STAKE, &["584.204"]),
            (2_678_786, STAKE, &["586.444"]),
        ],
        grades: &[],
    },
];

/// What the library gives otherwise, all slips of source document 000: heights of
/// example 1 are 1 cm more than grade less ordinate, two of example 4 too, whose
/// ordinates are cut and not rounded; the end of exercise 3's curve is printed as
/// 55 + 0.00 above its table; every second grade of exercise 4 is 1 cm more than the
/// grades of 2.5 and 1.5 % give; and exercise 6's lowest point is printed as 87.590 in
/// exercise 7.
const OTHERWISE: [&str; 17] = [
    "000, 8, example 1: 826.533 at 1640.000, but 826.54 is printed\n",
    "000, 8, example 1: 824.933 at 1680.000, but 824.94 is printed\n",
    "000, 8, example 1: 823.933 at 1700.000, but 823.94 is printed\n",
    "000, 8, example 4: 104.684 at 240.000, but 104.69 is printed\n",
    "000, 8, example 4: 103.284 at 400.000, but 103.29 is printed\n",
    "000, 8, exercise 3: 119.392 at 1090.000, but 119.00 is printed\n",
    "000, 8, exercise 4, grades: 82.500 at 620.000, but 82.51 is printed\n",
    "000, 8, exercise 4, grades: 83.500 at 660.000, but 83.51 is printed\n",
    "000, 8, exercise 4, grades: 84.500 at 700.000, but 84.51 is printed\n",
    "000, 8, exercise 4, grades: 85.500 at 740.000, but 85.51 is printed\n",
    "000, 8, exercise 4, grades: 86.500 at 780.000, but 86.51 is printed\n",
    "000, 8, exercise 4, grades: 87.300 at 820.000, but 87.31 is printed\n",
    "000, 8, exercise 4, grades: 87.900 at 860.000, but 87.91 is printed\n",
    "000, 8, exercise 4, grades: 88.500 at 900.000, but 88.51 is printed\n",
    "000, 8, exercise 4, grades: 89.100 at 940.000, but 89.11 is printed\n",
    "000, 8, exercise 4, grades: 89.700 at 980.000, but 89.71 is printed\n",
    "000, 8, exercise 6: 87.590 at 1088.000, but 87.39 is printed\n",
];

/// Says how many heights are as printed and which are not, or what is other than
/// that.
pub fn check(library: &dyn Side) -> Result<String, String> {
    let mut compared = Vec::new();
    for published in &PROFILES {
        let found = published.compared(library);
        compared.extend(found.map_err(|refusal| format!("{}: {refusal}\n", published.name))?);
    }
    let differing: Vec<String> = compared.iter().filter_map(Compared::difference).collect();
    if differing != OTHERWISE {
        return Err(differing.concat());
    }
    let same = compared.len() - differing.len();
    let all = compared.len();
    let head = format!("published heights: {same} of {all} as printed\n");
    Ok(head + &differing.concat())
}

/// A height that is printed, and the library's in mm.
struct Compared {
    name: String,
    station: u64,
    printed: &'static str,
    found: i64,
}

impl Compared {
    fn difference(&self) -> Option<String> {
        let Compared {
            name,
            station,
            printed,
            found,
        } = self;
        let [height, station] = [*found, *station as i64].map(metres);
        let text = format!("{name}: {height} at {station}, but {printed} is printed\n");
        (!is_printed_as(*found, printed)).then_some(text)
    }
}

impl PublishedProfile {
    fn compared(&self, library: &dyn Side) -> Result<Vec<Compared>, Refusal> {
        let on_curve = rows(self.heights).map(|(station, printed)| {
            let found = height_of(library, self.profile, station)?;
            Ok(Compared {
                name: self.name.to_string(),
                station,
                printed,
                found,
            })
        });
        let on_grades = rows(self.grades).map(|(station, printed)| {
            let found = self.height_on_grades(library, station)?;
            Ok(Compared {
                name: format!("{}, grades", self.name),
                station,
                printed,
                found,
            })
        });
        on_curve.chain(on_grades).collect()
    }

    /// By a profile without vertices, from the start or from the first vertex.
    fn height_on_grades(&self, library: &dyn Side, station: u64) -> Result<i64, Refusal> {
        let &[v, _, _, _, vertex, outgoing, ..] = self.profile else {
            panic!("{} has no vertex", self.name);
        };
        let incoming = &self.profile[..4];
        if station <= vertex as u64 {
            return height_of(library, incoming, station);
        }
        let height = height_of(library, incoming, vertex as u64)?;
        height_of(library, &[v, vertex, height, outgoing], station)
    }
}

/// Stations and what is printed there.
fn rows(columns: &'static [Column]) -> impl Iterator<Item = (u64, &'static str)> {
    columns.iter().flat_map(|(first, step, printed)| {
        let stations = (*first..).step_by(*step as usize);
        stations.zip(printed.iter().copied())
    })
}

/// Whether a height that is this many whole mm and less than one more may be rounded
/// to what is printed.
fn is_printed_as(millimetres: i64, printed: &str) -> bool {
    let (whole, decimals) = printed.split_once('.').expect("metres have decimals");
    let unit = 10_i64.pow(3 - decimals.len() as u32);
    let digits: i64 = format!("{whole}{decimals}").parse().expect("a number");
    // Twice, so that a half is whole.
    let distance = 2 * (digits * unit - millimetres);
    (-unit..=unit + 1).contains(&distance)
}

/// Millimetres as metres.
fn metres(millimetres: i64) -> String {
    let sign = if millimetres < 0 { "-" } else { "" };
    let size = millimetres.abs();
    format!("{sign}{}.{:03}", size / 1_000, size % 1_000)
}

#[cfg(test)]
mod tests {
    use super::*;
    use crate::side::{Library, Reference};
    use crate::spoilt::{Spoilt, HEIGHT_FAULTS};

    #[test]
    fn library_and_reference_have_the_printed_heights() {
        let found = check(&Library).unwrap();
        assert!(found.starts_with("published heights: 288 of 305 as printed\n"));
        assert_eq!(check(&Reference), Ok(found));
    }

    #[test]
    fn rounded_to_what_is_printed() {
        let to_cm = [826_534, 826_535, 826_540, 826_545, 826_546];
        let expected = [false, true, true, true, false];
        assert_eq!(to_cm.map(|mm| is_printed_as(mm, "826.54")), expected);
        let to_mm = [101_237, 101_238, 101_239, 101_240];
        let expected = [false, true, true, false];
        assert_eq!(to_mm.map(|mm| is_printed_as(mm, "101.239")), expected);
        let below_zero = [-926, -925, -924, -923];
        assert_eq!(below_zero.map(|mm| is_printed_as(mm, "-0.924")), expected);
        assert_eq!([-924, 87_590].map(metres), ["-0.924", "87.590"]);
    }

    #[test]
    fn other_heights_are_found() {
        let (fault, height) = HEIGHT_FAULTS[2];
        let library = Spoilt {
            height,
            ..Spoilt::NOT
        };
        assert!(check(&library).is_err(), "{fault}");
    }
}
