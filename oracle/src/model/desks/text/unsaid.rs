//! What the documents leave open of the program `desk`, chosen as a reader would
//! expect it: names, widths and some sentences. Other texts go by these.

use crate::model::desks::Refusal;

/// Names of the 15 fields and their units. The first three are the documents'.
pub const FIELDS: [(&str, &str); 15] = [
    ("month", ""),
    ("sunspot number", ""),
    ("hour", "hours GMT"),
    ("transmitter latitude", "degrees"),
    ("transmitter longitude", "degrees"),
    ("receiver latitude", "degrees"),
    ("receiver longitude", "degrees"),
    ("long way round", ""),
    ("factor E", ""),
    ("factor F1", ""),
    ("factor F2", ""),
    ("factor Es", ""),
    ("pole latitude", "degrees"),
    ("pole longitude", "degrees"),
    ("F2 model", ""),
];

/// What stands for the flags 0 and 1, and for the models.
pub const FLAGS: [&str; 2] = ["no", "yes"];
pub const MODELS: [&str; 2] = ["CCIR", "URSI"];

/// A name is filled up to so many characters: before a field, where the example of
/// an audit shows it, before a figure of the path and before those of the points.
pub const FIELD_NAME: usize = 24;
pub const PATH_NAME: usize = 12;
pub const POINT_NAME: usize = 12;

/// What a number stands in. One of 2^24 or more is filled up too, though `sheet
/// page` leaves it as short as it is.
pub const NUMBER: usize = 16;

/// Before the numbers of the points.
pub const POINTS: &str = "point";

/// Why a line of 65,536 bytes or more, its newline not counted, is no call.
pub const TOO_LONG: &str = "a line has fewer than 65536 bytes";

/// The reason of a refusal. Those of 8 to 11, 17, 19 and 23 are known from
/// docs/PROGRAMS.md and `year check`, the others are the first words of
/// docs/REFUSALS.md.
pub fn reason(refusal: Refusal) -> &'static str {
    match (refusal.number, refusal.place) {
        (1, _) => "the month is not 1 to 12",
        (2, _) => "the sunspot number is not 0 to 300",
        (3, _) => "the hour is not 0 to 24",
        (4, _) => "a latitude is not -90 to 90 degrees",
        (5, _) => "a longitude is not -180 to 180 degrees",
        (6, _) => "a factor is not 0.125 to 8",
        // No journal can say such a flag or model, nor the two after them.
        (7, 8) => "the long-path flag is neither 0 nor 1",
        (7, _) => "the F2 model is neither CCIR nor URSI",
        (12, _) => "the buffer has not 151 numbers",
        (13, _) => "there is no such table",
        (8, _) => "the F2 record of the month is not whole",
        (9, _) => "the month file ends too early",
        (10, _) => "the month file has a wrong marker at this byte",
        (11, _) => "the month file has a bad index table for this map",
        (23, _) if refusal.of_record => "the F2 planes have no finite number at this byte",
        (23, _) => "the month file has no finite number at this byte",
        (14, _) => "there is no such desk",
        (15, _) => "the desk has a draft already",
        (16, _) => "the desk has no draft",
        (17, _) => "the worksheet has moved since the draft began",
        (18, _) => "there is nothing to take back",
        _ => "the year file has a bad directory at this pair",
    }
}
