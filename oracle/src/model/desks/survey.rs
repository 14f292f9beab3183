//! What the program `year check` prints of a year file: a line for each month and
//! model, by what a showing of them answers.

use super::fields::{inputs, moved_to, Inputs, CCIR, URSI};
use super::lent::Lent;
use super::text::unsaid::reason;
use super::Refusal;
use crate::model::year::MONTHS;
use crate::reference::sheets::FIGURES;

/// Any in range will do.
fn usual() -> Inputs {
    let numbers = [
        70.0, 12.0, 52.0, 4.0, 62.0, -7.0, 1.0, 1.0, 1.0, 1.0, 78.5, -69.0,
    ];
    inputs(1, numbers, false)
}

pub fn survey_text(year: &[u8]) -> String {
    let lent = Lent::year(year);
    let mut text = String::new();
    for month in 1..=MONTHS as u32 {
        for (model, name) in [(CCIR, "CCIR"), (URSI, "URSI")] {
            let found = match lent.figures(&moved_to(usual(), month, model), FIGURES) {
                Ok(_) => String::from("can be shown"),
                Err(refusal) => refused(refusal),
            };
            text += &format!("month {month}, {name}: {found}\n");
        }
    }
    text
}

fn refused(refusal: Refusal) -> String {
    let Refusal { number, place, .. } = refusal;
    format!("refused {number} {place}: {}", reason(refusal))
}

#[cfg(test)]
mod tests {
    use super::survey_text;
    use crate::draw::generator::Generator;
    use crate::draw::year_files::{first_months, packed, NO_GAPS};

    #[test]
    fn a_line_for_each_month_and_model() {
        let year = packed(&first_months(&mut Generator::new(6), 1), &NO_GAPS);
        let text = survey_text(&year);
        let lines: Vec<&str> = text.lines().collect();
        assert_eq!(lines.len(), 24);
        assert_eq!(
            lines[..2],
            ["month 1, CCIR: can be shown", "month 1, URSI: can be shown"]
        );
        let short = "refused 8 0: the F2 record of the month is not whole";
        assert_eq!(lines[2], format!("month 2, CCIR: {short}"));
        assert_eq!(lines[23], format!("month 12, URSI: {short}"));
    }

    #[test]
    fn a_bad_directory_is_named_in_every_line() {
        let text = survey_text(&[0; 112]);
        let bad = ": refused 19 1: the year file has a bad directory at this pair\n";
        assert_eq!(text.matches(bad).count(), 24);
        assert_eq!(survey_text(&[]), text);
    }
}
