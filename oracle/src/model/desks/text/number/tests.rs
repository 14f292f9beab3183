use super::Decimal;
use crate::draw::generator::Generator;

fn bits(text: &str) -> Option<u32> {
    Decimal::read(text.as_bytes()).map(Decimal::bits)
}

/// The library's reading is correctly rounded.
fn of_library(text: &str) -> u32 {
    text.parse::<f32>().expect("a number").to_bits()
}

fn text(text: &str) -> String {
    Decimal::read(text.as_bytes()).expect("a number").text()
}

fn whole(text: &str) -> Option<u32> {
    Decimal::read(text.as_bytes()).and_then(Decimal::whole)
}

#[test]
fn numbers_are_digits_with_sign_and_point() {
    for (text, v) in [
        ("0", 0.0),
        ("-0", -0.0),
        ("+0.0", 0.0),
        ("-.0", -0.0),
        ("92.5", 92.5),
        ("-21.9", -21.9),
        (".5", 0.5),
        ("5.", 5.0),
        ("+007.250", 7.25),
        ("999999999999999999", 1.0e18),
        ("0.000000000000000001", 1.0e-18),
        ("00000000000000000000000000012", 12.0),
        ("0.000000000000000000", 0.0),
        ("12345678901234567.8", 12_345_678_901_234_567.8),
    ] {
        let v: f32 = v;
        assert_eq!(bits(text), Some(v.to_bits()), "{text}");
    }
}

#[test]
fn what_is_no_number() {
    let none = [
        "",
        "-",
        "+",
        ".",
        "-.",
        "1.2.3",
        "--1",
        "1-",
        "1e5",
        "0x1",
        "1,5",
        "nan",
        "inf",
        "1234567890123456789",
        "1000000000000000000",
        "1.000000000000000000",
        "0.0000000000000000000",
        "12.12345678901234567",
        "\u{661}",
    ];
    for text in none {
        assert_eq!(bits(text), None, "{text}");
    }
}

/// 18 digits at most, zeros in front not counted, and 18 after the point.
#[test]
fn zeros_in_front_are_not_counted() {
    let ones = "1".repeat(18);
    let zeros = "0".repeat(1000);
    assert_eq!(bits(&format!("{zeros}{ones}")), bits(&ones));
    assert_eq!(bits(&format!("{zeros}.{ones}")), bits(&format!(".{ones}")));
    assert!(bits(&ones).is_some() && bits(&format!("0.{ones}")).is_some());
    assert_eq!(bits(&format!("{ones}1")), None);
    assert_eq!(bits(&format!("0.{ones}0")), None);
    assert_eq!(bits(&format!("0.0{ones}")), None);
    assert!(bits(&format!("0.0{}", "1".repeat(17))).is_some());
}

#[test]
fn a_tie_goes_to_the_even_one() {
    // 2^24 + 1 and 2^24 + 3; 512 and 3 halves of the 24th bit.
    assert_eq!(bits("16777217"), Some(16_777_216f32.to_bits()));
    assert_eq!(bits("16777219"), Some(16_777_220f32.to_bits()));
    assert_eq!(bits("16777217.0000000001"), Some(16_777_218f32.to_bits()));
    assert_eq!(
        bits("-16777218.9999999999"),
        Some((-16_777_218f32).to_bits())
    );
    assert_eq!(bits("512.000030517578125"), Some(512f32.to_bits()));
    assert_eq!(
        bits("512.000030517578126"),
        Some(512f32.next_up().to_bits())
    );
    assert_eq!(bits("512.000030517578124"), Some(512f32.to_bits()));
    let second = 512f32.next_up().next_up();
    assert_eq!(bits("512.000091552734375"), Some(second.to_bits()));
    // All 24 bits carry.
    assert_eq!(bits("16777215.5"), Some(16_777_216f32.to_bits()));
    assert_eq!(bits("33554431"), Some(33_554_432f32.to_bits()));
}

/// Those which the ranges end with.
#[test]
fn near_the_ends_of_ranges() {
    let next = 300f32.next_up();
    assert_eq!(bits("300.000015258789062"), Some(300f32.to_bits()));
    assert_eq!(bits("300.000015258789063"), Some(next.to_bits()));
    assert_eq!(bits("299.999999999999999"), Some(300f32.to_bits()));
    assert_eq!(bits("24.0000009536743164"), Some(24f32.to_bits()));
    assert_eq!(bits("24.0000009536743165"), Some(24f32.next_up().to_bits()));
}

#[test]
fn whole_numbers() {
    for (text, wanted) in [
        ("0", Some(0)),
        ("6", Some(6)),
        ("+06.", Some(6)),
        ("4294967295", Some(u32::MAX)),
        ("4294967296", None),
        ("999999999999999999", None),
        ("-0", None),
        ("-6", None),
        ("6.0", None),
        (".0", None),
        ("6.5", None),
        ("", None),
        (".", None),
    ] {
        assert_eq!(whole(text), wanted, "{text}");
    }
}

#[test]
fn digits_are_kept_as_given() {
    for (given, kept) in [
        ("0", "0"),
        ("000", "0"),
        ("-0", "-0"),
        ("-000.0", "-0.0"),
        ("+5", "5"),
        ("5.", "5"),
        (".5", "0.5"),
        ("-.50", "-0.50"),
        ("007.250", "7.250"),
        ("0.000000000000000000", "0.000000000000000000"),
        ("00.000000000000000001", "0.000000000000000001"),
        ("999999999999999999", "999999999999999999"),
        ("100", "100"),
    ] {
        assert_eq!(text(given), kept);
        assert_eq!(text(kept), kept);
        assert_eq!(bits(given), bits(kept));
    }
}

/// Up to 18 digits, the point anywhere among them or before them.
fn any_decimal(random: &mut Generator) -> String {
    let length = 1 + random.below(18) as usize;
    let digits = random.below(10u64.pow(length as u32));
    let digits = format!("{digits:0>length$}");
    let sign = if random.below(2) == 0 { "-" } else { "" };
    let (before, after) = digits.split_at(random.below(length as u64 + 1) as usize);
    let zeros = match before.is_empty() {
        true => random.below(19 - length as u64) as usize,
        false => 0,
    };
    format!("{sign}{before}.{}{after}", "0".repeat(zeros))
}

#[test]
fn millions_are_read_as_the_library_does() {
    let mut random = Generator::new(1);
    for _ in 0..2_000_000 {
        let text = any_decimal(&mut random);
        assert_eq!(bits(&text), Some(of_library(&text)), "{text}");
    }
}

/// Two neighbours and the number between them, as well as 18 digits can say it: half
/// of these are read as the one, half as the other.
#[test]
fn near_ties_are_read_as_the_library_does() {
    let mut random = Generator::new(2);
    let mut ties = 0;
    for _ in 0..300_000 {
        let v = random.scaled(-40, 58) as f32;
        let middle = (f64::from(v) + f64::from(v.next_up())) / 2.0;
        let text = crate::draw::desk_texts::numbers::near_middle(&mut random, v);
        assert_eq!(bits(&text), Some(of_library(&text)), "{text}");
        ties += u32::from(text.parse() == Ok(middle) && v >= 512.0);
    }
    assert!(ties > 10_000, "{ties}");
}

/// What is kept is read as the same number, and stays as it is.
#[test]
fn what_is_kept_is_the_same_number() {
    let mut random = Generator::new(3);
    for _ in 0..200_000 {
        let given = any_decimal(&mut random);
        let kept = text(&given);
        assert_eq!(bits(&kept), bits(&given), "{given}");
        assert_eq!(text(&kept), kept);
        let (_, digits) = kept.split_at(usize::from(kept.starts_with('-')));
        assert!(!digits.starts_with('.') && !digits.ends_with('.'), "{kept}");
        assert!(!digits.starts_with("00"), "{kept}");
    }
}
