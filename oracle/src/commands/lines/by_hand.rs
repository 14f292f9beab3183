//! Lines chosen by hand: all forms of an open, spellings, and numbers on which
//! rounding or the count of digits turns.

/// What the file ends with: it has no newline, and is no line.
pub const CUT: &str = "1 commit";

const OPEN: &str = "open month 6 sunspot 80 hour 12 from 62.47 6.15 to 64.13 -21.9";

/// Numbers in the middle of two f32, and the even one's bits.
pub const TIES: [(&str, u32); 14] = [
    ("512.000030517578125", 0x4400_0000),
    ("512.000091552734375", 0x4400_0002),
    ("-512.000152587890625", 0xc400_0002),
    ("-512.000213623046875", 0xc400_0004),
    ("1024.00006103515625", 0x4480_0000),
    ("8388608.5", 0x4b00_0000),
    ("8388609.5", 0x4b00_0002),
    ("16777215.5", 0x4b80_0000),
    ("16777217", 0x4b80_0000),
    ("16777219.", 0x4b80_0002),
    ("-33554434.0", 0xcc00_0000),
    ("4294967552", 0x4f80_0000),
    ("4294968064", 0x4f80_0002),
    ("576460786663161856", 0x5d00_0000),
];

/// One of the last digit away from such a middle, and others that decide something.
const NUMBERS: [&str; 66] = [
    "512.000030517578124",
    "512.000030517578126",
    "512.000091552734374",
    "512.000091552734376",
    "8388608.49999999999",
    "8388608.50000000001",
    "16777216",
    "16777217.0000000001",
    "16777216.9999999999",
    "4294967551",
    "4294967553",
    "576460786663161855",
    "576460786663161857",
    "999999999999999999",
    "-999999999999999999",
    "1000000000000000000",
    "0999999999999999999",
    "000000000000000000000000000000000000000000000000000000000001",
    "0.000000000000000001",
    "-.000000000000000001",
    "0.0000000000000000001",
    "0.0000000000000000010",
    ".999999999999999999",
    "0.99999997019767761",
    "0.99999997019767762",
    "99999999999999999.9",
    "999999999999999999.0",
    "1.00000000000000000",
    "1.000000000000000000",
    "12345678.123456789012",
    "0",
    "-0",
    "+0",
    "-0.",
    "-.0",
    "00",
    "0.000000000000000000",
    "-000.000000000000000000",
    "0.0000000000000000000",
    "4294967295",
    "4294967296",
    "4294967297",
    "+4294967295.",
    "-4294967295",
    "340282346638528859",
    "340282346638528859811704183484516925440",
    "100000000000000000000000000000000000000000",
    "0.00000000000000000000000000000000000001175",
    "0.000000000000000000000000000000000000000000001",
    "300",
    "300.00001525878906",
    "300.00001525878907",
    "24.0000009536743164",
    "24.0000009536743165",
    "0.124999996274709701",
    "0.124999996274709702",
    "+.5",
    "5.",
    "-5.",
    "+007.250",
    "0.1",
    "0.10",
    "3.4028235e38",
    "1e-45",
    "0x1p-3",
    "\u{2212}1",
];

/// Other lines: desks and months, blanks and comments, bytes that are no text.
const OTHERS: [&[u8]; 30] = [
    b"",
    b" \t\r ",
    b"#",
    b" # 1 begin",
    b"1 begin",
    b"\t1\tbegin\t",
    b"1 begin\r",
    b"\r1\rbegin\r#\r",
    b"1 begin#1 commit",
    b"1 beg#in",
    b"1# begin",
    b"+1 begin",
    b"1. begin",
    b"+0001. begin",
    b"-1 begin",
    b"1.0 begin",
    b"4294967295 begin",
    b"4294967296 begin",
    b"000000000000000000000000000004294967295 commit",
    b"0 show",
    b"+0. show",
    b"-0 show",
    b"0 begin",
    b"take  back",
    b"take back # again",
    b"show\xff",
    b"\xef\xbb\xbfshow",
    b"1 begin # caf\xe9 \xe2\x9d\xa4 \0",
    b"1\0begin",
    b"1 m\xc3\xb6del ccir",
];

pub fn lines() -> Vec<Vec<u8>> {
    let mut lines: Vec<Vec<u8>> = OTHERS.iter().map(|line| line.to_vec()).collect();
    lines.extend(opens().into_iter().map(String::into_bytes));
    let numbers = TIES.iter().map(|(number, _)| number).chain(&NUMBERS);
    for number in numbers {
        lines.push(format!("1 sunspot {number}").into_bytes());
        if !number.contains('.') {
            lines.push(format!("2 month {number}").into_bytes());
        }
        lines.push(format!("3 pole -{number} {number}").into_bytes());
    }
    lines
}

/// Each option there or not, and what may follow only in this order.
fn opens() -> Vec<String> {
    let mut opens = Vec::new();
    for long in ["", " long"] {
        for factors in ["", " factors .5 2 .125 8"] {
            for pole in ["", " pole 1 -2"] {
                for model in ["", " model ccir", " model ursi"] {
                    opens.push(format!("{OPEN}{long}{factors}{pole}{model}"));
                }
            }
        }
    }
    for rest in [
        "pole 1 2 long",
        "pole 1 2 factors 1 1 1 1",
        "model ursi pole 1 2",
        "long long",
    ] {
        opens.push(format!("{OPEN} {rest}"));
    }
    opens
}

/// Of one byte less than is too long, of as many, and of more than two such.
pub fn long_lines() -> Vec<Vec<u8>> {
    let line = |length: usize, end: &str| {
        let blanks = " ".repeat(length - end.len());
        format!("{blanks}{end}").into_bytes()
    };
    vec![
        line(65_535, "1 begin"),
        line(65_536, "1 begin"),
        line(135_000, "x"),
    ]
}
