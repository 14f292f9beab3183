//! The Rust side of a whole sheet: document 01's 151 figures, from the
//! sources as they are and from those with their branches counted, and the
//! refusals in their order.

use crate::bits::words;
use crate::model::desks::{at_no_place, Refusal};
use crate::model::index_check::IndexTable;
use crate::model::{finite_words, index_check};
use crate::reference::files::{read, walk};
use crate::reference::routes::Route;
use crate::reference::voacap::coefficients::{parse_month_file, CoefficientSet, F2_RECORD_BYTES};
use crate::reference::voacap::data;
use crate::reference::voacap::geometry::{path_geometry, ControlPoint, PathGeometry};
use crate::reference::voacap::magnetic::{magvar, MagneticVars};
use crate::reference::voacap::{counted_ionosphere, ionosphere};
use std::rc::Rc;

/// The numbers of one point.
pub const ROW: usize = 29;
/// Six numbers of the path, then the rows of five points.
pub const FIGURES: usize = 6 + 5 * ROW;

/// The 14 fields of a sheet over an F2 record and a month file.
#[derive(Debug, Clone, Copy)]
pub struct Sheet {
    pub month: u32,
    pub ssn: f32,
    pub gmt: f32,
    pub route: Route,
    pub psc: [f32; 4],
}

impl Sheet {
    /// In document 01's order, the flag as 0 or 1.
    pub fn words(&self) -> [u32; 14] {
        let [tlat, tlon, rlat, rlon, long, pole_lat, pole_lon] = self.route.words();
        let [e, f1, f2, es] = self.psc.map(f32::to_bits);
        let [ssn, gmt] = [self.ssn, self.gmt].map(f32::to_bits);
        [
            self.month, ssn, gmt, tlat, tlon, rlat, rlon, long, e, f1, f2, es, pole_lat, pole_lon,
        ]
    }

    /// All fields but month and flag, in document 01's order.
    pub fn numbers(&mut self) -> [&mut f32; 12] {
        let Self {
            ssn,
            gmt,
            route,
            psc: [e, f1, f2, es],
            ..
        } = self;
        let [tlat, tlon, rlat, rlon, pole_lat, pole_lon] = route.numbers();
        [
            ssn, gmt, tlat, tlon, rlat, rlon, e, f1, f2, es, pole_lat, pole_lon,
        ]
    }

    pub fn path(&self) -> PathGeometry {
        let Route { from, to, .. } = self.route;
        let pole = self.route.magnetic_pole();
        path_geometry(from.lat, from.lon, to.lat, to.lon, self.route.long, pole)
    }
}

/// The number of points and what the port writes to its buffer.
#[derive(Debug, Clone, Copy)]
pub struct Figures {
    pub points: u32,
    pub values: [f32; FIGURES],
}

impl Figures {
    /// Every NaN as one word.
    pub fn words(&self) -> [u32; FIGURES] {
        words(self.values)
    }

    /// The numbers of each point that is there.
    pub fn rows(&self) -> impl Iterator<Item = &[f32]> {
        self.values[6..].chunks(ROW).take(self.points as usize)
    }
}

/// Holds both files for every month, so that a sheet of any month is made of
/// this record and this month file.
pub fn put_all_months(record: &[u8], file: &[u8]) {
    let year = record[..F2_RECORD_BYTES].repeat(12);
    let file: Rc<[u8]> = file.into();
    data::put("coeffs/fof2CCIR.daw", year);
    for month in 1..=12 {
        data::put(&format!("coeffs/coeff{month:02}w.bin"), file.clone());
    }
}

/// What a showing whose fields are in range is refused by. The Rust leaves the
/// buffer unchecked.
pub fn showing_check(record: &[u8], file: &[u8], figures: usize) -> Result<(), Refusal> {
    if figures != FIGURES {
        return Err(at_no_place(12));
    }
    files_check(record, file)
}

/// Both 0 for what is not refused.
pub fn number_and_place(check: Result<(), Refusal>) -> (u32, u32) {
    match check {
        Ok(()) => (0, 0),
        Err(Refusal { number, place, .. }) => (number, place),
    }
}

/// What a record and a month file are refused by. The Rust leaves the record's
/// length, words that are no finite numbers and the index table unchecked: the
/// order is that of documents 01 and 02.
pub fn files_check(record: &[u8], file: &[u8]) -> Result<(), Refusal> {
    if record.len() < F2_RECORD_BYTES {
        return Err(at_no_place(8));
    }
    let ikim = walked(file)?;
    finite_words::of_record(record)?;
    tables_check(file, &ikim)
}

/// What a month file alone is refused by.
pub fn file_check(file: &[u8]) -> Result<(), Refusal> {
    let ikim = walked(file)?;
    tables_check(file, &ikim)
}

/// The index table of a month file that can be walked.
fn walked(file: &[u8]) -> Result<IndexTable, Refusal> {
    match parse_month_file(file, "month") {
        Ok(raw) => Ok(raw.ikim),
        Err(_) => {
            let (number, place) = walk(file);
            Err(Refusal::at(number, place))
        }
    }
}

fn tables_check(file: &[u8], ikim: &IndexTable) -> Result<(), Refusal> {
    finite_words::of_month_file(file)?;
    match index_check::answer(ikim) {
        (0, 0) => Ok(()),
        (number, place) => Err(Refusal::at(number, place)),
    }
}

/// The sheet made from the files that are put, as a showing makes it.
pub fn showing(sheet: &Sheet) -> Figures {
    let set = read(sheet.month, sheet.ssn).expect("both files are good");
    plain(sheet, &set)
}

pub fn fields(points: &[ControlPoint]) -> Vec<MagneticVars> {
    points.iter().map(|p| magvar(p.lat, p.lon)).collect()
}

macro_rules! variant {
    ($name:ident, $source:ident) => {
        pub fn $name(sheet: &Sheet, set: &CoefficientSet) -> Figures {
            let path = sheet.path();
            let points = &path.points;
            let mags = fields(points);
            let Sheet {
                month,
                ssn,
                gmt,
                psc,
                ..
            } = *sheet;
            let ab = $source::virtim(&$source::cofion(set), &set.ikim, gmt);
            let layers = $source::layer_parameters(set, &ab, points, &mags, month, ssn, gmt, &psc);
            let es = $source::esind(set, &ab, points, &mags, &psc);
            let ground = $source::ground_constants(set, points, &mags);
            let mut values = start(&path, $source::alatd(points));
            for (i, row) in values[6..].chunks_mut(ROW).take(points.len()).enumerate() {
                place(row, &points[i], &mags[i]);
                let $source::LayerParams {
                    fi,
                    yi,
                    hi,
                    f2m3,
                    hpf2,
                    rat,
                    abiy,
                    clck,
                    zenang,
                    zenmax,
                } = layers[i];
                for (part, three) in row[7..16].chunks_mut(3).zip([fi, yi, hi]) {
                    part.copy_from_slice(&three);
                }
                row[16..23].copy_from_slice(&[f2m3, hpf2, rat, abiy, clck, zenang, zenmax]);
                row[23..26].copy_from_slice(&es[i].fs);
                let (sigma, epsilon) = ground[i];
                row[26..].copy_from_slice(&[es[i].hs, sigma, epsilon]);
            }
            Figures {
                points: points.len() as u32,
                values,
            }
        }
    };
}

variant!(plain, ionosphere);
variant!(counted, counted_ionosphere);

/// The six numbers of the path; rows of absent points stay +0.0.
fn start(path: &PathGeometry, alatd: f32) -> [f32; FIGURES] {
    let PathGeometry {
        gcd,
        gcd_km,
        btr,
        brt,
        rlatd,
        ..
    } = *path;
    let mut values = [0.0; FIGURES];
    values[..6].copy_from_slice(&[gcd, gcd_km, btr, brt, rlatd, alatd]);
    values
}

fn place(row: &mut [f32], point: &ControlPoint, mag: &MagneticVars) {
    let ControlPoint {
        rd,
        lat,
        lon,
        gmlat,
    } = *point;
    let MagneticVars {
        gyz,
        gmdip,
        east_lon,
    } = *mag;
    row[..7].copy_from_slice(&[rd, lat, lon, gmlat, gyz, gmdip, east_lon]);
}

#[cfg(test)]
mod tests {
    use super::{
        file_check, number_and_place, put_all_months, showing, showing_check, Figures, Sheet,
        FIGURES, ROW,
    };
    use crate::draw::data_files::named;
    use crate::draw::generator::Generator;
    use crate::draw::sheet_kinds::in_range;
    use crate::reference::routes;

    #[test]
    fn refusals_come_in_their_order() {
        let [(_, pair), ..] = named();
        let record = &pair.daw[..7904];
        let changed = |place: usize, value: u8| {
            let mut file = pair.month.clone();
            file[place] = value;
            file
        };
        let bad_map = changed(4 + 40, 76);
        let bad_marker = changed(244, 0);
        let short = &pair.month[..38_551];
        let refusal = |record: &[u8], file: &[u8], figures| {
            number_and_place(showing_check(record, file, figures))
        };
        assert_eq!(refusal(&[], &[], 150), (12, 0));
        assert_eq!(refusal(&record[..7903], &[], FIGURES), (8, 0));
        assert_eq!(refusal(record, short, FIGURES), (9, 38_548));
        assert_eq!(refusal(record, &bad_marker, FIGURES), (10, 244));
        assert_eq!(refusal(record, &bad_map[..38_551], FIGURES), (9, 38_548));
        assert_eq!(refusal(record, &bad_map, FIGURES), (11, 2));
        assert_eq!(refusal(&pair.daw, &pair.month, FIGURES), (0, 0));
        // Words that are no finite numbers, after 10 and before 11, the record's
        // first; a month file alone has no record.
        let with = |bytes: &[u8], place: usize| {
            let mut bytes = bytes.to_vec();
            bytes[place..place + 4].copy_from_slice(&f32::NAN.to_le_bytes());
            bytes
        };
        let bad_record = with(record, 7900);
        let both = with(&bad_map, 252);
        assert_eq!(refusal(&bad_record[..7903], &[], FIGURES), (8, 0));
        assert_eq!(refusal(&bad_record, short, FIGURES), (9, 38_548));
        let marker = with(&bad_marker, 252);
        assert_eq!(refusal(&bad_record, &marker, FIGURES), (10, 244));
        assert_eq!(refusal(&bad_record, &both, FIGURES), (23, 7900));
        assert_eq!(refusal(record, &both, FIGURES), (23, 252));
        assert_eq!(number_and_place(file_check(&both)), (23, 252));
        assert_eq!(number_and_place(file_check(&bad_map)), (11, 2));
        assert_eq!(number_and_place(file_check(&marker)), (10, 244));
        assert_eq!(file_check(&pair.month), Ok(()));
    }

    /// The seven numbers of a point that depend on the path only, and those
    /// that are the same everywhere.
    fn check(sheet: &Sheet, figures: &Figures) {
        let path = routes::plain(&sheet.route);
        assert_eq!(figures.values[..6], path.figures[..6]);
        assert_eq!(figures.points, path.points);
        for (row, other) in figures.rows().zip(path.rows()) {
            assert_eq!(row[..7], *other);
            assert_eq!([row[10], row[13], row[26]], [20.0, 110.0, 110.0]);
            assert!([[0.001, 4.0], [5.0, 80.0]].contains(&[row[27], row[28]]));
        }
        let absent = &figures.words()[6 + ROW * figures.points as usize..];
        assert!(absent.iter().all(|word| *word == 0));
    }

    #[test]
    fn figures_stand_in_their_places() {
        let [(_, pair), ..] = named();
        put_all_months(&pair.daw, &pair.month);
        let mut random = Generator::new(1);
        for _ in 0..100 {
            let sheet = in_range(&mut random);
            check(&sheet, &showing(&sheet));
        }
    }
}
