//! What the Rust makes of a pair of files over the whole world: the sizes of
//! maps and figures, to see whether a file is plausible.

use super::Pair;
use crate::reference::files::{put, read};
use crate::reference::steps::Step;
use crate::reference::voacap::coefficients::CoefficientSet;
use crate::reference::voacap::con::{MagneticPole, D2R, PI2, R2D};
use crate::reference::voacap::geometry::{geomagnetic_latitude, ControlPoint};
use crate::reference::voacap::ionosphere::{
    cofion, ground_constants, layer_parameters, noisy, versy, virtim, LayerParams,
};
use crate::reference::voacap::magnetic::{magvar, MagneticVars};

const MONTHS: [u32; 3] = [1, 4, 12];
const SUNSPOTS: [f32; 4] = [0.0, 70.0, 150.0, 300.0];

pub struct Range {
    pub name: &'static str,
    pub low: f32,
    pub high: f32,
    /// A value was NaN, which no comparison would show.
    pub nan: bool,
}

struct Place {
    point: ControlPoint,
    mag: MagneticVars,
}

pub struct Sizes {
    pub ranges: Vec<Range>,
    pub land: usize,
    pub sea: usize,
}

/// Over months, sunspot numbers, hours and places.
pub fn sizes(pair: &Pair) -> Sizes {
    let places = world();
    let mut sizes = Sizes {
        ranges: Vec::new(),
        land: 0,
        sea: 0,
    };
    for month in MONTHS {
        put(&pair.daw, &pair.month, month);
        for ssn in SUNSPOTS {
            let set = read(month, ssn).expect("the files are good");
            for gmt in (0..=24).step_by(4) {
                sizes.add_hour(&set, &places, (month, ssn, gmt as f32));
            }
            sizes.add_ground(&set, &places);
        }
    }
    sizes
}

fn world() -> Vec<Place> {
    let latitudes = (-90..=90).step_by(15);
    let rows = latitudes.flat_map(|lat| (-180..180).step_by(30).map(move |lon| (lat, lon)));
    rows.map(|(lat, lon)| place(lat as f32 * D2R, lon as f32 * D2R))
        .collect()
}

fn place(lat: f32, lon: f32) -> Place {
    let point = ControlPoint {
        rd: 0.0,
        lat,
        lon,
        gmlat: geomagnetic_latitude(MagneticPole::default(), lat, lon),
    };
    let mag = magvar(lat, lon);
    Place { point, mag }
}

impl Sizes {
    fn add_hour(&mut self, set: &CoefficientSet, places: &[Place], at: (u32, f32, f32)) {
        let (month, ssn, gmt) = at;
        let ab = virtim(&cofion(set), &set.ikim, gmt);
        for Place { point, mag } in places {
            self.add_maps(set, &ab, point, mag);
            let layers =
                layer_parameters(set, &ab, &[*point], &[*mag], month, ssn, gmt, &[1.0; 4])[0];
            self.add_layers(&layers);
            self.add("height ratio map", height_ratio(set, point, &layers));
        }
    }

    fn add_maps(
        &mut self,
        set: &CoefficientSet,
        ab: &[f32; 318],
        point: &ControlPoint,
        mag: &MagneticVars,
    ) {
        let gob = point.lat.step_cos();
        let east = if point.lon < 0.0 {
            PI2 + point.lon
        } else {
            point.lon
        };
        let maps = [
            "Es map 1",
            "Es map 2",
            "Es map 3",
            "foF2 map",
            "M3000 map",
            "E map",
        ];
        for (iz, name) in (1..).zip(maps) {
            let x = if iz == 6 { point.lat } else { mag.gmdip };
            self.add(name, versy(ab, &set.ikim, iz, x, east, gob));
        }
    }

    fn add_layers(&mut self, layers: &LayerParams) {
        self.add("foE", layers.fi[0]);
        if layers.zenang <= layers.zenmax {
            self.add("foF1", layers.fi[1]);
            self.add("hmF1", layers.hi[1]);
        }
        self.add("foF2", layers.fi[2]);
        self.add("hmF2", layers.hi[2]);
        self.add("ymF2", layers.yi[2]);
        self.add("ratio", layers.rat);
        self.add("absorption", layers.abiy);
        self.add("zenmax", layers.zenmax);
    }

    fn add_ground(&mut self, set: &CoefficientSet, places: &[Place]) {
        for Place { point, mag } in places {
            if ground_constants(set, &[*point], &[*mag])[0].1 == 4.0 {
                self.land += 1;
            } else {
                self.sea += 1;
            }
        }
    }

    fn add(&mut self, name: &'static str, value: f32) {
        match self.ranges.iter_mut().find(|range| range.name == name) {
            Some(range) => {
                range.low = range.low.min(value);
                range.high = range.high.max(value);
                range.nan |= value.is_nan();
            }
            None => self.ranges.push(Range {
                name,
                low: value,
                high: value,
                nan: value.is_nan(),
            }),
        }
    }
}

/// The map by itself: `layer_parameters` lifts what is below 2.
fn height_ratio(set: &CoefficientSet, point: &ControlPoint, layers: &LayerParams) -> f32 {
    let morning = layers.clck < 12.0;
    let zn = if morning {
        -layers.zenang
    } else {
        layers.zenang
    };
    let gm = point.gmlat.abs() * R2D - 45.0;
    noisy(&set.hmym, &set.abmap[1], true, gm, zn + 180.0)
}

#[cfg(test)]
mod tests {
    use super::sizes;
    use crate::draw::data_files::named;

    const ALLOWED: [(&str, f32, f32); 15] = [
        ("Es map 1", 1.0, 8.0),
        ("Es map 2", 1.0, 6.5),
        ("Es map 3", 0.5, 6.0),
        ("foF2 map", 2.5, 13.0),
        ("M3000 map", 2.3, 3.6),
        ("E map", 0.2, 4.5),
        ("foE", 0.36, 4.5),
        ("foF1", 2.5, 6.5),
        ("hmF1", 150.0, 350.0),
        ("foF2", 2.5, 14.0),
        ("hmF2", 180.0, 480.0),
        ("ratio", 2.0, 6.0),
        ("height ratio map", 1.0, 6.0),
        ("zenmax", 65.0, 92.0),
        ("absorption", 0.0, 2.5),
    ];

    #[test]
    fn calm_files_are_plausible() {
        for (name, pair) in named().iter().filter(|(name, _)| name.starts_with("calm")) {
            let sizes = sizes(pair);
            for range in &sizes.ranges {
                println!("{name} {:<17} {} to {}", range.name, range.low, range.high);
            }
            for (what, low, high) in ALLOWED {
                let range = sizes.ranges.iter().find(|range| range.name == what);
                let range = range.expect("a figure of this name");
                assert!(!range.nan, "{name} {what}");
                assert!(range.low >= low && range.high <= high, "{name} {what}");
            }
            let share = sizes.land * 100 / (sizes.land + sizes.sea);
            assert!((10..=60).contains(&share), "{name}: {share} of 100 is land");
        }
    }
}
