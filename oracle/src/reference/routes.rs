//! The Rust side of path geometry and magnetic field, from the sources as
//! they are and from those with their branches counted.

use crate::bits::words;
use crate::reference::branches::{self, Side};
use crate::reference::voacap::con::MagneticPole;
use crate::reference::voacap::geometry::ControlPoint;
use crate::reference::voacap::ionosphere::alatd;
use crate::reference::voacap::{counted_geometry, counted_magnetic, geometry, magnetic};

/// Six numbers of the path, then seven for each of five points.
pub const FIGURES: usize = 6 + 5 * 7;

/// One end of a route, in degrees.
#[derive(Debug, Clone, Copy, PartialEq)]
pub struct End {
    pub lat: f32,
    pub lon: f32,
}

pub const fn end(lat: f32, lon: f32) -> End {
    End { lat, lon }
}

#[derive(Debug, Clone, Copy, PartialEq)]
pub struct Route {
    pub from: End,
    pub to: End,
    pub long: bool,
    pub pole: End,
}

impl Route {
    /// The short way, with the built-in pole.
    pub fn new(from: End, to: End) -> Self {
        let pole = MagneticPole::default();
        Self {
            from,
            to,
            long: false,
            pole: end(pole.lat_deg, pole.lon_deg),
        }
    }

    pub fn long_way(self) -> Self {
        Self { long: true, ..self }
    }

    pub fn with_pole(self, pole: End) -> Self {
        Self { pole, ..self }
    }

    /// As the Rust takes it.
    pub fn magnetic_pole(&self) -> MagneticPole {
        MagneticPole {
            lat_deg: self.pole.lat,
            lon_deg: self.pole.lon,
        }
    }

    /// All numbers but the flag, in the order of the vector file.
    pub fn numbers(&mut self) -> [&mut f32; 6] {
        let Self { from, to, pole, .. } = self;
        [
            &mut from.lat,
            &mut from.lon,
            &mut to.lat,
            &mut to.lon,
            &mut pole.lat,
            &mut pole.lon,
        ]
    }

    /// As a row of the vector file holds it.
    pub fn words(&self) -> [u32; 7] {
        let Self {
            from,
            to,
            long,
            pole,
        } = self;
        let [a, b, c, d] = [from.lat, from.lon, to.lat, to.lon].map(f32::to_bits);
        let [e, f] = [pole.lat, pole.lon].map(f32::to_bits);
        [a, b, c, d, u32::from(*long), e, f]
    }
}

/// The number of points and what the port writes to its buffer.
#[derive(Debug, Clone, Copy)]
pub struct Path {
    pub points: u32,
    pub figures: [f32; FIGURES],
}

impl Path {
    /// The seven numbers of each point that is there: `rd`, `lat`, `lon`,
    /// `gmlat`, `gyz`, `gmdip`, `east_lon`.
    pub fn rows(&self) -> impl Iterator<Item = &[f32]> {
        self.figures[6..].chunks(7).take(self.points as usize)
    }

    /// Every NaN as one word.
    pub fn words(&self) -> [u32; FIGURES] {
        words(self.figures)
    }
}

/// Rows of absent points stay +0.0.
fn path(ends: [f32; 6], rows: Vec<[f32; 7]>) -> Path {
    let mut figures = [0.0; FIGURES];
    let values = ends.into_iter().chain(rows.concat());
    for (figure, value) in figures.iter_mut().zip(values) {
        *figure = value;
    }
    Path {
        points: rows.len() as u32,
        figures,
    }
}

macro_rules! variant {
    ($name:ident, $geometry:ident, $magnetic:ident) => {
        pub fn $name(route: &Route) -> Path {
            let Route { from, to, .. } = *route;
            let pole = route.magnetic_pole();
            let found =
                $geometry::path_geometry(from.lat, from.lon, to.lat, to.lon, route.long, pole);
            let rows = found.points.iter().map(|point| {
                let field = $magnetic::magvar(point.lat, point.lon);
                let $geometry::ControlPoint {
                    rd,
                    lat,
                    lon,
                    gmlat,
                } = *point;
                [rd, lat, lon, gmlat, field.gyz, field.gmdip, field.east_lon]
            });
            let rows: Vec<[f32; 7]> = rows.collect();
            let average = alatd(&control_points(&rows));
            let $geometry::PathGeometry {
                gcd,
                gcd_km,
                btr,
                brt,
                rlatd,
                ..
            } = found;
            path([gcd, gcd_km, btr, brt, rlatd, average], rows)
        }
    };
}

variant!(plain, geometry, magnetic);
variant!(counted, counted_geometry, counted_magnetic);

/// The one form that `alatd` takes, for both variants.
fn control_points(rows: &[[f32; 7]]) -> Vec<ControlPoint> {
    let point = |[rd, lat, lon, gmlat, ..]: &[f32; 7]| ControlPoint {
        rd: *rd,
        lat: *lat,
        lon: *lon,
        gmlat: *gmlat,
    };
    rows.iter().map(point).collect()
}

/// The sides that this route takes; what was noted before is lost.
pub fn trail(route: &Route) -> Vec<Side> {
    branches::take();
    counted(route);
    branches::take()
}
