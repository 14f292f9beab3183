//! The Rust side of the clocks, within document 01's ranges. Outside them the
//! Rust is never called: the loop of `cngtim` need not end there.

use crate::model::desks::fields::check;
use crate::model::desks::Refusal;
use crate::reference::voacap::con::D2R;
use crate::reference::voacap::{counted_ionosphere, ionosphere};

/// What document 01 calls the direction: 1 or -1, no third.
#[derive(Debug, Clone, Copy, PartialEq)]
pub enum Direction {
    ToLocal,
    ToUniversal,
}

impl Direction {
    pub const BOTH: [Self; 2] = [Self::ToLocal, Self::ToUniversal];

    pub fn sign(self) -> i32 {
        match self {
            Self::ToLocal => 1,
            Self::ToUniversal => -1,
        }
    }
}

/// The numbers of fields 3, 5 and 7 decide, in this order.
const HOUR: usize = 3;
const TX_LONGITUDE: usize = 5;
const RX_LONGITUDE: usize = 7;
const LAST_HOUR: u32 = 24;

fn held(field: usize, value: f32) -> Result<(), Refusal> {
    check(field, &[value.to_bits()])
}

/// `itim` below 0 stands for a local hour.
fn itim(local: bool) -> i32 {
    if local {
        -1
    } else {
        1
    }
}

macro_rules! variant {
    ($cngtim:ident, $geotim:ident, $geotim_clck:ident, $source:ident) => {
        /// The time after the shift and the day change.
        pub fn $cngtim(time: f32, lon: f32, direction: Direction) -> Result<[f32; 2], Refusal> {
            held(HOUR, time)?;
            held(TX_LONGITUDE, lon)?;
            let mut shifted = time;
            let day = $source::cngtim(&mut shifted, lon, direction.sign());
            Ok([shifted, day])
        }

        /// Universal time, local time at the transmitter, at the receiver.
        pub fn $geotim(
            hour: u32,
            local: bool,
            tlong: f32,
            rlong: f32,
        ) -> Result<[f32; 3], Refusal> {
            if hour > LAST_HOUR {
                let place = HOUR as u32;
                return Err(Refusal::at(3, place));
            }
            held(TX_LONGITUDE, tlong)?;
            held(RX_LONGITUDE, rlong)?;
            let times = $source::geotim(hour as i32, itim(local), tlong * D2R, rlong * D2R);
            Ok([times.gmt, times.lmt_tx, times.gmtr])
        }

        /// The local time at a point.
        pub fn $geotim_clck(gmt: f32, lon: f32) -> Result<[f32; 1], Refusal> {
            held(HOUR, gmt)?;
            held(TX_LONGITUDE, lon)?;
            Ok([$source::geotim_clck(gmt, lon * D2R)])
        }
    };
}

variant!(cngtim, geotim, geotim_clck, ionosphere);
variant!(
    counted_cngtim,
    counted_geotim,
    counted_geotim_clck,
    counted_ionosphere
);

#[cfg(test)]
mod tests {
    use super::{cngtim, geotim, geotim_clck, Direction};
    use crate::model::desks::Refusal;
    use Direction::{ToLocal, ToUniversal};

    fn refused<T>(number: u32, place: u32) -> Result<T, Refusal> {
        Err(Refusal::at(number, place))
    }

    #[test]
    fn known_points() {
        assert_eq!(cngtim(1.0, 15.0, ToUniversal), Ok([0.0, -1.0]));
        assert_eq!(cngtim(23.0, 15.0, ToLocal), Ok([24.0, 1.0]));
        assert_eq!(cngtim(0.5, -15.0, ToLocal), Ok([23.5, -1.0]));
        for lon in [0.0, -0.0] {
            assert_eq!(cngtim(0.0, lon, ToLocal), Ok([0.0, 0.0]));
            assert_eq!(cngtim(24.0, lon, ToUniversal), Ok([24.0, 0.0]));
        }
        assert_eq!(geotim(12, false, 15.0, -30.0), Ok([12.0, 13.0, 10.0]));
        assert_eq!(geotim(12, true, 15.0, -30.0), Ok([11.0, 12.0, 9.0]));
        assert_eq!(geotim_clck(12.0, -30.0), Ok([10.0]));
    }

    #[test]
    fn refusals_come_in_their_order() {
        let nan = f32::NAN;
        assert_eq!(cngtim(nan, nan, ToLocal), refused(3, 3));
        assert_eq!(cngtim(24.0, nan, ToLocal), refused(5, 5));
        assert_eq!(cngtim(24.0, f32::INFINITY, ToLocal), refused(5, 5));
        assert_eq!(geotim(25, true, nan, nan), refused(3, 3));
        assert_eq!(geotim(24, true, nan, nan), refused(5, 5));
        assert_eq!(geotim(24, true, 180.0, 180.00002), refused(5, 7));
        assert_eq!(geotim_clck(-1.0, nan), refused(3, 3));
        assert_eq!(geotim_clck(0.0, -180.00002), refused(5, 5));
    }
}
