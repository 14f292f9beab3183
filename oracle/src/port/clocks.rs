//! The port's clocks. A refused answer has zeros before its number and place.

use crate::reference::clocks::Direction;
use jutetrowel::raw::{self, Answer, ClockAnswer, HoursAnswer, LocalAnswer};

pub fn cngtim(time: f32, lon: f32, direction: Direction) -> ([f32; 2], Answer) {
    let ClockAnswer {
        time,
        day,
        number,
        place,
    } = match direction {
        Direction::ToLocal => raw::jt_cngtim_to_local(time, lon),
        Direction::ToUniversal => raw::jt_cngtim_to_universal(time, lon),
    };
    ([time, day], Answer { number, place })
}

/// Any flag but 0 is a local hour.
pub fn geotim(hour: u32, local: u32, tlong: f32, rlong: f32) -> ([f32; 3], Answer) {
    let HoursAnswer {
        gmt,
        lmt_tx,
        gmtr,
        number,
        place,
    } = raw::jt_geotim(hour, local, tlong, rlong);
    ([gmt, lmt_tx, gmtr], Answer { number, place })
}

pub fn geotim_clck(gmt: f32, lon: f32) -> ([f32; 1], Answer) {
    let LocalAnswer {
        time,
        number,
        place,
    } = raw::jt_geotim_clck(gmt, lon);
    ([time], Answer { number, place })
}
