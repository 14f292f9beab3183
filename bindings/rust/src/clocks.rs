//! Local and universal time: times in hours, longitudes in degrees.

use crate::{raw, Refusal};

/// A time, and the change of day that goes with it: -1, 0 or 1.
#[derive(Clone, Copy, Debug, PartialEq)]
pub struct Shifted {
    pub time: f32,
    pub day: f32,
}

/// One hour in universal time, and in local time at the transmitter and at the receiver.
#[derive(Clone, Copy, Debug, PartialEq)]
pub struct HourTimes {
    pub gmt: f32,
    pub lmt_tx: f32,
    pub gmtr: f32,
}

fn shifted(answer: raw::ClockAnswer) -> Result<Shifted, Refusal> {
    let raw::ClockAnswer {
        time,
        day,
        number,
        place,
    } = answer;
    match number {
        0 => Ok(Shifted { time, day }),
        _ => Err(Refusal { number, place }),
    }
}

/// A universal time made local.
pub fn to_local(time: f32, lon: f32) -> Result<Shifted, Refusal> {
    shifted(raw::jt_cngtim_to_local(time, lon))
}

/// A local time made universal.
pub fn to_universal(time: f32, lon: f32) -> Result<Shifted, Refusal> {
    shifted(raw::jt_cngtim_to_universal(time, lon))
}

/// A whole hour at both ends of a path, which is the transmitter's local time or universal time.
pub fn hour_times(hour: u32, local: bool, tlong: f32, rlong: f32) -> Result<HourTimes, Refusal> {
    let raw::HoursAnswer {
        gmt,
        lmt_tx,
        gmtr,
        number,
        place,
    } = raw::jt_geotim(hour, local.into(), tlong, rlong);
    match number {
        0 => Ok(HourTimes { gmt, lmt_tx, gmtr }),
        _ => Err(Refusal { number, place }),
    }
}

/// The local time at one place for a universal time.
pub fn local_time(gmt: f32, lon: f32) -> Result<f32, Refusal> {
    let raw::LocalAnswer {
        time,
        number,
        place,
    } = raw::jt_geotim_clck(gmt, lon);
    match number {
        0 => Ok(time),
        _ => Err(Refusal { number, place }),
    }
}
