//! The clocks, at document 01's known points and refusals.

use jutetrowel::{hour_times, local_time, to_local, to_universal, HourTimes, Refusal, Shifted};

fn refused<T>(number: u32, place: u32) -> Result<T, Refusal> {
    Err(Refusal { number, place })
}

/// (j), (k) and (l), and longitude 0.
#[test]
fn known_points() {
    let at = |time: f32, day: f32| Ok(Shifted { time, day });
    assert_eq!(to_universal(1.0, 15.0), at(0.0, -1.0));
    assert_eq!(to_local(23.0, 15.0), at(24.0, 1.0));
    assert_eq!(to_local(0.5, -15.0), at(23.5, -1.0));
    assert_eq!(to_local(24.0, 0.0), at(24.0, 0.0));
    assert_eq!(to_universal(0.0, 0.0), at(0.0, 0.0));
}

/// 'refuses 3, then 5 (places 3 and 5)'
#[test]
fn times_refused() {
    for time in [-0.5, 24.5, f32::NAN, f32::INFINITY] {
        assert_eq!(to_local(time, 181.0), refused(3, 3));
        assert_eq!(to_universal(time, 0.0), refused(3, 3));
        assert_eq!(local_time(time, 181.0), refused(3, 3));
    }
    for lon in [-180.5, 180.5, f32::NAN] {
        assert_eq!(to_local(12.0, lon), refused(5, 5));
        assert_eq!(to_universal(12.0, lon), refused(5, 5));
        assert_eq!(local_time(12.0, lon), refused(5, 5));
    }
}

/// 'a whole hour 0 to 24 .. It refuses 3 (place 3), then 5 (place 5, then 7)'
#[test]
fn hours_refused() {
    assert_eq!(hour_times(25, true, 181.0, 0.0), refused(3, 3));
    assert_eq!(hour_times(u32::MAX, false, 0.0, 0.0), refused(3, 3));
    assert_eq!(hour_times(24, false, 181.0, 181.0), refused(5, 5));
    assert_eq!(hour_times(0, true, 0.0, f32::NAN), refused(5, 7));
}

/// On the meridian all clocks agree.
#[test]
fn on_the_meridian() {
    let noon = HourTimes {
        gmt: 12.0,
        lmt_tx: 12.0,
        gmtr: 12.0,
    };
    assert_eq!(hour_times(12, true, 0.0, 0.0), Ok(noon));
    assert_eq!(hour_times(12, false, 0.0, 0.0), Ok(noon));
    assert_eq!(local_time(12.0, 0.0), Ok(12.0));
}

/// A whole hour east of the meridian, to what a turn of the earth asks for.
#[test]
fn an_hour_east() {
    let near = |a: f32, b: f32| (a - b).abs() < 1e-4;
    let from_local = hour_times(12, true, 15.0, -30.0).expect("in range");
    assert!(near(from_local.gmt, 11.0) && from_local.lmt_tx == 12.0 && near(from_local.gmtr, 9.0));
    let from_gmt = hour_times(12, false, 15.0, -30.0).expect("in range");
    assert!(from_gmt.gmt == 12.0 && near(from_gmt.lmt_tx, 13.0) && near(from_gmt.gmtr, 10.0));
    assert!(near(local_time(12.0, 15.0).expect("in range"), 13.0));
}
