//! Every function, struct and length of bindings/c/jutetrowel.h, declared once for Rust: tests/header.rs
//! holds them to the header and to the library's source.
//!
//! What takes numbers and arrays is safe as it is declared. What takes slices, each as its start and its
//! number of elements, has a safe call below: there every pointer comes from a reference of the length
//! that is passed, so that it is valid, aligned and not null, and nothing that is written overlaps
//! anything else.

/// The words of a sheet's 14 fields, in bytes.
pub const INPUT_BYTES: usize = 56;
/// The words of a worksheet's 15 fields, in bytes.
pub const OPEN_BYTES: usize = 60;
/// Figures of a sheet: six of the path, then 29 for each of five points.
pub const FIGURES: usize = 151;
/// Bytes of an F2 record.
pub const RECORD_BYTES: usize = 7904;
/// Bytes of a month file.
pub const MONTH_FILE_BYTES: usize = 38552;
/// Bytes of a year file's directory.
pub const DIRECTORY_BYTES: usize = 112;
/// 32-bit words of a worksheet.
pub const WORKSHEET_WORDS: usize = 96;
/// Blended coefficients of the six maps.
pub const COEFFICIENTS: usize = 2604;
/// Blended coefficients of the height map.
pub const HEIGHTS: usize = 464;
/// Coefficients of the six maps at an hour.
pub const HOUR_MAPS: usize = 318;

/// A refusal's number and place; 0 and 0 where nothing is refused.
#[repr(C)]
#[derive(Clone, Copy, Debug, PartialEq, Eq)]
pub struct Answer {
    pub number: u32,
    pub place: u32,
}

/// How many points a sheet has; refused, 0 with the refusal's number and place.
#[repr(C)]
#[derive(Clone, Copy, Debug, PartialEq, Eq)]
pub struct Showing {
    pub points: u32,
    pub number: u32,
    pub place: u32,
}

/// A part of a lent file, in bytes from its start; refused, 0 and 0.
#[repr(C)]
#[derive(Clone, Copy, Debug, PartialEq, Eq)]
pub struct Span {
    pub start: usize,
    pub size: usize,
    pub number: u32,
    pub place: u32,
}

/// A time and its change of day; refused, both +0.
#[repr(C)]
#[derive(Clone, Copy, Debug, PartialEq)]
pub struct ClockAnswer {
    pub time: f32,
    pub day: f32,
    pub number: u32,
    pub place: u32,
}

/// An hour in universal time and in local time at both ends; refused, all +0.
#[repr(C)]
#[derive(Clone, Copy, Debug, PartialEq)]
pub struct HoursAnswer {
    pub gmt: f32,
    pub lmt_tx: f32,
    pub gmtr: f32,
    pub number: u32,
    pub place: u32,
}

/// A path: lengths, bearings in radians, latitudes, bearings in degrees, and how many points.
#[repr(C)]
#[derive(Clone, Copy, Debug, PartialEq)]
pub struct Measured {
    pub gcd: f32,
    pub gcd_km: f32,
    pub btr: f32,
    pub brt: f32,
    pub rlatd: f32,
    pub alatd: f32,
    pub btr_deg: f32,
    pub brt_deg: f32,
    pub points: u32,
}

/// The layers at a place, E, F1 and F2 in each array; refused, all +0.
#[repr(C)]
#[derive(Clone, Copy, Debug, PartialEq)]
pub struct Layers {
    pub number: u32,
    pub place: u32,
    pub fi: [f32; 3],
    pub yi: [f32; 3],
    pub hi: [f32; 3],
    pub f2m3: f32,
    pub hpf2: f32,
    pub rat: f32,
    pub abiy: f32,
    pub clck: f32,
    pub zenang: f32,
    pub zenmax: f32,
}

/// A local time; refused, +0.
#[repr(C)]
#[derive(Clone, Copy, Debug, PartialEq)]
pub struct LocalAnswer {
    pub time: f32,
    pub number: u32,
    pub place: u32,
}

// SAFETY: the declarations are the header's. A safe one takes numbers, any of which will do, and
// references to arrays, of which the library keeps none and writes those that may be written.
unsafe extern "C" {
    // Sheets.
    pub unsafe fn jt_sheet(
        words: *const u8,
        words_size: usize,
        f2: *const u8,
        f2_size: usize,
        file: *const u8,
        file_size: usize,
        out: *mut f32,
        out_count: usize,
    ) -> Showing;
    pub unsafe fn jt_figures(
        month: u32,
        ssn: f32,
        gmt: f32,
        tlat: f32,
        tlong: f32,
        rlat: f32,
        rlong: f32,
        long_path: u32,
        psc_e: f32,
        psc_f1: f32,
        psc_f2: f32,
        psc_es: f32,
        pole_lat: f32,
        pole_lon: f32,
        f2: *const u8,
        f2_size: usize,
        file: *const u8,
        file_size: usize,
        out: *mut f32,
        out_count: usize,
    ) -> Showing;

    // The worksheet of four desks.
    pub unsafe fn jt_open(
        words: *const u8,
        words_size: usize,
        sheet: &mut [u32; WORKSHEET_WORDS],
    ) -> Answer;
    pub safe fn jt_begin(sheet: &mut [u32; WORKSHEET_WORDS], desk: u32) -> Answer;
    pub safe fn jt_change_sunspot(
        sheet: &mut [u32; WORKSHEET_WORDS],
        desk: u32,
        ssn: f32,
    ) -> Answer;
    pub safe fn jt_change_hour(sheet: &mut [u32; WORKSHEET_WORDS], desk: u32, gmt: f32) -> Answer;
    pub safe fn jt_change_path(
        sheet: &mut [u32; WORKSHEET_WORDS],
        desk: u32,
        tlat: f32,
        tlong: f32,
        rlat: f32,
        rlong: f32,
        long_path: u32,
    ) -> Answer;
    pub safe fn jt_change_factors(
        sheet: &mut [u32; WORKSHEET_WORDS],
        desk: u32,
        psc_e: f32,
        psc_f1: f32,
        psc_f2: f32,
        psc_es: f32,
    ) -> Answer;
    pub safe fn jt_change_pole(
        sheet: &mut [u32; WORKSHEET_WORDS],
        desk: u32,
        pole_lat: f32,
        pole_lon: f32,
    ) -> Answer;
    pub safe fn jt_change_month(
        sheet: &mut [u32; WORKSHEET_WORDS],
        desk: u32,
        month: u32,
    ) -> Answer;
    pub safe fn jt_change_model(
        sheet: &mut [u32; WORKSHEET_WORDS],
        desk: u32,
        model: u32,
    ) -> Answer;
    pub safe fn jt_commit(sheet: &mut [u32; WORKSHEET_WORDS], desk: u32) -> Answer;
    pub safe fn jt_cancel(sheet: &mut [u32; WORKSHEET_WORDS], desk: u32) -> Answer;
    pub safe fn jt_take_back(sheet: &mut [u32; WORKSHEET_WORDS]) -> Answer;
    pub unsafe fn jt_show(
        sheet: &[u32; WORKSHEET_WORDS],
        desk: u32,
        f2: *const u8,
        f2_size: usize,
        file: *const u8,
        file_size: usize,
        out: *mut f32,
        out_count: usize,
    ) -> Showing;

    pub unsafe fn jt_show_year(
        sheet: &[u32; WORKSHEET_WORDS],
        desk: u32,
        year: *const u8,
        year_size: usize,
        out: *mut f32,
        out_count: usize,
    ) -> Showing;

    // Files.
    pub unsafe fn jt_month_record(daw: *const u8, daw_size: usize, month: u32) -> Span;
    pub unsafe fn jt_table(
        number: u32,
        f2: *const u8,
        f2_size: usize,
        file: *const u8,
        file_size: usize,
    ) -> Span;
    pub unsafe fn jt_month_file_check(file: *const u8, file_size: usize) -> Answer;
    pub unsafe fn jt_file_check(file: *const u8, file_size: usize) -> Answer;
    pub unsafe fn jt_year_check(year: *const u8, year_size: usize) -> Answer;
    pub unsafe fn jt_year_month(year: *const u8, year_size: usize, month: u32) -> Span;
    pub unsafe fn jt_year_model(year: *const u8, year_size: usize, model: u32) -> Span;

    // Parts of a sheet by themselves.
    pub unsafe fn jt_cofion(
        f2: *const u8,
        f2_size: usize,
        file: *const u8,
        file_size: usize,
        ssn: f32,
        out: &mut [f32; COEFFICIENTS],
    ) -> Answer;
    pub unsafe fn jt_hmym(
        file: *const u8,
        file_size: usize,
        ssn: f32,
        out: &mut [f32; HEIGHTS],
    ) -> Answer;
    pub unsafe fn jt_hour_maps(
        f2: *const u8,
        f2_size: usize,
        file: *const u8,
        file_size: usize,
        ssn: f32,
        gmt: f32,
        ab: &mut [f32; HOUR_MAPS],
    ) -> Answer;
    pub safe fn jt_path(
        tlat: f32,
        tlong: f32,
        rlat: f32,
        rlong: f32,
        long_path: u32,
        pole_lat: f32,
        pole_lon: f32,
    ) -> Measured;
    pub unsafe fn jt_layers_at(
        month: u32,
        ssn: f32,
        gmt: f32,
        psc_e: f32,
        psc_f1: f32,
        psc_f2: f32,
        psc_es: f32,
        ab: &[f32; HOUR_MAPS],
        file: *const u8,
        file_size: usize,
        pole_lat: f32,
        pole_lon: f32,
        lat: f32,
        lon: f32,
    ) -> Layers;

    // Clocks: times in hours, longitudes in degrees.
    pub safe fn jt_cngtim_to_local(time: f32, lon: f32) -> ClockAnswer;
    pub safe fn jt_cngtim_to_universal(time: f32, lon: f32) -> ClockAnswer;
    pub safe fn jt_geotim(hour: u32, local: u32, tlong: f32, rlong: f32) -> HoursAnswer;
    pub safe fn jt_geotim_clck(gmt: f32, lon: f32) -> LocalAnswer;

    // Arithmetic, in document 01's steps.
    pub safe fn jt_abs32(x: f32) -> f32;
    pub safe fn jt_abs64(x: f64) -> f64;
    pub safe fn jt_min(a: f32, b: f32) -> f32;
    pub safe fn jt_max(a: f32, b: f32) -> f32;
    pub safe fn jt_sign(a: f32, b: f32) -> f32;
    pub safe fn jt_widen(x: f32) -> f64;
    pub safe fn jt_narrow(x: f64) -> f32;
    pub safe fn jt_sqrt32(x: f32) -> f32;
    pub safe fn jt_sqrt64(x: f64) -> f64;
    pub safe fn jt_to_i32(x: f32) -> i32;
    pub safe fn jt_from_i32(n: i32) -> f32;
    pub safe fn jt_to_u64(x: f64) -> u64;
    pub safe fn jt_sin32(x: f32) -> f32;
    pub safe fn jt_cos32(x: f32) -> f32;
    pub safe fn jt_atan32(x: f32) -> f32;
    pub safe fn jt_acos32(x: f32) -> f32;
    pub safe fn jt_exp32(x: f32) -> f32;
    pub safe fn jt_ln32(x: f32) -> f32;
    pub safe fn jt_sin64(x: f64) -> f64;
    pub safe fn jt_cos64(x: f64) -> f64;
    pub safe fn jt_atan64(x: f64) -> f64;
    pub safe fn jt_acos64(x: f64) -> f64;
    pub safe fn jt_exp64(x: f64) -> f64;
    pub safe fn jt_ln64(x: f64) -> f64;
}

/// A whole sheet from words: every field is checked. A 15th word is not read.
#[inline]
pub fn sheet(words: &[u8], f2: &[u8], file: &[u8], out: &mut [f32]) -> Showing {
    // SAFETY: starts and lengths of four slices, `out` lent for writing.
    unsafe {
        jt_sheet(
            words.as_ptr(),
            words.len(),
            f2.as_ptr(),
            f2.len(),
            file.as_ptr(),
            file.len(),
            out.as_mut_ptr(),
            out.len(),
        )
    }
}

/// A sheet's figures from its fields one by one, none of which is checked. A flag that is not 0 is the
/// long way round.
#[inline]
#[allow(clippy::too_many_arguments)]
pub fn figures(
    month: u32,
    ssn: f32,
    gmt: f32,
    tlat: f32,
    tlong: f32,
    rlat: f32,
    rlong: f32,
    long_path: u32,
    psc_e: f32,
    psc_f1: f32,
    psc_f2: f32,
    psc_es: f32,
    pole_lat: f32,
    pole_lon: f32,
    f2: &[u8],
    file: &[u8],
    out: &mut [f32],
) -> Showing {
    // SAFETY: starts and lengths of three slices, `out` lent for writing.
    unsafe {
        jt_figures(
            month,
            ssn,
            gmt,
            tlat,
            tlong,
            rlat,
            rlong,
            long_path,
            psc_e,
            psc_f1,
            psc_f2,
            psc_es,
            pole_lat,
            pole_lon,
            f2.as_ptr(),
            f2.len(),
            file.as_ptr(),
            file.len(),
            out.as_mut_ptr(),
            out.len(),
        )
    }
}

/// Opens a worksheet from its 15 words; bytes that are not there count as 0.
#[inline]
pub fn open(words: &[u8], sheet: &mut [u32; WORKSHEET_WORDS]) -> Answer {
    // SAFETY: start and length of a slice, which is only read.
    unsafe { jt_open(words.as_ptr(), words.len(), sheet) }
}

/// The figures of a desk's draft, or of the worksheet for desk 0, over a pair of files, which are taken
/// as they are lent.
#[inline]
pub fn show(
    sheet: &[u32; WORKSHEET_WORDS],
    desk: u32,
    f2: &[u8],
    file: &[u8],
    out: &mut [f32],
) -> Showing {
    // SAFETY: starts and lengths of three slices, `out` lent for writing.
    unsafe {
        jt_show(
            sheet,
            desk,
            f2.as_ptr(),
            f2.len(),
            file.as_ptr(),
            file.len(),
            out.as_mut_ptr(),
            out.len(),
        )
    }
}

/// The same over a year file, of which the month and the model shown pick the parts.
#[inline]
pub fn show_year(
    sheet: &[u32; WORKSHEET_WORDS],
    desk: u32,
    year: &[u8],
    out: &mut [f32],
) -> Showing {
    let (start, size) = (year.as_ptr(), year.len());
    // SAFETY: starts and lengths of two slices, `out` lent for writing.
    unsafe { jt_show_year(sheet, desk, start, size, out.as_mut_ptr(), out.len()) }
}

/// Where a month's record lies in a `.daw` file.
#[inline]
pub fn month_record(daw: &[u8], month: u32) -> Span {
    // SAFETY: start and length of a slice, which is only read.
    unsafe { jt_month_record(daw.as_ptr(), daw.len(), month) }
}

/// Where a table lies in the file that holds it.
#[inline]
pub fn table(number: u32, f2: &[u8], file: &[u8]) -> Span {
    // SAFETY: starts and lengths of two slices, which are only read.
    unsafe { jt_table(number, f2.as_ptr(), f2.len(), file.as_ptr(), file.len()) }
}

/// The month file's form alone.
#[inline]
pub fn month_file_check(file: &[u8]) -> Answer {
    // SAFETY: start and length of a slice, which is only read.
    unsafe { jt_month_file_check(file.as_ptr(), file.len()) }
}

/// The month file's form, then its index table.
#[inline]
pub fn file_check(file: &[u8]) -> Answer {
    // SAFETY: start and length of a slice, which is only read.
    unsafe { jt_file_check(file.as_ptr(), file.len()) }
}

/// A year file's directory alone.
#[inline]
pub fn year_check(year: &[u8]) -> Answer {
    // SAFETY: start and length of a slice, which is only read.
    unsafe { jt_year_check(year.as_ptr(), year.len()) }
}

/// Where a month's file lies in a year file.
#[inline]
pub fn year_month(year: &[u8], month: u32) -> Span {
    // SAFETY: start and length of a slice, which is only read.
    unsafe { jt_year_month(year.as_ptr(), year.len(), month) }
}

/// Where a model's `.daw` file lies in a year file.
#[inline]
pub fn year_model(year: &[u8], model: u32) -> Span {
    // SAFETY: start and length of a slice, which is only read.
    unsafe { jt_year_model(year.as_ptr(), year.len(), model) }
}

/// The blended coefficients of the six maps at a sunspot number.
#[inline]
pub fn cofion(f2: &[u8], file: &[u8], ssn: f32, out: &mut [f32; COEFFICIENTS]) -> Answer {
    // SAFETY: starts and lengths of two slices, which are only read.
    unsafe { jt_cofion(f2.as_ptr(), f2.len(), file.as_ptr(), file.len(), ssn, out) }
}

/// The blended coefficients of the height map.
#[inline]
pub fn hmym(file: &[u8], ssn: f32, out: &mut [f32; HEIGHTS]) -> Answer {
    // SAFETY: start and length of a slice, which is only read.
    unsafe { jt_hmym(file.as_ptr(), file.len(), ssn, out) }
}

/// The coefficients of the six maps at an hour.
#[inline]
pub fn hour_maps(f2: &[u8], file: &[u8], ssn: f32, gmt: f32, ab: &mut [f32; HOUR_MAPS]) -> Answer {
    let (start, size) = (f2.as_ptr(), f2.len());
    // SAFETY: starts and lengths of two slices, which are only read.
    unsafe { jt_hour_maps(start, size, file.as_ptr(), file.len(), ssn, gmt, ab) }
}

/// The layers at a place in radians; of the numbers only the month is checked.
#[inline]
#[allow(clippy::too_many_arguments)]
pub fn layers_at(
    month: u32,
    ssn: f32,
    gmt: f32,
    psc_e: f32,
    psc_f1: f32,
    psc_f2: f32,
    psc_es: f32,
    ab: &[f32; HOUR_MAPS],
    file: &[u8],
    pole_lat: f32,
    pole_lon: f32,
    lat: f32,
    lon: f32,
) -> Layers {
    // SAFETY: start and length of a slice, which is only read.
    unsafe {
        jt_layers_at(
            month,
            ssn,
            gmt,
            psc_e,
            psc_f1,
            psc_f2,
            psc_es,
            ab,
            file.as_ptr(),
            file.len(),
            pole_lat,
            pole_lon,
            lat,
            lon,
        )
    }
}
