//! The port's arithmetic under the names of the vector file.

pub use jutetrowel::raw::{
    jt_abs32 as abs32, jt_abs64 as abs64, jt_acos32 as acos32, jt_acos64 as acos64,
    jt_atan32 as atan32, jt_atan64 as atan64, jt_cos32 as cos32, jt_cos64 as cos64,
    jt_exp32 as exp32, jt_exp64 as exp64, jt_from_i32 as from_i32, jt_ln32 as ln32,
    jt_ln64 as ln64, jt_max as max, jt_min as min, jt_narrow as narrow, jt_sign as sign,
    jt_sin32 as sin32, jt_sin64 as sin64, jt_sqrt32 as sqrt32, jt_sqrt64 as sqrt64,
    jt_to_i32 as to_i32, jt_to_u64 as to_u64, jt_widen as widen,
};
