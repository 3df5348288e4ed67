//! Stand-in.

use crate::linalg::Vec2;

pub fn ccw(_p0: Vec2, _p1: Vec2, _p2: Vec2, _tol: f64) -> i32 {
    panic!("ccw is not to be had")
}
