//! Stand-in.

pub fn sin(x: f64) -> f64 {
    x.sin()
}

pub fn cos(x: f64) -> f64 {
    x.cos()
}

pub fn acos(x: f64) -> f64 {
    x.acos()
}

pub fn atan2(y: f64, x: f64) -> f64 {
    y.atan2(x)
}
