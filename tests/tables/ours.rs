// The functions of the static library of crate `watered`, and the methods that stand for the machine's in the Rust's files.

extern "C" {
    pub fn watered_root(x: f64) -> f64;
    pub fn watered_hypot(a: f64, b: f64) -> f64;
    pub fn watered_sin(x: f64) -> f64;
    pub fn watered_cos(x: f64) -> f64;
    pub fn watered_atan2(y: f64, x: f64) -> f64;
    pub fn watered_acos(x: f64) -> f64;
    pub fn watered_asin(x: f64) -> f64;
}

pub trait Ours {
    fn our_root(self) -> f64;
    fn our_hypot(self, b: f64) -> f64;
    fn our_sin(self) -> f64;
    fn our_cos(self) -> f64;
    fn our_atan2(self, x: f64) -> f64;
    fn our_acos(self) -> f64;
    fn our_asin(self) -> f64;
}

impl Ours for f64 {
    fn our_root(self) -> f64 {
        unsafe { watered_root(self) }
    }

    fn our_hypot(self, b: f64) -> f64 {
        unsafe { watered_hypot(self, b) }
    }

    fn our_sin(self) -> f64 {
        unsafe { watered_sin(self) }
    }

    fn our_cos(self) -> f64 {
        unsafe { watered_cos(self) }
    }

    fn our_atan2(self, x: f64) -> f64 {
        unsafe { watered_atan2(self, x) }
    }

    fn our_acos(self) -> f64 {
        unsafe { watered_acos(self) }
    }

    fn our_asin(self) -> f64 {
        unsafe { watered_asin(self) }
    }
}
