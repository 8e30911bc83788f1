// The functions of the static library of crate `probe`, and the methods that stand for the machine's in the Rust's files.

extern "C" {
    pub fn probe_root(x: f64) -> f64;
    pub fn probe_hypot(a: f64, b: f64) -> f64;
    pub fn probe_sin(x: f64) -> f64;
    pub fn probe_cos(x: f64) -> f64;
    pub fn probe_atan2(y: f64, x: f64) -> f64;
    pub fn probe_acos(x: f64) -> f64;
    pub fn probe_asin(x: f64) -> f64;
}

pub trait Ours {
    fn our_root(self) -> f64;
    fn our_hypot(self, b: f64) -> f64;
    fn our_sin(self) -> f64;
    fn our_cos(self) -> f64;
    fn our_atan2(self, x: f64) -> f64;
    fn our_acos(self) -> f64;
    fn our_asin(self) -> f64;
}

impl Ours for f64 {
    fn our_root(self) -> f64 {
        unsafe { probe_root(self) }
    }

    fn our_hypot(self, b: f64) -> f64 {
        unsafe { probe_hypot(self, b) }
    }

    fn our_sin(self) -> f64 {
        unsafe { probe_sin(self) }
    }

    fn our_cos(self) -> f64 {
        unsafe { probe_cos(self) }
    }

    fn our_atan2(self, x: f64) -> f64 {
        unsafe { probe_atan2(self, x) }
    }

    fn our_acos(self) -> f64 {
        unsafe { probe_acos(self) }
    }

    fn our_asin(self) -> f64 {
        unsafe { probe_asin(self) }
    }
}
