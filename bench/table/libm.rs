// The machine's functions behind the methods that prepare.py puts into the Rust's files.

pub trait Ours {
    fn our_root(self) -> f64;
    fn our_hypot(self, b: f64) -> f64;
    fn our_sin(self) -> f64;
    fn our_cos(self) -> f64;
    fn our_atan2(self, x: f64) -> f64;
    fn our_acos(self) -> f64;
    fn our_asin(self) -> f64;
}

impl Ours for f64 {
    #[inline(always)]
    fn our_root(self) -> f64 {
        self.sqrt()
    }

    #[inline(always)]
    fn our_hypot(self, b: f64) -> f64 {
        self.hypot(b)
    }

    #[inline(always)]
    fn our_sin(self) -> f64 {
        self.sin()
    }

    #[inline(always)]
    fn our_cos(self) -> f64 {
        self.cos()
    }

    #[inline(always)]
    fn our_atan2(self, x: f64) -> f64 {
        self.atan2(x)
    }

    #[inline(always)]
    fn our_acos(self) -> f64 {
        self.acos()
    }

    #[inline(always)]
    fn our_asin(self) -> f64 {
        self.asin()
    }
}
