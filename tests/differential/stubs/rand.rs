// Stands for the crate rand, which only a Monte Carlo check of the Rust calls. Nothing here is ever run.

pub trait Rng {}

pub trait RngExt {
    fn random_range(&mut self, range: std::ops::Range<f64>) -> f64;
}

impl RngExt for dyn Rng + '_ {
    fn random_range(&mut self, _range: std::ops::Range<f64>) -> f64 {
        unimplemented!()
    }
}
