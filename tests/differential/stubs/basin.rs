// Stands for the crate basin, an optimizer that only distance_for_overlap calls. Nothing here is ever run.

pub trait CostFunction {
    type Param;
    type Output;
    type Error;
    fn cost(&self, param: &Self::Param) -> Result<Self::Output, Self::Error>;
}

pub trait ConstraintDescription {
    type Borrowed<'a>;
}

pub trait Constraints {
    type Set: ConstraintDescription;
    fn constraints(&self) -> <Self::Set as ConstraintDescription>::Borrowed<'_>;
}

pub struct BoxBounds<T>(std::marker::PhantomData<T>);

impl<T> BoxBounds<T> {
    pub fn new(_lower: Option<&T>, _upper: Option<&T>) -> Self {
        unimplemented!()
    }
}

pub struct ConstraintSet<B>(std::marker::PhantomData<B>);

impl<B> ConstraintSet<B> {
    pub fn new() -> Self {
        unimplemented!()
    }

    pub fn with_bounds(self, _bounds: B) -> Self {
        unimplemented!()
    }
}

impl<B> ConstraintDescription for ConstraintSet<B> {
    type Borrowed<'a> = ConstraintSet<B>;
}

pub struct Brent;

impl Brent {
    pub fn new() -> Self {
        unimplemented!()
    }

    pub fn with_relative_position_tolerance(self, _tolerance: f64) -> Self {
        unimplemented!()
    }

    pub fn with_absolute_position_tolerance(self, _tolerance: f64) -> Self {
        unimplemented!()
    }
}

pub struct PointState;

impl PointState {
    pub fn new(_param: f64) -> Self {
        unimplemented!()
    }

    pub fn param(&self) -> &f64 {
        unimplemented!()
    }
}

pub struct Executor<C>(std::marker::PhantomData<C>);

impl<C> Executor<C> {
    pub fn new(_cost: C, _solver: Brent, _state: PointState) -> Self {
        unimplemented!()
    }

    pub fn max_iter(self, _count: u64) -> Self {
        unimplemented!()
    }

    pub fn run(self) -> Result<PointState, String> {
        unimplemented!()
    }
}
