//! Elements whose `+` is a rule of document 02, so that the Rust, which puts
//! an update on an element by `+`, combines by that rule: `self` is what the
//! element holds, `update` what lands on it.

use std::ops::Add;

/// The update if it is less.
#[derive(Clone, Copy, PartialEq)]
#[repr(transparent)]
pub struct Lowest<T>(pub T);

/// The update if it is greater.
#[derive(Clone, Copy, PartialEq)]
#[repr(transparent)]
pub struct Highest<T>(pub T);

/// The update.
#[derive(Clone, Copy, PartialEq)]
#[repr(transparent)]
pub struct Replace<T>(pub T);

/// The sum, or the limit where the sum is greater. Every element of a call
/// carries the call's limit.
#[derive(Clone, Copy, PartialEq)]
pub struct Ceiling {
    pub value: f64,
    pub limit: f64,
}

impl<T: PartialOrd> Add for Lowest<T> {
    type Output = Self;

    fn add(self, update: Self) -> Self {
        if update.0 < self.0 {
            update
        } else {
            self
        }
    }
}

impl<T: PartialOrd> Add for Highest<T> {
    type Output = Self;

    fn add(self, update: Self) -> Self {
        if update.0 > self.0 {
            update
        } else {
            self
        }
    }
}

impl<T> Add for Replace<T> {
    type Output = Self;

    fn add(self, update: Self) -> Self {
        update
    }
}

impl Add for Ceiling {
    type Output = Self;

    fn add(self, update: Self) -> Self {
        let sum = self.value + update.value;
        let value = if sum > self.limit { self.limit } else { sum };
        Ceiling { value, ..self }
    }
}
