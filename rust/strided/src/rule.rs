//! The rules of a scatter.

/// What an element becomes of what it holds and of an update that lands on it.
///
/// A scatter takes its updates in order and goes by its rule at each of them.
/// These four are for `i32` and, by [`From`], for `f64` too, which has one more
/// in [`RuleF64`]. Stored jobs have no rule: they add.
///
/// ```
/// use strided::{Rule, ScatterPlan, ScatterSpec, StridedMut, StridedRef};
///
/// // Three soundings on a grid of three cells; two of them on the first cell.
/// let spec = ScatterSpec {
///     update_window_dims: vec![],
///     inserted_window_dims: vec![0],
///     scatter_dims_to_operand_dims: vec![0],
///     index_vector_dim: 1,
/// };
/// let plan = ScatterPlan::compile(&[3], &[1], &[3], &[1], &[3], &[1], spec)?;
/// let after = |rule: Rule| -> strided::Result<[i32; 3]> {
///     let mut grid = [50, 50, 50];
///     plan.execute_updates(
///         &mut StridedMut::new(&mut grid, &[3], &[1], 0),
///         &StridedRef::new(&[0, 0, 1], &[3], &[1], 0),
///         &StridedRef::new(&[40, 70, 60], &[3], &[1], 0),
///         rule,
///     )?;
///     Ok(grid)
/// };
/// assert_eq!(after(Rule::Add)?, [160, 110, 50]);
/// assert_eq!(after(Rule::Lowest)?, [40, 50, 50]);
/// assert_eq!(after(Rule::Highest)?, [70, 60, 50]);
/// assert_eq!(after(Rule::Replace)?, [70, 60, 50]);
/// # Ok::<(), strided::StridedError>(())
/// ```
///
/// Two ships on one `i32` grid may come in either order where both add, both
/// take the lowest or both take the highest. By other rules they may where no
/// element gets an update from both; otherwise the order can matter, and no
/// call tells:
///
/// ```
/// use strided::{Rule, ScatterPlan, ScatterSpec, StridedMut, StridedRef};
///
/// let spec = ScatterSpec {
///     update_window_dims: vec![],
///     inserted_window_dims: vec![0],
///     scatter_dims_to_operand_dims: vec![0],
///     index_vector_dim: 1,
/// };
/// let plan = ScatterPlan::compile(&[1], &[1], &[1], &[1], &[3], &[1], spec)?;
/// let after = |ships: [(Rule, i32); 2]| -> strided::Result<[i32; 3]> {
///     let mut grid = [50, 50, 50];
///     for (rule, update) in ships {
///         plan.execute_updates(
///             &mut StridedMut::new(&mut grid, &[3], &[1], 0),
///             &StridedRef::new(&[1], &[1], &[1], 0),
///             &StridedRef::new(&[update], &[1], &[1], 0),
///             rule,
///         )?;
///     }
///     Ok(grid)
/// };
/// let [north, south] = [(Rule::Lowest, 40), (Rule::Lowest, 30)];
/// assert_eq!(after([north, south])?, after([south, north])?);
///
/// let [north, south] = [(Rule::Replace, 40), (Rule::Replace, 30)];
/// assert_eq!(after([north, south])?, [50, 30, 50]);
/// assert_eq!(after([south, north])?, [50, 40, 50]);
/// # Ok::<(), strided::StridedError>(())
/// ```
#[derive(Clone, Copy, Debug, Default, Eq, Hash, PartialEq)]
pub enum Rule {
    /// The sum, of `i32` modulo 2^32, of `f64` rounded once.
    #[default]
    Add,
    /// The update where it is less than what is held, which stays otherwise.
    Lowest,
    /// The update where it is greater than what is held, which stays
    /// otherwise.
    Highest,
    /// The update. The last one that lands on an element stays there.
    Replace,
}

/// A [`Rule`] of `f64`, among which is [`Ceiling`](Self::Ceiling) with its
/// limit.
///
/// A comparison with NaN is false. So the lowest and the highest leave what is
/// held where that or the update is NaN, and under a ceiling the sum stands
/// where it or the limit is NaN. +0 and -0 are neither less nor greater than
/// each other. What stays, and what takes its place, keeps its bits, those of a
/// NaN too; which NaN a sum gives is left open.
///
/// ```
/// use strided::{Rule, RuleF64, ScatterPlan, ScatterSpec, StridedMut, StridedRef};
///
/// let spec = ScatterSpec {
///     update_window_dims: vec![],
///     inserted_window_dims: vec![0],
///     scatter_dims_to_operand_dims: vec![0],
///     index_vector_dim: 1,
/// };
/// let plan = ScatterPlan::compile(&[3], &[1], &[3], &[1], &[3], &[1], spec)?;
/// let after = |rule: RuleF64, starts: [i64; 3], updates: [f64; 3]| -> strided::Result<[f64; 3]> {
///     let mut grid = [1.0, -0.0, f64::NAN];
///     plan.execute_updates(
///         &mut StridedMut::new(&mut grid, &[3], &[1], 0),
///         &StridedRef::new(&starts, &[3], &[1], 0),
///         &StridedRef::new(&updates, &[3], &[1], 0),
///         rule,
///     )?;
///     Ok(grid)
/// };
///
/// // An update that is NaN changes nothing, and a NaN that is held stays. Of
/// // two zeros neither is the higher.
/// let [first, second, third] = after(RuleF64::Highest, [0, 1, 2], [f64::NAN, 0.0, 7.0])?;
/// assert_eq!(first, 1.0);
/// assert!(second.is_sign_negative());
/// assert!(third.is_nan());
/// // Only what replaces it takes a NaN away.
/// assert_eq!(after(Rule::Replace.into(), [2, 1, 2], [3.0, 4.0, 5.0])?, [1.0, 4.0, 5.0]);
///
/// // The ceiling holds at every update: 1 + 9 is held to 5, then 5 - 2 is 3.
/// let [first, ..] = after(RuleF64::Ceiling(5.0), [0, 0, 1], [9.0, -2.0, 1.0])?;
/// assert_eq!(first, 3.0);
/// // A limit that is NaN holds nothing back.
/// let [first, ..] = after(RuleF64::Ceiling(f64::NAN), [0, 0, 1], [9.0, -2.0, 1.0])?;
/// assert_eq!(first, 8.0);
/// # Ok::<(), strided::StridedError>(())
/// ```
#[derive(Clone, Copy, Debug, Default, PartialEq)]
pub enum RuleF64 {
    /// The sum, rounded once.
    #[default]
    Add,
    /// The update where it is less than what is held, which stays otherwise.
    Lowest,
    /// The update where it is greater than what is held, which stays
    /// otherwise.
    Highest,
    /// The update. The last one that lands on an element stays there.
    Replace,
    /// The sum, or this limit where the sum is greater than it, at every
    /// update.
    Ceiling(f64),
}

impl From<Rule> for RuleF64 {
    fn from(rule: Rule) -> Self {
        match rule {
            Rule::Add => Self::Add,
            Rule::Lowest => Self::Lowest,
            Rule::Highest => Self::Highest,
            Rule::Replace => Self::Replace,
        }
    }
}

impl Rule {
    /// The number that the library has for it.
    pub(crate) fn number(self) -> u64 {
        RuleF64::from(self).number()
    }
}

impl RuleF64 {
    /// The number that the library has for it.
    pub(crate) fn number(self) -> u64 {
        match self {
            Self::Add => 1,
            Self::Lowest => 2,
            Self::Highest => 3,
            Self::Replace => 4,
            Self::Ceiling(_) => 5,
        }
    }

    /// The limit of a ceiling; the other rules do not read one.
    pub(crate) fn limit(self) -> f64 {
        match self {
            Self::Ceiling(limit) => limit,
            _ => 0.0,
        }
    }
}
