//! Configurations.

use crate::{Error, sys};

/// Who leads which round.
///
/// ```
/// use highway::{Error, Leaders, Limit, Settings};
///
/// // Validator 0 leads two rounds of three.
/// let told = Settings { leaders: Leaders::Table(vec![0, 0, 1]), ..Settings::of_weights(vec![1, 1]) };
/// assert!(told.to_bytes().is_ok());
/// let drawn = Settings { leaders: Leaders::Drawn([7; 32]), ..told.clone() };
/// assert!(drawn.to_bytes().is_ok());
/// let of_nobody = Settings { leaders: Leaders::Table(vec![2]), ..told };
/// assert_eq!(of_nobody.to_bytes(), Err(Error::Config(Limit::LeaderTable)));
/// ```
#[derive(Clone, Debug, PartialEq, Eq)]
pub enum Leaders {
    /// Validators by round, again from the first after the last: 1 to 4,096 entries.
    Table(Vec<u32>),
    /// Drawn by weight, from the words that this key gives.
    Drawn([u8; 32]),
}

/// What the nodes of an instance agree on before they begin.
///
/// ```
/// use highway::{Core, Error, Limit, Settings};
///
/// let settings = Settings { fault_tolerance: 1, ..Settings::of_weights(vec![4, 3, 3]) };
/// let core = Core::new(&settings.to_bytes()?)?;
/// assert_eq!(core.summary()?.journal, 0);
///
/// let light = Settings { fault_tolerance: 10, ..settings };
/// assert_eq!(light.to_bytes(), Err(Error::Config(Limit::Threshold)));
/// # Ok::<(), Error>(())
/// ```
#[derive(Clone, Debug, PartialEq, Eq)]
pub struct Settings {
    /// The weight of each validator.
    pub weights: Vec<u64>,
    /// What is said of final blocks holds while the faulty validators weigh no more than this.
    pub fault_tolerance: u64,
    /// The greatest level of a summit that is looked for: 1 to 30.
    pub levels: u8,
    /// The least exponent of a round: a round of exponent e lasts 2^e milliseconds. At least 2.
    pub min_exponent: u8,
    /// The greatest exponent of a round, at most 40.
    pub max_exponent: u8,
    /// Who leads which round.
    pub leaders: Leaders,
    /// How many vertices a journal may have.
    pub max_records: u32,
    /// How many units may wait at a time.
    pub max_parked: u32,
    /// The height of the last block, where there is one.
    pub end: Option<u64>,
}

impl Settings {
    /// Settings of validators with these weights, to be changed as a host wants: the greatest tolerance that is less
    /// than a third of the total, three levels, rounds of 1,024 milliseconds, leaders drawn by a key of zeros, as much
    /// room as 256 validators may have, no end.
    ///
    /// ```
    /// use highway::Settings;
    ///
    /// let settings = Settings::of_weights(vec![4, 3, 3]);
    /// assert_eq!((settings.fault_tolerance, settings.levels, settings.end), (3, 3, None));
    /// ```
    pub fn of_weights(weights: Vec<u64>) -> Settings {
        let total = weights.iter().fold(0, |sum: u64, weight| sum.saturating_add(*weight));
        Settings {
            weights,
            fault_tolerance: total.saturating_sub(1) / 3,
            levels: 3,
            min_exponent: 10,
            max_exponent: 20,
            leaders: Leaders::Drawn([0; 32]),
            max_records: 32_768,
            max_parked: 1_024,
            end: None,
        }
    }

    /// The bytes of the configuration, which name its instance.
    ///
    /// # Errors
    ///
    /// [`Error::Config`] names the first limit that it breaks, and [`Error::TooLong`] is for more than 1,024 weights
    /// or 4,096 entries of a table.
    ///
    /// ```
    /// use highway::{Core, Error, Limit, Settings};
    ///
    /// let bytes = Settings::of_weights(vec![4, 3, 3]).to_bytes()?;
    /// assert!(Core::new(&bytes).is_ok());
    /// assert_eq!(Settings::of_weights(vec![4, 0]).to_bytes(), Err(Error::Config(Limit::ZeroWeight(1))));
    /// # Ok::<(), Error>(())
    /// ```
    pub fn to_bytes(&self) -> Result<Vec<u8>, Error> {
        let (table, key): (&[u32], _) = match &self.leaders {
            Leaders::Table(entries) => (entries, None),
            Leaders::Drawn(key) => (&[], Some(*key)),
        };
        let fields = sys::Settings {
            ftt: self.fault_tolerance,
            end: self.end.unwrap_or(0),
            max_records: self.max_records,
            max_parked: self.max_parked,
            levels: self.levels,
            min_exponent: self.min_exponent,
            max_exponent: self.max_exponent,
            is_drawn: u8::from(key.is_some()),
            has_end: u8::from(self.end.is_some()),
            key: key.unwrap_or_default(),
        };
        sys::config(&fields, &self.weights, table)
    }
}
