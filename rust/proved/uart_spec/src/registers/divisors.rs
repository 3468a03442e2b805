//! The divisors of the usual clock that give a whole baud rate.

/// A divisor that gives a whole baud rate at the usual clock of 1,843,200 Hz without a prescaler.
// Each discriminant is the divisor, so `number` needs no second table.
#[derive(Clone, Copy, Debug, PartialEq, Eq, PartialOrd, Ord, Hash, Default)]
pub enum Divisor {
    /// 115200 baud.
    #[default]
    Divisor1 = 1,
    /// 57600 baud.
    Divisor2 = 2,
    /// 38400 baud.
    Divisor3 = 3,
    /// 28800 baud.
    Divisor4 = 4,
    /// 23040 baud.
    Divisor5 = 5,
    /// 19200 baud.
    Divisor6 = 6,
    /// 14400 baud.
    Divisor8 = 8,
    /// 12800 baud.
    Divisor9 = 9,
    /// 11520 baud.
    Divisor10 = 10,
    /// 9600 baud.
    Divisor12 = 12,
    /// 7680 baud.
    Divisor15 = 15,
    /// 7200 baud.
    Divisor16 = 16,
    /// 6400 baud.
    Divisor18 = 18,
    /// 5760 baud.
    Divisor20 = 20,
    /// 4800 baud.
    Divisor24 = 24,
    /// 4608 baud.
    Divisor25 = 25,
    /// 3840 baud.
    Divisor30 = 30,
    /// 3600 baud.
    Divisor32 = 32,
    /// 3200 baud.
    Divisor36 = 36,
    /// 2880 baud.
    Divisor40 = 40,
    /// 2560 baud.
    Divisor45 = 45,
    /// 2400 baud.
    Divisor48 = 48,
    /// 2304 baud.
    Divisor50 = 50,
    /// 1920 baud.
    Divisor60 = 60,
    /// 1800 baud.
    Divisor64 = 64,
    /// 1600 baud.
    Divisor72 = 72,
    /// 1536 baud.
    Divisor75 = 75,
    /// 1440 baud.
    Divisor80 = 80,
    /// 1280 baud.
    Divisor90 = 90,
    /// 1200 baud.
    Divisor96 = 96,
    /// 1152 baud.
    Divisor100 = 100,
    /// 960 baud.
    Divisor120 = 120,
    /// 900 baud.
    Divisor128 = 128,
    /// 800 baud.
    Divisor144 = 144,
    /// 768 baud.
    Divisor150 = 150,
    /// 720 baud.
    Divisor160 = 160,
    /// 640 baud.
    Divisor180 = 180,
    /// 600 baud.
    Divisor192 = 192,
    /// 576 baud.
    Divisor200 = 200,
    /// 512 baud.
    Divisor225 = 225,
    /// 480 baud.
    Divisor240 = 240,
    /// 450 baud.
    Divisor256 = 256,
    /// 400 baud.
    Divisor288 = 288,
    /// 384 baud.
    Divisor300 = 300,
    /// 360 baud.
    Divisor320 = 320,
    /// 320 baud.
    Divisor360 = 360,
    /// 300 baud.
    Divisor384 = 384,
    /// 288 baud.
    Divisor400 = 400,
    /// 256 baud.
    Divisor450 = 450,
    /// 240 baud.
    Divisor480 = 480,
    /// 225 baud.
    Divisor512 = 512,
    /// 200 baud.
    Divisor576 = 576,
    /// 192 baud.
    Divisor600 = 600,
    /// 180 baud.
    Divisor640 = 640,
    /// 160 baud.
    Divisor720 = 720,
    /// 150 baud.
    Divisor768 = 768,
    /// 144 baud.
    Divisor800 = 800,
    /// 128 baud.
    Divisor900 = 900,
    /// 120 baud.
    Divisor960 = 960,
    /// 100 baud.
    Divisor1152 = 1152,
    /// 96 baud.
    Divisor1200 = 1200,
    /// 90 baud.
    Divisor1280 = 1280,
    /// 80 baud.
    Divisor1440 = 1440,
    /// 75 baud.
    Divisor1536 = 1536,
    /// 72 baud.
    Divisor1600 = 1600,
    /// 64 baud.
    Divisor1800 = 1800,
    /// 60 baud.
    Divisor1920 = 1920,
    /// 50 baud.
    Divisor2304 = 2304,
    /// 48 baud.
    Divisor2400 = 2400,
    /// 45 baud.
    Divisor2560 = 2560,
    /// 40 baud.
    Divisor2880 = 2880,
    /// 36 baud.
    Divisor3200 = 3200,
    /// 32 baud.
    Divisor3600 = 3600,
    /// 30 baud.
    Divisor3840 = 3840,
    /// 25 baud.
    Divisor4608 = 4608,
    /// 24 baud.
    Divisor4800 = 4800,
    /// 20 baud.
    Divisor5760 = 5760,
    /// 18 baud.
    Divisor6400 = 6400,
    /// 16 baud.
    Divisor7200 = 7200,
    /// 15 baud.
    Divisor7680 = 7680,
    /// 12 baud.
    Divisor9600 = 9600,
    /// 10 baud.
    Divisor11520 = 11520,
    /// 9 baud.
    Divisor12800 = 12800,
    /// 8 baud.
    Divisor14400 = 14400,
    /// 6 baud.
    Divisor19200 = 19200,
    /// 5 baud.
    Divisor23040 = 23040,
    /// 4 baud.
    Divisor28800 = 28800,
    /// 3 baud.
    Divisor38400 = 38400,
    /// 2 baud.
    Divisor57600 = 57600,
}

impl Divisor {
    /// Returns the divisor as a number, as it is written to the divisor latch.
    ///
    /// # Proved
    ///
    /// - *value*: returns [`number`](crate::proved::divisors#number) `self`: a case of `Divisor` as a number.
    /// - *divides*: [`IsDivisor`](crate::proved::divisors#IsDivisor) `result`: the number divides 115,200, the baud rate of divisor 1, and fits into the divisor latch.
    /// - *once*: for each `other`: if `number other ≡ result`: `other` is `self`.
    /// - *every*: for each `n`: if [`IsDivisor`](crate::proved::divisors#IsDivisor) `n`: `(divisor : Divisor) × (number divisor ≡ n)`.
    ///
    /// <details><summary>The clauses</summary>
    ///
    /// [How to read them](crate::proved):
    ///
    /// ```text
    /// ensures value { result ≡ number self }
    /// ensures divides { IsDivisor result }
    /// ensures once { (other : Divisor) → number other ≡ result → other ≡ self }
    /// ensures every { (n : ℕ) → IsDivisor n → (divisor : Divisor) × (number divisor ≡ n) }
    /// ```
    ///
    /// </details>
    #[must_use]
    pub fn number(self) -> u16 {
        self.discriminant()
    }

    // Casts, and does nothing else, since its proof has one case for each divisor.
    fn discriminant(self) -> u16 {
        self as u16
    }
}
