//! Names for numbers that a trade or a call takes. The calls take the numbers themselves, too: any number may come,
//! and is refused by its own question.

use crate::rows::Trade;

macro_rules! names {
    ($(#[$doc:meta])* $name:ident: $number:ty { $($variant:ident = $value:literal),* }) => {
        $(#[$doc])*
        #[derive(Clone, Copy, Debug, PartialEq, Eq, Hash)]
        pub enum $name { $($variant),* }

        impl From<$name> for $number {
            fn from(name: $name) -> $number {
                match name { $($name::$variant => $value),* }
            }
        }

        impl $name {
            /// The name of a number, if it has one.
            pub fn of(number: $number) -> Option<Self> {
                match number { $($value => Some($name::$variant),)* _ => None }
            }
        }
    };
}

names! {
    Benchmark: u8 { Mibor = 0, Miois = 1, Mifor = 2, ModifiedMifor = 3 }
}

names! {
    Side: u8 { Pay = 0, Receive = 1 }
}

names! {
    /// `Overnight` is MIBOR and MIOIS, `Forward` MIFOR and modified MIFOR.
    Family: u32 { Overnight = 0, Forward = 1 }
}

names! {
    /// Why an account is restricted.
    Restriction: u8 { None = 0, Own = 1, Second = 2, Both = 3 }
}

impl Benchmark {
    pub fn family(self) -> Family {
        match self {
            Benchmark::Mibor | Benchmark::Miois => Family::Overnight,
            Benchmark::Mifor | Benchmark::ModifiedMifor => Family::Forward,
        }
    }
}

impl Trade {
    /// A trade, by names or by numbers.
    pub fn new(
        number: u32,
        benchmark: impl Into<u8>,
        side: impl Into<u8>,
        maturity: u16,
        notional: u32,
        rate: u32,
    ) -> Self {
        Trade { number, benchmark: benchmark.into(), side: side.into(), maturity, notional, rate }
    }
}
