//! Plays a script (docs/SCRIPT.md) from standard input.

use std::ffi::OsStr;
use std::fs;
use std::io::{self, BufRead, BufWriter, Write};
use std::os::unix::ffi::OsStrExt;

use plain::{
    restriction, AccountCall, Call, House, MarketCall, Model, Numbers, Record, Refusal, Refused, Reply,
    Trade, ACCOUNTS, PLACES,
};

fn main() -> io::Result<()> {
    let mut session = Session::new();
    let mut out = BufWriter::new(io::stdout().lock());
    for (index, line) in io::stdin().lock().split(b'\n').enumerate() {
        session.play(index + 1, &line?, &mut out)?;
    }
    out.flush()
}

/// Why a line cannot be read as a call.
#[derive(Clone, Copy, Debug, PartialEq, Eq)]
enum Error {
    UnknownWord,
    MissingNumber,
    NotANumber,
    NegativeNumber,
    NumberTooLarge,
    TooManyWords,
    MissingFileName,
    CannotReadFile,
    NotAModelFile,
}

impl Error {
    fn reason(self) -> &'static str {
        match self {
            Error::UnknownWord => "unknown word",
            Error::MissingNumber => "missing number",
            Error::NotANumber => "not a number",
            Error::NegativeNumber => "negative number",
            Error::NumberTooLarge => "number too large",
            Error::TooManyWords => "too many words",
            Error::MissingFileName => "missing file name",
            Error::CannotReadFile => "cannot read file",
            Error::NotAModelFile => "not a model file",
        }
    }
}

/// What a line asks for.
#[derive(Clone, Copy, Debug, PartialEq, Eq)]
enum Command<'a> {
    Open { accounts: u32, month: u16 },
    Model { file: &'a [u8] },
    Call(Call),
    Report,
}

/// The words of a text: every byte up to 32 parts them.
fn words(text: &[u8]) -> impl Iterator<Item = &[u8]> {
    text.split(|&byte| byte <= 32).filter(|word| !word.is_empty())
}

/// The sign and the digits of a number.
fn number_word(word: &[u8]) -> Option<(bool, &[u8])> {
    let (negative, digits) = match word.strip_prefix(b"-") {
        Some(digits) => (true, digits),
        None => (false, word),
    };
    (!digits.is_empty() && digits.iter().all(u8::is_ascii_digit)).then_some((negative, digits))
}

/// The value of digits, or the highest that there is if they say more.
fn value(digits: &[u8]) -> u128 {
    digits.iter().fold(0, |sum: u128, digit| sum.saturating_mul(10).saturating_add(u128::from(digit - b'0')))
}

/// The fields of a line.
struct Fields<W>(W);

impl<'a, W: Iterator<Item = &'a [u8]>> Fields<W> {
    fn number<T: TryFrom<u128>>(&mut self) -> Result<T, Error> {
        let word = self.0.next().ok_or(Error::MissingNumber)?;
        let (negative, digits) = number_word(word).ok_or(Error::NotANumber)?;
        let value = value(digits);
        if negative && value != 0 {
            return Err(Error::NegativeNumber);
        }
        value.try_into().map_err(|_| Error::NumberTooLarge)
    }

    fn five(&mut self) -> Result<[u32; 5], Error> {
        let mut numbers = [0; 5];
        for number in &mut numbers {
            *number = self.number()?;
        }
        Ok(numbers)
    }

    fn trade(&mut self) -> Result<Trade, Error> {
        Ok(Trade {
            number: self.number()?,
            benchmark: self.number()?,
            side: self.number()?,
            maturity: self.number()?,
            notional: self.number()?,
            fixed_rate: self.number()?,
        })
    }

    fn command(&mut self, word: &[u8]) -> Result<Command<'a>, Error> {
        let command = match word {
            b"open" => Command::Open { accounts: self.number()?, month: self.number()? },
            b"model" => Command::Model { file: self.0.next().ok_or(Error::MissingFileName)? },
            b"report" => Command::Report,
            b"set" | b"price" | b"step-up" | b"averages" | b"thresholds" | b"check" | b"close" | b"month" => {
                Command::Call(Call::Market(self.market_call(word)?))
            }
            b"trade" | b"end" | b"lodge-cash" | b"draw-cash" | b"lodge-security" | b"draw-security"
            | b"show" => {
                let account = self.number()?;
                Command::Call(Call::Account { account, call: self.account_call(word)? })
            }
            _ => return Err(Error::UnknownWord),
        };
        match self.0.next() {
            None => Ok(command),
            Some(_) => Err(Error::TooManyWords),
        }
    }

    fn market_call(&mut self, word: &[u8]) -> Result<MarketCall, Error> {
        Ok(match word {
            b"set" => MarketCall::Set { set: self.number()? },
            b"price" => MarketCall::Price {
                security: self.number()?,
                price: self.number()?,
                haircut: self.number()?,
                listed: self.number()?,
            },
            b"step-up" => MarketCall::StepUp { per_cent: self.number()? },
            b"averages" => {
                MarketCall::Averages { family: self.number()?, margin: self.number()?, gross: self.number()? }
            }
            b"thresholds" => MarketCall::Thresholds {
                family: self.number()?,
                triggers: self.five()?,
                calm_marks: self.five()?,
            },
            b"check" => {
                MarketCall::Check { family: self.number()?, slot: self.number()?, returns: self.five()? }
            }
            b"close" => MarketCall::Close,
            b"month" => MarketCall::Month { month: self.number()? },
            _ => return Err(Error::UnknownWord),
        })
    }

    fn account_call(&mut self, word: &[u8]) -> Result<AccountCall, Error> {
        Ok(match word {
            b"trade" => AccountCall::Trade(self.trade()?),
            b"end" => AccountCall::End { number: self.number()? },
            b"lodge-cash" => AccountCall::LodgeCash { amount: self.number()? },
            b"draw-cash" => AccountCall::DrawCash { amount: self.number()? },
            b"lodge-security" => {
                AccountCall::LodgeSecurity { security: self.number()?, lots: self.number()? }
            }
            b"draw-security" => AccountCall::DrawSecurity { security: self.number()?, lots: self.number()? },
            b"show" => AccountCall::Show,
            _ => return Err(Error::UnknownWord),
        })
    }
}

/// Why a model file gives no model.
#[derive(Clone, Copy, Debug, PartialEq, Eq)]
enum Fault {
    Malformed,
    Refused(Refused),
}

impl From<Refused> for Fault {
    fn from(refused: Refused) -> Self {
        Fault::Refused(refused)
    }
}

/// The words of a model file.
struct ModelText<'a>(std::iter::Peekable<Box<dyn Iterator<Item = &'a [u8]> + 'a>>);

impl<'a> ModelText<'a> {
    fn new(text: &'a [u8]) -> Self {
        let words: Box<dyn Iterator<Item = &'a [u8]>> = Box::new(words(text));
        ModelText(words.peekable())
    }

    fn read(&mut self) -> Result<Model, Fault> {
        let model = if self.0.next_if_eq(&b"joined".as_slice()).is_some() {
            let first = self.single()?;
            Model::joined(first, self.single()?)?
        } else {
            self.single()?
        };
        match self.0.next() {
            None => Ok(model),
            Some(_) => Err(Fault::Malformed),
        }
    }

    /// The next word, if it is a number.
    fn number(&mut self) -> Option<(bool, &'a [u8])> {
        let number = number_word(self.0.peek()?)?;
        self.0.next();
        Some(number)
    }

    /// A table or knot model, as far as its text goes.
    fn single(&mut self) -> Result<Model, Fault> {
        let is_table = match self.0.next() {
            Some(b"table") => true,
            Some(b"knot") => false,
            _ => return Err(Fault::Malformed),
        };
        let mut count = || self.number().map(unsigned).ok_or(Fault::Malformed);
        let (sets, scenarios) = (count()?, count()?);
        Numbers::check_counts(sets, scenarios)?;

        let cells = sets as usize * 4 * if is_table { 121 } else { 12 };
        let called_for = cells * (scenarios as usize + 2);
        let wrong_length = Refused { number: Refusal::Lengths.number(), place: None };

        let words: Vec<_> = std::iter::from_fn(|| self.number()).take(called_for + 1).collect();
        if words.len() > called_for {
            return Err(wrong_length.into());
        }
        if !matches!(self.0.peek(), None | Some(&(b"table" | b"knot"))) {
            return Err(Fault::Malformed);
        }
        if words.len() < called_for {
            return Err(wrong_length.into());
        }
        let (rates, rest) = words.split_at(cells);
        let (ticks, changes) = rest.split_at(cells);
        let numbers = Numbers {
            sets,
            scenarios,
            rates: rates.iter().copied().map(unsigned_or_out).collect(),
            ticks: ticks.iter().copied().map(unsigned_or_out).collect(),
            changes: changes.iter().copied().map(signed).collect(),
        };
        Ok(if is_table { Model::table(numbers)? } else { Model::knots(numbers)? })
    }
}

/// A count: 0 if it is negative.
fn unsigned((negative, digits): (bool, &[u8])) -> u32 {
    if negative {
        0
    } else {
        value(digits).try_into().unwrap_or(u32::MAX)
    }
}

/// A rate or tick value: out of range if it is negative.
fn unsigned_or_out((negative, digits): (bool, &[u8])) -> u32 {
    match value(digits) {
        value if negative && value != 0 => u32::MAX,
        value => value.try_into().unwrap_or(u32::MAX),
    }
}

/// A change or shock.
fn signed((negative, digits): (bool, &[u8])) -> i32 {
    let size = value(digits).try_into().unwrap_or(i32::MAX);
    if negative {
        -size
    } else {
        size
    }
}

/// A house, its tables and the model in use.
struct Session {
    house: House,
    records: Vec<Record>,
    trades: Vec<Trade>,
    model: Model,
}

impl Session {
    fn new() -> Self {
        let zeros = Numbers {
            sets: 1,
            scenarios: 20,
            rates: vec![0; 484],
            ticks: vec![0; 484],
            changes: vec![0; 484 * 20],
        };
        Session {
            house: House::unopened(),
            records: vec![Record::default(); 1],
            trades: vec![Trade::default(); PLACES],
            model: Model::table(zeros).expect("zeros are in range"),
        }
    }

    fn play(&mut self, number: usize, line: &[u8], out: &mut impl Write) -> io::Result<()> {
        let text = line.split(|&byte| byte == b'#').next().unwrap_or_default();
        let mut words = words(text);
        let Some(word) = words.next() else {
            return Ok(());
        };
        let name = String::from_utf8_lossy(word);
        match Fields(words).command(word) {
            Err(error) => writeln!(out, "{number} error {}", error.reason()),
            Ok(Command::Open { accounts, month }) => {
                writeln!(out, "{number} open {}", self.open(accounts, month))
            }
            Ok(Command::Model { file }) => match self.load(file) {
                Err(error) => writeln!(out, "{number} error {}", error.reason()),
                Ok(Ok(())) => writeln!(out, "{number} model 0"),
                Ok(Err(Refused { number: refusal, place: None })) => {
                    writeln!(out, "{number} model {refusal}")
                }
                Ok(Err(Refused { number: refusal, place: Some(place) })) => {
                    writeln!(out, "{number} model {refusal} {place}")
                }
            },
            Ok(Command::Report) => self.report(number, out),
            Ok(Command::Call(call)) => {
                match self.house.answer(&self.model, &mut self.records, &mut self.trades, call) {
                    Reply::Account(it) => writeln!(
                        out,
                        "{number} {name} {} {} {} {} {}",
                        it.number, it.obligation, it.available, it.shortfall, it.restriction
                    ),
                    Reply::Market(it) => writeln!(
                        out,
                        "{number} {name} {} {} {} {} {}",
                        it.number, it.set, it.month, it.volatility[0], it.volatility[1]
                    ),
                }
            }
        }
    }

    /// Opens on new tables; these take the place of the old ones if the opening is accepted.
    fn open(&mut self, accounts: u32, month: u16) -> u8 {
        let length = accounts.min(ACCOUNTS) as usize;
        let mut records = vec![Record::default(); length];
        let mut trades = vec![Trade::default(); PLACES * length];
        let number = self.house.open(accounts, month, &mut records, &mut trades);
        if number == 0 {
            self.records = records;
            self.trades = trades;
        }
        number
    }

    fn load(&mut self, file: &[u8]) -> Result<Result<(), Refused>, Error> {
        let text = fs::read(OsStr::from_bytes(file)).map_err(|_| Error::CannotReadFile)?;
        let model = ModelText::new(&text).read();
        match model {
            Ok(model) => {
                self.model = model;
                Ok(Ok(()))
            }
            Err(Fault::Refused(refused)) => Ok(Err(refused)),
            Err(Fault::Malformed) => Err(Error::NotAModelFile),
        }
    }

    fn report(&self, number: usize, out: &mut impl Write) -> io::Result<()> {
        let market = self.house.stand();
        writeln!(
            out,
            "{number} report {} {} {} {} {}",
            self.house.accounts(),
            market.set,
            market.month,
            market.volatility[0],
            market.volatility[1]
        )?;
        let heading = ["obligation", "available", "shortfall"];
        report_line(out, "account", heading, "restriction", "trades")?;
        for (account, record) in self.records.iter().enumerate() {
            let figures = [record.obligation, record.available, record.shortfall];
            let flags = match restriction(record) {
                0 => "none",
                1 => "own",
                2 => "second",
                _ => "both",
            };
            report_line(
                out,
                &account.to_string(),
                figures.map(|figure| figure.to_string()).each_ref().map(String::as_str),
                flags,
                &record.trades.to_string(),
            )?;
        }
        Ok(())
    }
}

fn report_line(
    out: &mut impl Write,
    account: &str,
    [obligation, available, shortfall]: [&str; 3],
    restriction: &str,
    trades: &str,
) -> io::Result<()> {
    writeln!(
        out,
        "{account:>7} {obligation:>19} {available:>19} {shortfall:>19}  {restriction:<11} {trades:>6}"
    )
}

#[cfg(test)]
mod tests {
    use super::*;

    fn error(line: &str) -> Option<Error> {
        let mut words = words(line.as_bytes());
        let word = words.next().unwrap();
        Fields(words).command(word).err()
    }

    #[test]
    fn errors_of_a_line() {
        for (line, reason) in [
            ("Show 1", Error::UnknownWord),
            ("show", Error::MissingNumber),
            ("show x", Error::NotANumber),
            ("show -1", Error::NegativeNumber),
            ("show 4294967296", Error::NumberTooLarge),
            ("show 1 2", Error::TooManyWords),
            ("close 1", Error::TooManyWords),
            ("trade 1 7 256 -1 x", Error::NumberTooLarge),
            ("show +5", Error::NotANumber),
            ("show -", Error::NotANumber),
            ("model", Error::MissingFileName),
            ("model a b", Error::TooManyWords),
        ] {
            assert_eq!(error(line), Some(reason), "{line}");
        }
        assert_eq!(error("show -0"), None);
        assert_eq!(error("show 000000000000000000000000000000000000000000000000000000000007"), None);
    }

    #[test]
    fn texts_of_a_model() {
        let knot = |rates: &str, rest: usize| format!("knot 1 1 {rates}{}", " 0".repeat(rest));
        let good = knot("0", 143);
        let refused = |number, place| Err(Fault::Refused(Refused { number, place }));
        for (text, answer) in [
            ("knot 9 20 and so on".into(), refused(31, None)),
            ("knot 9".into(), Err(Fault::Malformed)),
            ("knot 1 1 5 5 5".into(), refused(32, None)),
            ("knot 1 1 5 5 5 end".into(), Err(Fault::Malformed)),
            ("knot 1 1 5 5 5 knot".into(), refused(32, None)),
            (format!("{good} 0 end"), refused(32, None)),
            (format!("{good} knot"), Err(Fault::Malformed)),
            (format!("knot 1 1{} -1{}", " 5".repeat(47), " 0".repeat(96)), refused(33, Some(47))),
            (format!("joined {good}"), Err(Fault::Malformed)),
            (format!("joined {good} 0 {good}"), refused(32, None)),
            (format!("joined {} table 0 0", knot("200001", 143)), refused(33, Some(0))),
            (format!("joined {good} {good} {good}"), Err(Fault::Malformed)),
            (format!("joined {good} {good}"), Ok((1, 2))),
            (good.clone(), Ok((1, 1))),
        ] {
            let model = ModelText::new(text.as_bytes()).read();
            assert_eq!(model.map(|it| (it.sets(), it.scenarios())), answer, "{text}");
        }
    }
}
