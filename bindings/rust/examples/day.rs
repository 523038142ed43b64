//! A short day: a house is opened, a model made, cash lodged, a trade made, a security priced and lodged, and the
//! records are printed.

use domirelash::{question, Answer, Benchmark, Family, House, Marks, Model, Numbers, Refused, Side, Trade};

const JANUARY_2025: u16 = 300;

/// A table model of one set: a level rate, one tick value, and twenty scenarios of which the last is the worst for
/// those who pay.
fn model() -> Result<Model<'static>, Refused> {
    let cells = 4 * 121;
    let changes =
        (0..cells).flat_map(|_| (0..20).map(|scenario| 30_000 - 4_000 * scenario)).collect::<Vec<i32>>();
    Model::table(Numbers::new(1, 20, vec![65_000; cells], vec![9_000; cells], changes))
}

fn tell(what: &str, answer: Answer) {
    println!(
        "{what}: {} obligation {} available {} shortfall {} restriction {}",
        said(answer.number),
        answer.obligation,
        answer.available,
        answer.shortfall,
        answer.restriction
    );
}

fn said(number: u8) -> String {
    match number {
        0 => "accepted,".into(),
        _ => format!("refused by question {number} ({}),", question(number)),
    }
}

fn main() -> Result<(), Refused> {
    println!("a house of 40 accounts: {}", House::open(40, JANUARY_2025).unwrap_err());
    let mut house = House::open(3, JANUARY_2025)?;
    let model = model()?;

    let trade = Trade::new(7, Benchmark::Mibor, Side::Pay, JANUARY_2025 + 12, 100, 64_900);
    tell("a trade with nothing lodged", house.new_trade(&model, 1, trade));
    tell("cash", house.lodge_cash(&model, 1, 6_000_000));
    tell("the trade again", house.new_trade(&model, 1, trade));
    tell("a side that is none", house.new_trade(&model, 1, Trade { side: 2, number: 8, ..trade }));
    tell("too much drawn", house.draw_cash(&model, 1, 3_000_000));

    let answer = house.price(&model, 3, 9_850, 4, 1);
    println!("a price: {} month {} set {}", said(answer.number), answer.month, answer.set);
    tell("a lot of it", house.lodge_security(&model, 1, 3, 1));

    let marks = Marks { triggers: [10_000; 5], calm: [5_000; 5] };
    house.thresholds(&model, Family::Overnight, marks);
    let answer = house.volatility(&model, Family::Overnight, 1, [13_226, 13_226, 0, 0, 0]);
    println!("a rough morning: {} per cent in tenths {}", said(answer.number), answer.overnight);
    tell("the account now", house.show(&model, 1));

    print!("{}", house.report());
    Ok(())
}
