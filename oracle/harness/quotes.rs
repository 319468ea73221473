// Our entries as replies.
use crate::Reply;
use ours::explicit_black::discount::implied_black_volatility_discounted;
use ours::explicit_black::price::black_price;
use ours::explicit_black::quote as entries;
use ours::explicit_black::refusal::Refused;
use ours::explicit_black::terms::OptionTerms;

pub fn normalised(log_moneyness: f64, price: f64) -> Reply {
    reply(entries::implied_black_volatility_normalised(log_moneyness, price))
}

pub fn quote(side: u32, price: f64, forward: f64, strike: f64, time: f64, factor: f64) -> Reply {
    reply(implied_black_volatility_discounted(OptionTerms { side, forward, strike, time }, price, factor))
}

/// The entry without a factor, which the window calls.
pub fn undiscounted(side: u32, price: f64, forward: f64, strike: f64, time: f64) -> Reply {
    reply(entries::implied_black_volatility_input(OptionTerms { side, forward, strike, time }, price))
}

pub fn price(side: u32, volatility: f64, forward: f64, strike: f64, time: f64) -> Reply {
    match black_price(OptionTerms { side, forward, strike, time }, volatility) {
        Ok(price) => Reply::value(price),
        Err(refused) => refusal(refused),
    }
}

fn refusal(refused: Refused) -> Reply {
    Reply::Refusal { number: refused.refusal.number(), count: refused.count }
}

fn reply(outcome: entries::Reply) -> Reply {
    match outcome {
        Ok(answer) => Reply::answer(answer.total, answer.volatility, answer.count),
        Err(refused) => refusal(refused),
    }
}
