//! Our code behind one interface.

use crate::Reply;

/// Our answer to a function of `vectors` (1 to 21) or of the searches (22, 23).
pub fn reply(function: u32, [a, b, c]: [f64; 3]) -> Reply {
    match function {
        1..=9 => Reply::value(layer1(function, a, b, c)),
        10..=16 => Reply::value(layer2(function, a)),
        17 => Reply::value(ours::bs_option_price::normalised_black(a, b, c)),
        18 => Reply::value(ours::bs_option_price::negative_abs_log_moneyness(a, b)),
        19 => quotes::normalised(a, b),
        _ => layer4::reply(function, a, b),
    }
}

fn layer1(function: u32, a: f64, b: f64, c: f64) -> f64 {
    use ours::arithmetic::{basic, exp, ln, mul_add, sqrt};
    match function {
        1 => sqrt::sqrt(a),
        2 => mul_add::mul_add(a, b, c),
        3 => exp::exp(a),
        4 => ln::ln(a),
        5 => ln::ln_1p(a),
        6 => basic::trunc(a),
        7 => basic::signum(a),
        8 => basic::max(a, b),
        _ => basic::min(a, b),
    }
}

fn layer2(function: u32, a: f64) -> f64 {
    use ours::special_function::{error_function, normal_distribution};
    match function {
        10 => error_function::erf_cody(a),
        11 => error_function::erfc_cody(a),
        12 => error_function::erfcx_cody(a),
        13 => error_function::erfinv(a),
        14 => normal_distribution::norm_pdf(a),
        15 => normal_distribution::norm_cdf(a),
        _ => normal_distribution::inverse_norm_cdf(a),
    }
}

mod layer4 {
    use crate::Reply;
    use ours::inverse_gaussian::curves::{Allowance, Spent};
    use ours::inverse_gaussian::{curves, quantile, survival};

    const ALLOWED: u64 = 2263;

    fn value(result: Result<f64, Spent>) -> Reply {
        match result {
            Ok(value) => Reply::value(value),
            Err(Spent) => Reply::Spent,
        }
    }

    fn root(result: Result<Option<f64>, Spent>, allowed: Allowance) -> Reply {
        let count = ALLOWED - allowed.left();
        match result {
            Ok(Some(root)) => Reply::root(root, count),
            Ok(None) => Reply::NoRoot { count },
            Err(Spent) => Reply::Spent,
        }
    }

    pub fn reply(function: u32, a: f64, b: f64) -> Reply {
        let mut allowed = Allowance::new(ALLOWED);
        match function {
            20 => value(curves::inverse_gaussian_cdf(a, b, &mut allowed).map(|evaluation| evaluation.value)),
            21 => value(curves::inverse_gaussian_survival(a, b, &mut allowed).map(|evaluation| evaluation.value)),
            22 => root(quantile::inverse_gaussian_quantile(a, b, &mut allowed), allowed),
            _ => root(survival::inverse_gaussian_quantile_from_survival(a, b, &mut allowed), allowed),
        }
    }
}

pub mod quotes {
    include!("quotes.rs");
}

pub mod sheets {
    use ours::xdr_sheet::printing::{fill, start};
    use std::io::{self, Read, Write};

    /// The bytes of the program's buffer.
    const BUFFER: usize = 4096;

    /// As the program `sheet` prints.
    pub fn print() {
        let (mut sheet, mut out, mut progress) = (Vec::new(), [0; BUFFER], start());
        io::stdin().lock().read_to_end(&mut sheet).expect("standard input can be read");
        while progress.is_some() {
            let filled = fill(&sheet, progress, &mut out);
            io::stdout().write_all(&out[..filled.count]).expect("standard output can be written");
            progress = filled.next;
        }
    }
}

pub mod ladders {
    use oracle::ladder::{Lent, Reply};
    use oracle::ladder_inputs::Ladder;
    use ours::ladder::ladder::implied_black_volatility_ladder;

    pub fn solved(l: &Ladder, lent: &mut Lent) -> Reply {
        let Lent { totals, volatilities, counts, refusals } = lent;
        let (strikes, prices) = (&l.strikes, &l.prices);
        let reply = implied_black_volatility_ladder(
            l.side,
            l.forward,
            l.time,
            strikes,
            prices,
            totals,
            volatilities,
            counts,
            refusals,
        );
        match reply {
            Ok(roots) => Reply::Solved { roots },
            Err(refused) => Reply::Refusal { number: refused.refusal.number(), count: refused.count },
        }
    }
}

pub mod windows {
    use oracle::window_inputs::WordWrite;
    use ours::cable_window::window;
    pub use ours::cable_window::window::Window;

    pub fn zeros() -> Window {
        Window::zeros()
    }

    /// No function makes a window of any bytes: it is an array of them and nothing else.
    pub fn of_bytes(bytes: [u8; 64]) -> Window {
        unsafe { std::mem::transmute(bytes) }
    }

    pub fn bytes(window: Window) -> [u8; 64] {
        window.bytes()
    }

    /// Writes to a window that is lent; what is handed back, and the bytes after it.
    pub fn write(window: &mut Window, WordWrite { offset, word }: WordWrite) -> (u32, [u8; 64]) {
        let number = window.write(offset, word).map_or_else(|refusal| refusal.number(), |()| 0);
        (number, window.bytes())
    }

    pub fn after_writes(offsets: &[u32], words: &[u32]) -> [u8; 64] {
        window::after_writes(offsets, words).bytes()
    }
}
