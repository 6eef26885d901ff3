//! Numbers drawn at random, as a source spells them.
use crate::paper::ORDER;
use crate::random::Random;

/// What nearly is a hexadecimal number. Each makes its row unreadable.
const NEARLY: [&str; 10] = ["0x", "0X5", "-0x5", "+0x5", "0x+5", "0x0x5", "0xg", "00x5", "0x5_", "-0xA"];

/// A number of a source, one in five in hexadecimal. Where they are not odd all are below p.
pub fn number(r: &mut Random, odd: bool) -> String {
    if r.below(5) == 0 {
        hexadecimal(r, odd)
    } else {
        decimal(r, odd)
    }
}

/// A decimal number: mostly small, sometimes near a bound, signed or with zeros.
pub fn decimal(r: &mut Random, odd: bool) -> String {
    if !odd || r.percent(40) {
        return format!("{}{}", if r.percent(20) { "-" } else { "" }, r.below(300));
    }
    let bounds = [
        "18446744069414584319",
        "18446744069414584320",
        "18446744069414584321",
        "18446744069414584322",
        "18446744073709551615",
        "18446744073709551616",
        "9223372036854775808",
        "4294967295",
        "170141183460469231731687303715884105727",
        "170141183460469231731687303715884105728",
        "170141183460469231731687303715884105729",
        "340282366920938463463374607431768211456",
        "0",
        "1",
    ];
    let digits = match r.below(3) {
        0 => (r.next() >> r.below(64)).to_string(),
        1 => (r.next() % ORDER).to_string(),
        _ => r.one(&bounds).to_string(),
    };
    let zeros = if r.percent(25) { "0".repeat(r.below(45)) } else { String::new() };
    format!("{}{zeros}{digits}", r.one(&["", "", "-", "-", "+"]))
}

/// A hexadecimal number: digits of either case, sometimes with zeros in front, up to sixteen. An odd one may have seventeen digits, be p or more, or only
/// nearly be one.
fn hexadecimal(r: &mut Random, odd: bool) -> String {
    if odd && r.percent(12) {
        return r.one(&NEARLY).to_string();
    }
    let bounds = [ORDER - 1, ORDER, u64::MAX, 1 << 63, 0];
    let value = match r.below(if odd { 8 } else { 4 }) {
        0..=2 => r.below(300) as u64,
        3 | 4 => r.next() % ORDER,
        5 => r.next() >> r.below(64),
        _ => bounds[r.below(bounds.len())],
    };
    let width = match r.below(10) {
        0 | 1 => 1 + r.below(16),
        2 if odd => 16 + r.below(2),
        2 => 16,
        _ => 1,
    };
    let upper = [0, 50, 100][r.below(3)];
    let digits = format!("{value:0width$x}");
    let digits: String = digits.chars().map(|digit| if r.percent(upper) { digit.to_ascii_uppercase() } else { digit }).collect();
    format!("0x{digits}")
}
