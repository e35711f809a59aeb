//! Why `Display` keeps literals of more than 128 bits from the original's parser, by `_` between their digits: as plain digits some are read
//! as another value. The parser makes a u128 of a literal and shifts by its length; random.rs makes none of 128 bits, where it would panic
//! in a build that checks overflow.
use crate::{back, parser};
use netkat::{Exp, Expr, Names, Pattern};
use std::collections::HashMap;

/// The bits of the parser's number.
pub const NUMBER_BITS: usize = 128;
const LENGTHS: std::ops::RangeInclusive<usize> = NUMBER_BITS..=192;

#[derive(Debug, PartialEq)]
enum Outcome {
    Refused,
    OtherValue,
    Read,
}

/// Of plain digits: zero is read. Where the value fits the bits from 128 on, those are read as the lowest once more. Others are refused.
fn expected(bits: &[bool]) -> Outcome {
    match bits.iter().rposition(|bit| *bit) {
        None => Outcome::Read,
        Some(highest) if highest < bits.len() - NUMBER_BITS => Outcome::OtherValue,
        Some(_) => Outcome::Refused,
    }
}

fn outcome(text: &str, policy: &Exp, numbers: &HashMap<String, u16>) -> Outcome {
    match parser::parse_expressions(text) {
        Err(_) => Outcome::Refused,
        Ok(list) if back::convert(&list[0], numbers) == back::tests_as_matches(policy) => Outcome::Read,
        Ok(_) => Outcome::OtherValue,
    }
}

/// Every length with each single bit, no bit and all bits, as an assignment, a test and a match. False if one is read otherwise than
/// expected.
pub fn compare(names: &Names, numbers: &HashMap<String, u16>) -> bool {
    let (mut refused, mut other, mut read, mut differences) = (0, 0, 0, 0);
    for length in LENGTHS {
        let single = (0..length).map(|standing| (0..length).map(|i| i == standing).collect());
        for bits in single.chain([vec![false; length], vec![true; length]]) {
            let end = length as u32;
            let range_match = Expr::bit_range_match(0, end, Pattern::Exact(bits.clone()));
            for policy in [Expr::bit_range_assign(0, end, bits.clone()), Expr::var_test(0, bits.clone()), range_match] {
                let text = policy.display(names).to_string();
                let plain = outcome(&text.replace('_', ""), &policy, numbers);
                let kept = length == NUMBER_BITS || outcome(&text, &policy, numbers) == Outcome::Refused;
                if plain != expected(&bits) || !kept {
                    println!("{plain:?} as plain digits: {text}");
                    differences += 1;
                }
                match plain {
                    Outcome::Refused => refused += 1,
                    Outcome::OtherValue => other += 1,
                    Outcome::Read => read += 1,
                }
            }
        }
    }
    println!(
        "literals of 128 to 192 bits as plain digits: {refused} refused, {other} read as another value, {read} zeros read; \
         {differences} differences"
    );
    differences == 0
}
