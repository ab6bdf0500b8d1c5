//! The second solver's big integers, against the built-in ones and by identities beyond them.

use crate::report::{demand, equal, Group, Outcome, Sums};
use questions::random::Random;
use reference::big::Big;

const CASES: usize = 2_000;
const SEED: u64 = 2;

pub fn run(sums: &mut Sums) {
    let mut group = Group::new("big integers");
    let mut random = Random::new(SEED);
    for number in 0..CASES {
        let (a, b) = (operand(&mut random), operand(&mut random));
        group.case(&format!("{a} and {b}"), || against_builtin(a, b));
        let (a, b, c) = (large(&mut random), large(&mut random), large(&mut random));
        group.case(&format!("large, number {number}"), || {
            identities(&a, &b, &c)
        });
    }
    group.case("factorial of 60", factorial);
    group.case("limbs of ones", limbs_of_ones);
    group.finish(sums);
}

/// A number of up to 62 bits, often short or beside a power of two.
fn operand(random: &mut Random) -> i128 {
    let size = match random.between(0, 3) {
        0 => i128::from(random.between(0, 3)),
        1 => (1 << random.between(0, 61)) + i128::from(random.between(-1, 1)),
        _ => i128::from(random.word() >> random.between(2, 63)),
    };
    if random.once_in(2) {
        -size
    } else {
        size
    }
}

fn large(random: &mut Random) -> Big {
    let count = random.between(0, 12);
    (0..count).fold(Big::from(operand(random)), |product, _| {
        &(&product * &Big::from(operand(random))) + &Big::from(operand(random))
    })
}

fn against_builtin(a: i128, b: i128) -> Outcome {
    let (big_a, big_b) = (Big::from(a), Big::from(b));
    equal("sum", &Big::from(a + b), &(&big_a + &big_b))?;
    equal("difference", &Big::from(a - b), &(&big_a - &big_b))?;
    equal("product", &Big::from(a * b), &(&big_a * &big_b))?;
    equal("order", &a.cmp(&b), &big_a.cmp(&big_b))?;
    equal("negative", &Big::from(-a), &-&big_a)?;
    equal(
        "back",
        &i64::try_from(a * b).ok(),
        &(&big_a * &big_b).to_i64(),
    )?;
    equal("gcd", &Big::from(gcd(a, b)), &big_a.gcd(&big_b))?;
    let numerator = a * b + 1;
    if b != 0 {
        let expected = (Big::from(numerator / b), Big::from(numerator % b));
        equal("division", &expected, &Big::from(numerator).div_rem(&big_b))?;
    }
    if a != 0 {
        equal(
            "division",
            &(Big::from(b / a), Big::from(b % a)),
            &big_b.div_rem(&big_a),
        )?;
    }
    Ok(())
}

fn gcd(a: i128, b: i128) -> i128 {
    match b {
        0 => a.abs(),
        _ => gcd(b, a % b),
    }
}

/// Laws of whole numbers, for operands of any size.
fn identities(a: &Big, b: &Big, c: &Big) -> Outcome {
    equal("a (b + c)", &(&(a * b) + &(a * c)), &(a * &(b + c)))?;
    equal("(a - b) + b", a, &(&(a - b) + b))?;
    equal("a < b", &(a < b), &(a - b).is_negative())?;
    if b.is_zero() {
        return Ok(());
    }
    let (quotient, remainder) = a.div_rem(b);
    equal("q b + r", a, &(&(&quotient * b) + &remainder))?;
    demand(remainder.abs() < b.abs(), "a remainder too large")?;
    let sign = remainder.is_zero() || remainder.is_negative() == a.is_negative();
    demand(sign, "a remainder of the other sign")?;
    equal(
        "(a b) / b",
        &(a.clone(), Big::from(0i64)),
        &(a * b).div_rem(b),
    )?;
    let common = &(a * c).gcd(&(b * c));
    equal("gcd(a c, b c)", &(&a.gcd(b) * &c.abs()), common)
}

/// 60! by its factors, against its known digits and taken apart again.
fn factorial() -> Outcome {
    let digits: [i128; 3] = [
        83_209_871_127_413_901_442_763_411,
        8_322_336_438_075_417_260_636_124_595,
        2_449_277_696_409_600_000_000_000_000,
    ];
    let base = Big::from(10i128.pow(28));
    let known = digits.iter().fold(Big::from(0i64), |high, &low| {
        &(&high * &base) + &Big::from(low)
    });
    let factors: Vec<Big> = (1..=60i64).map(Big::from).collect();
    let product = factors.iter().fold(Big::from(1i64), |all, one| &all * one);
    equal("product", &known, &product)?;
    let rest = factors.iter().rev().try_fold(product, |rest, factor| {
        let (quotient, remainder) = rest.div_rem(factor);
        remainder.is_zero().then_some(quotient)
    });
    equal("what is left", &Some(Big::from(1i64)), &rest)
}

/// (2^96 - 1)^2 = 2^192 - 2^97 + 1: every limb guess of the division is at its limit.
fn limbs_of_ones() -> Outcome {
    let one = Big::from(1i64);
    let power = |bits: u32| (0..bits).fold(one.clone(), |all, _| &all + &all);
    let ones = &power(96) - &one;
    let square = &(&power(192) - &power(97)) + &one;
    equal("square", &square, &(&ones * &ones))?;
    let expected = (ones.clone(), &ones - &one);
    equal(
        "division",
        &expected,
        &(&(&square + &ones) - &one).div_rem(&ones),
    )
}
