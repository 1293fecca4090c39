//! Where a number stands on an axis, and the round numbers that are written beside it.

/// Above this ratio of the largest F to the median of those above zero the axis is
/// logarithmic: the others would lie on its foot.
const SPAN: f64 = 50.0;

/// A logarithmic axis goes at most so many powers of ten below the median: what is
/// smaller is as good as zero, and would only press the others together.
const BELOW: i32 = 4;

/// A linear axis has a range between these; another range has a logarithmic one.
const RANGES: std::ops::Range<f64> = 1e-200..1e200;

/// The F axis.
#[derive(Debug, Clone, PartialEq)]
pub enum Scale {
    /// From the one number to the other.
    Linear { low: f64, high: f64, step: f64 },
    /// From the one power of ten to the other: for numbers from the first one up.
    Log { low: i32, high: i32 },
}

/// A tick: how far up it stands, from 0 to 1, and its text.
#[derive(Debug, Clone, PartialEq)]
pub struct Tick {
    pub at: f64,
    pub text: String,
}

impl Scale {
    /// The scale for these numbers, of which those that are not finite are passed over.
    pub fn of(numbers: &[f64]) -> Scale {
        let finite: Vec<f64> = numbers.iter().copied().filter(|f| f.is_finite()).collect();
        let high = finite.iter().copied().fold(0.0, f64::max);
        let low = finite.iter().copied().fold(0.0, f64::min);
        if high == low {
            return Scale::Linear { low: 0.0, high: 1.0, step: 0.2 };
        }
        let mut above: Vec<f64> = finite.iter().copied().filter(|&f| f > 0.0).collect();
        above.sort_by(f64::total_cmp);
        let median = above.get(above.len().saturating_sub(1) / 2).copied();
        let wide = median.is_some_and(|median| high / median > SPAN);
        if wide || !RANGES.contains(&(high - low)) {
            return Scale::log(above.first().copied().zip(median), high);
        }
        let step = round_step((high - low) / 6.0);
        let (low, high) = ((low / step).floor() * step, (high / step).ceil() * step);
        Scale::Linear { low, high, step }
    }

    /// Whole powers of ten about the numbers above zero, of which these are the smallest
    /// and the median; where there is none, from 1 to 10.
    fn log(above: Option<(f64, f64)>, largest: f64) -> Scale {
        let Some((smallest, median)) = above else {
            return Scale::Log { low: 0, high: 1 };
        };
        let power = |f: f64| f.log10().floor() as i32;
        let low = power(smallest).max(power(median) - BELOW);
        let high = (largest.log10().ceil() as i32).max(low + 1);
        Scale::Log { low, high }
    }

    /// How far up a number stands, from 0 to 1. An infinite one has no place, nor has one
    /// below a logarithmic axis.
    pub fn place(&self, f: f64) -> Option<f64> {
        match self {
            _ if !f.is_finite() => None,
            Scale::Linear { low, high, .. } => Some((f - low) / (high - low)),
            Scale::Log { .. } if f <= 0.0 => None,
            Scale::Log { low, high } => {
                let at = (f.log10() - f64::from(*low)) / f64::from(high - low);
                (at >= 0.0).then_some(at)
            }
        }
    }

    pub fn is_log(&self) -> bool {
        matches!(self, Scale::Log { .. })
    }

    pub fn ticks(&self) -> Vec<Tick> {
        match *self {
            Scale::Linear { low, high, step } => linear_ticks(low, high, step),
            Scale::Log { low, high } => log_ticks(low, high),
        }
    }
}

/// 1, 2 or 5 times a power of ten, not below the range.
pub fn round_step(range: f64) -> f64 {
    let power = 10f64.powi(range.log10().floor() as i32);
    let times = [1.0, 2.0, 5.0].into_iter().find(|times| times * power >= range * 0.999);
    times.unwrap_or(10.0) * power
}

fn linear_ticks(low: f64, high: f64, step: f64) -> Vec<Tick> {
    let count = ((high - low) / step).round() as usize;
    let tick = |i: usize| {
        // From a whole number of steps, so that zero is zero.
        let value = ((low / step).round() + i as f64) * step;
        Tick { at: (value - low) / (high - low), text: linear_text(value, step) }
    };
    (0..=count).map(tick).collect()
}

fn linear_text(value: f64, step: f64) -> String {
    let digits = (-step.log10().floor()).max(0.0) as usize;
    if value != 0.0 && (digits > 4 || value.abs() >= 1e6) {
        return format!("{value:.0e}");
    }
    // No minus before a zero.
    format!("{:.digits$}", if value == 0.0 { 0.0 } else { value })
}

/// Each power of ten with 2 and 5 between, or, of many, some of the powers, in round
/// steps.
fn log_ticks(low: i32, high: i32) -> Vec<Tick> {
    let every = round_step((f64::from(high - low) / 8.0).max(1.0)) as i32;
    let digits: &[u32] = if high - low <= 2 { &[1, 2, 5] } else { &[1] };
    let powers = (low..=high).filter(|power| power % every == 0);
    let ticks = powers.flat_map(|power| digits.iter().map(move |&digit| (digit, power)));
    let at = |digit: u32, power: i32| {
        (f64::from(digit).log10() + f64::from(power - low)) / f64::from(high - low)
    };
    let ticks =
        ticks.map(|(digit, power)| Tick { at: at(digit, power), text: log_text(digit, power) });
    ticks.filter(|tick| tick.at <= 1.0).collect()
}

fn log_text(digit: u32, power: i32) -> String {
    match power {
        0..=5 => format!("{digit}{}", "0".repeat(power as usize)),
        -3..=-1 => format!("0.{}{digit}", "0".repeat((-power - 1) as usize)),
        _ => format!("{digit}e{power}"),
    }
}

#[cfg(test)]
mod tests {
    use super::*;

    fn texts(scale: &Scale) -> Vec<String> {
        scale.ticks().into_iter().map(|tick| tick.text).collect()
    }

    #[test]
    fn round_numbers() {
        let scale = Scale::of(&[1.0, 4.6, 11.3]);
        assert_eq!(scale, Scale::Linear { low: 0.0, high: 12.0, step: 2.0 });
        assert_eq!(texts(&scale), ["0", "2", "4", "6", "8", "10", "12"]);
        let scale = Scale::of(&[-0.3, 0.25]);
        assert_eq!(texts(&scale), ["-0.3", "-0.2", "-0.1", "0.0", "0.1", "0.2", "0.3"]);
        assert_eq!(texts(&Scale::of(&[0.02, 7.0])), ["0.01", "0.1", "1", "10"]);
        assert_eq!(texts(&Scale::of(&[1.5, 90.0])), ["1", "2", "5", "10", "20", "50", "100"]);
        let scale = Scale::of(&[1e-300, 2.0, 2.0, 1e30]);
        assert_eq!(texts(&scale), ["1", "100000", "1e10", "1e15", "1e20", "1e25", "1e30"]);
        assert_eq!(scale.place(1e-300), None);
    }

    /// Every finite number has a place on a linear axis; no scale and no tick is a NaN, at
    /// the ends of the range either.
    #[test]
    fn odd_numbers() {
        let tiny = f64::from_bits(1);
        let lists: [&[f64]; 10] = [
            &[],
            &[0.0, -0.0],
            &[f64::INFINITY],
            &[tiny],
            &[tiny, f64::MAX],
            &[f64::MAX, -f64::MAX],
            &[-f64::MAX],
            &[-1.0],
            &[3.0, 3.0],
            &[1e-201],
        ];
        for numbers in lists {
            let scale = Scale::of(numbers);
            let ticks = scale.ticks();
            assert!((2..=12).contains(&ticks.len()), "{numbers:?}: {ticks:?}");
            assert!(ticks.iter().all(|tick| (-0.001..=1.001).contains(&tick.at)), "{ticks:?}");
            for &f in numbers {
                match scale.place(f) {
                    Some(at) => assert!((-0.001..=1.001).contains(&at), "{f} of {numbers:?}"),
                    None => assert!(f.is_infinite() || scale.is_log(), "{f} of {numbers:?}"),
                }
            }
        }
    }
}
