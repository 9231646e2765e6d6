//! Supply of an interface (RULES 6).

use crate::numbers::{Interface, Refusal, LIMIT};

/// The closed form: the units of the whole periods, and what a last one has given since its gap ended.
pub fn supply(interface: &Interface, t: u64) -> u64 {
    let (period, capacity, deadline) = (interface.period as i64, interface.capacity as i64, interface.deadline as i64);
    let t = t as i64;
    if t < deadline - capacity {
        return 0;
    }
    let whole = (t - (deadline - capacity)) / period;
    let rest = t - (period + deadline - 2 * capacity) - whole * period;
    (whole * capacity + rest.max(0)) as u64
}

/// The operation: 9 by the interface, then 9 by t (RULES 13).
pub fn answer(interface: &Interface, t: u64) -> Result<u64, Refusal> {
    interface.check()?;
    if t > LIMIT {
        return Err(9);
    }
    Ok(supply(interface, t))
}

#[cfg(test)]
mod tests {
    use super::*;
    use crate::trace;

    #[test]
    fn figures_1_to_6() {
        let found: Vec<u64> = [6, 7, 8, 12, 14].iter().map(|&t| supply(&Interface::new(6, 2, 4), t)).collect();
        assert_eq!(found, [0, 1, 2, 2, 4]);
        assert_eq!(supply(&Interface::new(6, 3, 6), 14), 5);
    }

    /// The closed form against its meaning: every trace is tried at every offset, and the emptiest legal one counts.
    #[test]
    fn supply_is_the_least_over_all_legal_traces() {
        for period in 1..=5 {
            for deadline in 1..=period {
                for capacity in 0..=deadline {
                    let interface = Interface::new(period, capacity, deadline);
                    for t in 0..=12u32 {
                        assert_eq!(least_by_trying(&interface, t), supply(&interface, t as u64), "{interface:?} at {t}");
                    }
                }
            }
        }
    }

    fn least_by_trying(interface: &Interface, t: u32) -> u64 {
        let mut least = u64::MAX;
        for offset in 0..interface.period {
            for bits in 0..1u32 << t {
                let row: Vec<u8> = (0..t).map(|i| (bits >> i & 1) as u8).collect();
                if trace::legal(interface, offset as u64, &row) {
                    least = least.min(bits.count_ones() as u64);
                }
            }
        }
        least
    }
}
