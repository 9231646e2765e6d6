//! Legal supply (RULES 5), and whether a trace is legal.

use crate::numbers::{Interface, Refusal};

/// The most trace bytes.
pub const BYTES: usize = 65_536;

/// Each period with a slot in the trace keeps its promise: of its first Δ places, Θ or more are supplied or can't be seen from the trace.
pub fn legal(interface: &Interface, offset: u64, trace: &[u8]) -> bool {
    let (period, deadline) = (interface.period as u64, interface.deadline as u64);
    let begin = offset;
    let end = offset + trace.len() as u64;
    let mut first = 0;
    while first < end {
        let inside = first.max(begin)..(first + deadline).min(end).max(begin);
        let outside = deadline - (inside.end.max(inside.start) - inside.start);
        let supplied = inside.filter(|slot| trace[(slot - begin) as usize] == 1).count() as u64;
        if supplied + outside < interface.capacity as u64 {
            return false;
        }
        first += period;
    }
    true
}

/// 13 for a trace that is too long or has another byte than 0 and 1 (RULES 12).
pub fn check(trace: &[u8]) -> Result<(), Refusal> {
    if trace.len() > BYTES || trace.iter().any(|&byte| byte > 1) {
        return Err(13);
    }
    Ok(())
}

/// The operation: 9 by the interface or the offset, then 13 (RULES 13).
pub fn answer(interface: &Interface, offset: u64, trace: &[u8]) -> Result<bool, Refusal> {
    interface.check()?;
    if offset >= interface.period as u64 {
        return Err(9);
    }
    check(trace)?;
    Ok(legal(interface, offset, trace))
}

/// A legal trace of t slots with the fewest supplied, and its offset: it begins where a period's capacity has just been
/// given as early as it can be, and every later period gives it as late as it can.
pub fn worst(interface: &Interface, t: u64) -> (u64, Vec<u8>) {
    let (period, capacity, deadline) = (interface.period as u64, interface.capacity as u64, interface.deadline as u64);
    let offset = capacity % period;
    let row = (0..t).map(|slot| {
        let place = (offset + slot) % period;
        let starts_full = capacity == period || offset + slot >= period;
        (starts_full && deadline - capacity <= place && place < deadline) as u8
    });
    (offset, row.collect())
}

#[cfg(test)]
mod tests {
    use super::*;
    use crate::supply::supply;

    #[test]
    fn figure_12() {
        let interface = Interface::new(6, 2, 4);
        let row = [0, 0, 0, 0, 0, 0, 1, 1];
        assert!(legal(&interface, 2, &row));
        assert!(!legal(&interface, 0, &row));
        assert!(!legal(&interface, 3, &row));
    }

    /// The same by looking at each place of each period (RULES 5).
    fn legal_by_places(interface: &Interface, offset: u64, trace: &[u8]) -> bool {
        let (period, deadline) = (interface.period as u64, interface.deadline as u64);
        let touched: std::collections::BTreeSet<u64> = (0..trace.len() as u64).map(|i| (offset + i) / period).collect();
        touched.iter().all(|k| {
            let owed = (0..deadline).filter(|place| {
                let slot = (k * period + place) as i64 - offset as i64;
                slot < 0 || slot >= trace.len() as i64 || trace[slot as usize] == 1
            });
            owed.count() as u64 >= interface.capacity as u64
        })
    }

    #[test]
    fn legality_is_what_the_rules_say_place_by_place() {
        for period in 1..=4 {
            for deadline in 1..=period {
                for capacity in 0..=deadline {
                    let interface = Interface::new(period, capacity, deadline);
                    for offset in 0..period as u64 {
                        for length in 0..=9 {
                            for bits in 0..1u32 << length {
                                let row: Vec<u8> = (0..length).map(|i| (bits >> i & 1) as u8).collect();
                                assert_eq!(legal(&interface, offset, &row), legal_by_places(&interface, offset, &row));
                            }
                        }
                    }
                }
            }
        }
    }

    #[test]
    fn the_worst_trace_is_legal_and_gives_the_supply() {
        for period in 1..=9 {
            for deadline in 1..=period {
                for capacity in 0..=deadline {
                    let interface = Interface::new(period, capacity, deadline);
                    for t in 0..50 {
                        let (offset, row) = worst(&interface, t);
                        assert!(legal(&interface, offset, &row));
                        assert_eq!(row.iter().map(|&b| b as u64).sum::<u64>(), supply(&interface, t));
                    }
                }
            }
        }
    }
}
