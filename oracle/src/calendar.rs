//! CR 6: which times are real. A date of the Gregorian calendar, years 2000 to
//! 9999; hour at most 23, minute and second 59, milliseconds 999.

/// The days of the months, January first, of a year that has no 29 February.
const DAYS: [u64; 12] = [31, 28, 31, 30, 31, 30, 31, 31, 30, 31, 30, 31];

/// Every fourth year, but of the hundreds only every fourth.
fn leap(year: u64) -> bool {
    if year % 100 == 0 {
        year % 400 == 0
    } else {
        year % 4 == 0
    }
}

/// The days of a month from 1 to 12.
pub fn days_in(year: u64, month: u64) -> u64 {
    DAYS[month as usize - 1] + u64::from(month == 2 && leap(year))
}

/// Whether a number is YYYYMMDDHHMMSSsss (000, 2.2.2) of a real time: 17 digits,
/// taken apart from the left. No leap second (6.1).
pub fn real(time: u64) -> bool {
    let digits = time.to_string();
    if digits.len() != 17 {
        return false;
    }
    let part = |from: usize, to: usize| -> u64 { digits[from..to].parse().expect("digits") };
    let (year, month, day) = (part(0, 4), part(4, 6), part(6, 8));
    let (hour, minute, second) = (part(8, 10), part(10, 12), part(12, 14));
    // Three digits are at most 999, and four at most 9999.
    year >= 2000
        && (1..=12).contains(&month)
        && (1..=days_in(year, month)).contains(&day)
        && hour <= 23
        && minute <= 59
        && second <= 59
}

#[cfg(test)]
mod tests {
    use super::*;

    fn day(date: u64) -> bool {
        real(date * 1_000_000_000)
    }

    fn clock(clock: u64) -> bool {
        real(20_260_121_000_000_000 + clock)
    }

    #[test]
    fn days() {
        for date in [20000101, 20000229, 24000229, 20240229, 99991231, 20261231] {
            assert!(day(date), "{date}");
        }
        for date in [
            20010229, 21000229, 20260229, 20260230, 20260431, 20260631, 20260931, 20261131,
            20261321, 20260021, 20260100, 20260132, 19991231, 100000101, 0, 20261232,
        ] {
            assert!(!day(date), "{date}");
        }
        let all = |year: u64| (0..=1_299).filter(|md| day(year * 10_000 + md)).count();
        let days: usize = (2000..2400).map(all).sum();
        assert_eq!(days, 146_097);
    }

    #[test]
    fn clocks() {
        for time in [0, 235_959_999, 93_000_000, 999] {
            assert!(clock(time), "{time}");
        }
        for time in [240_000_000, 96_000_000, 95_960_000, 236_000_000] {
            assert!(!clock(time), "{time}");
        }
        assert!(!real(0) && !real(u64::MAX) && !real(99_991_231_235_959_999 + 1));
        // 16 digits, and 18
        assert!(!real(2_026_012_109_300_000) && !real(202_601_210_930_000_000));
    }
}
