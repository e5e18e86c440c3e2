//! A bank or part of another size, and a table that there isn't, are refused by 4 and left as they stood; and how loud the tables are.
use gruttisol::answer::Refused;
use gruttisol::wavetable::Wavetable;

const MARK: f64 = -123.25;

#[test]
fn another_size_is_refused() {
    for n in [0, 1, 2047, 2048, 16383, 16385, 32768] {
        let mut bank = vec![MARK; n];
        assert_eq!(Wavetable::fill_bank(&mut bank), Err(Refused(4)), "{n} numbers");
        assert!(bank.iter().all(|&x| x == MARK), "{n} numbers");
    }
    for n in [0, 1, 2047, 2049, 16384] {
        let mut part = vec![MARK; n];
        assert_eq!(Wavetable::fill_table(0, &mut part), Err(Refused(4)), "{n} numbers");
        assert!(part.iter().all(|&x| x == MARK), "{n} numbers");
    }
}

#[test]
fn another_table_is_refused() {
    for table in [8, 9, 256, 1 << 32, u64::MAX] {
        let mut part = vec![MARK; Wavetable::TABLE];
        assert_eq!(Wavetable::fill_table(table, &mut part), Err(Refused(4)), "table {table}");
        assert!(part.iter().all(|&x| x == MARK), "table {table}");
    }
}

#[test]
fn a_part_is_filled_as_the_bank() {
    let mut bank = vec![MARK; Wavetable::BANK];
    Wavetable::fill_bank(&mut bank).unwrap();
    for (table, expected) in bank.chunks(Wavetable::TABLE).enumerate() {
        let mut part = vec![MARK; Wavetable::TABLE];
        Wavetable::fill_table(table as u64, &mut part).unwrap();
        assert_eq!(part, expected, "table {table}");
    }
}

/// The most volts of each table, over all its levels, in thousandths: the two pulses aren't held to 5 V.
#[test]
fn how_loud_the_tables_are() {
    let mut bank = vec![MARK; Wavetable::BANK];
    Wavetable::fill_bank(&mut bank).unwrap();
    let most = |table: &[f64]| table.iter().fold(0.0, |most: f64, x| most.max((x * 5.0).abs()));
    let loudest: Vec<u32> = bank.chunks(Wavetable::TABLE).map(|table| (most(table) * 1000.0).round() as u32).collect();
    assert_eq!(loudest, [5000, 4937, 5817, 6366, 25414, 22345, 3591, 4236]);
}
