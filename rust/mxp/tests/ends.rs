//! Ends at the edges of their parts: their order, their decimal and hex digits, and the numbers they come from.

use mxp::End;

/// Ends of every number of parts, rising, with the digits that whole-number arithmetic elsewhere gives.
const EDGES: [(&str, &str); 10] = [
    ("0", "0"),
    ("1", "1"),
    ("16777215", "ffffff"),
    ("16777216", "1000000"),
    ("18446744073709551615", "ffffffffffffffff"),
    ("18446744073709551616", "10000000000000000"),
    ("340282366920938463463374607431768211455", "ffffffffffffffffffffffffffffffff"),
    ("340282366920938463463374607431768211456", "100000000000000000000000000000000"),
    ("680564733841876926926749214863536422910", "1fffffffffffffffffffffffffffffffe"),
    ("87112285931760246646623899502532662132735", "ffffffffffffffffffffffffffffffffff"),
];

/// The end of some hex digits, by way of its cell.
fn end_of(hex: &str) -> End {
    let digits = format!("{hex:0>34}");
    End::from_be_bytes(std::array::from_fn(|at| {
        u8::from_str_radix(&digits[2 * at..2 * at + 2], 16).expect("hex digits")
    }))
}

/// Numbers of 128 bits around each power of two and of ten.
fn numbers() -> impl Iterator<Item = u128> {
    let powers = (0..128).map(|bit| 1 << bit).chain((0..39).map(|places| 10_u128.pow(places)));
    powers.flat_map(|power| [power - 1, power, power + 1]).chain([u128::MAX])
}

#[test]
fn ends_print_in_decimal_and_hex() {
    for (decimal, hex) in EDGES {
        let end = end_of(hex);
        assert_eq!((end.to_string().as_str(), format!("{end:x}").as_str()), (decimal, hex));
        assert_eq!(format!("{end:?}"), format!("End({decimal})"));
    }
}

#[test]
fn ends_print_as_numbers_of_128_bits_do() {
    for number in numbers() {
        let end = End::from(number);
        assert_eq!(format!("{end} {end:x} {end:#x}"), format!("{number} {number:x} {number:#x}"));
        assert_eq!(format!("{end:>42}|{end:<+42}|{end:042}"), format!("{number:>42}|{number:<+42}|{number:042}"));
        assert_eq!(format!("{end:>42x}|{end:#042x}"), format!("{number:>42x}|{number:#042x}"));
    }
}

#[test]
fn a_top_byte_keeps_width_and_prefix() {
    let end = end_of("1fffffffffffffffffffffffffffffffe");
    assert_eq!(format!("{end:>36x}"), "   1fffffffffffffffffffffffffffffffe");
    assert_eq!(format!("{end:#037x}"), "0x001fffffffffffffffffffffffffffffffe");
    assert_eq!(format!("{end:041}"), "00680564733841876926926749214863536422910");
}

#[test]
fn ends_are_ordered_as_numbers() {
    let ends = EDGES.map(|(_, hex)| end_of(hex));
    for (i, a) in ends.iter().enumerate() {
        for (j, b) in ends.iter().enumerate() {
            assert_eq!((a.cmp(b), a == b), (i.cmp(&j), i == j), "{a} beside {b}");
        }
    }
}

#[test]
fn ends_below_2_to_24_are_in_bounds() {
    for (decimal, hex) in EDGES {
        let below = decimal.parse::<u128>().is_ok_and(|number| number < 16_777_216);
        assert_eq!(end_of(hex).in_bounds(), below, "{decimal}");
    }
    assert_eq!(End::BOUND, End::from(16_777_216_u64));
}

#[test]
fn ends_become_numbers_where_they_fit() {
    for (decimal, hex) in EDGES {
        let end = end_of(hex);
        assert_eq!(u64::try_from(end).ok(), decimal.parse().ok());
        assert_eq!(u128::try_from(end).ok(), decimal.parse().ok());
    }
    let refusal = u64::try_from(End::from(u128::MAX)).expect_err("2^128 - 1 has 128 bits");
    assert_eq!(refusal.to_string(), "the end is too large for the number it was to become");
}

#[test]
fn ends_come_from_numbers_and_cells_and_go_back() {
    assert_eq!(End::default(), End::from(0_u64));
    for number in numbers() {
        let end = End::from(number);
        assert_eq!(u128::try_from(end), Ok(number));
        assert_eq!(End::from_be_bytes(end.to_be_bytes()), end);
        assert_eq!(u64::try_from(number).ok().map(End::from), u64::try_from(end).ok().map(|_| end));
    }
    let cell = [1, 2, 3, 4, 5, 6, 7, 8, 9, 10, 11, 12, 13, 14, 15, 16, 17];
    assert_eq!(End::from_be_bytes(cell).to_be_bytes(), cell);
}
