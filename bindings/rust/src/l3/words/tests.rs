use std::str::FromStr;

use super::*;

fn decimal(text: &str) -> Decimal {
    Decimal::from_str(text).expect("a decimal")
}

#[test]
fn whole_units_convert_exactly_at_any_scale() {
    for (text, expected) in [
        ("0", 0),
        ("1", 100_000_000),
        ("-0.00000001", -1),
        ("10.50", 1_050_000_000),
        ("0.0000000100000000000000000000", 1),
        ("10000000", 1_000_000_000_000_000),
        ("10000000.00000001", 1_000_000_000_000_001),
    ] {
        assert_eq!(units(decimal(text)), expected, "{text}");
        assert_eq!(amount(word(decimal(text))), decimal(text), "{text}");
    }
}

#[test]
fn what_is_no_whole_number_of_units_in_a_word_is_out_of_range() {
    for text in [
        "0.000000001",
        "1.123456789",
        "92233720368.54775808",
        "-92233720369",
        "79228162514264337593543950335",
    ] {
        assert_eq!(units(decimal(text)), NO_AMOUNT, "{text}");
    }
}

#[test]
fn ids_and_their_texts_determine_each_other() {
    let text = "d50ec984-77a8-460a-b958-66f114b0de9b";
    let id = id_of(text).expect("a UUID");
    assert_eq!(id, 0xd50e_c984_77a8_460a_b958_66f1_14b0_de9b);
    assert_eq!(id_words(id), [0xd50e_c984_77a8_460a, 0xb958_66f1_14b0_de9b]);
    assert_eq!(id_text(id_words(id)), text);
    let low = "00000000-0000-0000-0000-00000000000a";
    assert_eq!(id_text([0, 10]), low);
}

#[test]
fn other_texts_are_no_ids() {
    for text in [
        "",
        "A",
        "D50EC984-77A8-460A-B958-66F114B0DE9B",
        "d50ec984077a8-460a-b958-66f114b0de9b",
        "d50ec984-77a8-460a-b958-66f114b0de9",
        "d50ec984-77a8-460a-b958-66f114b0de9b0",
        "-50ec984-77a8-460a-b958-66f114b0de9b",
        "+50ec984-77a8-460a-b958-66f114b0de9b",
        "ä0ec984-77a8-460a-b958-66f114b0de9b",
    ] {
        assert_eq!(id_of(text), None, "{text}");
    }
}

#[test]
fn products_are_names_of_at_most_sixteen_bytes() {
    assert_eq!(product_words("BTC-USD"), Some([0x4254_432d_5553_4400, 0]));
    assert_eq!(
        product_words("sixteen-byte-id!"),
        Some([0x7369_7874_6565_6e2d, 0x6279_7465_2d69_6421])
    );
    assert_eq!(product_words(""), Some([0, 0]));
    assert_eq!(product_words("seventeen-byte-id"), None);
    // Padding would make it BTC-USD.
    assert_eq!(product_words("BTC-USD\0"), None);
    assert_eq!(product_words("BTC\0USD").map(|[_, low]| low), Some(0));
}
