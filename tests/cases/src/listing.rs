//! Shown bytes written as `play` prints them.

/// What both slices hold where this is shown: two dashes for a silent byte, hex digits for a driven
/// one, with a gap behind each.
pub fn slices(listing: &str) -> (Vec<u8>, Vec<u8>) {
    let byte = |text: &str| match text {
        "--" => (0xFF, 0),
        _ => (u8::from_str_radix(text, 16).expect("dashes or hex digits"), 1),
    };
    listing.split_whitespace().map(byte).unzip()
}
