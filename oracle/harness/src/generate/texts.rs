//! Damaged texts of packets. Some of them are texts of packets all the same.

mod forms;
mod values;

use super::Source;
use Taken::{Always, Never, Sometimes};

type Damage = fn(&mut Source) -> Vec<u8>;

/// Which texts of a damage ctsim takes, as docs/DIFFERENCES.md lists them.
#[derive(Debug, Clone, Copy, PartialEq, Eq)]
pub enum Taken {
    /// All, and none of them is a packet's text.
    Always,
    /// Some, which may be texts of other packets, but not all.
    Sometimes,
    /// None.
    Never,
}

/// What is done to a text, each by its name, and whether ctsim takes it then.
#[rustfmt::skip]
pub(super) const DAMAGES: [(&str, Damage, Taken); 48] = [
    ("a byte changed to a near one", Source::byte_changed_nearly, Sometimes),
    ("a byte changed to any other", Source::byte_changed, Sometimes),
    ("a digit changed to another", Source::digit_changed, Sometimes),
    ("a byte removed", Source::byte_removed, Sometimes),
    ("a byte put in", Source::byte_put_in, Sometimes),
    ("two bytes exchanged", Source::bytes_exchanged, Sometimes),
    ("cut", Source::cut, Never),
    ("bytes behind", Source::bytes_behind, Sometimes),
    ("bytes before", Source::bytes_before, Sometimes),
    ("blanks behind", Source::blanks_behind, Always),
    ("blanks before", Source::blanks_before, Always),
    ("blanks between words", Source::blanks_between_words, Always),
    ("a blank within a word", Source::blank_within_word, Sometimes),
    ("two fields exchanged", Source::fields_exchanged, Always),
    ("fields in any order", Source::fields_in_any_order, Always),
    ("a field repeated", Source::field_repeated, Never),
    ("a field repeated with another value", Source::field_repeated_otherwise, Never),
    ("an unknown field", Source::field_unknown, Always),
    ("an optional term left out", Source::optional_left_out, Always),
    ("another field left out", Source::field_left_out, Never),
    ("a field's name escaped", Source::name_escaped, Always),
    ("a field's name spelt otherwise", Source::name_spelt_otherwise, Sometimes),
    ("an array of the values alone", Source::values_alone, Always),
    ("a comma behind the last", Source::comma_behind_last, Never),
    ("a number as `1.0`", Source::number_with_point, Never),
    ("a number as `1e0`", Source::number_with_exponent, Never),
    ("a number as `01`", Source::number_with_zero, Never),
    ("`-0` for `0`", Source::minus_zero, Never),
    ("a number as `-1`", Source::number_with_minus, Never),
    ("a number as `+1`", Source::number_with_plus, Never),
    ("a number in quotes", Source::number_in_quotes, Never),
    ("a number of 2^64 or above", Source::number_too_great, Never),
    ("`null` for a number", Source::null_for_number, Sometimes),
    ("a flag as `1` or `0`", Source::flag_as_number, Never),
    ("a flag as `True` or `FALSE`", Source::flag_in_capitals, Never),
    ("a flag as `null` or in quotes", Source::flag_otherwise, Never),
    ("`None` or `\"\"` for `null`", Source::null_otherwise, Never),
    ("data as a string", Source::data_as_string, Never),
    ("`null` for data", Source::null_for_data, Never),
    ("a byte of data above 255", Source::data_byte_too_great, Never),
    ("0 or 1 flags", Source::text_of_too_few_flags, Always),
    ("33 flags or more", Source::text_of_too_many_flags, Always),
    ("sender at or above the number of flags", Source::text_of_sender_beyond, Always),
    ("a term of 64 or above", Source::text_of_term_beyond, Always),
    ("proposal data of another term", Source::text_of_data_of_another_term, Always),
    ("piggyback's data of another term", Source::text_of_piggyback_data_of_another_term, Always),
    ("piggyback's data, no piggyback", Source::text_of_piggyback_data_alone, Always),
    ("data of no term", Source::text_of_data_of_no_term, Always),
];

/// The names of the damages, and which of their texts ctsim takes.
pub fn damages() -> [(&'static str, Taken); DAMAGES.len()] {
    DAMAGES.map(|(name, _, taken)| (name, taken))
}

/// Texts without end, by each of the damages in turn, whose number comes first.
pub fn damaged_texts(seed: u64) -> impl Iterator<Item = (usize, Vec<u8>)> {
    let mut source = Source::new(seed);
    let damages = DAMAGES.iter().enumerate().cycle();
    damages.map(move |(number, (_, damaged, _))| (number, damaged(&mut source)))
}

/// Damages to bytes, whatever they say.
impl Source {
    fn text(&mut self) -> String {
        let text = self.packet().write().expect("the packet has a text");
        String::from_utf8(text).expect("the text is ASCII")
    }

    fn bytes(&mut self) -> Vec<u8> {
        self.text().into_bytes()
    }

    fn index(&mut self, length: usize) -> usize {
        self.below(length as u64) as usize
    }

    fn byte(&mut self) -> u8 {
        self.below(256) as u8
    }

    fn byte_changed_nearly(&mut self) -> Vec<u8> {
        let mut text = self.bytes();
        let at = self.index(text.len());
        let byte = text[at];
        let mut near = vec![byte + 1, byte - 1, byte ^ 1, byte ^ 32, byte ^ 128];
        near.extend(b" \"'0123456789,:.-_[]{}tfn\0\t");
        near.retain(|other| *other != byte);
        text[at] = self.pick(&near);
        text
    }

    fn byte_changed(&mut self) -> Vec<u8> {
        let mut text = self.bytes();
        let at = self.index(text.len());
        text[at] ^= 1 + self.below(255) as u8;
        text
    }

    fn digit_changed(&mut self) -> Vec<u8> {
        let mut text = self.bytes();
        let digits = places(&text, u8::is_ascii_digit);
        let at = self.pick(&digits);
        let step = 1 + self.below(9) as u8;
        text[at] = b'0' + (text[at] - b'0' + step) % 10;
        text
    }

    fn byte_removed(&mut self) -> Vec<u8> {
        let mut text = self.bytes();
        text.remove(self.index(text.len()));
        text
    }

    fn byte_put_in(&mut self) -> Vec<u8> {
        let mut text = self.bytes();
        let at = self.index(text.len());
        let (any, twice) = (self.byte(), text[at]);
        let byte = self.pick(&[any, twice, b'0', b',', b'"', b'[', b'{']);
        text.insert(at, byte);
        text
    }

    /// A byte and the next.
    fn bytes_exchanged(&mut self) -> Vec<u8> {
        let mut text = self.bytes();
        let unlike: Vec<usize> = (1..text.len())
            .filter(|at| text[at - 1] != text[*at])
            .collect();
        let at = self.pick(&unlike);
        text.swap(at - 1, at);
        text
    }

    fn cut(&mut self) -> Vec<u8> {
        let mut text = self.bytes();
        let (any, last) = (self.index(text.len()), text.len() - 1);
        text.truncate(self.pick(&[0, 1, any, any, any, any, last]));
        text
    }

    fn bytes_behind(&mut self) -> Vec<u8> {
        let text = self.bytes();
        let any = [self.byte()];
        let behind: [&[u8]; 7] = [&any, b"}", b",", b"\0", b"{}", b"null", &text];
        [&text[..], self.pick(&behind)].concat()
    }

    /// Also the mark that some editors put before a text of UTF-8.
    fn bytes_before(&mut self) -> Vec<u8> {
        let text = self.bytes();
        let any = [self.byte()];
        let before: [&[u8]; 7] = [&any, b"{", b"[", b"\0", b"0", b"\xef\xbb\xbf", &text];
        [self.pick(&before), &text].concat()
    }
}

fn places(text: &[u8], holds: impl Fn(&u8) -> bool) -> Vec<usize> {
    (0..text.len()).filter(|at| holds(&text[*at])).collect()
}
