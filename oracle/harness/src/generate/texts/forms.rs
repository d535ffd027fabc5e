//! Damages to what a text is made of: blanks, fields, numbers, flags and lists.

use super::{places, Source};
use std::ops::Range;

const BLANKS: [&str; 6] = [" ", " ", "\t", "\r", "\n", "  "];
/// Which of the fields are optional terms, which are data, and which may not be left out.
const OPTIONAL: [usize; 2] = [1, 6];
const DATA: [usize; 2] = [5, 7];
const NEEDED: [usize; 6] = [0, 2, 3, 4, 5, 7];

/// Blanks.
impl Source {
    pub(super) fn blanks_behind(&mut self) -> Vec<u8> {
        let text = self.text();
        (text + self.pick(&BLANKS)).into_bytes()
    }

    pub(super) fn blanks_before(&mut self) -> Vec<u8> {
        let text = self.text();
        (self.pick(&BLANKS).to_string() + &text).into_bytes()
    }

    pub(super) fn blanks_between_words(&mut self) -> Vec<u8> {
        self.blank_where(|before, behind| is_sign(before) || is_sign(behind))
    }

    pub(super) fn blank_within_word(&mut self) -> Vec<u8> {
        self.blank_where(|before, behind| !is_sign(before) && !is_sign(behind))
    }

    /// Blanks at one place that the bytes before and behind it allow.
    fn blank_where(&mut self, allowed: impl Fn(u8, u8) -> bool) -> Vec<u8> {
        let mut text = self.text();
        let bytes = text.as_bytes();
        let allowed: Vec<usize> = (1..bytes.len())
            .filter(|at| allowed(bytes[at - 1], bytes[*at]))
            .collect();
        text.insert_str(self.pick(&allowed), self.pick(&BLANKS));
        text.into_bytes()
    }
}

/// Fields.
impl Source {
    pub(super) fn fields_exchanged(&mut self) -> Vec<u8> {
        self.with_fields(|source, fields| {
            let count = fields.len();
            let at = source.index(count);
            let step = 1 + source.index(count - 1);
            fields.swap(at, (at + step) % count);
        })
    }

    /// Any but their own.
    pub(super) fn fields_in_any_order(&mut self) -> Vec<u8> {
        self.with_fields(|source, fields| {
            let own = fields.clone();
            for at in 1..fields.len() {
                fields.swap(at, source.index(at + 1));
            }
            if *fields == own {
                fields.reverse();
            }
        })
    }

    pub(super) fn field_repeated(&mut self) -> Vec<u8> {
        self.with_fields(|source, fields| {
            let field = fields[source.index(fields.len())].clone();
            source.put_in(fields, field);
        })
    }

    pub(super) fn field_repeated_otherwise(&mut self) -> Vec<u8> {
        let other = self.text();
        self.with_fields(|source, fields| {
            let at = source.index(fields.len());
            let others = split(&other);
            let values = [others[at].as_str(), &fields[(at + 1) % fields.len()]];
            let (_, value) = source.pick(&values).split_once(':').expect("a field");
            let (name, _) = fields[at].split_once(':').expect("a field");
            let field = format!("{name}:{value}");
            source.put_in(fields, field);
        })
    }

    pub(super) fn field_unknown(&mut self) -> Vec<u8> {
        self.with_fields(|source, fields| {
            let unknown = ["\"x\":0", "\"\":null", "\"term\":[]", "\"phase\":\"a\""];
            let field = source.pick(&unknown).to_string();
            source.put_in(fields, field);
        })
    }

    pub(super) fn optional_left_out(&mut self) -> Vec<u8> {
        self.with_fields(|source, fields| {
            fields.remove(source.pick(&OPTIONAL));
        })
    }

    pub(super) fn field_left_out(&mut self) -> Vec<u8> {
        self.with_fields(|source, fields| {
            fields.remove(source.pick(&NEEDED));
        })
    }

    pub(super) fn name_escaped(&mut self) -> Vec<u8> {
        self.with_fields(|source, fields| {
            let at = source.index(fields.len());
            let field = &mut fields[at];
            // Of the name in its quotes.
            let end = field.find(':').expect("a field") - 1;
            let at = 1 + source.index(end - 1);
            let letter = field.as_bytes()[at];
            let escaped = [format!("\\u{letter:04x}"), format!("\\u{letter:04X}")];
            field.replace_range(at..at + 1, &escaped[source.index(2)]);
        })
    }

    pub(super) fn name_spelt_otherwise(&mut self) -> Vec<u8> {
        self.with_fields(|source, fields| {
            let at = source.index(fields.len());
            let (name, value) = fields[at].split_once(':').expect("a field");
            let name = name.trim_matches('"');
            let name = match source.below(5) {
                0 => format!("\"{}\"", name.to_uppercase()),
                1 => format!("\"{name}s\""),
                2 => format!("\"{}\"", &name[1..]),
                3 => format!("'{name}'"),
                _ => name.into(),
            };
            fields[at] = format!("{name}:{value}");
        })
    }

    pub(super) fn values_alone(&mut self) -> Vec<u8> {
        let text = self.text();
        let value = |field: &String| field.split_once(':').map(|(_, value)| value.to_string());
        let values: Option<Vec<String>> = split(&text).iter().map(value).collect();
        format!("[{}]", values.expect("fields").join(",")).into_bytes()
    }

    pub(super) fn comma_behind_last(&mut self) -> Vec<u8> {
        let mut text = self.text();
        let ends = places(text.as_bytes(), |byte| b"]}".contains(byte));
        text.insert(self.pick(&ends), ',');
        text.into_bytes()
    }

    fn put_in(&mut self, fields: &mut Vec<String>, field: String) {
        let at = self.index(fields.len() + 1);
        fields.insert(at, field);
    }

    /// A text with its fields changed.
    fn with_fields(&mut self, change: impl FnOnce(&mut Self, &mut Vec<String>)) -> Vec<u8> {
        let mut fields = split(&self.text());
        change(self, &mut fields);
        format!("{{{}}}", fields.join(",")).into_bytes()
    }
}

/// Numbers.
impl Source {
    pub(super) fn number_with_point(&mut self) -> Vec<u8> {
        let behind = self.pick(&[".0", ".0", ".00", "."]);
        self.with_number(|number| format!("{number}{behind}"))
    }

    pub(super) fn number_with_exponent(&mut self) -> Vec<u8> {
        let behind = self.pick(&["e0", "e0", "E0", "e+0", "e-0"]);
        self.with_number(|number| format!("{number}{behind}"))
    }

    pub(super) fn number_with_zero(&mut self) -> Vec<u8> {
        let before = self.pick(&["0", "0", "00"]);
        self.with_number(|number| format!("{before}{number}"))
    }

    pub(super) fn minus_zero(&mut self) -> Vec<u8> {
        loop {
            let mut text = self.text();
            let mut zeros = numbers(&text);
            zeros.retain(|at| text[at.clone()] == *"0");
            if !zeros.is_empty() {
                let at = zeros[self.index(zeros.len())].start;
                text.insert(at, '-');
                return text.into_bytes();
            }
        }
    }

    pub(super) fn number_with_minus(&mut self) -> Vec<u8> {
        self.with_number(|number| format!("-{}", number.replace('0', "1")))
    }

    pub(super) fn number_with_plus(&mut self) -> Vec<u8> {
        self.with_number(|number| format!("+{number}"))
    }

    pub(super) fn number_in_quotes(&mut self) -> Vec<u8> {
        self.with_number(|number| format!("\"{number}\""))
    }

    pub(super) fn number_too_great(&mut self) -> Vec<u8> {
        let great = ["18446744073709551616", "99999999999999999999", "1e99"];
        let great = self.pick(&great);
        self.with_number(|_| great.into())
    }

    pub(super) fn null_for_number(&mut self) -> Vec<u8> {
        self.with_number(|_| "null".into())
    }

    /// A text with one number written otherwise.
    fn with_number(&mut self, form: impl Fn(&str) -> String) -> Vec<u8> {
        let text = self.text();
        let numbers = numbers(&text);
        self.with_one(text, numbers, form)
    }

    /// The text with one of the words at those places written otherwise.
    fn with_one(
        &mut self,
        mut text: String,
        words: Vec<Range<usize>>,
        form: impl Fn(&str) -> String,
    ) -> Vec<u8> {
        let word = words[self.index(words.len())].clone();
        let otherwise = form(&text[word.clone()]);
        text.replace_range(word, &otherwise);
        text.into_bytes()
    }
}

/// Flags, none and data.
impl Source {
    pub(super) fn flag_as_number(&mut self) -> Vec<u8> {
        self.with_flag(|flag| u8::from(flag == "true").to_string())
    }

    pub(super) fn flag_in_capitals(&mut self) -> Vec<u8> {
        let all = self.below(2) == 0;
        self.with_flag(|flag| {
            if all {
                flag.to_uppercase()
            } else {
                flag[..1].to_uppercase() + &flag[1..]
            }
        })
    }

    pub(super) fn flag_otherwise(&mut self) -> Vec<u8> {
        let null = self.below(2) == 0;
        self.with_flag(|flag| {
            if null {
                "null".into()
            } else {
                format!("\"{flag}\"")
            }
        })
    }

    fn with_flag(&mut self, form: impl Fn(&str) -> String) -> Vec<u8> {
        let text = self.text();
        let words = ["true", "false"].map(|flag| found(&text, flag));
        self.with_one(text, words.concat(), form)
    }

    pub(super) fn null_otherwise(&mut self) -> Vec<u8> {
        let none = self.pick(&["None", "NULL", "nul", "\"\"", "[]", "{}", "false", "-1", ""]);
        self.with_value(&OPTIONAL, |_| none.into())
    }

    pub(super) fn data_as_string(&mut self) -> Vec<u8> {
        let string = self.pick(&["\"\"", "\"tx0\"", "\"dHgw\""]);
        self.with_value(&DATA, |_| string.into())
    }

    pub(super) fn null_for_data(&mut self) -> Vec<u8> {
        self.with_value(&DATA, |_| "null".into())
    }

    pub(super) fn data_byte_too_great(&mut self) -> Vec<u8> {
        let great = self.pick(&["256", "372", "1000", "4294967412"]);
        self.with_value(&DATA, |data| match data {
            "[]" => format!("[{great}]"),
            _ => data.replacen("116", great, 1),
        })
    }

    /// A text with the value of one of these fields written otherwise.
    fn with_value(&mut self, fields: &[usize], form: impl Fn(&str) -> String) -> Vec<u8> {
        let at = self.pick(fields);
        self.with_fields(|_, fields| {
            let (name, value) = fields[at].split_once(':').expect("a field");
            fields[at] = format!("{name}:{}", form(value));
        })
    }
}

fn is_sign(byte: u8) -> bool {
    b"{}[]:,".contains(&byte)
}

/// The fields of a text. Only between them stands a comma before a quote.
fn split(text: &str) -> Vec<String> {
    let fields = text[1..text.len() - 1].replace(",\"", "\n\"");
    fields.split('\n').map(String::from).collect()
}

/// Where the text has its numbers. No name has a digit.
fn numbers(text: &str) -> Vec<Range<usize>> {
    let is_digit = |at: usize| text.as_bytes().get(at).is_some_and(u8::is_ascii_digit);
    let starts = (1..text.len()).filter(|at| is_digit(*at) && !is_digit(at - 1));
    let end = |start: usize| (start..).find(|at| !is_digit(*at)).expect("an end");
    starts.map(|start| start..end(start)).collect()
}

/// Where the text has this word.
fn found(text: &str, word: &str) -> Vec<Range<usize>> {
    let starts = text.match_indices(word).map(|(start, _)| start);
    starts.map(|start| start..start + word.len()).collect()
}
