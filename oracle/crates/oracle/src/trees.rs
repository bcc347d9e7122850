//! Text trees: their answers as text.
use crate::answers::bit_error;
use crate::text::hex;
use decode::ftext::*;
use std::fmt::Write;

pub fn tree_text(t: &FTextTree, s: &mut String) {
    match t {
        FTextTree::Empty { flags } => write!(s, "E({flags})").unwrap(),
        FTextTree::StringTable { flags, table, key } => write!(
            s,
            "T({flags},{},{},{})",
            hex(table.name.as_bytes()),
            table.number,
            hex(key.as_bytes())
        )
        .unwrap(),
        FTextTree::AsNumber {
            flags,
            source_bits,
            format,
            culture,
        } => {
            write!(s, "N({flags},{source_bits:016x},").unwrap();
            match format {
                None => s.push('-'),
                Some(f) => write!(
                    s,
                    "[{},{},{},{},{},{},{}]",
                    f.always_sign as u8,
                    f.use_grouping as u8,
                    f.rounding_mode,
                    f.minimum_integral_digits,
                    f.maximum_integral_digits,
                    f.minimum_fractional_digits,
                    f.maximum_fractional_digits
                )
                .unwrap(),
            }
            write!(s, ",{})", hex(culture.as_bytes())).unwrap();
        }
        FTextTree::Format { flags, source, arguments } => {
            write!(s, "F({flags},").unwrap();
            tree_text(source, s);
            s.push_str(",[");
            for (i, a) in arguments.iter().enumerate() {
                if i > 0 {
                    s.push(';');
                }
                write!(s, "{}:{}:", hex(a.name.as_bytes()), a.tag).unwrap();
                match &a.value {
                    FTextArgumentValue::U64Bits(v) => write!(s, "{v}").unwrap(),
                    FTextArgumentValue::Text(t) => tree_text(t, s),
                }
            }
            s.push_str("])");
        }
    }
}

pub fn tree_error(e: &FTextTreeError) -> String {
    use FTextTreeError::*;
    match e {
        BitIo(b) => bit_error(b),
        UnsupportedHistory { discriminator } => format!("ERR UnsupportedHistory {discriminator}"),
        UnsupportedNameForm => "ERR UnsupportedNameForm".into(),
        NegativeNameSuffix { number } => format!("ERR NegativeNameSuffix {number}"),
        InvalidArgumentCount { max, actual } => format!("ERR InvalidArgumentCount {max} {actual}"),
        UnsupportedArgumentTag { tag } => format!("ERR UnsupportedArgumentTag {tag}"),
        InvalidEmptyForm => "ERR InvalidEmptyForm".into(),
        StringTooLong { bytes, max_bytes } => format!("ERR StringTooLong {bytes} {max_bytes}"),
        MissingStringTerminator => "ERR MissingStringTerminator".into(),
        DepthLimit { limit } => format!("ERR DepthLimit {limit}"),
        NodeLimit { limit } => format!("ERR NodeLimit {limit}"),
        TrailingBits { remaining } => format!("ERR TrailingBits {remaining}"),
        InvalidBool { value } => format!("ERR InvalidBool {value}"),
        NonFiniteNumber => "ERR NonFiniteNumber".into(),
    }
}
