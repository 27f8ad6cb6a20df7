//! What the programs on files of records call a record.

/// A record's name, whose bytes are printable.
pub fn name_of(record: &[u8]) -> String {
    match litmus::name(record) {
        b"" => "(no name)".to_string(),
        bytes => String::from_utf8_lossy(bytes).into_owned(),
    }
}
