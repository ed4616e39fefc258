/// Splits settings as they lie in a store: into the part of their host, which says for instance how keys are assigned
/// to shards, and the line that the control reads. If there is no line feed, there is only the line.
///
/// ```
/// use durkenzo_driver::split_settings;
///
/// assert_eq!(split_settings("hash\n{}"), ("hash", "{}"));
/// assert_eq!(split_settings("{}"), ("", "{}"));
/// ```
pub fn split_settings(stored: &str) -> (&str, &str) {
    stored.split_once('\n').unwrap_or(("", stored))
}
