//! The source, compiled unchanged from the path given at build time, and one function of our own beside it.

include!(env!("BROWSERSLIST_PARSER"));

/// Reads a trimmed text query by query, keeping the queries given before a refusal, which the source's own
/// entry point throws away. Answers those queries, and the place of the refusal if there was one.
pub fn read_each(trimmed: &str) -> (Vec<SingleQuery<'_>>, Option<usize>) {
    let mut given: Vec<SingleQuery<'_>> = Vec::new();
    let mut reader = Parser::new(trimmed);
    while !reader.is_eof() {
        let is_and = if given.is_empty() {
            Some(false)
        } else {
            reader.parse_composition_operator()
        };
        let Some(is_and) = is_and else {
            return (given, Some(reader.pos));
        };
        match reader.parse_single_query_atom() {
            Some((negated, atom, raw)) => given.push(SingleQuery { raw, atom, negated, is_and }),
            None if given.is_empty() => return (given, Some(0)),
            None => return (given, Some(reader.pos)),
        }
    }
    (given, None)
}
