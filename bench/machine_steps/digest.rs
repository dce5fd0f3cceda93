
/// A digest with one more word.
fn mixed(digest: u32, word: u32) -> u32 {
    (digest ^ word).wrapping_mul(16_777_619)
}

/// A digest of the events of a run of loads and stores.
fn digest_of(events: &[Event]) -> u32 {
    let mut digest = 2_166_136_261;
    for event in events {
        match event {
            Event::Load { address, size } => digest = mixed(mixed(digest, *address), *size),
            Event::Store {
                address,
                size,
                value,
            } => digest = mixed(mixed(mixed(digest, *address), *size), *value),
            _ => digest = mixed(digest, 0),
        }
    }
    digest
}
