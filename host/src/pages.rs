//! The opcode pages by their prefixes, and inputs on them.

/// The pages of document 01.
pub const PAGES: [&[u8]; 7] = [
    &[],
    &[0xCB],
    &[0xED],
    &[0xDD],
    &[0xFD],
    &[0xDD, 0xCB],
    &[0xFD, 0xCB],
];

/// The ED page behind DD and FD.
pub const ED_BEHIND: [&[u8]; 2] = [&[0xDD, 0xED], &[0xFD, 0xED]];

/// The ends of the signed byte's two halves, where a lost sign shows.
pub const EDGES: [u8; 4] = [0x00, 0x7F, 0x80, 0xFF];

/// The fixed bytes of a row: DD CB and FD CB have the displacement before the code.
pub fn row(prefix: &[u8], code: u8, beside: u8) -> Vec<u8> {
    let behind = match prefix {
        [_, 0xCB] => [beside, code],
        _ => [code, beside],
    };
    [prefix, &behind].concat()
}

/// Where the code stands in a row.
pub fn code_at(prefix: &[u8]) -> usize {
    match prefix {
        [_, 0xCB] => prefix.len() + 1,
        _ => prefix.len(),
    }
}

/// Every code of a page with every choice of edges around it, up to a length.
pub fn edged(prefix: &[u8], length: usize) -> Vec<Vec<u8>> {
    let mut rows = vec![];
    for code in 0..=0xFF {
        rows.extend(EDGES.map(|beside| row(prefix, code, beside)));
    }
    while rows[0].len() < length {
        rows = rows
            .iter()
            .flat_map(|row| EDGES.map(|edge| [&row[..], &[edge]].concat()))
            .collect();
    }
    rows
}
