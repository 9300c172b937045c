//! What the plain Rust answers, by the numbers of the tables, as the archive and the second program do.

pub struct Reply {
    pub number: usize,
    pub verdict: usize,
    pub place: usize,
    pub length: usize,
}

pub fn eliminate(sheet: &[u8], result: &mut [u8], work: &mut [u8]) -> Reply {
    match elimination::eliminate(sheet, result, work) {
        Ok(done) => Reply { number: 0, verdict: done.verdict.number(), place: 0, length: done.length },
        Err(no) => Reply { number: no.why.number(), verdict: 3, place: no.place, length: 0 },
    }
}
