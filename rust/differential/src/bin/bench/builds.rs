//! The row of a build, on SNP.

use crate::row::Row;
use crate::subjects::subject;
use underhill_mem_port::IsolationType::Snp;

pub fn rows() -> Vec<Row> {
    vec![Row {
        // What was built goes between, unmeasured.
        parts: vec![Some("build, 64 GiB".to_owned()), None],
        calls: 1,
        rounds: 21,
        make: Box::new(|kind| {
            let mut built = Vec::new();
            Box::new(move |part| {
                match part {
                    0 => built.push(subject(kind, Snp, 64 << 30)),
                    _ => built.clear(),
                }
                built.len() == 1 - part
            })
        }),
    }]
}
