//! The Rust's own refusals: `fill` gives the same number as the model wherever the sizes of the two agree.

use differential::{entries::chunk, port::Port};
use model::{chunk::fill, ChunkBuf, MAX_D};

#[test]
fn fill_refuses_as_the_rust_does() {
    let entry = chunk::fill(&Port::default());
    let mut refused = 0;
    for call in 0..100_000 {
        let (i, mut a, mut b) = (entry.input(1, call).src, ChunkBuf::NEW, ChunkBuf::NEW);
        let model = fill(&mut a, i.seq, i.t_emit, i.horizon, i.dim, i.exec_steps, &i.data).map_err(|r| r.number);
        if i.dim as usize > MAX_D || model == Err(12) {
            continue;
        }
        let rust = oracle::fill(&mut b, i.seq, i.t_emit, i.horizon, i.dim, i.exec_steps, &i.data);
        assert_eq!(rust, model, "{i:?}");
        refused += rust.is_err() as u32;
    }
    assert!(refused > 1000, "some of them are refused");
}
