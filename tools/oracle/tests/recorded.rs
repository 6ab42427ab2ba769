//! What crate `pieces` is run on, and what it must print, are the decoder's: `oracle pieces crates/pieces` writes both anew.

use std::path::Path;

use oracle::pieces;

#[test]
fn the_recorded_pieces_are_the_decoders() {
    let fresh = std::env::temp_dir().join(format!("recorded-{}", std::process::id()));
    pieces::write(&fresh).expect("a folder to write to");
    let kept = Path::new(env!("CARGO_MANIFEST_DIR")).join("../../crates/pieces");
    for name in ["stdin", "stdout"] {
        let read = |folder: &Path| std::fs::read(folder.join(name)).expect("a file to read");
        assert!(read(&fresh) == read(&kept), "{name} is stale");
    }
    std::fs::remove_dir_all(&fresh).expect("our own folder");
}
