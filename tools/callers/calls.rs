//! What `tools/c_library` runs in Rust.

#[path = "../../bindings/rust/matzupol.rs"]
mod matzupol;

use matzupol::{Kind, Schema};

const SOURCE: &str = "syntax = \"proto3\"; package p; message M { int32 foo = 1; N nested = 3; } message N { int32 bar = 2; }";
const BYTES: &[u8] = b"\x08\x96\x01\x1a\x02\x10\x42";

fn main() -> Result<(), matzupol::Error> {
    let mut schema = Schema::new()?;
    schema.add_sources(&[("a.proto", SOURCE)])?;
    assert_eq!(schema.encode("p.M", "foo: 150 nested { bar: 66 }")?, BYTES);
    assert_eq!(schema.decode("p.M", BYTES)?, "foo:150,nested{bar:66}");
    assert_eq!(schema.recode("p.M", b"\x08\x00")?, b"");
    let error = schema.add_sources(&[("foo.proto", "message {}")]).unwrap_err();
    assert_eq!((error.kind, error.file.as_deref(), error.position), (Kind::Parse, Some("foo.proto"), Some((1, 9))));
    assert_eq!(error.to_string(), "foo.proto:1:9: expected an identifier, but found '{'");
    assert_eq!(schema.encode("p.Q", "").unwrap_err().kind, Kind::UnknownType);
    assert_eq!(schema.decode("p.M", b"\x08\x96").unwrap_err().kind, Kind::Wire);
    let mut other = Schema::new()?;
    other.add_set(&schema.set()?)?;
    let answer = std::thread::spawn(move || other.set()).join().expect("the thread ends")?;
    assert_eq!(answer, schema.set()?);
    println!("rust: ok");
    Ok(())
}
