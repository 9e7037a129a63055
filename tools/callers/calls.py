"""What `tools/c_library` runs in Python."""

import matzupol

SOURCE = 'syntax = "proto3"; package p; message M { int32 foo = 1; N nested = 3; } message N { int32 bar = 2; }'
BYTES = bytes.fromhex("0896011a021042")


def refused(error, call, *words):
    """The error that a call raises, which is of this kind."""
    try:
        call(*words)
    except error as raised:
        return raised
    raise SystemExit(f"no {error.__name__}")


with matzupol.Schema() as schema:
    schema.add_sources({"a.proto": SOURCE})
    assert schema.encode("p.M", "foo: 150 nested { bar: 66 }") == BYTES
    assert schema.decode("p.M", BYTES) == "foo:150,nested{bar:66}"
    assert schema.recode(".p.M", bytes.fromhex("1a021042089601")) == BYTES
    error = refused(matzupol.ParseError, schema.add_sources, {"foo.proto": "message {}"})
    assert (error.file, error.line, error.column) == ("foo.proto", 1, 9), vars(error)
    assert str(error) == "foo.proto:1:9: expected an identifier, but found '{'"
    refused(matzupol.LinkError, schema.add_sources, {"c.proto": 'syntax = "proto3"; import "b.proto";'})
    refused(matzupol.NotUtf8Error, schema.add_sources, {"b.proto": "", b"\xff": ""})
    refused(matzupol.UnknownTypeError, schema.decode, "p.Q", b"")
    refused(matzupol.WireError, schema.decode, "p.M", b"\x08\x96")
    error = refused(matzupol.TextError, schema.encode, "p.M", "foo: 1 foo: 2")
    assert (str(error), error.file, error.line, error.column) == ("'foo' is already set", None, 1, 13), vars(error)
    refused(TypeError, schema.decode, "p.M", 7)
    other = matzupol.Schema()
    other.add_set(schema.set())
    assert other.set() == schema.set()
    schema.close()
    refused(ValueError, schema.set)
print("python: ok")
