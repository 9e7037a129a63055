// What `tools/c_library` runs in C++.
#include "matzupol.hpp"
#include <iostream>

using namespace std::literals;

static constexpr auto SOURCE = "syntax = \"proto3\"; package p; message M { int32 foo = 1; N nested = 3; } message N { int32 bar = 2; }"sv;

static void expect(bool holds, const char *what) {
    if (holds) return;
    std::cerr << "calls.cc: " << what << '\n';
    std::exit(1);
}

template <typename Call> static void refuses(matzupol_code code, std::string_view text, Call call) {
    try {
        call();
    } catch (const matzupol::Error &error) {
        expect(error.code == code && error.what() == text, error.what());
        return;
    }
    expect(false, "no refusal");
}

int main() {
    matzupol::Schema schema;
    schema.add_sources({{"a.proto", SOURCE}});
    expect(schema.encode("p.M", "foo: 150 nested { bar: 66 }") == "\x08\x96\x01\x1a\x02\x10\x42"sv, "encode");
    expect(schema.decode("p.M", "\x08\x96\x01\x1a\x02\x10\x42"sv) == "foo:150,nested{bar:66}", "decode");
    expect(schema.recode("p.M", "\x08\x00"sv).empty(), "recode");
    refuses(MATZUPOL_PARSE, "foo.proto:1:9: expected an identifier, but found '{'", [&] { schema.add_sources({{"foo.proto", "message {}"}}); });
    refuses(MATZUPOL_NOT_UTF8, "not UTF-8", [&] { schema.add_sources({{"b.proto", ""}, {"\xff", ""}}); });
    refuses(MATZUPOL_UNKNOWN_TYPE, "message type 'p.Q' not found", [&] { schema.encode("p.Q", ""); });
    matzupol::Schema other;
    other.add_set(schema.set());
    matzupol::Schema moved = std::move(other);
    expect(moved.set() == schema.set(), "set");
    other = std::move(moved);
    expect(other.decode("p.M", "").empty(), "moved back");
    std::cout << "c++: ok\n";
}
