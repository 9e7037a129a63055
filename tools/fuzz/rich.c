#include "common.h"

static const char ANY[] = "syntax = \"proto3\"; package google.protobuf; message Any { string type_url = 1; bytes value = 2; }";

/* Of proto3, whose lists of numbers are packed. */
static const char PACKED[] = "syntax = \"proto3\"; package p; message P { int32 foo = 1; P nested = 3; repeated int32 xs = 4; map<int32, P> m = 5; }";

static const char SOURCE[] =
    "syntax = \"proto2\"; package p; import \"any.proto\"; import \"packed.proto\";\n"
    "message M {\n"
    "  optional int32 i = 1; optional int64 l = 2; optional uint32 u = 3; optional uint64 v = 4;\n"
    "  optional sint32 si = 5; optional sint64 sl = 6; optional fixed32 f = 7; optional fixed64 g = 8;\n"
    "  optional sfixed32 sf = 9; optional sfixed64 sg = 10; optional bool t = 11; optional string s = 12; optional bytes b = 13;\n"
    "  optional E e = 14; optional M m = 15; optional group Grp = 16 { optional int32 a = 1; optional M m = 2; }\n"
    "  repeated int32 xs = 17; repeated string ss = 19; repeated M ms = 20; repeated E es = 21;\n"
    "  map<int32, string> im = 22; map<string, M> sm = 23; map<bool, E> bm = 24;\n"
    "  oneof o { int32 oa = 25; string ob = 26; M om = 27; }\n"
    "  optional float skipped = 28; optional google.protobuf.Any any = 29; repeated group List = 30 { optional int32 a = 1; }\n"
    "  optional int32 with_default = 31 [default = 7]; optional P three = 32;\n"
    "  extensions 100 to 199;\n"
    "}\n"
    "enum E { ZERO = 0; ONE = 1; LESS = -1; }\n"
    "extend M { optional int32 ext = 100; repeated M exts = 101; optional group Ext_grp = 102 { optional int32 a = 1; } }\n";

matzupol_schema rich(void) {
    matzupol_schema schema = of_source("any.proto", ANY);
    add_source(&schema, "packed.proto", PACKED);
    add_source(&schema, "rich.proto", SOURCE);
    return schema;
}
