"""The options types of descriptor.proto (libprotobuf-dev 3.21.12), whose fields are the builtins, for compare/sheets.py.

`check(oracle)` compares this table with the sheet that the oracle makes of its own descriptor.proto.
"""
import subprocess

import steps

TABLE = """
message FileOptions
  enum OptimizeMode SPEED=1 CODE_SIZE=2 LITE_RUNTIME=3
  optional string java_package = 1
  optional string java_outer_classname = 8
  optional bool java_multiple_files = 10
  optional bool java_generate_equals_and_hash = 20
  optional bool java_string_check_utf8 = 27
  optional FileOptions.OptimizeMode optimize_for = 9
  optional string go_package = 11
  optional bool cc_generic_services = 16
  optional bool java_generic_services = 17
  optional bool py_generic_services = 18
  optional bool php_generic_services = 42
  optional bool deprecated = 23
  optional bool cc_enable_arenas = 31
  optional string objc_class_prefix = 36
  optional string csharp_namespace = 37
  optional string swift_prefix = 39
  optional string php_class_prefix = 40
  optional string php_namespace = 41
  optional string php_metadata_namespace = 44
  optional string ruby_package = 45
  repeated UninterpretedOption uninterpreted_option = 999
message MessageOptions
  optional bool message_set_wire_format = 1
  optional bool no_standard_descriptor_accessor = 2
  optional bool deprecated = 3
  optional bool map_entry = 7
  repeated UninterpretedOption uninterpreted_option = 999
message FieldOptions
  enum CType STRING=0 CORD=1 STRING_PIECE=2
  enum JSType JS_NORMAL=0 JS_STRING=1 JS_NUMBER=2
  optional FieldOptions.CType ctype = 1
  optional bool packed = 2
  optional FieldOptions.JSType jstype = 6
  optional bool lazy = 5
  optional bool unverified_lazy = 15
  optional bool deprecated = 3
  optional bool weak = 10
  repeated UninterpretedOption uninterpreted_option = 999
message OneofOptions
  repeated UninterpretedOption uninterpreted_option = 999
message EnumOptions
  optional bool allow_alias = 2
  optional bool deprecated = 3
  repeated UninterpretedOption uninterpreted_option = 999
message EnumValueOptions
  optional bool deprecated = 1
  repeated UninterpretedOption uninterpreted_option = 999
message ServiceOptions
  optional bool deprecated = 33
  repeated UninterpretedOption uninterpreted_option = 999
message MethodOptions
  enum IdempotencyLevel IDEMPOTENCY_UNKNOWN=0 NO_SIDE_EFFECTS=1 IDEMPOTENT=2
  optional bool deprecated = 33
  optional MethodOptions.IdempotencyLevel idempotency_level = 34
  repeated UninterpretedOption uninterpreted_option = 999
message UninterpretedOption
  message NamePart
    required string name_part = 1
    required bool is_extension = 2
  repeated UninterpretedOption.NamePart name = 2
  optional string identifier_value = 3
  optional uint64 positive_int_value = 4
  optional int64 negative_int_value = 5
  optional double double_value = 6
  optional bytes string_value = 7
  optional string aggregate_value = 8
"""
PACKAGE = (b"google", b"protobuf")


def check(oracle):
    """What the oracle's own descriptor.proto declares under each of these names, as bytes, is what is built here."""
    import sheets

    text = 'syntax = "proto2";\nimport "google/protobuf/descriptor.proto";\nmessage M { optional int32 a = 1 [deprecated = true]; }\n'
    run = subprocess.run([oracle, "cases", "-"], input="=== t.proto\n" + text, stdout=subprocess.PIPE, encoding="utf-8", check=True)
    line = next(line for line in run.stdout.splitlines() if "\t" in line)
    (_, data), *_ = steps.fields(bytes.fromhex(line.split("\t")[1]))
    theirs = {}
    for _, payload in list(steps.fields(data))[1:]:
        for tag, inner in list(steps.fields(payload))[1:]:
            theirs[next(steps.fields(inner))[1]] = sheets.f(tag, inner)
    for message in sheets.google_messages():
        assert message.encoded(None) == theirs[message.name], "descriptor.py is not the oracle's descriptor.proto: " + message.name.decode()
