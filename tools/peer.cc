// Measures what tools/bench.rattle measures, by the C++ library of protobuf. `tools/measure` builds and runs it.
//
// usage: peer FOLDER [SOURCE], where FOLDER holds the inputs that `tools/measure` wrote and SOURCE is a descriptor.proto.
// peer SOURCE ROUNDS looks up the names of a source's messages in so many rounds and prints nothing.

#include <google/protobuf/compiler/importer.h>
#include <google/protobuf/compiler/parser.h>
#include <google/protobuf/descriptor.h>
#include <google/protobuf/descriptor.pb.h>
#include <google/protobuf/dynamic_message.h>
#include <google/protobuf/io/tokenizer.h>
#include <google/protobuf/io/zero_copy_stream_impl_lite.h>
#include <google/protobuf/text_format.h>
#include <google/protobuf/unknown_field_set.h>

#include <algorithm>
#include <chrono>
#include <cstdio>
#include <cstdlib>
#include <fstream>
#include <functional>
#include <iterator>
#include <memory>
#include <string>
#include <vector>

namespace pb = google::protobuf;

namespace {

constexpr const char* kName = "generated.proto";

// A batch of rounds lasts at least so many nanoseconds; the fastest of so many batches counts.
constexpr int64_t kBatch = 100'000'000;
constexpr int kBatches = 5;

void Require(bool holds, const std::string& what) {
  if (!holds) {
    std::fprintf(stderr, "peer: %s\n", what.c_str());
    std::exit(1);
  }
}

std::string ReadFile(const std::string& path) {
  std::ifstream file(path, std::ios::binary);
  Require(file.good(), path + " cannot be read");
  return std::string(std::istreambuf_iterator<char>(file), {});
}

int64_t BatchOf(int rounds, const std::function<void()>& operation) {
  auto start = std::chrono::steady_clock::now();
  for (int i = 0; i < rounds; ++i) operation();
  auto taken = std::chrono::steady_clock::now() - start;
  return std::chrono::duration_cast<std::chrono::nanoseconds>(taken).count();
}

void Row(const char* operation, const std::string& label, size_t bytes,
         const std::function<void()>& round) {
  int rounds = 1;
  while (rounds < (1 << 24) && BatchOf(rounds, round) < kBatch) rounds *= 2;
  int64_t fastest = BatchOf(rounds, round);
  for (int i = 1; i < kBatches; ++i) {
    fastest = std::min(fastest, BatchOf(rounds, round));
  }
  int64_t each = fastest / rounds;
  double speed = bytes * 1000.0 / std::max<int64_t>(each, 1);
  std::printf("%-13s %-18s %10zu %9d %12lld %9.1f\n", operation, label.c_str(),
              bytes, rounds, static_cast<long long>(each), speed);
  std::fflush(stdout);
}

// One source in memory.
class OneSource : public pb::compiler::SourceTree {
 public:
  OneSource(std::string name, const std::string& text)
      : name_(std::move(name)), text_(text) {}
  pb::io::ZeroCopyInputStream* Open(const std::string& name) override {
    if (name != name_) return nullptr;
    return new pb::io::ArrayInputStream(text_.data(), text_.size());
  }

 private:
  std::string name_;
  const std::string& text_;
};

class NoErrors : public pb::compiler::MultiFileErrorCollector {
 public:
  void AddError(const std::string& file, int line, int column,
                const std::string& text) override {
    Require(false, file + ":" + std::to_string(line + 1) + ": " + text);
  }
};

void Parse(const std::string& text, pb::FileDescriptorProto* file) {
  pb::io::ArrayInputStream input(text.data(), text.size());
  pb::io::Tokenizer tokenizer(&input, nullptr);
  Require(pb::compiler::Parser().Parse(&tokenizer, file), "a source is refused");
}

void SourceRows(const std::string& label, const std::string& name,
                const std::string& text) {
  Row("parse", label, text.size(), [&] {
    pb::FileDescriptorProto file;
    Parse(text, &file);
  });
  Row("add", label, text.size(), [&] {
    OneSource tree(name, text);
    NoErrors errors;
    pb::compiler::Importer importer(&tree, &errors);
    Require(importer.Import(name) != nullptr, "a source is not linked");
  });
}

void SetRows(const std::string& label, const std::string& text) {
  pb::FileDescriptorSet set;
  Parse(text, set.add_file());
  set.mutable_file(0)->set_name(kName);
  std::string bytes = set.SerializeAsString();
  Row("read set", label, bytes.size(), [&] {
    pb::FileDescriptorSet read;
    Require(read.ParseFromString(bytes), "a set is refused");
  });
  Row("write set", label, bytes.size(), [&] {
    std::string written;
    Require(set.SerializeToString(&written), "a set is not written");
  });
}

// Looks up the names of message types, each of which has to be there.
void LookUp(const pb::DescriptorPool& pool, const std::vector<std::string>& names) {
  for (const std::string& name : names) {
    if (pool.FindMessageTypeByName(name) == nullptr) Require(false, name);
  }
}

std::vector<std::string> MessageNames(const pb::FileDescriptor& file) {
  std::vector<std::string> names;
  for (int i = 0; i < file.message_type_count(); ++i) {
    names.push_back(file.message_type(i)->full_name());
  }
  return names;
}

void LinkRows(const std::string& label, const std::string& text) {
  pb::FileDescriptorProto file;
  Parse(text, &file);
  file.set_name(kName);
  Row("link", label, text.size(), [&] {
    pb::DescriptorPool pool;
    Require(pool.BuildFile(file) != nullptr, "a file is not linked");
  });
  pb::DescriptorPool pool;
  const pb::FileDescriptor* linked = pool.BuildFile(file);
  Require(linked != nullptr, "a file is not linked");
  std::vector<std::string> names = MessageNames(*linked);
  size_t bytes = 0;
  for (const std::string& name : names) bytes += name.size();
  Row("look up", label, bytes, [&] { LookUp(pool, names); });
}

void LookUpRounds(const std::string& text, int rounds) {
  pb::FileDescriptorProto file;
  Parse(text, &file);
  file.set_name(kName);
  pb::DescriptorPool pool;
  const pb::FileDescriptor* linked = pool.BuildFile(file);
  Require(linked != nullptr, "a file is not linked");
  std::vector<std::string> names = MessageNames(*linked);
  for (int i = 0; i < rounds; ++i) LookUp(pool, names);
}

std::string Printed(const pb::Message& message) {
  pb::TextFormat::Printer printer;
  printer.SetSingleLineMode(true);
  std::string text;
  Require(printer.PrintToString(message, &text), "a message is not printed");
  return text;
}

void MessageRows(const std::string& label, const pb::Message& prototype,
                 const std::string& bytes, const std::string& text) {
  std::unique_ptr<pb::Message> message(prototype.New());
  Require(message->ParseFromString(bytes), label + " is refused");
  Row("decode", label, bytes.size(), [&] {
    std::unique_ptr<pb::Message> read(prototype.New());
    Require(read->ParseFromString(bytes), label);
  });
  Row("encode", label, bytes.size(), [&] {
    std::string written;
    Require(message->SerializeToString(&written), label);
  });
  Row("recode", label, bytes.size(), [&] {
    std::unique_ptr<pb::Message> read(prototype.New());
    Require(read->ParseFromString(bytes), label);
    std::string written;
    Require(read->SerializeToString(&written), label);
  });
  if (text.empty()) {
    pb::UnknownFieldSet records;
    Require(records.ParseFromString(bytes), label);
    Row("read records", label, bytes.size(), [&] {
      pb::UnknownFieldSet read;
      Require(read.ParseFromString(bytes), label);
    });
    Row("write records", label, bytes.size(), [&] {
      std::string written;
      Require(records.SerializeToString(&written), label);
    });
  } else {
    Row("parse text", label, text.size(), [&] {
      std::unique_ptr<pb::Message> read(prototype.New());
      Require(pb::TextFormat::ParseFromString(text, read.get()), label);
    });
  }
  size_t printed = Printed(*message).size();
  Row("print text", label, printed, [&] { Printed(*message); });
}

const pb::Message& PrototypeOf(const pb::DescriptorPool& pool,
                               pb::DynamicMessageFactory& factory,
                               const std::string& name) {
  const pb::Descriptor* type = pool.FindMessageTypeByName(name);
  Require(type != nullptr, name + " is not found");
  return *factory.GetPrototype(type);
}

void AllMessageRows(const std::string& folder) {
  pb::DescriptorPool pool;
  for (const char* name : {"p.proto", "q.proto"}) {
    pb::FileDescriptorProto file;
    std::string text = ReadFile(folder + "/" + name);
    Parse(text, &file);
    file.set_name(name);
    Require(pool.BuildFile(file) != nullptr, name);
  }
  pb::DynamicMessageFactory factory(&pool);
  const std::pair<const char*, const char*> samples[] = {
      {"small", "p.M"},
      {"trees-20", "p.Tree"},
      {"packed-35000", "p.Packed"},
      {"unpacked-35000", "q.Unpacked"},
      {"unknown-10000", "p.Nothing"},
      {"entries-10000", "p.Entries"},
      {"trees-200", "p.Tree"},
      {"packed-350000", "p.Packed"},
      {"unpacked-350000", "q.Unpacked"},
      {"unknown-100000", "p.Nothing"},
      {"entries-100000", "p.Entries"},
  };
  for (const auto& sample : samples) {
    std::string stem = folder + "/" + sample.first;
    MessageRows(sample.first, PrototypeOf(pool, factory, sample.second),
                ReadFile(stem + ".bytes"), ReadFile(stem + ".text"));
  }
}

}  // namespace

int main(int argc, char** argv) {
  if (argc == 3 && std::atoi(argv[2]) > 0) {
    LookUpRounds(ReadFile(argv[1]), std::atoi(argv[2]));
    return 0;
  }
  Require(argc == 2 || argc == 3, "usage: peer FOLDER [SOURCE]");
  std::string folder = argv[1];
  if (argc == 3) {
    SourceRows("descriptor.proto", "descriptor.proto", ReadFile(argv[2]));
  }
  for (int count : {300, 3000, 30000}) {
    std::string label = "messages-" + std::to_string(count);
    std::string text = ReadFile(folder + "/" + label + ".proto");
    SourceRows(label, kName, text);
    SetRows(label, text);
  }
  for (int count : {100, 1000, 10000}) {
    std::string label = "messages-" + std::to_string(count);
    LinkRows(label, ReadFile(folder + "/" + label + ".proto"));
  }
  AllMessageRows(folder);
}
