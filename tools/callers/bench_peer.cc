// What bench.c times, by the C++ library of protobuf: the same words, and the same lines.

#include <google/protobuf/descriptor.h>
#include <google/protobuf/descriptor.pb.h>
#include <google/protobuf/dynamic_message.h>
#include <google/protobuf/text_format.h>

#include <algorithm>
#include <chrono>
#include <cstdio>
#include <cstdlib>
#include <cstring>
#include <fstream>
#include <functional>
#include <iterator>
#include <memory>
#include <string>

namespace pb = google::protobuf;

static void Require(bool holds, const char* what) {
  if (holds) return;
  std::fprintf(stderr, "bench_peer: %s\n", what);
  std::exit(1);
}

static std::string ReadFile(const char* path) {
  std::ifstream file(path, std::ios::binary);
  Require(file.good(), path);
  return std::string(std::istreambuf_iterator<char>(file), {});
}

static void Load(const std::string& bytes, pb::DescriptorPool* pool) {
  pb::FileDescriptorSet set;
  Require(set.ParseFromString(bytes), "the set is refused");
  for (const auto& file : set.file()) Require(pool->BuildFile(file) != nullptr, "a file is refused");
}

static double Turn(const std::function<void()>& operation, long rounds) {
  auto start = std::chrono::steady_clock::now();
  for (long i = 0; i < rounds; ++i) operation();
  return std::chrono::duration<double, std::nano>(std::chrono::steady_clock::now() - start).count();
}

static void Row(const char* name, double least_ns, const std::function<void()>& operation) {
  long rounds = 1;
  while (Turn(operation, rounds) < least_ns && rounds < (1L << 30)) rounds *= 2;
  double least = Turn(operation, rounds);
  for (int i = 1; i < 5; ++i) least = std::min(least, Turn(operation, rounds));
  std::printf("%s %.0f %ld\n", name, least / rounds, rounds);
}

int main(int count, char** words) {
  std::string set, type, text;
  double least_ns = 1e8;
  for (int i = 1; i + 1 < count; i += 2) {
    std::string word = words[i];
    if (word == "--set") set = ReadFile(words[i + 1]);
    else if (word == "--type") type = words[i + 1];
    else if (word == "--text") text = ReadFile(words[i + 1]);
    else if (word == "--min-ms") least_ns = std::atof(words[i + 1]) * 1e6;
    else Require(false, words[i]);
  }
  pb::DescriptorPool pool;
  Load(set, &pool);
  pb::DynamicMessageFactory factory(&pool);
  const pb::Descriptor* found = pool.FindMessageTypeByName(type);
  Require(found != nullptr, "the type is not known");
  const pb::Message* prototype = factory.GetPrototype(found);
  pb::TextFormat::Printer printer;
  printer.SetSingleLineMode(true);
  auto read_text = [&] {
    std::unique_ptr<pb::Message> message(prototype->New());
    Require(pb::TextFormat::ParseFromString(text, message.get()), "the text is refused");
    return message->SerializeAsString();
  };
  std::string bytes = read_text();
  auto read = [&] {
    std::unique_ptr<pb::Message> message(prototype->New());
    Require(message->ParseFromString(bytes), "the bytes are refused");
    return message;
  };
  Row("load_set", least_ns, [&] {
    pb::DescriptorPool other;
    Load(set, &other);
  });
  Row("encode", least_ns, [&] { read_text(); });
  Row("decode", least_ns, [&] {
    std::string printed;
    Require(printer.PrintToString(*read(), &printed), "nothing is printed");
  });
  Row("recode", least_ns, [&] { read()->SerializeAsString(); });
}
