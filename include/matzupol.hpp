// Protobuf reflection in process, for C++17: a schema that closes itself, and refusals as exceptions.
//
//     matzupol::Schema schema;
//     schema.add_sources({{"a.proto", text}});
//     std::string bytes = schema.encode("p.M", "foo: 150");
//
// One call at a time on a schema. `matzupol.h` says what each call does.
#ifndef MATZUPOL_HPP
#define MATZUPOL_HPP

#include "matzupol.h"

#include <new>
#include <stdexcept>
#include <string>
#include <string_view>
#include <utility>
#include <vector>

namespace matzupol {

// Why a call was refused. Want of memory is `std::bad_alloc`.
class Error : public std::runtime_error {
  public:
    Error(matzupol_code code, const std::string &text, std::string file, matzupol_place_at place)
        : std::runtime_error(text.empty() ? matzupol_code_text(code) : text), code(code), file(std::move(file)), place(place) {}

    matzupol_code code;
    std::string file;        // empty where it is not known
    matzupol_place_at place; // 0 and 0 where it is not known
};

class Schema {
  public:
    Schema() { settle(matzupol_open(&held_)); }
    ~Schema() { matzupol_close(&held_); }
    Schema(Schema &&other) noexcept : held_(std::exchange(other.held_, matzupol_schema MATZUPOL_CLOSED)) {}
    Schema &operator=(Schema &&other) noexcept {
        std::swap(held_, other.held_);
        return *this;
    }
    Schema(const Schema &) = delete;
    Schema &operator=(const Schema &) = delete;

    // Files' names and texts, as one batch.
    void add_sources(const std::vector<std::pair<std::string_view, std::string_view>> &sources) {
        for (const auto &[name, text] : sources) {
            matzupol_code code = matzupol_source(&held_, name.data(), name.size(), text.data(), text.size());
            if (code == MATZUPOL_DONE) continue;
            matzupol_forget(&held_);
            raise(code);
        }
        settle(matzupol_link(&held_));
    }

    void add_set(std::string_view set) { settle(matzupol_add_set(&held_, set.data(), set.size())); }

    std::string set() { return answered(matzupol_set(&held_)); }

    std::string encode(std::string_view type, std::string_view text) {
        return answered(matzupol_encode(&held_, type.data(), type.size(), text.data(), text.size()));
    }

    std::string decode(std::string_view type, std::string_view bytes) {
        return answered(matzupol_decode(&held_, type.data(), type.size(), bytes.data(), bytes.size()));
    }

    std::string recode(std::string_view type, std::string_view bytes) {
        return answered(matzupol_recode(&held_, type.data(), type.size(), bytes.data(), bytes.size()));
    }

  private:
    std::string answer() {
        std::string text(matzupol_answer_len(&held_), '\0');
        matzupol_answer(&held_, text.data(), text.size());
        return text;
    }

    std::string file() {
        std::string name(matzupol_file_len(&held_), '\0');
        matzupol_file(&held_, name.data(), name.size());
        return name;
    }

    [[noreturn]] void raise(matzupol_code code) {
        if (code == MATZUPOL_MEMORY) throw std::bad_alloc();
        throw Error(code, answer(), file(), matzupol_place(&held_));
    }

    void settle(matzupol_code code) {
        if (code != MATZUPOL_DONE) raise(code);
    }

    std::string answered(matzupol_code code) {
        settle(code);
        return answer();
    }

    matzupol_schema held_ = MATZUPOL_CLOSED;
};

} // namespace matzupol

#endif
