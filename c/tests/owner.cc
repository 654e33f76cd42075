// C++: an owner of an answer, which frees it once. usage: owner FONT, whose `check` line is printed.
#include "t1subset.h"

#include <cstdio>
#include <cstring>
#include <fstream>
#include <iterator>
#include <string>
#include <utility>
#include <vector>

class Answer {
public:
    Answer() = default;
    Answer(const Answer &) = delete;
    Answer &operator=(const Answer &) = delete;
    Answer(Answer &&other) noexcept { std::swap(answer_, other.answer_); }
    ~Answer() { t1subset_free(&answer_); }

    t1subset_answer *fresh() {
        t1subset_free(&answer_);
        return &answer_;
    }
    t1subset_bytes bytes() const { return answer_.bytes; }
    std::string text() const {
        return {reinterpret_cast<const char *>(answer_.bytes.data), answer_.bytes.size};
    }

private:
    t1subset_answer answer_ = T1SUBSET_ANSWER;
};

static t1subset_bytes bytes(const std::vector<char> &file) {
    return {reinterpret_cast<const uint8_t *>(file.data()), file.size()};
}

int main(int count, char **words) {
    std::ifstream in(count == 2 ? words[1] : "", std::ios::binary);
    const std::vector<char> file{std::istreambuf_iterator<char>(in), {}};
    const t1subset_bytes font = bytes(file);
    Answer first, other;
    if (t1subset_subset(font.data, font.size, nullptr, 0, T1SUBSET_PFB, first.fresh()) != T1SUBSET_OK) return 1;
    const Answer kept(std::move(first));
    const t1subset_bytes twice[] = {kept.bytes(), kept.bytes()};
    if (t1subset_merge(twice, 2, T1SUBSET_PFB, other.fresh()) != T1SUBSET_OK || other.text() != kept.text()) return 1;
    if (t1subset_check(font.data, font.size, other.fresh()) != T1SUBSET_OK) return 1;
    std::fputs(other.text().c_str(), stdout);
    return 0;
}
