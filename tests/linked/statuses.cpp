/* What wgsl.hpp makes of each status of a stub (stub.c) of version 0.3.7 in the library's place, and of two threads that ask at
 * once. Ends with the number of the line that is wrong. */
#include "wgsl.hpp"

#include <string>
#include <thread>

using wgsl::Language;
using wgsl::Rules;
using wgsl::Status;

static_assert(int(Language::c) == WGSL_C && int(Language::rust) == WGSL_RUST && int(Language::typescript) == WGSL_TYPESCRIPT);

static bool is(const wgsl::Result &reply, Status status, std::string_view text) {
    return reply.status == status && reply.text == text && bool(reply) == (status == Status::answered);
}

/* Whether a request has that reply by either set of rules. */
static bool replies(std::string_view request, Status status, std::string_view text) {
    return is(wgsl::answer(request), status, text) && is(wgsl::answer(request, Rules::ported), status, text);
}

/* Whether each answer of these lengths is right, asked for while another thread has its answer in its room. */
static bool meet(char letter, std::size_t step) {
    bool right = true;
    for (std::size_t turn = 0; turn < 200; turn++) {
        std::string text(1 + turn * step % 700, letter);
        right &= is(wgsl::answer("meet " + text), Status::answered, text);
    }
    return right;
}

#define EXPECT(condition) do { if (!(condition)) return __LINE__; } while (false)

int main() {
    EXPECT(wgsl::version() == "0.3.7");
    for (std::size_t length : {0, 1, 255, 256, 257, 5000}) {
        std::string text(length, 'x');
        EXPECT(replies("say " + text, Status::answered, text));
        EXPECT(replies("refuse " + text, Status::ruled_out, text));
        EXPECT(replies(text, Status::unreadable, text));
        EXPECT(is(wgsl::source_layout("say " + text), Status::answered, text));
        EXPECT(is(wgsl::module_check("say " + text), Status::answered, text));
        EXPECT(is(wgsl::source_code("say " + text, Language::numpy), Status::answered, text));
        for (auto other : {Language::c, Language::rust, Language::typescript})
            EXPECT(is(wgsl::source_code("say " + text, other), Status::unreadable, ""));
    }
    EXPECT(replies({}, Status::unreadable, ""));
    EXPECT(replies("unexplained", Status::out_of_memory, ""));
    for (auto request : {"memory", "memory 1", "memory 256", "memory 257", "memory 5000"}) {
        EXPECT(replies(request, Status::out_of_memory, ""));
        EXPECT(is(wgsl::source_layout(request), Status::out_of_memory, ""));
        EXPECT(is(wgsl::module_check(request), Status::out_of_memory, ""));
    }
    bool one = false;
    std::thread thread([&] { one = meet('a', 7); });
    bool other = meet('b', 11);
    thread.join();
    EXPECT(one && other);
}
