/* The type rules of WGSL for C++17: the calls of wgsl.h over texts. Header only: link with libwgsl.
 *
 *     if (auto sum = wgsl::answer("type 1 + vec3f")) std::puts(sum.text.c_str());    // vec3<f32>
 *
 * docs/USING.md lists the requests. No function throws, but std::string if memory runs out. A call may be made by several
 * threads at once; it needs the stack that wgsl.h names. */
#ifndef WGSL_HPP
#define WGSL_HPP
#include "wgsl.h"

#include <cstddef>
#include <cstdint>
#include <string>
#include <string_view>
#include <utility>

namespace wgsl {

/* How a call ended. */
enum class Status {
    answered = WGSL_ANSWERED,
    ruled_out = WGSL_RULED_OUT,
    unreadable = WGSL_UNREADABLE,
    out_of_memory = WGSL_OUT_OF_MEMORY,
};

/* The answer to a request; or why there is none: the message of WGSL's rules, or what is wrong with the request. */
struct Result {
    Status status;
    std::string text;

    explicit operator bool() const { return status == Status::answered; }
};

/* Whose rules answer: WGSL's own, to a request in WGSL, or those of wgsl-types, to one in words. */
enum class Rules { standard, ported };

namespace detail {

/* Makes a call, and once more with a longer buffer if its text doesn't fit. */
template <class Call> Result ask(Call call, std::string_view request) {
    constexpr std::size_t usual = 256;
    const char *bytes = request.empty() ? "" : request.data();
    std::string buffer(usual, '\0');
    std::size_t len = 0;
    auto once = [&] {
        return call(reinterpret_cast<const std::uint8_t *>(bytes), request.size(),
                    reinterpret_cast<std::uint8_t *>(buffer.data()), buffer.size(), &len);
    };
    int status = once();
    if (status == WGSL_NO_ROOM) {
        buffer.resize(len);
        status = once();
    }
    buffer.resize(len);
    return Result{static_cast<Status>(status), std::move(buffer)};
}

} // namespace detail

/* Answers one request. */
inline Result answer(std::string_view request, Rules rules = Rules::standard) {
    bool is_standard = rules == Rules::standard;
    Result reply = detail::ask(is_standard ? wgsl_standard_answer : wgsl_answer, request);
    if (reply.status != Status::unreadable) return reply;
    Result why = detail::ask(is_standard ? wgsl_standard_explain : wgsl_explain, request);
    if (why.status != Status::answered) return why;
    return Result{Status::unreadable, std::move(why.text)};
}

/* The layouts of a WGSL text as JSON, whose fields docs/USING.md names. */
inline Result source_layout(std::string_view text) { return detail::ask(wgsl_source_layout, text); }

/* What is wrong with a WGSL text by WGSL's rules, and the types of its expressions, as JSON too. */
inline Result module_check(std::string_view text) { return detail::ask(wgsl_module_check, text); }

enum class Language { c = WGSL_C, rust = WGSL_RUST, numpy = WGSL_NUMPY, typescript = WGSL_TYPESCRIPT };

/* The structs of a WGSL text as code; if it has errors, Status::ruled_out with the code of the structs that have none. */
inline Result source_code(std::string_view text, Language language) {
    auto call = [language](auto... arguments) { return wgsl_source_code(arguments..., static_cast<std::uint8_t>(language)); };
    return detail::ask(call, text);
}

/* The version of the library that is linked. */
inline std::string_view version() { return wgsl_version(); }

} // namespace wgsl

#endif
