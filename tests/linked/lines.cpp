/* Answers each line of standard input by wgsl.hpp as the program wgsl_check does, with an argument as `wgsl ask`, for which no
 * rules are named, and says why one can't be read. */
#include "wgsl.hpp"

#include <cstdio>
#include <iostream>
#include <string>

static void write(std::string_view text, std::FILE *to) {
    std::fwrite(text.data(), 1, text.size(), to);
    std::fputc('\n', to);
}

int main(int arguments, char **) {
    if (wgsl::version() != WGSL_VERSION) return 1;
    bool readable = true;
    unsigned long number = 0;
    for (std::string line; std::getline(std::cin, line);) {
        number++;
        auto reply = arguments > 1 ? wgsl::answer(line) : wgsl::answer(line, wgsl::Rules::ported);
        if (bool(reply) != (reply.status == wgsl::Status::answered)) return 1;
        switch (reply.status) {
        case wgsl::Status::answered:
        case wgsl::Status::ruled_out:
            write(reply.text, stdout);
            break;
        case wgsl::Status::unreadable:
            if (reply.text == "no words") continue;
            std::printf("bad line %lu\n", number);
            std::fprintf(stderr, "line %lu: ", number);
            write(reply.text, stderr);
            readable = false;
            break;
        case wgsl::Status::out_of_memory:
            return reply.text.empty() ? WGSL_OUT_OF_MEMORY : 1;
        }
    }
    return readable ? 0 : 2;
}
