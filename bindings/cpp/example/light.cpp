// The layouts of a struct, the type of an expression by both sets of rules, and an answer for each line of standard input.
#include "wgsl.hpp"

#include <cstdio>
#include <iostream>
#include <string>

static void show_layout() {
    auto layout = wgsl::source_layout("struct Light { color: vec3f, power: f32 }");
    if (layout) std::fputs(layout.text.c_str(), stdout);
}

static void show_sum() {
    auto sum = wgsl::answer("binary + bool i32", wgsl::Rules::ported);
    std::puts(sum.text.c_str());
    auto root = wgsl::answer("type sqrt(2)");
    if (root) std::puts(root.text.c_str());
}

// Lines that begin with `wgsl ` are in WGSL, and answered by its own rules.
static void answer_lines() {
    for (std::string line; std::getline(std::cin, line);) {
        bool is_standard = line.rfind("wgsl ", 0) == 0;
        auto answer = is_standard ? wgsl::answer(line.substr(5)) : wgsl::answer(line, wgsl::Rules::ported);
        std::printf("%s\n", answer.text.c_str());
    }
}

int main() {
    show_layout();
    show_sum();
    answer_lines();
}
