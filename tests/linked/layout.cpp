/* Writes what the call of wgsl.hpp with that name says of the WGSL text on standard input. */
#include "wgsl.hpp"

#include <cstdio>
#include <iostream>
#include <iterator>
#include <string>

int main(int, char **words) {
    std::string text(std::istreambuf_iterator<char>(std::cin), {});
    auto told = std::string(words[1]) == "module_check" ? wgsl::module_check(text) : wgsl::source_layout(text);
    if (!told) return 1;
    std::fwrite(told.text.data(), 1, told.text.size(), stdout);
}
