// Compiles the show on standard input: ./plan < SHOW > PLAN
// Built by: c++ -std=c++17 plan.cpp $(pkg-config --cflags --libs hemtoghai) -o plan
#include <hemtoghai.h>
#include <iostream>
#include <iterator>
#include <string>
#include <string_view>
#include <utility>

// The status and the answer of a command. The room grows to what the answer wants.
static std::pair<int, std::string> answer(std::string_view words, std::string_view input) {
    std::string output(4096, '\0');
    for (;;) {
        std::size_t size;
        int status = hemtoghai_run(words.data(), words.size(), input.data(), input.size(), output.data(),
                                   output.size(), &size);
        bool is_cut = status == HEMTOGHAI_NO_ROOM;
        output.resize(size);
        if (!is_cut) return {status, std::move(output)};
    }
}

int main() {
    std::string show(std::istreambuf_iterator<char>(std::cin), {});
    auto [status, plan] = answer("compile", show);
    std::cout << plan;
    return std::cout.flush() ? status : 70;
}
