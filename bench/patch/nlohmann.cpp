// Makes patches by nlohmann's library, to compare with: a line of three fields for each, `apply` or `merge`, and a document and a patch, each
// a JSON text in a JSON string. Prints the value that comes of it, or `fails`.
//
// c++ -std=c++17 -O2 -w bench/patch/nlohmann.cpp -o nlohmann
#include <iostream>
#include <stdexcept>
#include <string>

// What it asserts of a patch is a failure too.
#define JSON_ASSERT(x) ((x) ? (void)0 : throw std::logic_error(#x))
#include <nlohmann/json.hpp>

using nlohmann::json;

int main() {
    std::string line;
    while (std::getline(std::cin, line)) {
        const auto first = line.find('\t'), second = line.find('\t', first + 1);
        const auto text = [&](const std::string& quoted) { return json::parse(json::parse(quoted).get<std::string>()); };
        try {
            json document = text(line.substr(first + 1, second - first - 1));
            const json patch = text(line.substr(second + 1));
            if (line.compare(0, first, "merge") == 0) {
                document.merge_patch(patch);
            } else {
                document = document.patch(patch);
            }
            std::cout << document.dump() << '\n';
        } catch (const std::exception&) {
            std::cout << "fails\n";
        }
    }
}
