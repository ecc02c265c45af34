/* simdjson's tape, in the memory that the call before it had. */
#include "peer.h"
#include <simdjson.h>

/* 1 for each text. */
static size_t value(const std::string &text) {
    static simdjson::dom::parser parser;
    simdjson::dom::element root;
    expect(!parser.parse(text).get(root));
    used(root);
    return 1;
}

int main(int count, char **words) { return repeat(count, words, {{"value", value}}); }
