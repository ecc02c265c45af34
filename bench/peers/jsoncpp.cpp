/* JsonCpp, with comments. */
#include "peer.h"
#include <json/json.h>
#include <memory>

/* 1 for each text, whose tree is made and dropped. */
static size_t document(const std::string &text) {
    Json::CharReaderBuilder builder;
    builder["collectComments"] = true;
    std::unique_ptr<Json::CharReader> reader(builder.newCharReader());
    Json::Value tree;
    expect(reader->parse(text.data(), text.data() + text.size(), &tree, nullptr));
    used(tree);
    return 1;
}

int main(int count, char **words) { return repeat(count, words, {{"document", document}}); }
