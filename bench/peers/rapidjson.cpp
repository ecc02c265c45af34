/* RapidJSON, with comments, trailing commas and the texts of numbers. */
#include "peer.h"
#include <rapidjson/document.h>
#include <rapidjson/reader.h>

using namespace rapidjson;

const unsigned FLAGS = kParseCommentsFlag | kParseTrailingCommasFlag | kParseNumbersAsStringsFlag;

struct Counter : BaseReaderHandler<UTF8<>, Counter> {
    size_t events = 0;
    bool Default() { return ++events; }
};

/* How many events a text has. */
static size_t events(const std::string &text) {
    Counter counter;
    StringStream stream(text.c_str());
    Reader reader;
    expect(reader.Parse<FLAGS>(stream, counter));
    return counter.events;
}

/* 1 for each text, whose tree is made and dropped. */
static size_t value(const std::string &text) {
    Document tree;
    expect(!tree.Parse<FLAGS>(text.c_str()).HasParseError());
    used(tree);
    return 1;
}

int main(int count, char **words) { return repeat(count, words, {{"events", events}, {"value", value}}); }
