/* What the peers' programs share: one call is made so many times on standard input, and the sum of its answers written. */
#pragma once
#include <cstdio>
#include <cstring>
#include <initializer_list>
#include <stdexcept>
#include <string>

struct Call {
    const char *word;
    size_t (*once)(const std::string &text);
};

/* Makes the compiler take a result for used. */
template <class Result> void used(Result &result) { asm volatile("" : : "r"(&result) : "memory"); }

/* Tells that a text was read, which each of them must be. */
inline void expect(bool accepted) {
    if (!accepted)
        throw std::runtime_error("the text is refused");
}

inline std::string input() {
    std::string text;
    size_t length = 0;
    do {
        text.resize(2 * length + 4096);
        length += std::fread(&text[length], 1, text.size() - length, stdin);
    } while (length == text.size());
    text.resize(length);
    /* Some read a few bytes past the end. */
    text.reserve(length + 64);
    return text;
}

/* The words are the call and how often to make it. */
inline int repeat(int count, char **words, std::initializer_list<Call> calls) {
    if (count != 3)
        throw std::runtime_error("usage: CALL COUNT");
    std::string text = input();
    for (const Call &call : calls)
        if (!std::strcmp(call.word, words[1])) {
            size_t sum = 0;
            for (unsigned long times = std::stoul(words[2]); times; times--)
                sum += call.once(text);
            std::printf("%zu\n", sum);
            return 0;
        }
    throw std::runtime_error("no such call");
}
