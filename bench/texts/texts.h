// What the programs in C++ that time libprotobuf share: files of inputs, and the clock.
#ifndef TEXTS_H
#define TEXTS_H

#include <ctime>
#include <fstream>
#include <iterator>
#include <string>
#include <vector>

inline std::string contents(const char* path) {
    std::ifstream in(path, std::ios::binary);
    return std::string(std::istreambuf_iterator<char>(in), std::istreambuf_iterator<char>());
}

// The inputs of a file, each after its length in four bytes, the lowest first, as make_texts.py writes them.
inline std::vector<std::string> inputs_of(const std::string& file) {
    std::vector<std::string> inputs;
    for (size_t at = 0, size; at + 4 <= file.size(); at += 4 + size) {
        size = 0;
        for (int k = 3; k >= 0; k--) size = size << 8 | (unsigned char)file[at + k];
        inputs.push_back(file.substr(at + 4, size));
    }
    return inputs;
}

// Processor time of the process, in nanoseconds.
inline long long now() {
    timespec time;
    clock_gettime(CLOCK_PROCESS_CPUTIME_ID, &time);
    return time.tv_sec * 1000000000LL + time.tv_nsec;
}

#endif
