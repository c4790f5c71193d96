// Measures libprotobuf's dynamic messages on inputs: peer SET TYPE CALLS ROUNDS FILE..
//
// SET is what protoc --include_imports --descriptor_set_out wrote. The other words and what is printed are those of main.rt.txt.
#include "texts.h"

#include <google/protobuf/descriptor.h>
#include <google/protobuf/descriptor.pb.h>
#include <google/protobuf/dynamic_message.h>

#include <cstdio>
#include <cstdlib>
#include <memory>
#include <string>
#include <vector>

using namespace google::protobuf;

// A message is made, read and dropped.
static void time_decode(const Message& prototype, const char* path, const std::vector<std::string>& inputs) {
    size_t read = 0;
    long long start = now();
    for (const std::string& input : inputs) {
        std::unique_ptr<Message> message(prototype.New());
        if (message->ParseFromString(input)) read += input.size();
    }
    printf("%s decode %zu %lld\n", path, read, now() - start);
}

static void measure_held(const Message& prototype, const char* path, const std::vector<std::string>& inputs) {
    size_t read = 0;
    long long held = 0;
    for (const std::string& input : inputs) {
        long long start = now();
        std::unique_ptr<Message> message(prototype.New());
        bool is_read = message->ParseFromString(input);
        held += now() - start;
        if (is_read) read += input.size();
    }
    printf("%s held %zu %lld\n", path, read, held);
}

// All inputs are decoded before their messages are encoded.
static void time_encode(const Message& prototype, const char* path, const std::vector<std::string>& inputs, int rounds) {
    std::vector<std::unique_ptr<Message>> messages;
    for (const std::string& input : inputs) {
        messages.emplace_back(prototype.New());
        messages.back()->ParseFromString(input);
    }
    for (int round = 0; round < rounds; round++) {
        size_t written = 0;
        long long start = now();
        for (const auto& message : messages) {
            std::string out;
            if (message->SerializeToString(&out)) written += out.size();
        }
        printf("%s encode %zu %lld\n", path, written, now() - start);
    }
}

int main(int count, char** words) {
    FileDescriptorSet set;
    DescriptorPool pool;
    if (count < 5 || !set.ParseFromString(contents(words[1]))) return 2;
    for (const FileDescriptorProto& file : set.file())
        if (!pool.BuildFile(file)) return 2;
    const Descriptor* type = pool.FindMessageTypeByName(words[2]);
    if (!type) return 2;
    DynamicMessageFactory factory;
    const Message* prototype = factory.GetPrototype(type);
    std::string calls(words[3]);
    int rounds = atoi(words[4]);
    for (int k = 5; k < count; k++) {
        std::vector<std::string> inputs = inputs_of(contents(words[k]));
        for (int round = 0; round < rounds; round++) {
            if (calls == "held") measure_held(*prototype, words[k], inputs);
            else time_decode(*prototype, words[k], inputs);
        }
        if (calls == "both") time_encode(*prototype, words[k], inputs, rounds);
    }
    return 0;
}
