// Times mb_message_json and mb_message_from_json beside libprotobuf's MessageToJsonString and JsonStringToMessage, in one process:
// json SET TYPE ROUNDS FILE..
//
// SET is what protoc --include_imports --descriptor_set_out wrote; the files are those of bench/texts/make_texts.py. The messages of a file are decoded
// first, by both. Both read what libprotobuf writes of each, and each reads once what the other wrote. Then each round
// times each call on all messages of the file, or their JSON, in turn, by processor time. A line for each file and call has the bytes of JSON and the
// nanoseconds of each round.
#include "../texts/texts.h"
#include "mabristu.h"

#include <google/protobuf/descriptor.h>
#include <google/protobuf/descriptor.pb.h>
#include <google/protobuf/dynamic_message.h>
#include <google/protobuf/util/json_util.h>
#include <google/protobuf/util/message_differencer.h>

#include <cstdio>
#include <cstdlib>
#include <functional>
#include <memory>
#include <utility>

using namespace google::protobuf;

static const uint8_t* bytes_of(const std::string& text) { return reinterpret_cast<const uint8_t*>(text.data()); }

static mb_pool types = {};
static uint32_t number;
static mb_fault fault;
static mb_step path[MB_MAX_STEPS];
static uint32_t fields[MB_MAX_STEPS];
static std::vector<uint8_t> out(64 << 20);
static DescriptorPool pool;
static DynamicMessageFactory factory;
static const Message* prototype;

static bool link_all(const std::string& set_bytes, const std::string& type_name) {
    FileDescriptorSet set;
    mb_refusal refusal;
    if (!set.ParseFromString(set_bytes)) return false;
    for (const FileDescriptorProto& file : set.file())
        if (!pool.BuildFile(file)) return false;
    const Descriptor* type = pool.FindMessageTypeByName(type_name);
    prototype = type ? factory.GetPrototype(type) : nullptr;
    return prototype && mb_pool_link(bytes_of(set_bytes), set_bytes.size(), &types, &fault, path, MB_MAX_STEPS, &refusal, nullptr, 0) == MB_DONE &&
           mb_pool_type(&types, bytes_of(type_name), type_name.size(), &number) == MB_DONE;
}

// A message here and in libprotobuf, and its JSON.
struct Pair {
    mb_message here = {};
    std::unique_ptr<Message> there;
    std::string json;
};

static bool write_here(Pair& pair, size_t& size) {
    size_t steps;
    return mb_message_json(&types, &pair.here, false, false, out.data(), out.size(), &size, fields, MB_MAX_STEPS, &steps) == MB_DONE && size <= out.size();
}

static bool read_here(const std::string& json, mb_message* message) {
    size_t byte;
    return mb_message_from_json(&types, number, bytes_of(json), json.size(), false, message, &byte) == MB_DONE;
}

static bool read_there(const std::string& json, Message* message) { return util::JsonStringToMessage(json, message).ok(); }

// Whether two messages are the same, where a NaN is any NaN.
static bool are_same(const Message& one, const Message& other) {
    util::MessageDifferencer differ;
    util::DefaultFieldComparator floats;
    floats.set_treat_nan_as_equal(true);
    differ.set_field_comparator(&floats);
    return differ.Compare(one, other);
}

// Decodes a message, and has each read what the other writes of it.
static bool make(const std::string& input, Pair& pair) {
    if (mb_message_decode(&types, number, bytes_of(input), input.size(), MB_MAX_BYTES, MB_MAX_DEPTH, &pair.here, &fault, path, MB_MAX_STEPS) != MB_DONE)
        return false;
    pair.there.reset(prototype->New());
    size_t size = 0;
    if (!pair.there->ParseFromString(input) || !util::MessageToJsonString(*pair.there, &pair.json).ok() || !write_here(pair, size)) return false;
    mb_message read = {};
    std::unique_ptr<Message> other(prototype->New()), again(prototype->New());
    const std::string written(reinterpret_cast<const char*>(out.data()), size);
    bool same = read_here(pair.json, &read) && mb_message_encode(&read, out.data(), out.size(), &size) == MB_DONE &&
                again->ParseFromArray(out.data(), int(size)) && read_there(written, other.get()) &&
                are_same(*again, *pair.there) && are_same(*other, *pair.there);
    mb_message_free(&read);
    return same;
}

using Call = std::function<bool(Pair&)>;

static const std::vector<std::pair<const char*, Call>> calls = {
    {"write here", [](Pair& pair) { size_t size; return write_here(pair, size); }},
    {"write libprotobuf", [](Pair& pair) { std::string json; return util::MessageToJsonString(*pair.there, &json).ok(); }},
    {"read here", [](Pair& pair) {
         mb_message message = {};
         bool done = read_here(pair.json, &message);
         mb_message_free(&message);
         return done;
     }},
    {"read libprotobuf", [](Pair& pair) {
         std::unique_ptr<Message> message(prototype->New());
         return read_there(pair.json, message.get());
     }},
};

static bool time_all(const char* file, int rounds) {
    std::vector<std::string> inputs = inputs_of(contents(file));
    std::vector<Pair> pairs(inputs.size());
    std::vector<std::vector<long long>> spent(calls.size());
    size_t size = 0;
    for (size_t k = 0; k < inputs.size(); k++) {
        if (!make(inputs[k], pairs[k])) {
            fprintf(stderr, "%s: message %zu is not the same in both\n", file, k);
            return false;
        }
        size += pairs[k].json.size();
    }
    for (int round = 0; round < rounds; round++)
        for (size_t call = 0; call < calls.size(); call++) {
            long long start = now();
            for (Pair& pair : pairs)
                if (!calls[call].second(pair)) {
                    fprintf(stderr, "%s: %s failed\n", file, calls[call].first);
                    return false;
                }
            spent[call].push_back(now() - start);
        }
    for (size_t call = 0; call < calls.size(); call++) {
        printf("%s %s %zu", file, calls[call].first, size);
        for (long long it : spent[call]) printf(" %lld", it);
        printf("\n");
    }
    for (Pair& pair : pairs) mb_message_free(&pair.here);
    return true;
}

int main(int count, char** words) {
    if (count < 4 || !link_all(contents(words[1]), words[2])) return 2;
    for (int k = 4; k < count; k++)
        if (!time_all(words[k], atoi(words[3]))) return 3;
    mb_pool_free(&types);
    return 0;
}
