// Times mb_check and mb_canon beside libprotobuf's dynamic messages and, built with -DUPB, beside upb, and mb_find and mb_message_decode by themselves,
// in one process: speed SET TYPE ROUNDS FILE..
// Times to decode a message, read one field of it and encode it, by each of them: speed SET TYPE ROUNDS --field NUMBER FILE.., where each file has one
// canonical message, and the field is of a uint64.
//
// SET is what protoc --include_imports --descriptor_set_out wrote; the files are those of bench/texts/make_texts.py. Each round times each call on all
// inputs of a file in turn, by processor time. A line for each file and call has the bytes and the nanoseconds of each round. With no file the calls on
// no bytes are timed, and a line for each has the nanoseconds.
#include "../texts/texts.h"
#include "mabristu.h"
#ifdef UPB
#include "upb.h"
#endif

#include <google/protobuf/descriptor.h>
#include <google/protobuf/descriptor.pb.h>
#include <google/protobuf/dynamic_message.h>
#include <google/protobuf/io/coded_stream.h>
#include <google/protobuf/io/zero_copy_stream_impl_lite.h>

#include <algorithm>
#include <cstdio>
#include <cstdlib>
#include <cstring>
#include <functional>
#include <memory>
#include <utility>

using namespace google::protobuf;
using Call = std::function<bool(const std::string&)>;

static const uint8_t* bytes_of(const std::string& input) { return reinterpret_cast<const uint8_t*>(input.data()); }

static mb_pool types = {};
static uint32_t number;
static mb_fault fault;
static mb_step path[MB_MAX_STEPS];
static std::vector<uint8_t> out;
static DescriptorPool pool;
static DynamicMessageFactory factory;
static const Message* prototype;

// Makes the types for each codec. A pool is made once, so this is not timed.
static bool link_all(const std::string& set_bytes, const std::string& type_name) {
    FileDescriptorSet set;
    mb_refusal refusal;
    if (!set.ParseFromString(set_bytes)) return false;
    for (const FileDescriptorProto& file : set.file())
        if (!pool.BuildFile(file)) return false;
    const Descriptor* type = pool.FindMessageTypeByName(type_name);
    prototype = type ? factory.GetPrototype(type) : nullptr;
#ifdef UPB
    if (!upb_link_set(set_bytes.data(), set_bytes.size(), type_name.c_str())) return false;
#endif
    return prototype && mb_pool_link(bytes_of(set_bytes), set_bytes.size(), &types, &fault, path, MB_MAX_STEPS, &refusal, nullptr, 0) == MB_DONE &&
           mb_pool_type(&types, bytes_of(type_name), type_name.size(), &number) == MB_DONE;
}

static bool check(const std::string& input) {
    return mb_check(&types, number, bytes_of(input), input.size(), MB_MAX_BYTES, MB_MAX_DEPTH, &fault, path, MB_MAX_STEPS) == MB_DONE;
}

// The field 10 of the message in field 11, which none of the inputs has: all records of the message are passed over.
static bool find(const std::string& input) {
    const uint32_t numbers[] = {11, 10};
    mb_value value;
    return mb_find(&types, number, bytes_of(input), input.size(), MB_MAX_BYTES, MB_MAX_DEPTH, numbers, 2, &value, nullptr, 0, &fault, path,
                   MB_MAX_STEPS) == MB_ABSENT;
}

static bool decode(const std::string& input) {
    mb_message message = {};
    uint32_t answer = mb_message_decode(&types, number, bytes_of(input), input.size(), MB_MAX_BYTES, MB_MAX_DEPTH, &message, &fault, path, MB_MAX_STEPS);
    mb_message_free(&message);
    return answer == MB_DONE;
}

static bool canon(const std::string& input) {
    size_t size;
    return mb_canon(&types, number, bytes_of(input), input.size(), MB_MAX_BYTES, MB_MAX_DEPTH, out.data(), out.size(), &size, &fault, path,
                    MB_MAX_STEPS) == MB_DONE && size == input.size();
}

static bool parse(const std::string& input) {
    std::unique_ptr<Message> message(prototype->New());
    return message->ParseFromString(input);
}

// Map entries are put in order, as in the canonical bytes.
static bool rewrite(const std::string& input) {
    std::unique_ptr<Message> message(prototype->New());
    if (!message->ParseFromString(input) || message->ByteSizeLong() > out.size()) return false;
    io::ArrayOutputStream array(out.data(), out.size());
    io::CodedOutputStream coded(&array);
    coded.SetSerializationDeterministic(true);
    return message->SerializeToCodedStream(&coded) && coded.ByteCount() == int(input.size());
}

static uint32_t field_number;
static uint64_t read_number;

// Decodes a message, reads a field, and encodes it.
static bool route(const std::string& input) {
    const mb_value place = {MB_FIELD, field_number};
    mb_message message = {};
    mb_value value = {};
    size_t size = 0;
    bool done = mb_message_decode(&types, number, bytes_of(input), input.size(), MB_MAX_BYTES, MB_MAX_DEPTH, &message, &fault, path, MB_MAX_STEPS) == MB_DONE &&
                mb_message_get(&message, &place, 1, nullptr, 0, &value) == MB_DONE &&
                mb_message_encode(&message, out.data(), out.size(), &size) == MB_DONE;
    mb_message_free(&message);
    read_number = value.number;
    return done && size == input.size();
}

// The same of a message whose fields are built, as after a change.
static bool route_built(const std::string& input) {
    const mb_value place = {MB_FIELD, field_number};
    mb_message message = {};
    mb_value value = {};
    size_t size = 0;
    bool done = mb_message_decode(&types, number, bytes_of(input), input.size(), MB_MAX_BYTES, MB_MAX_DEPTH, &message, &fault, path, MB_MAX_STEPS) == MB_DONE &&
                mb_message_get(&message, &place, 1, nullptr, 0, &value) == MB_DONE &&
                mb_message_set(&message, &place, 1, nullptr, 0, &value) == MB_DONE &&
                mb_message_encode(&message, out.data(), out.size(), &size) == MB_DONE;
    mb_message_free(&message);
    read_number = value.number;
    return done && size == input.size();
}

static bool route_reflected(const std::string& input) {
    std::unique_ptr<Message> message(prototype->New());
    if (!message->ParseFromString(input) || message->ByteSizeLong() > out.size()) return false;
    read_number = message->GetReflection()->GetUInt64(*message, message->GetDescriptor()->FindFieldByNumber(field_number));
    io::ArrayOutputStream array(out.data(), out.size());
    io::CodedOutputStream coded(&array);
    coded.SetSerializationDeterministic(true);
    return message->SerializeToCodedStream(&coded) && coded.ByteCount() == int(input.size());
}

static const std::vector<std::pair<const char*, Call>> routes = {
    {"field here", route},
    {"change here", route_built},
    {"field libprotobuf", route_reflected},
#ifdef UPB
    {"field upb", [](const std::string& input) { size_t size = 0; return upb_route(input.data(), input.size(), field_number, &read_number, &size) && size == input.size(); }},
#endif
};

// Nanoseconds of each on a message, the best of the rounds. Each has to read the same number.
static bool time_routes(const char* file, int rounds) {
    const std::string input = contents(file);
    const int count = int(20000000 / (input.size() + 1000));
    std::vector<double> best(routes.size(), -1);
    route(input);
    const uint64_t wanted = read_number;
    for (int round = 0; round < rounds; round++)
        for (size_t it = 0; it < routes.size(); it++) {
            long long start = now();
            for (int k = 0; k < count; k++)
                if (!routes[it].second(input) || read_number != wanted) {
                    fprintf(stderr, "%s: %s failed\n", file, routes[it].first);
                    return false;
                }
            double spent = double(now() - start) / count;
            best[it] = best[it] < 0 ? spent : std::min(best[it], spent);
        }
    for (size_t it = 0; it < routes.size(); it++) printf("%s %s %zu %.0f\n", file, routes[it].first, input.size(), best[it]);
    return true;
}

static const std::vector<std::pair<const char*, Call>> calls = {
    {"check here", check},
    {"check libprotobuf", parse},
#ifdef UPB
    {"check upb", [](const std::string& input) { return upb_read(input.data(), input.size()); }},
#endif
    {"find here", find},
    {"decode here", decode},
    {"canon here", canon},
    {"canon libprotobuf", rewrite},
#ifdef UPB
    {"canon upb", [](const std::string& input) { size_t size = 0; return upb_rewrite(input.data(), input.size(), &size) && size == input.size(); }},
#endif
};

static bool time_all(const char* path, int rounds) {
    std::vector<std::string> inputs = inputs_of(contents(path));
    std::vector<std::vector<long long>> spent(calls.size());
    size_t size = 0;
    for (const std::string& input : inputs) size += input.size();
    for (int round = 0; round < rounds; round++)
        for (size_t call = 0; call < calls.size(); call++) {
            long long start = now();
            for (const std::string& input : inputs)
                if (!calls[call].second(input)) {
                    fprintf(stderr, "%s: %s failed\n", path, calls[call].first);
                    return false;
                }
            spent[call].push_back(now() - start);
        }
    for (size_t call = 0; call < calls.size(); call++) {
        printf("%s %s %zu", path, calls[call].first, size);
        for (long long it : spent[call]) printf(" %lld", it);
        printf("\n");
    }
    return true;
}

// Nanoseconds of a call, by many of them.
static void time_one(const char* what, const std::function<void()>& call) {
    const int count = 200000;
    long long start = now();
    for (int k = 0; k < count; k++) call();
    printf("once %.0f %s\n", double(now() - start) / count, what);
}

int main(int count, char** words) {
    if (count < 4 || !link_all(contents(words[1]), words[2])) return 2;
    const std::string nothing, type_name = words[2];
    out.resize(16 << 20);
    if (count > 5 && !strcmp(words[4], "--field")) {
        field_number = uint32_t(atoi(words[5]));
        for (int k = 6; k < count; k++)
            if (!time_routes(words[k], atoi(words[3]))) return 3;
        return 0;
    }
    for (int k = 4; k < count; k++)
        if (!time_all(words[k], atoi(words[3]))) return 3;
    if (count > 4) return 0;
    for (const auto& call : calls) time_one(call.first, [&] { call.second(nothing); });
    time_one("mb_pool_type", [&] { mb_pool_type(&types, bytes_of(type_name), type_name.size(), &number); });
    time_one("mb_pool_share with mb_pool_free", [] {
        mb_pool other = {};
        mb_pool_share(&types, &other);
        mb_pool_free(&other);
    });
    mb_pool_free(&types);
    return 0;
}
