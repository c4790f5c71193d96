// libprotobuf's side of compare/json_both: peer make SET TYPE COUNT SEED BYTES JSON, peer read SET TYPE JSON BYTES, peer same SET TYPE BYTES BYTES,
// peer time SET TYPE BYTES JSON ROUNDS.
//
// TYPE is the type of a message with one repeated field of messages. `make` fills it with random messages and writes its bytes and what
// libprotobuf writes of it as JSON. `read` writes the bytes of what libprotobuf reads of a JSON text. `same` says whether two files are the same
// message. `time` prints the milliseconds of
// processor time that libprotobuf takes to write the JSON and to read it, the least of the rounds.
#include <google/protobuf/descriptor.h>
#include <google/protobuf/descriptor.pb.h>
#include <google/protobuf/dynamic_message.h>
#include <google/protobuf/text_format.h>
#include <google/protobuf/util/json_util.h>
#include <google/protobuf/util/message_differencer.h>

#include <cmath>
#include <cstring>
#include <ctime>
#include <fstream>
#include <iostream>
#include <memory>
#include <random>
#include <set>
#include <sstream>
#include <string>

using namespace google::protobuf;

static std::mt19937_64 source;

static uint64_t below(uint64_t n) { return source() % n; }

static std::string get(const char* path) {
    std::ifstream in(path, std::ios::binary);
    std::stringstream all;
    all << in.rdbuf();
    return all.str();
}

static bool put(const char* path, const std::string& bytes) {
    std::ofstream out(path, std::ios::binary);
    return bool(out.write(bytes.data(), bytes.size()).flush());
}

// An integer of any size, often a small or an extreme one.
static uint64_t integer() {
    switch (below(6)) {
        case 0: return below(4);
        case 1: return -below(4);
        case 2: return uint64_t(1) << below(64);
        case 3: return (uint64_t(1) << 63) - below(3);
        default: return source() >> below(64);
    }
}

template <typename Float, typename Bits> static Float real() {
    Bits bits = Bits(source());
    Float it;
    std::memcpy(&it, &bits, sizeof it);
    switch (below(6)) {
        case 0: return Float(int64_t(below(2001)) - 1000);
        case 1: return Float(int64_t(below(200001)) - 100000) / Float(1000);
        case 2: return std::numeric_limits<Float>::infinity() * (below(2) ? 1 : -1);
        case 3: return -Float(0);
        default: return std::isnan(it) ? std::numeric_limits<Float>::quiet_NaN() : it;
    }
}

static std::string text() {
    static const char* const pieces[] = {"a", "B", "_", " ", "\"", "\\", "/", "\n", "\x01", "\x1f", "\x7f", "\xc3\xa9", "\xe2\x82\xac", "\xf0\x9f\x98\x80", "\xe2\x80\xa8", "<", "0"};
    std::string it;
    for (uint64_t n = below(9); n > 0; n--) it += pieces[below(sizeof pieces / sizeof *pieces)];
    return it;
}

static std::string bytes() {
    std::string it;
    for (uint64_t n = below(9); n > 0; n--) it += char(source());
    return it;
}

static void fill(Message* message, int depth);

static void fill_known(Message* message, const std::string& name, int depth) {
    const Reflection* to = message->GetReflection();
    const Descriptor* type = message->GetDescriptor();
    auto at = [&](int number) { return type->FindFieldByNumber(number); };
    if (name == "Timestamp") {
        to->SetInt64(message, at(1), int64_t(below(315537897600)) - 62135596800);
        if (below(2)) to->SetInt32(message, at(2), int32_t(below(1000000000)));
    } else if (name == "Duration") {
        bool negative = below(2);
        to->SetInt64(message, at(1), int64_t(below(below(2) ? 3 : 315576000000)) * (negative ? -1 : 1));
        if (below(2)) to->SetInt32(message, at(2), int32_t(below(1000000000)) * (negative ? -1 : 1));
    } else if (name == "FieldMask") {
        static const char* const paths[] = {"a", "foo_bar", "foo_bar.baz_q1", "x9"};
        for (uint64_t n = below(4); n > 0; n--) to->AddString(message, at(1), paths[below(4)]);
    } else if (name == "Value") {
        switch (below(depth > 0 ? 6 : 4)) {
            case 0: to->SetEnumValue(message, at(1), 0); break;
            case 1: {
                double it = real<double, uint64_t>();
                to->SetDouble(message, at(2), std::isfinite(it) ? it : 0.5);
                break;
            }
            case 2: to->SetString(message, at(3), text()); break;
            case 3: to->SetBool(message, at(4), below(2)); break;
            case 4: fill(to->MutableMessage(message, at(5)), depth - 1); break;
            case 5: fill(to->MutableMessage(message, at(6)), depth - 1); break;
        }
    }
}

// Whether the values of a field are of an enum of proto2, of which other numbers are unknown records.
static bool is_closed(const FieldDescriptor* field) {
    return field->cpp_type() == FieldDescriptor::CPPTYPE_ENUM && field->enum_type()->file()->syntax() == FileDescriptor::SYNTAX_PROTO2;
}

static void fill_field(Message* message, const FieldDescriptor* field, int depth) {
    const Reflection* to = message->GetReflection();
#define FILL(NAME, VALUE) \
    if (field->is_repeated()) to->Add##NAME(message, field, VALUE); \
    else to->Set##NAME(message, field, VALUE); \
    break
    switch (field->cpp_type()) {
        case FieldDescriptor::CPPTYPE_INT32: FILL(Int32, int32_t(integer()));
        case FieldDescriptor::CPPTYPE_INT64: FILL(Int64, int64_t(integer()));
        case FieldDescriptor::CPPTYPE_UINT32: FILL(UInt32, uint32_t(integer()));
        case FieldDescriptor::CPPTYPE_UINT64: FILL(UInt64, integer());
        case FieldDescriptor::CPPTYPE_DOUBLE: FILL(Double, (real<double, uint64_t>()));
        case FieldDescriptor::CPPTYPE_FLOAT: FILL(Float, (real<float, uint32_t>()));
        case FieldDescriptor::CPPTYPE_BOOL: FILL(Bool, bool(below(2)));
        case FieldDescriptor::CPPTYPE_ENUM: {
            bool known = is_closed(field) || field->enum_type()->full_name() == "google.protobuf.NullValue" || below(4);
            int value = known ? field->enum_type()->value(below(field->enum_type()->value_count()))->number() : int32_t(integer());
            FILL(EnumValue, value);
        }
        case FieldDescriptor::CPPTYPE_STRING: FILL(String, field->type() == FieldDescriptor::TYPE_BYTES ? bytes() : text());
        case FieldDescriptor::CPPTYPE_MESSAGE: fill(field->is_repeated() ? to->AddMessage(message, field) : to->MutableMessage(message, field), depth - 1); break;
    }
#undef FILL
}

// Leaves the first entry of each key.
static void drop_repeated_keys(Message* message, const FieldDescriptor* field) {
    const Reflection* to = message->GetReflection();
    const FieldDescriptor* key = field->message_type()->map_key();
    std::set<std::string> keys;
    for (int i = 0; i < to->FieldSize(*message, field);) {
        std::string text;
        TextFormat::PrintFieldValueToString(to->GetRepeatedMessage(*message, field, i), key, -1, &text);
        if (keys.insert(text).second) {
            i++;
        } else {
            to->SwapElements(message, field, i, to->FieldSize(*message, field) - 1);
            to->RemoveLast(message, field);
        }
    }
}

// Sets about eight fields, and in messages that are deep no messages.
static void fill(Message* message, int depth) {
    const Descriptor* type = message->GetDescriptor();
    const std::string& name = type->full_name();
    const std::string known = "google.protobuf.";
    if (name.compare(0, known.size(), known) == 0) {
        std::string last = name.substr(known.size());
        fill_known(message, last, depth);
        if (last == "Timestamp" || last == "Duration" || last == "FieldMask" || last == "Value" || last == "Any" || last == "Empty") return;
    }
    if (type->options().map_entry()) {
        for (int i = 0; i < 2; i++) fill_field(message, type->field(i), depth + 1);
        return;
    }
    for (int i = 0; i < type->field_count(); i++) {
        const FieldDescriptor* field = type->field(i);
        bool deep = field->cpp_type() == FieldDescriptor::CPPTYPE_MESSAGE && !field->is_map();
        if ((deep && depth <= 0) || below(type->field_count()) >= 8) continue;
        if (field->cpp_type() == FieldDescriptor::CPPTYPE_MESSAGE && field->message_type()->full_name() == "google.protobuf.Any") continue;
        // libprotobuf neither writes nor reads groups as JSON.
        if (field->type() == FieldDescriptor::TYPE_GROUP) continue;
        // Of a set that is read leniently these are lists of entries.
        if (field->is_map() && is_closed(field->message_type()->map_value())) continue;
        for (uint64_t n = field->is_repeated() ? below(4) : 1; n > 0; n--) fill_field(message, field, depth);
        if (field->is_map()) drop_repeated_keys(message, field);
    }
}

struct Types {
    DescriptorPool pool;
    DynamicMessageFactory factory{&pool};
    const Message* prototype = nullptr;

    Types(const char* path, const char* type) {
        FileDescriptorSet set;
        if (!set.ParseFromString(get(path))) exit(3);
        for (const auto& file : set.file()) {
            if (!pool.BuildFile(file)) exit(3);
        }
        prototype = factory.GetPrototype(pool.FindMessageTypeByName(type));
    }

    std::unique_ptr<Message> empty() const { return std::unique_ptr<Message>(prototype->New()); }
};

static std::unique_ptr<Message> parsed(const Types& types, const std::string& bytes) {
    auto it = types.empty();
    if (!it->ParseFromString(bytes)) exit(3);
    return it;
}

static void check(const util::Status& status) {
    if (status.ok()) return;
    std::cerr << status.ToString() << "\n";
    exit(1);
}

template <typename Work> static double least(int rounds, Work work) {
    double best = 1e9;
    while (rounds-- > 0) {
        std::clock_t begun = std::clock();
        work();
        best = std::min(best, (std::clock() - begun) * 1000.0 / CLOCKS_PER_SEC);
    }
    return best;
}

int main(int, char** words) {
    std::string command = words[1];
    Types types(words[2], words[3]);
    if (command == "make") {
        source.seed(std::stoull(words[5]));
        auto all = types.empty();
        const FieldDescriptor* field = all->GetDescriptor()->field(0);
        for (int n = std::stoi(words[4]); n > 0; n--) fill(all->GetReflection()->AddMessage(all.get(), field), 3);
        std::string json;
        check(util::MessageToJsonString(*all, &json));
        return !(put(words[6], all->SerializeAsString()) && put(words[7], json));
    }
    if (command == "read") {
        auto all = types.empty();
        check(util::JsonStringToMessage(get(words[4]), all.get()));
        return !put(words[5], all->SerializeAsString());
    }
    if (command == "same") {
        util::MessageDifferencer differ;
        std::string how;
        differ.ReportDifferencesToString(&how);
        differ.set_message_field_comparison(util::MessageDifferencer::EQUAL);
        util::DefaultFieldComparator floats;
        floats.set_treat_nan_as_equal(true);
        differ.set_field_comparator(&floats);
        bool same = differ.Compare(*parsed(types, get(words[4])), *parsed(types, get(words[5])));
        if (!same) std::cout << how.substr(0, 2000);
        return !same;
    }
    if (command == "time") {
        std::string bytes = get(words[4]), json = get(words[5]);
        auto all = parsed(types, bytes);
        int rounds = std::stoi(words[6]);
        double wrote = least(rounds, [&] { std::string out; check(util::MessageToJsonString(*all, &out)); });
        double read = least(rounds, [&] { auto it = types.empty(); check(util::JsonStringToMessage(json, it.get())); });
        std::cout << wrote << " " << read << "\n";
        return 0;
    }
    return 2;
}
