// What libprotobuf makes of sets and messages: peer strip SET OUT, peer canon SET TYPE FILE, peer payloads SET TYPE FILE FOLDER.
//
// `strip` drops from a set what pbtool's lenient reading leaves out: extensions and their ranges, defaults, that a field is required, and
// the mark of the entries of maps whose values are of a closed enum, so that such a map is the list of its entries; and the mark of message
// sets, since libprotobuf takes none without extensions. None of it changes how a message's other fields are written; the records of
// extensions are unknown ones then. It prints what it dropped. `canon` writes the deterministic serialization of a
// message to standard output. `payloads` writes each payload of a message of benchmarks.proto to a file in FOLDER, and prints the type
// that the message names.
#include "../../bench/texts/texts.h"

#include <google/protobuf/descriptor.h>
#include <google/protobuf/descriptor.pb.h>
#include <google/protobuf/dynamic_message.h>
#include <google/protobuf/io/coded_stream.h>
#include <google/protobuf/io/zero_copy_stream_impl_lite.h>

#include <cstdio>
#include <fstream>
#include <memory>
#include <set>
#include <string>
#include <vector>

using namespace google::protobuf;

static bool put(const std::string& path, const std::string& bytes) {
    std::ofstream out(path, std::ios::binary);
    return bool(out.write(bytes.data(), bytes.size()).flush());
}

struct Dropped {
    int extensions = 0, ranges = 0, message_sets = 0, defaults = 0, required = 0, maps = 0;
};

using Names = std::set<std::string>;

static void closed_enums(const std::string& scope, const RepeatedPtrField<EnumDescriptorProto>& enums, Names* names) {
    for (const EnumDescriptorProto& type : enums) names->insert(scope + "." + type.name());
}

static void closed_enums_of(const std::string& scope, const DescriptorProto& message, Names* names) {
    closed_enums(scope + "." + message.name(), message.enum_type(), names);
    for (const DescriptorProto& inner : message.nested_type()) closed_enums_of(scope + "." + message.name(), inner, names);
}

static void strip_maps(DescriptorProto* message, const Names& closed, Dropped* dropped) {
    for (DescriptorProto& entry : *message->mutable_nested_type()) {
        if (!entry.options().map_entry() || !closed.count(entry.field(1).type_name())) continue;
        entry.clear_options();
        dropped->maps++;
    }
}

static void strip_message(const std::string& scope, DescriptorProto* message, const Names& closed, Dropped* dropped) {
    std::string name = scope + "." + message->name();
    strip_maps(message, closed, dropped);
    dropped->extensions += message->extension_size();
    message->clear_extension();
    dropped->ranges += message->extension_range_size();
    message->clear_extension_range();
    dropped->message_sets += message->options().message_set_wire_format();
    if (message->has_options()) message->mutable_options()->clear_message_set_wire_format();
    for (FieldDescriptorProto& field : *message->mutable_field()) {
        dropped->defaults += field.has_default_value();
        field.clear_default_value();
        if (field.label() != FieldDescriptorProto::LABEL_REQUIRED) continue;
        field.set_label(FieldDescriptorProto::LABEL_OPTIONAL);
        dropped->required++;
    }
    for (DescriptorProto& inner : *message->mutable_nested_type()) strip_message(name, &inner, closed, dropped);
}

static int strip(FileDescriptorSet set, const char* out) {
    Dropped dropped;
    Names closed;
    auto scope_of = [](const FileDescriptorProto& file) { return file.package().empty() ? "" : "." + file.package(); };
    for (const FileDescriptorProto& file : set.file()) {
        if (file.syntax() == "proto3") continue;
        closed_enums(scope_of(file), file.enum_type(), &closed);
        for (const DescriptorProto& message : file.message_type()) closed_enums_of(scope_of(file), message, &closed);
    }
    for (FileDescriptorProto& file : *set.mutable_file()) {
        dropped.extensions += file.extension_size();
        file.clear_extension();
        for (DescriptorProto& message : *file.mutable_message_type()) strip_message(scope_of(file), &message, closed, &dropped);
    }
    printf("%d extensions, %d ranges, %d message sets, %d defaults, %d required, %d maps\n", dropped.extensions, dropped.ranges,
           dropped.message_sets, dropped.defaults, dropped.required, dropped.maps);
    return put(out, set.SerializeAsString()) ? 0 : 1;
}

static std::string key_of(const Message& entry) {
    std::unique_ptr<Message> key(entry.New());
    key->CopyFrom(entry);
    key->GetReflection()->ClearField(key.get(), key->GetDescriptor()->map_value());
    key->GetReflection()->MutableUnknownFields(key.get())->Clear();
    return key->SerializeAsString();
}

// A dynamic message keeps all entries of a map that were read, of which only the last of each key counts.
static void settle(Message* message) {
    const Reflection* values = message->GetReflection();
    std::vector<const FieldDescriptor*> fields;
    values->ListFields(*message, &fields);
    for (const FieldDescriptor* field : fields) {
        if (field->cpp_type() != FieldDescriptor::CPPTYPE_MESSAGE) continue;
        if (!field->is_repeated()) settle(values->MutableMessage(message, field));
        if (!field->is_repeated()) continue;
        std::set<std::string> keys;
        for (int k = values->FieldSize(*message, field) - 1; k >= 0; k--) {
            settle(values->MutableRepeatedMessage(message, field, k));
            if (!field->is_map() || keys.insert(key_of(values->GetRepeatedMessage(*message, field, k))).second) continue;
            for (int j = k; j + 1 < values->FieldSize(*message, field); j++) values->SwapElements(message, field, j, j + 1);
            values->RemoveLast(message, field);
        }
    }
}

static int canon(const Message& message) {
    std::string bytes;
    {
        io::StringOutputStream stream(&bytes);
        io::CodedOutputStream out(&stream);
        out.SetSerializationDeterministic(true);
        if (!message.SerializeToCodedStream(&out)) return 1;
    }
    return fwrite(bytes.data(), 1, bytes.size(), stdout) == bytes.size() ? 0 : 1;
}

static int payloads(const Message& message, const std::string& folder) {
    const Reflection* fields = message.GetReflection();
    const FieldDescriptor* payload = message.GetDescriptor()->FindFieldByName("payload");
    for (int k = 0; k < fields->FieldSize(message, payload); k++)
        if (!put(folder + "/" + std::to_string(k), fields->GetRepeatedString(message, payload, k))) return 1;
    puts(fields->GetString(message, message.GetDescriptor()->FindFieldByName("message_name")).c_str());
    return 0;
}

int main(int count, char** words) {
    FileDescriptorSet set;
    if (count < 4 || !set.ParseFromString(contents(words[2]))) return 2;
    std::string call(words[1]);
    if (call == "strip") return strip(set, words[3]);
    DescriptorPool pool;
    for (const FileDescriptorProto& file : set.file())
        if (!pool.BuildFile(file)) return 2;
    const Descriptor* type = pool.FindMessageTypeByName(words[3]);
    if (count < 5 || !type) return 2;
    DynamicMessageFactory factory;
    std::unique_ptr<Message> message(factory.GetPrototype(type)->New());
    if (!message->ParseFromString(contents(words[4]))) return 1;
    if (call == "canon") settle(message.get());
    if (call == "canon") return canon(*message);
    return call == "payloads" && count == 6 ? payloads(*message, words[5]) : 2;
}
