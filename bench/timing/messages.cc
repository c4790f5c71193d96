// Times libprotobuf's dynamic messages on the messages of messages.rt, one line a call, as main.rt prints them.
#include "../texts/texts.h"

#include <google/protobuf/descriptor.h>
#include <google/protobuf/descriptor.pb.h>
#include <google/protobuf/dynamic_message.h>

#include <cstdio>
#include <memory>
#include <string>

using namespace google::protobuf;
using Type = FieldDescriptorProto::Type;

static void add(DescriptorProto* message, const char* name, int number, Type type, bool list, bool packed) {
    FieldDescriptorProto* field = message->add_field();
    field->set_name(name);
    field->set_number(number);
    field->set_type(type);
    field->set_label(list ? FieldDescriptorProto::LABEL_REPEATED : FieldDescriptorProto::LABEL_OPTIONAL);
    if (type == FieldDescriptorProto::TYPE_MESSAGE) field->set_type_name(".T");
    if (list && type != FieldDescriptorProto::TYPE_STRING && type != FieldDescriptorProto::TYPE_MESSAGE) field->mutable_options()->set_packed(packed);
}

static FileDescriptorProto file() {
    FileDescriptorProto file;
    file.set_name("t.proto");
    file.set_syntax("proto3");
    DescriptorProto* message = file.add_message_type();
    message->set_name("T");
    add(message, "a", 1, FieldDescriptorProto::TYPE_INT32, false, false);
    add(message, "b", 2, FieldDescriptorProto::TYPE_STRING, false, false);
    add(message, "d", 3, FieldDescriptorProto::TYPE_DOUBLE, false, false);
    add(message, "s", 4, FieldDescriptorProto::TYPE_SINT64, false, false);
    add(message, "e", 5, FieldDescriptorProto::TYPE_INT32, true, true);
    add(message, "u", 6, FieldDescriptorProto::TYPE_STRING, true, false);
    add(message, "r", 7, FieldDescriptorProto::TYPE_MESSAGE, true, false);
    return file;
}

static void set_small(Message* message) {
    const Descriptor* type = message->GetDescriptor();
    const Reflection* reflection = message->GetReflection();
    reflection->SetInt32(message, type->FindFieldByNumber(1), 1000);
    reflection->SetString(message, type->FindFieldByNumber(2), "worker-17");
    reflection->SetDouble(message, type->FindFieldByNumber(3), 3.141592653589793);
    reflection->SetInt64(message, type->FindFieldByNumber(4), -123456);
}

static void time_all(const char* name, const Message& message, int rounds) {
    for (int run = 0; run < 5; run++) {
        unsigned long long bytes = 0;
        long long start = now();
        for (int i = 0; i < rounds; i++) {
            std::string bytes_written;
            message.SerializeToString(&bytes_written);
            bytes += bytes_written.size();
        }
        printf("%s libprotobuf %d %llu %lld\n", name, rounds, bytes, now() - start);
    }
}

int main() {
    DescriptorPool pool;
    const Descriptor* type = pool.BuildFile(file())->FindMessageTypeByName("T");
    DynamicMessageFactory factory(&pool);
    const Message* prototype = factory.GetPrototype(type);

    std::unique_ptr<Message> small(prototype->New());
    set_small(small.get());
    time_all("small", *small, 200000);

    std::unique_ptr<Message> list(prototype->New());
    for (int i = 0; i < 1000; i++) set_small(list->GetReflection()->AddMessage(list.get(), type->FindFieldByNumber(7), &factory));
    time_all("list", *list, 400);

    std::unique_ptr<Message> texts(prototype->New());
    for (int i = 0; i < 64; i++) texts->GetReflection()->AddString(texts.get(), type->FindFieldByNumber(6), std::string(65536, 'x'));
    time_all("texts", *texts, 200);

    std::unique_ptr<Message> numbers(prototype->New());
    for (int i = 0; i < 100000; i++) numbers->GetReflection()->AddInt32(numbers.get(), type->FindFieldByNumber(5), i);
    time_all("numbers", *numbers, 200);
}
