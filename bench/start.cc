// What a small program over libprotobuf takes to judge a message: start SET TYPE FILE.
//
// It does what `pbtool check` does: reads a descriptor set, makes the types of it, and reads the message by one of them.
#include <google/protobuf/descriptor.h>
#include <google/protobuf/descriptor.pb.h>
#include <google/protobuf/dynamic_message.h>

#include <fstream>
#include <memory>

using namespace google::protobuf;

int main(int count, char** words) {
    FileDescriptorSet set;
    DescriptorPool pool;
    if (count != 4) return 2;
    std::ifstream of_set(words[1], std::ios::binary), of_message(words[3], std::ios::binary);
    if (!set.ParseFromIstream(&of_set)) return 2;
    for (const FileDescriptorProto& file : set.file())
        if (!pool.BuildFile(file)) return 2;
    const Descriptor* type = pool.FindMessageTypeByName(words[2]);
    if (!type) return 2;
    DynamicMessageFactory factory;
    std::unique_ptr<Message> message(factory.GetPrototype(type)->New());
    return message->ParseFromIstream(&of_message) ? 0 : 1;
}
