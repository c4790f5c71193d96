// text_peer SET TYPE FORM: reads messages from standard input, each after its length, and prints each as libprotobuf's text format does, and
// "=====" after it. FORM has letters: o for one line, u for UTF-8, h without unknown records; - for none.
#include <google/protobuf/descriptor.h>
#include <google/protobuf/descriptor.pb.h>
#include <google/protobuf/dynamic_message.h>
#include <google/protobuf/io/coded_stream.h>
#include <google/protobuf/io/zero_copy_stream_impl.h>
#include <google/protobuf/text_format.h>

#include <cstring>
#include <fstream>
#include <iostream>
#include <memory>
#include <string>

using namespace google::protobuf;

int main(int count, char** words) {
  if (count != 4) return 2;
  FileDescriptorSet set;
  std::ifstream file(words[1], std::ios::binary);
  if (!set.ParseFromIstream(&file)) return 2;
  DescriptorPool pool;
  for (const auto& one : set.file()) pool.BuildFile(one);
  const Descriptor* type = pool.FindMessageTypeByName(words[2]);
  if (type == nullptr) return 2;
  DynamicMessageFactory factory(&pool);
  std::unique_ptr<Message> message(factory.GetPrototype(type)->New());
  TextFormat::Printer printer;
  printer.SetSingleLineMode(strchr(words[3], 'o') != nullptr);
  printer.SetUseUtf8StringEscaping(strchr(words[3], 'u') != nullptr);
  printer.SetHideUnknownFields(strchr(words[3], 'h') != nullptr);
  io::IstreamInputStream input(&std::cin);
  for (;;) {
    io::CodedInputStream coded(&input);
    uint32_t length;
    if (!coded.ReadVarint32(&length)) break;
    std::string bytes;
    if (!coded.ReadString(&bytes, length)) return 2;
    std::string text;
    if (message->ParseFromString(bytes)) {
      printer.PrintToString(*message, &text);
    } else {
      text = "REFUSED\n";
    }
    std::cout << text << "=====\n";
  }
}
