// Streams the messages of one answer over loopback, and reads such streams, for bench/stream.sh: C++ of -O2, with no proofs.
//
//   plain_stream raw FILE          serves the answer in FILE to each connection, from the first byte that comes, in a loop of send
//   plain_stream grpc FILE         serves its messages by gRPC: Get gives messages of the same sizes, made by protoc
//   plain_stream bytes FILE        the same, of bytes that stand encoded: gRPC copies and encodes nothing
//   plain_stream get PORT FILE COUNT          calls a server of raw bytes (flightd, or `raw`) COUNT times with the request in FILE
//   plain_stream get-grpc PORT COUNT          calls Get COUNT times, and has each message made by protoc
//   plain_stream get-bytes PORT COUNT         the same, and leaves the bytes as they came
//   plain_stream get-wide PORT COUNT          the same, over a channel with frames and windows of many MiB
//
// FILE of a server is an answer of flightd: frames of a flag, a length of four bytes and a payload. A server prints its port once it is
// served, and ends by a signal. A reader prints a line for each call, the bytes of the messages and the seconds from the call to its end; it
// looks at no byte but the heads of frames. A channel of gRPC is connected before the first call, and kept.
#include <arpa/inet.h>
#include <netinet/tcp.h>
#include <sys/socket.h>
#include <unistd.h>

#include <chrono>
#include <cstdio>
#include <cstdlib>
#include <cstring>
#include <fstream>
#include <iterator>
#include <memory>
#include <string>
#include <vector>

#include <grpcpp/grpcpp.h>
#include <grpcpp/impl/codegen/client_unary_call.h>
#include <grpcpp/impl/codegen/method_handler.h>

#include "plain_stream.grpc.pb.h"

namespace {

constexpr unsigned char kEnd = 0x80;
constexpr const char *kGet = "/plain.Stream/Get";

[[noreturn]] void fail(const char *what) {
  std::perror(what);
  std::exit(1);
}

std::string contents(const char *path) {
  std::ifstream in(path, std::ios::binary);
  if (!in) fail(path);
  return {std::istreambuf_iterator<char>(in), {}};
}

size_t length_in(const unsigned char *head) {
  return size_t{head[1]} << 24 | size_t{head[2]} << 16 | size_t{head[3]} << 8 | size_t{head[4]};
}

// The payloads of an answer's messages.
std::vector<std::string> messages_in(const std::string &answer) {
  std::vector<std::string> found;
  for (size_t place = 0; place + 5 <= answer.size();) {
    const auto *head = reinterpret_cast<const unsigned char *>(answer.data()) + place;
    const size_t length = length_in(head);
    if (head[0] != kEnd) found.push_back(answer.substr(place + 5, length));
    place += 5 + length;
  }
  return found;
}

// A message of one field that is encoded in as many bytes as the payload has, or in a few more where it has almost none.
plain::Data message_like(const std::string &payload) {
  plain::Data data;
  data.set_body(payload);
  const size_t more = data.ByteSizeLong() - payload.size();
  data.mutable_body()->resize(payload.size() > more ? payload.size() - more : 0);
  return data;
}

std::vector<plain::Data> data_in(const char *path) {
  std::vector<plain::Data> found;
  for (const std::string &payload : messages_in(contents(path))) found.push_back(message_like(payload));
  return found;
}

// ---- raw bytes

void send_all(int peer, const char *bytes, size_t count) {
  while (count > 0) {
    const ssize_t sent = send(peer, bytes, count, MSG_NOSIGNAL);
    if (sent < 0) fail("send");
    bytes += sent;
    count -= sent;
  }
}

void read_all(int peer, char *into, size_t count) {
  while (count > 0) {
    const ssize_t got = recv(peer, into, count, 0);
    if (got <= 0) fail("recv");
    into += got;
    count -= got;
  }
}

sockaddr_in here(int port) {
  sockaddr_in address{};
  address.sin_family = AF_INET;
  address.sin_port = htons(port);
  address.sin_addr.s_addr = htonl(INADDR_LOOPBACK);
  return address;
}

void told_port(int port) {
  std::printf("%d\n", port);
  std::fflush(stdout);
}

void serve_raw(const char *path) {
  const std::string answer = contents(path);
  const int listener = socket(AF_INET, SOCK_STREAM, 0);
  sockaddr_in address = here(0);
  socklen_t size = sizeof address;
  if (bind(listener, reinterpret_cast<sockaddr *>(&address), size) || listen(listener, 8)) fail("bind");
  if (getsockname(listener, reinterpret_cast<sockaddr *>(&address), &size)) fail("getsockname");
  told_port(ntohs(address.sin_port));
  for (;;) {
    const int peer = accept(listener, nullptr, nullptr);
    if (peer < 0) fail("accept");
    char request[4096];
    if (recv(peer, request, sizeof request, 0) <= 0) fail("recv");
    send_all(peer, answer.data(), answer.size());
    shutdown(peer, SHUT_WR);
    while (recv(peer, request, sizeof request, 0) > 0) continue;
    close(peer);
  }
}

// The bytes of the messages of one call.
size_t get_raw(int port, const std::string &request, std::vector<char> &room) {
  const int peer = socket(AF_INET, SOCK_STREAM, 0);
  const sockaddr_in address = here(port);
  if (connect(peer, reinterpret_cast<const sockaddr *>(&address), sizeof address)) fail("connect");
  send_all(peer, request.data(), request.size());
  for (size_t count = 0;;) {
    unsigned char head[5];
    read_all(peer, reinterpret_cast<char *>(head), sizeof head);
    const size_t length = length_in(head);
    if (room.size() < length) room.resize(length);
    read_all(peer, room.data(), length);
    if (head[0] == kEnd) {
      close(peer);
      if (length == 1 && room[0] == 0) return count;
      std::fprintf(stderr, "the call was refused: %.*s\n", static_cast<int>(length), room.data());
      std::exit(1);
    }
    count += length;
  }
}

// ---- gRPC

class Messages final : public plain::Stream::Service {
 public:
  explicit Messages(const char *path) : messages_(data_in(path)) {}

  grpc::Status Get(grpc::ServerContext *, const plain::Ask *, grpc::ServerWriter<plain::Data> *writer) override {
    for (const plain::Data &message : messages_) {
      if (!writer->Write(message)) return grpc::Status::CANCELLED;
    }
    return grpc::Status::OK;
  }

 private:
  std::vector<plain::Data> messages_;
};

class Bytes final : public grpc::Service {
 public:
  explicit Bytes(const char *path) {
    for (const plain::Data &message : data_in(path)) {
      const grpc::Slice slice(message.SerializeAsString());
      messages_.emplace_back(&slice, 1);
    }
    using Handler = grpc::internal::ServerStreamingHandler<Bytes, grpc::ByteBuffer, grpc::ByteBuffer>;
    const auto get = [](Bytes *it, grpc::ServerContext *, const grpc::ByteBuffer *, grpc::ServerWriter<grpc::ByteBuffer> *writer) {
      return it->Write(writer);
    };
    AddMethod(new grpc::internal::RpcServiceMethod(kGet, grpc::internal::RpcMethod::SERVER_STREAMING, new Handler(get, this)));
  }

 private:
  grpc::Status Write(grpc::ServerWriter<grpc::ByteBuffer> *writer) {
    for (const grpc::ByteBuffer &message : messages_) {
      if (!writer->Write(message)) return grpc::Status::CANCELLED;
    }
    return grpc::Status::OK;
  }

  std::vector<grpc::ByteBuffer> messages_;
};

void serve_grpc(grpc::Service &service) {
  int port = 0;
  grpc::ServerBuilder builder;
  builder.AddListeningPort("127.0.0.1:0", grpc::InsecureServerCredentials(), &port);
  builder.RegisterService(&service);
  const std::unique_ptr<grpc::Server> server = builder.BuildAndStart();
  if (!server) fail("gRPC");
  told_port(port);
  server->Wait();
}

std::shared_ptr<grpc::Channel> connected(int port, bool is_wide = false) {
  grpc::ChannelArguments arguments;
  arguments.SetMaxReceiveMessageSize(-1);
  if (is_wide) {
    arguments.SetInt(GRPC_ARG_HTTP2_MAX_FRAME_SIZE, (1 << 24) - 1);
    arguments.SetInt(GRPC_ARG_HTTP2_STREAM_LOOKAHEAD_BYTES, 1 << 26);
    arguments.SetInt(GRPC_ARG_HTTP2_BDP_PROBE, 0);
  }
  auto channel = grpc::CreateCustomChannel("127.0.0.1:" + std::to_string(port), grpc::InsecureChannelCredentials(), arguments);
  if (!channel->WaitForConnected(std::chrono::system_clock::now() + std::chrono::seconds(10))) fail("connect");
  return channel;
}

void check(const grpc::Status &status) {
  if (!status.ok()) {
    std::fprintf(stderr, "%s\n", status.error_message().c_str());
    std::exit(1);
  }
}

size_t get_messages(plain::Stream::Stub &stub) {
  grpc::ClientContext context;
  const auto reader = stub.Get(&context, plain::Ask());
  size_t count = 0;
  for (plain::Data message; reader->Read(&message);) count += message.ByteSizeLong();
  check(reader->Finish());
  return count;
}

size_t get_bytes(const std::shared_ptr<grpc::Channel> &channel) {
  grpc::ClientContext context;
  const grpc::internal::RpcMethod method(kGet, grpc::internal::RpcMethod::SERVER_STREAMING);
  const std::unique_ptr<grpc::ClientReader<grpc::ByteBuffer>> reader(
      grpc::internal::ClientReaderFactory<grpc::ByteBuffer>::Create(channel.get(), method, &context, plain::Ask()));
  size_t count = 0;
  for (grpc::ByteBuffer message; reader->Read(&message);) count += message.Length();
  check(reader->Finish());
  return count;
}

// ---- calls

template <typename Get>
void timed(int calls, Get get) {
  for (int call = 0; call < calls; ++call) {
    const auto before = std::chrono::steady_clock::now();
    const size_t count = get();
    const std::chrono::duration<double> taken = std::chrono::steady_clock::now() - before;
    std::printf("%zu %.6f\n", count, taken.count());
    std::fflush(stdout);
  }
}

}  // namespace

int main(int count, char **words) {
  const std::vector<std::string> given(words + 1, words + count);
  const std::string task = given.empty() ? "" : given[0];
  if (task == "raw" && count == 3) {
    serve_raw(words[2]);
  } else if (task == "grpc" && count == 3) {
    Messages service(words[2]);
    serve_grpc(service);
  } else if (task == "bytes" && count == 3) {
    Bytes service(words[2]);
    serve_grpc(service);
  } else if (task == "get" && count == 5) {
    const std::string request = contents(words[3]);
    std::vector<char> room(1 << 22);
    timed(std::stoi(given[3]), [&] { return get_raw(std::stoi(given[1]), request, room); });
  } else if (task == "get-grpc" && count == 4) {
    const auto stub = plain::Stream::NewStub(connected(std::stoi(given[1])));
    timed(std::stoi(given[2]), [&] { return get_messages(*stub); });
  } else if ((task == "get-bytes" || task == "get-wide") && count == 4) {
    const auto channel = connected(std::stoi(given[1]), task == "get-wide");
    timed(std::stoi(given[2]), [&] { return get_bytes(channel); });
  } else {
    std::fprintf(stderr, "the words are those at the top of bench/plain_stream.cc\n");
    return 2;
  }
}
