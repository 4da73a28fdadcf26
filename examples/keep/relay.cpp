#include "relay.hpp"

#include <arpa/inet.h>
#include <fcntl.h>
#include <netdb.h>
#include <poll.h>
#include <sys/socket.h>
#include <unistd.h>

#include <algorithm>
#include <chrono>
#include <cstring>
#include <system_error>

namespace keep {
namespace {

enum Kind : uint8_t { PIECE = 7, HASH_REQUEST = 21, HASHES = 22, HASH_REJECT = 23 };

constexpr size_t handshake_size = 68, largest_frame = 1 << 21, most_unsent = 1 << 22;
// Requests of ours that are open at one peer at once.
constexpr size_t most_asked = 8;
constexpr size_t ask_size = 49;

[[noreturn]] void fail(const char *what) { throw std::system_error(errno, std::generic_category(), what); }

uint32_t number_at(const std::string &text, size_t at) {
  uint32_t found = 0;
  for (size_t each = 0; each < 4; each++) found = found << 8 | uint8_t(text[at + each]);
  return found;
}

void put_number(std::string &text, uint32_t number) {
  for (int shift = 24; shift >= 0; shift -= 8) text.push_back(char(number >> shift));
}

// The five fields of a request for hashes, an answer or a refusal (BEP 52), behind the frame's length and kind.
btcheck_ask ask_in(const std::string &frame) {
  btcheck_ask ask;
  std::memcpy(ask.root, &frame[5], sizeof ask.root);
  ask.base = number_at(frame, 37), ask.index = number_at(frame, 41);
  ask.length = number_at(frame, 45), ask.proof = number_at(frame, 49);
  return ask;
}

std::string request_of(const btcheck_ask &ask) {
  std::string frame;
  put_number(frame, ask_size);
  frame.push_back(char(HASH_REQUEST));
  frame.append(reinterpret_cast<const char *>(ask.root), sizeof ask.root);
  for (uint32_t field : {ask.base, ask.index, ask.length, ask.proof}) put_number(frame, field);
  return frame;
}

bool same(const btcheck_ask &one, const btcheck_ask &other) {
  return std::memcmp(one.root, other.root, sizeof one.root) == 0 && one.base == other.base &&
         one.index == other.index && one.length == other.length && one.proof == other.proof;
}

// Each range of 512 leaves of each tree in which one is not known.
std::vector<Gap> gaps_of(Session &session) {
  std::vector<Gap> gaps;
  btcheck_ask ask;
  for (size_t tree = 0; session.want(tree, 0, ask) != BTCHECK_NO_SUCH; tree++) {
    uint64_t block = 0;
    for (btcheck_status status; (status = session.want(tree, block, ask)) != BTCHECK_NO_SUCH;) {
      if (status == BTCHECK_OK) gaps.push_back(Gap{tree, block, false, -1, {}});
      block = status == BTCHECK_OK ? (block / 512 + 1) * 512 : block + 1;
    }
  }
  return gaps;
}

int connected(const std::string &host, const std::string &port) {
  addrinfo hints{}, *found = nullptr;
  hints.ai_socktype = SOCK_STREAM;
  if (getaddrinfo(host.c_str(), port.c_str(), &hints, &found) != 0) return -1;
  int fd = socket(found->ai_family, SOCK_STREAM | SOCK_CLOEXEC, 0);
  if (fd >= 0 && connect(fd, found->ai_addr, found->ai_addrlen) != 0) close(fd), fd = -1;
  freeaddrinfo(found);
  return fd;
}

void send_some(End &end) {
  ssize_t count = send(end.fd, end.out.data(), end.out.size(), MSG_NOSIGNAL | MSG_DONTWAIT);
  if (count > 0) end.out.erase(0, size_t(count));
}

} // namespace

Relay::Relay(Session &session, Keeper &keeper, bool asks)
    : session_(session), keeper_(keeper), gaps_(asks ? gaps_of(session) : std::vector<Gap>()) {}

Relay::~Relay() {
  for (auto &link : links_) close_link(*link);
  for (Door &door : doors_) close(door.fd);
}

uint16_t Relay::add_peer(const std::string &host, const std::string &port) {
  int fd = socket(AF_INET, SOCK_STREAM | SOCK_CLOEXEC, 0);
  sockaddr_in here{};
  socklen_t size = sizeof here;
  here.sin_family = AF_INET;
  here.sin_addr.s_addr = htonl(INADDR_LOOPBACK);
  auto address = reinterpret_cast<sockaddr *>(&here);
  if (fd < 0 || bind(fd, address, size) != 0 || listen(fd, 8) != 0 || getsockname(fd, address, &size) != 0) fail("listen");
  doors_.push_back(Door{fd, host, port});
  return ntohs(here.sin_port);
}

void Relay::accept_at(const Door &door) {
  int near = accept4(door.fd, nullptr, nullptr, SOCK_CLOEXEC);
  if (near < 0) return;
  int far = connected(door.host, door.port);
  if (far < 0) {
    close(near);
    return;
  }
  auto link = std::make_unique<Link>();
  link->number = count_++;
  link->client.fd = near, link->peer.fd = far;
  links_.push_back(std::move(link));
}

// What it was asked for is asked of others.
void Relay::close_link(Link &link) {
  for (const Asked &it : link.asked) gaps_[it.gap].asked = -1;
  close(link.client.fd), close(link.peer.fd);
  link.client.fd = -1;
}

// Whether the connection goes on.
bool Relay::read_from(Link &link, End &from, End &to) {
  char part[1 << 16];
  ssize_t count = recv(from.fd, part, sizeof part, MSG_DONTWAIT);
  if (count < 0) return errno == EAGAIN || errno == EINTR;
  if (count == 0) return false;
  from.in.append(part, size_t(count));
  return pass_frames(link, from, to);
}

bool Relay::pass_frames(Link &link, End &from, End &to) {
  for (;;) {
    size_t size = handshake_size;
    if (from.has_greeted) {
      if (from.in.size() < 4) return true;
      size = 4 + size_t(number_at(from.in, 0));
      if (size > largest_frame) return false;
    }
    if (from.in.size() < size) return true;
    std::string whole = from.in.substr(0, size);
    from.in.erase(0, size);
    bool is_frame = from.has_greeted;
    from.has_greeted = true;
    if (!is_frame || &from == &link.client || shows(link, whole)) to.out += whole;
  }
}

// Takes what a peer says, and tells whether the client is to see it: all but answers to what we asked ourselves. Whatever
// is false is left to the client too, which finds that out by its own means, and asks others.
bool Relay::shows(Link &link, const std::string &frame) {
  if (frame.size() > 13 && frame[4] == PIECE) {
    auto bytes = reinterpret_cast<const uint8_t *>(frame.data());
    keeper_.take_blocks(number_at(frame, 5), number_at(frame, 9), bytes + 13, frame.size() - 13);
  } else if (frame.size() >= 4 + ask_size && frame[4] == HASHES) {
    return show_hashes(link, frame);
  } else if (frame.size() == 4 + ask_size && frame[4] == HASH_REJECT) {
    auto gap = own_gap(link, ask_in(frame));
    if (gap) gaps_[*gap].failed.insert(link.number);
    return !gap;
  }
  return true;
}

bool Relay::show_hashes(Link &link, const std::string &frame) {
  btcheck_ask ask = ask_in(frame);
  std::vector<Hash> hashes((frame.size() - 4 - ask_size) / BTCHECK_HASH);
  if (!hashes.empty()) std::memcpy(hashes.data(), &frame[4 + ask_size], hashes.size() * BTCHECK_HASH);
  auto gap = own_gap(link, ask);
  btcheck_status status = gap ? session_.take_answer(ask, hashes) : session_.take_hashes(ask, hashes);
  if (status == BTCHECK_OK) {
    keeper_.look_again(ask.root);
    if (gap) gaps_[*gap].is_known = true;
  } else {
    keeper_.refused_hashes(status);
    if (gap) gaps_[*gap].failed.insert(link.number);
  }
  return !gap;
}

// The gap that we asked this peer about with these fields, which is then no longer asked of it.
std::optional<size_t> Relay::own_gap(Link &link, const btcheck_ask &ask) {
  auto it = std::find_if(link.asked.begin(), link.asked.end(), [&](const Asked &own) { return same(own.ask, ask); });
  if (it == link.asked.end()) return std::nullopt;
  size_t gap = it->gap;
  link.asked.erase(it);
  gaps_[gap].asked = -1;
  return gap;
}

void Relay::ask_for_gaps(Link &link) {
  if (!link.client.has_greeted || !link.peer.has_greeted) return;
  for (size_t number = 0; number < gaps_.size() && link.asked.size() < most_asked; number++) {
    Gap &gap = gaps_[number];
    if (gap.is_known || gap.asked >= 0 || gap.failed.count(link.number)) continue;
    btcheck_ask ask;
    gap.is_known = session_.want(gap.tree, gap.block, ask) == BTCHECK_NOTHING;
    if (gap.is_known || session_.note(ask) != BTCHECK_OK) continue;
    gap.asked = link.number;
    link.asked.push_back(Asked{ask, number});
    link.peer.out += request_of(ask);
  }
}

void Relay::run(double seconds) {
  auto end = std::chrono::steady_clock::now() + std::chrono::duration<double>(seconds);
  while (!keeper_.is_whole() && std::chrono::steady_clock::now() < end) {
    std::vector<pollfd> fds;
    for (Door &door : doors_) fds.push_back(pollfd{door.fd, POLLIN, 0});
    for (auto &link : links_) {
      ask_for_gaps(*link);
      for (auto [from, to] : {std::pair(&link->client, &link->peer), std::pair(&link->peer, &link->client)}) {
        short events = to->out.size() < most_unsent ? POLLIN : 0;
        fds.push_back(pollfd{from->fd, short(events | (from->out.empty() ? 0 : POLLOUT)), 0});
      }
    }
    if (poll(fds.data(), fds.size(), 100) < 0 && errno != EINTR) fail("poll");
    size_t at = doors_.size(), doors = at;
    for (auto &link : links_) {
      bool goes_on = true;
      for (auto [from, to] : {std::pair(&link->client, &link->peer), std::pair(&link->peer, &link->client)}) {
        short seen = fds[at++].revents;
        if (seen & POLLOUT) send_some(*from);
        if (seen & (POLLIN | POLLHUP | POLLERR)) goes_on = goes_on && read_from(*link, *from, *to);
      }
      for (End *it : {&link->client, &link->peer}) {
        if (goes_on && !it->out.empty()) send_some(*it);
      }
      if (!goes_on) close_link(*link);
    }
    links_.erase(std::remove_if(links_.begin(), links_.end(), [](auto &it) { return it->client.fd < 0; }), links_.end());
    for (size_t door = 0; door < doors; door++) {
      if (fds[door].revents & POLLIN) accept_at(doors_[door]);
    }
  }
}

} // namespace keep
