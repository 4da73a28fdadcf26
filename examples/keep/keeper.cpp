#include "keeper.hpp"

#include <fcntl.h>
#include <unistd.h>

#include <algorithm>
#include <filesystem>
#include <iterator>
#include <system_error>

namespace keep {

Keeper::Keeper(Session &session, const std::string &folder) : session_(session), files_(session.files()) {
  for (const File &file : files_) {
    std::filesystem::path path = std::filesystem::path(folder) / file.path;
    std::filesystem::create_directories(path.parent_path());
    int out = open(path.c_str(), O_WRONLY | O_CREAT | O_EXCL | O_CLOEXEC, 0666);
    if (out < 0) throw std::system_error(errno, std::generic_category(), path.string());
    outs_.push_back(out);
    written_.emplace_back(file.blocks(), false);
    blocks_ += file.blocks();
  }
}

Keeper::~Keeper() {
  for (int out : outs_) close(out);
}

void Keeper::take_blocks(uint32_t index, uint32_t begin, const uint8_t *bytes, size_t len) {
  while (len > 0) {
    size_t part = std::min<size_t>(len, BTCHECK_BLOCK);
    take_block(index, begin, bytes, part);
    begin += uint32_t(part), bytes += part, len -= part;
  }
}

// libtorrent sends a whole block for a file's last one, with zeros behind the file's end. The session refuses that as of
// a wrong size, since the block of BEP 52 ends with the file. Gives the size without these zeros, and the same size if there
// are none, or something else.
size_t Keeper::without_padding(uint32_t index, const uint8_t *bytes, size_t len) const {
  auto after = std::upper_bound(files_.begin(), files_.end(), index,
                                [](uint32_t piece, const File &file) { return piece < file.first_piece; });
  size_t own = after == files_.begin() ? 0 : size_t((after - 1)->length % BTCHECK_BLOCK);
  bool is_padded = own > 0 && own < len && std::all_of(bytes + own, bytes + len, [](uint8_t it) { return it == 0; });
  return is_padded ? own : len;
}

void Keeper::take_block(uint32_t index, uint32_t begin, const uint8_t *bytes, size_t len) {
  BlockVerdict verdict = session_.hold(index, begin, bytes, len);
  if (size_t own = without_padding(index, bytes, len); verdict.status == BTCHECK_P2_BAD_SIZE && own < len) {
    verdict = session_.hold(index, begin, bytes, len = own);
    padded_ += verdict.status != BTCHECK_P2_BAD_SIZE;
  }
  if (verdict.dropped.tree != UINT64_MAX) dropped_ += forget(verdict.dropped);
  if (verdict.status == BTCHECK_OK) {
    write(verdict.place, bytes, len);
  } else if (verdict.status == BTCHECK_HELD) {
    waiting_[{files_[verdict.place.file].tree, verdict.place.block}].assign(bytes, bytes + len);
    settle();
  } else {
    refused_[verdict.status]++;
  }
}

void Keeper::look_again(const uint8_t root[BTCHECK_HASH]) {
  auto it = std::find_if(files_.begin(), files_.end(), [&](const File &file) { return std::equal(file.root.begin(), file.root.end(), root); });
  if (it == files_.end()) return;
  session_.look_at(it->tree);
  settle();
}

void Keeper::settle() {
  btcheck_run run;
  for (btcheck_status status; (status = session_.settle(run)) != BTCHECK_NOTHING;) {
    if (status == BTCHECK_OK) {
      write_run(run);
    } else if (status == BTCHECK_BAD_PIECE) {
      false_ += forget(run);
    } else {
      refused_[status]++;
    }
  }
}

// Proved blocks are those of each file of the tree.
void Keeper::write_run(const btcheck_run &run) {
  for (uint64_t block = run.first; block <= run.last; block++) {
    auto waiting = waiting_.find({run.tree, block});
    if (waiting == waiting_.end()) continue;
    for (size_t number = 0; number < files_.size(); number++) {
      if (files_[number].tree == run.tree) write(Place{number, block}, waiting->second.data(), waiting->second.size());
    }
    waiting_.erase(waiting);
  }
}

// Lets blocks of a tree go that wait, and gives how many these were.
size_t Keeper::forget(const btcheck_run &run) {
  auto from = waiting_.lower_bound({run.tree, run.first}), to = waiting_.upper_bound({run.tree, run.last});
  auto count = size_t(std::distance(from, to));
  waiting_.erase(from, to);
  return count;
}

void Keeper::write(Place place, const uint8_t *bytes, size_t len) {
  if (written_[place.file][place.block]) {
    again_++;
    return;
  }
  auto at = off_t(place.block * BTCHECK_BLOCK);
  while (len > 0) {
    ssize_t count = pwrite(outs_[place.file], bytes, len, at);
    if (count < 0 && errno == EINTR) continue;
    if (count <= 0) throw std::system_error(errno, std::generic_category(), files_[place.file].path);
    bytes += count, len -= size_t(count), at += count;
  }
  written_[place.file][place.block] = true;
  written_count_++;
}

std::string Keeper::summary() const {
  std::string text = "written " + std::to_string(written_count_) + " of " + std::to_string(blocks_) +
                     ", again " + std::to_string(again_) + ", waiting " + std::to_string(waiting_.size()) +
                     ", dropped " + std::to_string(dropped_) + ", false " + std::to_string(false_) +
                     ", cut to the file's end " + std::to_string(padded_);
  for (auto [status, count] : refused_) {
    text += status < 200   ? ", status " + std::to_string(status)
            : status < 300 ? ", H" + std::to_string(status - 200)
                           : ", P" + std::to_string(status - 300);
    text += " " + std::to_string(count);
  }
  return text;
}

} // namespace keep
