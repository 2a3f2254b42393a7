// A bank in C++17 over the queue of the library: four accounts, each a cell with a lock of its own, and threads that move money between
// two of them. What a section asks stands in a scope: it is asked for where the scope begins, and given back where it ends, also by an
// exception. The sum of all accounts is checked.
//
//   tools/library && c++ -std=c++17 -O2 -pthread -I include examples/cpp/bank.cpp out/lib/libasl.a -o bank && ./bank
#include "asl.h"

#include <algorithm>
#include <array>
#include <condition_variable>
#include <cstdio>
#include <cstdlib>
#include <mutex>
#include <random>
#include <stdexcept>
#include <string>
#include <thread>
#include <vector>

// What is asked at once: nodes that rise, the root first.
using Request = std::vector<asl_ask>;

// A queue of the library under a mutex. Each thread has a number below `threads`.
class Queue {
 public:
  Queue(std::uint32_t classes, std::uint32_t threads, std::size_t nodes) : waits_(threads) {
    check(asl_queue_new(classes, threads, &queue_));
    check(asl_queue_reserve(&queue_, nodes));
  }
  Queue(const Queue &) = delete;
  Queue &operator=(const Queue &) = delete;
  ~Queue() { asl_queue_free(&queue_); }

  // Returns once the thread holds all that it asks.
  void enter(std::uint32_t thread, const Request &request) {
    std::unique_lock<std::mutex> guard(mutex_);
    const std::uint32_t status = asl_queue_acquire(&queue_, thread, request.data(), request.size());
    if (status == ASL_OK) return;
    if (status != ASL_IN_THE_WAY) check(status);
    Wait &wait = waits_[thread];
    wait.named.wait(guard, [&wait] { return wait.goes_on; });
    wait.goes_on = false;
  }

  // Gives all back, and wakes whom the queue names.
  void leave(std::uint32_t thread) {
    const std::lock_guard<std::mutex> guard(mutex_);
    std::array<std::uint32_t, 128> named;
    std::size_t count = 0;
    check(asl_queue_release(&queue_, thread, named.data(), named.size(), &count));
    std::for_each(named.begin(), named.begin() + static_cast<std::ptrdiff_t>(count), [this](std::uint32_t other) {
      waits_[other].goes_on = true;
      waits_[other].named.notify_one();
    });
  }

 private:
  struct Wait {
    std::condition_variable named;
    bool goes_on = false;
  };

  static void check(std::uint32_t status) {
    if (status != ASL_OK) throw std::runtime_error("status " + std::to_string(status));
  }

  std::mutex mutex_;
  asl_queue queue_{};
  std::vector<Wait> waits_;
};

// A section: from its making to its end the thread holds what it asks.
class Section {
 public:
  Section(Queue &queue, std::uint32_t thread, const Request &request) : queue_(queue), thread_(thread) { queue_.enter(thread_, request); }
  Section(const Section &) = delete;
  Section &operator=(const Section &) = delete;
  ~Section() { queue_.leave(thread_); }

 private:
  Queue &queue_;
  std::uint32_t thread_;
};

constexpr std::uint16_t kAccounts = 4;
constexpr std::uint32_t kThreads = 4;
constexpr long kStart = 1000;

// Writes the cells of two accounts: what `expr r0 write` and `expr r1 write` ask where two registers point to them.
Request both(std::uint16_t a, std::uint16_t b) {
  return {{ASL_ROOT, ASL_IX, 0, 0, 0}, {ASL_CLASS, ASL_IX, 0, 0, 0}, {ASL_LEAF, ASL_X, 0, 0, std::min(a, b)}, {ASL_LEAF, ASL_X, 0, 0, std::max(a, b)}};
}

// Reads all accounts: what `class 0 read` asks.
Request all() { return {{ASL_ROOT, ASL_IS, 0, 0, 0}, {ASL_CLASS, ASL_S, 0, 0, 0}}; }

int main(int words, char **word) {
  const int transfers = words > 1 ? std::atoi(word[1]) : 20000;
  Queue queue(1, kThreads, 4);
  std::array<long, kAccounts> balance;
  balance.fill(kStart);
  std::array<long, kThreads> wrong_sums{};

  std::vector<std::thread> tellers;
  for (std::uint32_t thread = 0; thread < kThreads; thread++)
    tellers.emplace_back([&, thread] {
      std::minstd_rand random(thread + 1);
      for (int made = 0; made < transfers; made++) {
        const auto from = static_cast<std::uint16_t>(random() % kAccounts);
        const auto to = static_cast<std::uint16_t>((from + 1 + random() % (kAccounts - 1)) % kAccounts);
        {
          const Section section(queue, thread, both(from, to));
          balance[from] -= 1;
          balance[to] += 1;
        }
        if (made % 64 == 0) {
          const Section section(queue, thread, all());
          long sum = 0;
          for (const long one : balance) sum += one;
          wrong_sums[thread] += sum != kAccounts * kStart;
        }
      }
    });
  for (std::thread &teller : tellers) teller.join();

  const long wrong = wrong_sums[0] + wrong_sums[1] + wrong_sums[2] + wrong_sums[3];
  std::printf("%ld transfers, %ld wrong sums\n", static_cast<long>(kThreads) * transfers, wrong);
  return wrong != 0;
}
