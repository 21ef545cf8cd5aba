// Where the desk's time goes, part by part, since the process was started.
#ifndef REHEARSAL_SPENT_HPP
#define REHEARSAL_SPENT_HPP

#include <chrono>
#include <cstdint>

namespace desk {

struct Part {
    uint64_t count = 0;
    double seconds = 0;
};

// A message whole, from fromApp to its last note; and within it the book, the commit of its transaction, the writing and
// sending of what it put out, and the transaction that notes this.
struct Spent {
    Part message, book, commit, send, note;
};

// Adds its own life to a part.
class Timer {
public:
    explicit Timer(Part &part) : part_(part), start_(std::chrono::steady_clock::now()) {}
    ~Timer() {
        part_.count++;
        part_.seconds += std::chrono::duration<double>(std::chrono::steady_clock::now() - start_).count();
    }
    Timer(const Timer &) = delete;
    Timer &operator=(const Timer &) = delete;

private:
    Part &part_;
    std::chrono::steady_clock::time_point start_;
};

} // namespace desk

#endif
