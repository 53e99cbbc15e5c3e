// The pipeline `list | number` of pipeline.c from C++: a hub that frees itself, errors as exceptions, and a table of
// numbers in a map. It prints the same.
#include "../../include/sagthrey.h"
#include <array>
#include <cerrno>
#include <iostream>
#include <map>
#include <stdexcept>
#include <string>
#include <utility>

namespace {

constexpr std::uint32_t name_space = 0;

// A hub, which goes with its owner.
class Hub {
public:
    explicit Hub(std::uint32_t frames) {
        const sag_limits limits = {frames, SAG_DEFAULT_SOFT, SAG_DEFAULT_HARD, SAG_DEFAULT_MAX};
        if (sag_open(frames, &limits, 1, &handle) != 0) throw std::runtime_error("no hub");
    }
    ~Hub() { sag_free(&handle); }
    Hub(const Hub &) = delete;
    Hub &operator=(const Hub &) = delete;

    sag_hub *get() { return &handle; }

private:
    sag_hub handle = SAG_SHUT;
};

std::int64_t done(std::int64_t told) {
    if (told < 0) throw std::runtime_error("a call is told " + std::to_string(told));
    return told;
}

// A program: its process, and its own numbers of descriptors.
class Program {
public:
    Program(Hub &hub, std::string name, std::uint32_t pid, std::map<int, std::uint32_t> numbers = {})
        : hub(hub), name(std::move(name)), pid(pid), numbers(std::move(numbers)) {}

    void pipe(int reading, int writing) {
        std::uint32_t fds[2];
        done(sag_pipe(hub.get(), name_space, pid, false, fds));
        numbers[reading] = fds[0];
        numbers[writing] = fds[1];
    }

    Program fork(const std::string &child) const {
        return Program(hub, child, static_cast<std::uint32_t>(done(sag_fork(hub.get(), name_space, pid))), numbers);
    }

    // What `to` names is closed first, so that it succeeds in a full table too; nothing is where `from` names nothing.
    void dup2(int from, int to) {
        const auto fd = numbers.at(from);
        if (from == to) return;
        if (numbers.count(to)) close(to);
        numbers[to] = dup(fd);
    }

    // The least free descriptor, for what one names. Here no program calls dup(2), so it is under no number.
    std::uint32_t dup(std::uint32_t fd) {
        return static_cast<std::uint32_t>(done(sag_dup(hub.get(), name_space, pid, fd)));
    }

    void close(int number) {
        done(sag_close(hub.get(), name_space, pid, numbers.at(number)));
        numbers.erase(number);
    }

    void write(int number, const std::string &text) {
        done(sag_write(hub.get(), name_space, pid, numbers.at(number), text.data(), text.size()));
        std::cout << name << " writes " << text.size() << " bytes\n";
    }

    // Whether a read, or the one that waits, is told bytes or the end: they stand in `text` then.
    bool read(int number, std::string &text) {
        const auto told = waits
            ? sag_resume(hub.get(), name_space, pid, buffer.data(), buffer.size())
            : sag_read(hub.get(), name_space, pid, numbers.at(number), buffer.data(), buffer.size());
        if (told == SAG_PARKED) {
            std::cout << name << " waits\n";
            waits = true;
            return false;
        }
        waits = false;
        text.assign(buffer.data(), static_cast<std::size_t>(done(told)));
        return true;
    }

    // Whether it has anything to do: it doesn't wait, or its call can go on.
    bool can_go_on() { return !waits || sag_can_go_on(hub.get(), name_space, pid); }

    void end() {
        done(sag_exit(hub.get(), name_space, pid));
        ended = true;
    }

    void exit() {
        end();
        std::cout << name << " ends\n";
    }

    bool ended = false;
    const std::string &called() const { return name; }

private:
    Hub &hub;
    std::string name;
    std::uint32_t pid;
    std::map<int, std::uint32_t> numbers;
    std::array<char, 16> buffer{};
    bool waits = false;
};

void run() {
    Hub hub(16);
    const std::uint32_t no_groups[1] = {0};
    const auto pid = static_cast<std::uint32_t>(done(sag_spawn(hub.get(), name_space, 1000, 1000, no_groups, 0, 022)));
    Program shell(hub, "shell", pid);
    shell.pipe(3, 4);
    Program list = shell.fork("list");
    list.dup2(4, 1);
    list.close(3);
    list.close(4);
    Program number = shell.fork("number");
    number.dup2(3, 0);
    number.close(3);
    number.close(4);

    // A program with all its descriptors taken can dup2.
    Program full = shell.fork("full");
    while (full.dup(0) < 255) continue;
    full.dup2(4, 3);
    full.end();
    shell.close(3);
    shell.close(4);

    const std::array<std::string, 3> lines = {"ash\n", "birch\n", "cedar\n"};
    std::size_t written = 0, read = 0;
    std::string text;
    while (!list.ended || !number.ended) {
        if (!number.ended && number.can_go_on() && number.read(0, text)) {
            if (text.empty()) number.exit();
            else std::cout << number.called() << " reads: " << ++read << " " << text;
        }
        if (!list.ended) {
            if (written == lines.size()) list.exit();
            else list.write(1, lines[written++]);
        }
    }
}

} // namespace

int main() {
    try {
        run();
    } catch (const std::exception &error) {
        std::cout << "pipeline: " << error.what() << "\n";
        return 1;
    }
    std::cout << "the pipeline has ended\n";
}
