// The clients of tools/live/flood: each posts orders to a robot that there is not, as many under way as it may have, and waits for their verdicts.
//
// usage: flood FOLDER CLIENTS SECONDS WINDOW
//
// Client c writes to FOLDER/in<c> and reads FOLDER/out<c>. Prints how many verdicts came in a second, after a first second that is not counted.
#include <array>
#include <chrono>
#include <cstdio>
#include <cstdlib>
#include <fcntl.h>
#include <poll.h>
#include <string>
#include <string_view>
#include <unistd.h>
#include <vector>

namespace {

using Clock = std::chrono::steady_clock;

class Client {
public:
    Client(const std::string &folder, int number) : number(number), in(opened(folder + "/in", O_WRONLY)), out(opened(folder + "/out", O_RDONLY)) {}

    // Posts until as many orders are under way as may be, as far as the pipe has room.
    void post(int window) {
        while (under_way < window) {
            waiting += "post " + std::to_string(number) + " go 600 1\n";
            under_way++;
        }
        const ssize_t written = waiting.empty() ? 0 : write(in, waiting.data(), waiting.size());
        if (written > 0) waiting.erase(0, static_cast<std::size_t>(written));
    }

    // Reads what was told, and returns how many verdicts that were.
    long hear() {
        std::array<char, 65536> piece;
        const ssize_t count = read(out, piece.data(), piece.size());
        if (count > 0) told.append(piece.data(), static_cast<std::size_t>(count));
        long verdicts = 0;
        std::size_t start = 0;
        for (std::size_t end; (end = told.find('\n', start)) != std::string::npos; start = end + 1) {
            const std::string_view line(told.data() + start, end - start);
            const bool is_verdict = line.find(" verdict ") != std::string_view::npos;
            verdicts += is_verdict;
            under_way -= is_verdict || line.rfind("lane-full", 0) == 0;
        }
        told.erase(0, start);
        return verdicts;
    }

    void watch(pollfd &reads, pollfd &writes) const {
        reads = {out, POLLIN, 0};
        writes = {waiting.empty() ? -1 : in, POLLOUT, 0};
    }

private:
    int opened(const std::string &path, int how) const {
        const int file = open((path + std::to_string(number)).c_str(), how);
        if (file < 0 || fcntl(file, F_SETFL, O_NONBLOCK) < 0) {
            std::perror(path.c_str());
            std::exit(1);
        }
        return file;
    }

    int number, in, out, under_way = 0;
    std::string waiting, told;
};

}

int main(int count, char **words) {
    if (count != 5) return 2;
    const double seconds = std::atof(words[3]);
    const int window = std::atoi(words[4]);
    std::vector<Client> clients;
    for (int number = 0; number < std::atoi(words[2]); number++) clients.emplace_back(words[1], number);
    std::vector<pollfd> files(2 * clients.size());
    const auto start = Clock::now() + std::chrono::seconds(1);
    long verdicts = 0;
    for (auto now = Clock::now(); std::chrono::duration<double>(now - start).count() < seconds; now = Clock::now()) {
        for (std::size_t k = 0; k < clients.size(); k++) {
            clients[k].post(window);
            clients[k].watch(files[2 * k], files[2 * k + 1]);
        }
        poll(files.data(), files.size(), 10);
        for (std::size_t k = 0; k < clients.size(); k++) {
            const long heard = files[2 * k].revents & POLLIN ? clients[k].hear() : 0;
            verdicts += now < start ? 0 : heard;
        }
    }
    std::printf("%.0f\n", static_cast<double>(verdicts) / seconds);
}
