/* The same over the header for C++20. */
#include <nashirudder.hpp>

#include <cstdio>

int main() {
    nashirudder::Fleet fleet("type octile\nheight 1\nwidth 3\nmap\n...\n", {{0, {}}});
    auto judged = fleet.go(0, 0, 2);
    std::printf("%s %llu\n", nashirudder::verdict_name(judged.verdict), static_cast<unsigned long long>(judged.number));
    auto report = fleet.tick();
    while (report.arrived == 0 && report.tick < 9) report = fleet.tick();
    std::printf("tick %llu: %u\n", static_cast<unsigned long long>(report.tick), fleet.placement()[0]);
}
