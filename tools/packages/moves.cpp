/* A C++17 program over the header for C, which needs no exceptions: a robot moves along a row of three cells. */
#include <nashirudder.h>

#include <cstdio>
#include <cstring>

int main() {
    const char *map = "type octile\nheight 1\nwidth 3\nmap\n...\n";
    nashirudder_fleet fleet = NASHIRUDDER_CLOSED;
    nashirudder_setup setup;
    nashirudder_setup_default(1, &setup);
    const nashirudder_robot robots[] = {{0, {0, 0, 0, 0}}};
    nashirudder_fault fault{};
    auto code = nashirudder_open(reinterpret_cast<const uint8_t *>(map), std::strlen(map), robots, 1, &setup, &fleet, &fault);
    if (code != NASHIRUDDER_DONE) {
        std::printf("not opened: %s\n", nashirudder_code_name(code));
        return 1;
    }
    nashirudder_judgement judged{};
    if (nashirudder_go(&fleet, 0, 0, 2, &judged) != NASHIRUDDER_DONE) return 1;
    std::printf("%s %llu\n", nashirudder_verdict_name(judged.verdict), static_cast<unsigned long long>(judged.number));
    nashirudder_report report{};
    do {
        if (nashirudder_tick(&fleet, &report) != NASHIRUDDER_DONE) return 1;
    } while (report.arrived == 0 && report.tick < 9);
    uint32_t cells[1];
    if (nashirudder_placement(&fleet, cells, 1) != NASHIRUDDER_DONE) return 1;
    std::printf("tick %llu: %u\n", static_cast<unsigned long long>(report.tick), cells[0]);
    nashirudder_close(&fleet);
}
