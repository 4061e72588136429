/* A program in C++17 without exceptions: orders, ticks with what they show, and a step that is checked. */
#include "nashirudder.hpp"

#include <cstdio>

int main() {
    using namespace nashirudder;
    const char *map = "type octile\nheight 3\nwidth 4\nmap\n....\n.@..\n....\n";
    Fleet fleet(map, {{0, {}}, {3, {}}});
    std::vector<Order> orders = {order_go(0, 0, 1), order_go(0, 1, 7)};
    std::vector<Judgement> judged(orders.size());
    if (fleet.take_many(orders, judged).stopped != Code::done || verdict_of(judged[1]) != Verdict::accepted) return 1;
    const std::vector<std::uint32_t> before = fleet.placement();
    Shown shown;
    if (fleet.tick_into(shown).arrived != 2 || shown.arrivals[0].cell != 1 || shown.arrivals[1].cell != 7) return 1;
    if (check_step(map, before, shown.cells)) return 1;
    std::uint32_t cells[2], gone[2];
    Arrival arrivals[2];
    if (fleet.tick_into(cells, arrivals, gone).arrived != 0 || cells[1] != 7) return 1;
    std::printf("bindings/cpp/seventeen.cpp: two robots arrive\n");
}
