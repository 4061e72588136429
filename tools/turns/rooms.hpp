// The rooms of a map by definition, without the library: each edge is tried by a search without it.
#pragma once

#include <algorithm>
#include <functional>
#include <vector>

#include "../roomy/site.hpp"

/// The cells beyond a bridge, whose ends are the mouth and the door.
struct Room {
    int mouth, door, size;
    std::vector<bool> has;
    /// how far a cell is from the mouth at most
    int depth;
};

/// A block for which most cells of its part remain without the two greatest rooms around it.
struct Core {
    std::vector<Room> rooms;
    /// by cell: its room; nowhere in the block and in other parts
    std::vector<int> room_of;
};

struct Part {
    std::vector<int> cells;
    int capacity = 0;
    /// one, or all that are equally good: any may be the one that is planned by
    std::vector<Core> cores;
};

inline std::vector<Room> rooms_beyond_bridges(const Site &site) {
    std::vector<Room> rooms;
    for (int mouth : site.all())
        for (int door : site.near[mouth]) {
            const Distances beyond = site.search(door, {mouth, door}, mouth);
            if (beyond[mouth] != nowhere) continue;
            Room room{mouth, door, static_cast<int>(size_of(beyond)), std::vector<bool>(beyond.size()), 0};
            for (std::size_t cell = 0; cell < beyond.size(); cell++) room.has[cell] = beyond[cell] != nowhere;
            room.depth = 1 + *std::max_element(beyond.begin(), beyond.end());
            rooms.push_back(room);
        }
    return rooms;
}

inline Core core_of(const Site &site, const std::vector<Room> &around) {
    Core core{around, std::vector<int>(site.floor.size(), nowhere)};
    for (std::size_t room = 0; room < around.size(); room++)
        for (int cell : site.all())
            if (around[room].has[cell]) core.room_of[cell] = static_cast<int>(room);
    return core;
}

/// The blocks of a part: for each, the rooms around it.
inline std::vector<std::vector<Room>> blocks_of(const Site &without_bridges, const std::vector<Room> &rooms, const std::vector<int> &cells) {
    std::vector<std::vector<Room>> blocks;
    std::vector<bool> seen(without_bridges.floor.size());
    for (int cell : cells) {
        if (seen[cell]) continue;
        const Distances block = without_bridges.search(cell);
        for (int other : cells) seen[other] = seen[other] || block[other] != nowhere;
        std::vector<Room> around;
        for (const Room &room : rooms)
            if (block[room.mouth] != nowhere) around.push_back(room);
        blocks.push_back(around);
    }
    return blocks;
}

inline int capacity_of(const std::vector<int> &cells, const std::vector<Room> &around) {
    std::vector<int> sizes{0, 0};
    for (const Room &room : around) sizes.push_back(room.size);
    std::sort(sizes.begin(), sizes.end(), std::greater<>());
    return static_cast<int>(cells.size()) - sizes[0] - sizes[1];
}

inline std::vector<Part> parts_of(const Site &site) {
    const std::vector<Room> rooms = rooms_beyond_bridges(site);
    Site without_bridges = site;
    for (const Room &room : rooms) {
        std::vector<int> &near = without_bridges.near[room.mouth];
        near.erase(std::find(near.begin(), near.end(), room.door));
    }
    std::vector<Part> parts;
    std::vector<bool> seen(site.floor.size());
    for (int cell : site.all()) {
        if (seen[cell]) continue;
        Part part;
        const Distances away = site.search(cell);
        for (int other : site.all())
            if (away[other] != nowhere) part.cells.push_back(other), seen[other] = true;
        const auto blocks = blocks_of(without_bridges, rooms, part.cells);
        for (const auto &around : blocks) part.capacity = std::max(part.capacity, capacity_of(part.cells, around));
        for (const auto &around : blocks)
            if (capacity_of(part.cells, around) == part.capacity) part.cores.push_back(core_of(site, around));
        parts.push_back(part);
    }
    return parts;
}

/// One turn: the reach, and a way out of the room for each robot that may be in it.
inline long turn_of(const std::vector<Part> &parts, int reach, int robots) {
    long out = 0;
    for (const Part &part : parts)
        for (const Core &core : part.cores)
            for (const Room &room : core.rooms) out = std::max(out, static_cast<long>(std::min(robots - 1, room.size)) * room.depth);
    return reach + out;
}
