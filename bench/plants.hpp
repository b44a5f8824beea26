// Plants to time: made from a seed, written as plant files.
#pragma once

#include <cstdint>
#include <functional>
#include <random>
#include <string>
#include <vector>

struct Line {
    int from, to;
    long low, high;
};

struct Trial {
    int line;
    long low, high;
};

struct Plant {
    std::string name;
    int junctions = 2;
    std::vector<Line> lines;
    bool greatest = true;
    std::vector<Trial> trials;
};

constexpr int MOST_JUNCTIONS = 250;
constexpr int MOST_LINES = 1000;
constexpr long MOST_FLOW = 1000000;

inline void put_number(std::vector<uint8_t> &bytes, unsigned long value, int places) {
    for (int place = places - 1; place >= 0; place--)
        bytes.push_back(uint8_t(value >> (8 * place)));
}

// The plant file: N, every L, every T, the aim.
inline std::vector<uint8_t> plant_file(const Plant &plant) {
    std::vector<uint8_t> bytes = {'N', uint8_t(plant.junctions)};
    for (const Line &line : plant.lines) {
        bytes.push_back('L');
        bytes.push_back(uint8_t(line.from));
        bytes.push_back(uint8_t(line.to));
        put_number(bytes, line.low, 4);
        put_number(bytes, line.high, 4);
    }
    for (const Trial &trial : plant.trials) {
        bytes.push_back('T');
        put_number(bytes, trial.line, 2);
        put_number(bytes, trial.low, 4);
        put_number(bytes, trial.high, 4);
    }
    bytes.push_back(plant.greatest ? 'G' : 'M');
    return bytes;
}

using Random = std::mt19937_64;

inline long between(Random &random, long least, long most) {
    return std::uniform_int_distribution<long>(least, most)(random);
}

// Layers of junctions from the header to the tank. Paths laid through the layers give a flow that keeps every limit, so
// the plant is possible although every line has a low.
inline Plant layered(int junctions, int count, int width, uint64_t seed) {
    Random random(seed);
    Plant plant;
    plant.junctions = junctions;
    int layers = (junctions - 2) / width;
    auto at = [&](int layer, long place) { return layer < 0 ? 0 : layer >= layers ? 1 : int(2 + layer * width + place); };
    std::vector<long> carried;
    auto line_of = [&](int from, int to) {
        for (size_t k = 0; k < plant.lines.size(); k++)
            if (plant.lines[k].from == from && plant.lines[k].to == to)
                return k;
        plant.lines.push_back({from, to, 0, 0});
        carried.push_back(0);
        return plant.lines.size() - 1;
    };
    while (int(plant.lines.size()) + layers + 1 <= count) {
        long amount = between(random, 1, 4000);
        int from = 0;
        for (int layer = 0; layer <= layers; layer++) {
            int to = at(layer, between(random, 0, width - 1));
            carried[line_of(from, to)] += amount;
            from = to;
        }
    }
    for (size_t k = 0; k < plant.lines.size(); k++) {
        plant.lines[k].low = carried[k] * between(random, 0, 60) / 100;
        plant.lines[k].high = std::min(MOST_FLOW, carried[k] + between(random, 0, 3000));
    }
    return plant;
}

// A grid with the header at one corner and the tank at the other.
inline Plant grid(int rows, int columns, uint64_t seed) {
    Random random(seed);
    Plant plant;
    plant.junctions = rows * columns;
    auto at = [&](int row, int column) {
        int place = row * columns + column;
        int last = rows * columns - 1;
        return place == 0 ? 0 : place == last ? 1 : place + 1;
    };
    auto add = [&](int from, int to) {
        if (to != 0 && from != 1 && from != to)
            plant.lines.push_back({from, to, 0, between(random, 1, 50000)});
    };
    for (int row = 0; row < rows; row++)
        for (int column = 0; column < columns; column++) {
            if (column + 1 < columns) add(at(row, column), at(row, column + 1));
            if (row + 1 < rows) add(at(row, column), at(row + 1, column));
            if (row + 1 < rows && column + 1 < columns) add(at(row, column), at(row + 1, column + 1));
            if (row > 0) add(at(row, column), at(row - 1, column));
        }
    plant.lines.resize(std::min<size_t>(plant.lines.size(), MOST_LINES));
    return plant;
}

// One long path of wide lines with a narrow last one.
inline Plant narrow_path(int junctions) {
    Plant plant;
    plant.junctions = junctions;
    int side_by_side = MOST_LINES / junctions;
    for (int step = 0; step < junctions - 1; step++) {
        int from = step == 0 ? 0 : step + 1;
        int to = step == junctions - 2 ? 1 : step + 2;
        for (int line = 0; line < side_by_side; line++)
            plant.lines.push_back({from, to, 0, to == 1 ? 1 : MOST_FLOW / side_by_side});
    }
    return plant;
}

// Wide lines into junctions that lead nowhere, and one path to the tank.
inline Plant dead_ends(int junctions, int count, uint64_t seed) {
    Random random(seed);
    Plant plant;
    plant.junctions = junctions;
    int path = junctions / 2;
    for (int step = 0; step < path; step++)
        plant.lines.push_back({step == 0 ? 0 : step + 1, step == path - 1 ? 1 : step + 2, 0, 1000});
    while (int(plant.lines.size()) < count) {
        int from = int(between(random, 1, junctions - 2));
        int to = int(between(random, std::max(from + 1, path + 1), junctions - 1));
        plant.lines.push_back({from == 1 ? 0 : from, to, 0, between(random, 1, MOST_FLOW)});
    }
    return plant;
}

inline Plant random_plant(int junctions, int count, uint64_t seed) {
    Random random(seed);
    Plant plant;
    plant.junctions = junctions;
    while (int(plant.lines.size()) < count) {
        int from = int(between(random, 0, junctions - 1)), to = int(between(random, 1, junctions - 1));
        if (from != 1 && from != to)
            plant.lines.push_back({from, to, 0, between(random, 0, MOST_FLOW)});
    }
    return plant;
}

inline Plant small_plant() {
    Plant plant;
    plant.junctions = 4;
    plant.lines = {{0, 2, 2, 6}, {2, 3, 0, 4}, {3, 1, 1, 5}, {2, 1, 0, 1}};
    plant.trials = {{1, 0, 5}};
    return plant;
}

// A plant with a name, an aim and so many trials, each with a larger high or a smaller low on one line.
inline Plant asked(std::string name, Plant plant, bool greatest, int trials) {
    plant.name = std::move(name);
    plant.greatest = greatest;
    for (int k = 0; k < trials; k++) {
        int line = int((k * plant.lines.size()) / trials);
        Line own = plant.lines[line];
        plant.trials.push_back({line, own.low / 2, std::min(MOST_FLOW, own.high + 1000)});
    }
    return plant;
}
