// Times listings beside two libraries, and prints tables.
#include "../host/widgulp.h"
#include "solvers.hpp"

#include <algorithm>
#include <chrono>
#include <cstdio>
#include <cstdlib>
#include <cstring>
#include <fcntl.h>
#include <sstream>
#include <sys/resource.h>
#include <sys/wait.h>
#include <unistd.h>

namespace {

// Milliseconds of the quickest of several runs.
double quickest(const std::function<void()> &job) {
    double best = 1e9, spent = 0;
    for (int run = 0; run < 3 || (spent < 300 && run < 1000); run++) {
        auto start = std::chrono::steady_clock::now();
        job();
        double took = std::chrono::duration<double, std::milli>(std::chrono::steady_clock::now() - start).count();
        best = std::min(best, took);
        spent += took;
    }
    return best;
}

std::string listing(const std::vector<uint8_t> &file) {
    static uint8_t out[WIDGULP_SHEET_LEN];
    int64_t length = widgulp_listing(file.data(), file.size(), out, sizeof out);
    if (length < 0) {
        std::fprintf(stderr, "declined %lld\n", (long long)-length);
        std::exit(1);
    }
    return std::string(reinterpret_cast<char *>(out), size_t(length));
}

std::string set_row(const char *name, const std::vector<bool> &set) {
    std::ostringstream row;
    row << name;
    for (size_t v = 0; v < set.size(); v++)
        if (set[v]) row << ' ' << v;
    return row.str();
}

// What a listing would say, but for the flows: totals, cuts and trials.
std::string answers(Solver &solver, const Plant &plant) {
    std::ostringstream text;
    auto solution = solver.solve(plant.junctions, plant.lines, plant.greatest);
    if (solution)
        text << (plant.greatest ? "GREATEST " : "LEAST ") << solution->total << '\n'
             << set_row("NEAR", solution->near) << '\n'
             << set_row("FAR", solution->far) << '\n';
    else
        text << "IMPOSSIBLE\n";
    for (const Trial &trial : plant.trials) {
        std::vector<Line> lines = plant.lines;
        lines[trial.line].low = trial.low;
        lines[trial.line].high = trial.high;
        auto tried = solver.solve(plant.junctions, lines, plant.greatest);
        text << "TRIAL " << trial.line << ' ';
        if (tried) text << tried->total << '\n';
        else text << "NONE\n";
    }
    return text.str();
}

// The same rows of a listing.
std::string rows_of(const std::string &sheet) {
    std::istringstream in(sheet);
    std::string row, text;
    while (std::getline(in, row))
        if (!row.empty() && !std::isdigit((unsigned char)row[0])) text += row + '\n';
    return text;
}

struct Measured {
    double milliseconds;
    long kilobytes;
};

// The program as a command, with the file as its input.
Measured command(const char *program, const std::vector<uint8_t> &file) {
    std::FILE *input = std::tmpfile();
    if (!input || std::fwrite(file.data(), 1, file.size(), input) != file.size() || std::fflush(input) != 0) std::exit(1);
    long most = 0;
    double best = quickest([&] {
        pid_t child = fork();
        if (child == 0) {
            lseek(fileno(input), 0, SEEK_SET);
            dup2(fileno(input), 0);
            dup2(open("/dev/null", O_WRONLY), 1);
            execl(program, program, (char *)nullptr);
            _exit(127);
        }
        int status = 0;
        rusage used{};
        wait4(child, &status, 0, &used);
        most = std::max(most, used.ru_maxrss);
        if (!WIFEXITED(status) || WEXITSTATUS(status) != 0) std::exit(1);
    });
    std::fclose(input);
    return {best, most};
}

bool time_shape(const Plant &plant, const char *program) {
    std::vector<uint8_t> file = plant_file(plant);
    Lemon lemon;
    Boost boost;
    std::string expected = rows_of(listing(file));
    bool same = answers(lemon, plant) == expected && answers(boost, plant) == expected;
    double own = quickest([&] { listing(file); });
    Measured run = command(program, file);
    double first = quickest([&] { answers(lemon, plant); });
    double second = quickest([&] { answers(boost, plant); });
    std::printf("| %s | %d | %zu | %.3f | %.3f | %.3f | %.3f | %.2f | %.2f |%s\n", plant.name.c_str(), plant.junctions,
                plant.lines.size(), own, run.milliseconds, first, second, own / first, own / second, same ? "" : " DIFFERENT");
    std::fflush(stdout);
    return same;
}

} // namespace

int main(int count, char **words) {
    if (count != 2) {
        std::fprintf(stderr, "bench PROGRAM\n");
        return 2;
    }
    const char *program = words[1];
    Plant room = layered(MOST_JUNCTIONS, MOST_LINES, 8, 1);
    std::vector<Plant> shapes = {
        asked("layered plant room with lows, greatest", room, true, 0),
        asked("the same, least", room, false, 0),
        asked("the same, greatest, 64 trials", room, true, 64),
        asked("grid", grid(15, 16, 2), true, 0),
        asked("long path with a narrow end", narrow_path(MOST_JUNCTIONS), true, 0),
        asked("dead ends", dead_ends(MOST_JUNCTIONS, MOST_LINES, 3), true, 0),
        asked("random", random_plant(MOST_JUNCTIONS, MOST_LINES, 4), true, 0),
        asked("small plant, one trial", small_plant(), true, 0),
    };
    bool same = true;
    std::printf("| plant | junctions | lines | listing, ms | `sheet`, ms | LEMON, ms | Boost, ms | to LEMON | to Boost |\n");
    std::printf("|---|---|---|---|---|---|---|---|---|\n");
    for (const Plant &plant : shapes) same = time_shape(plant, program) && same;

    std::printf("\n| layered plant room, greatest | junctions | lines | listing, ms | `sheet`, ms | LEMON, ms | Boost, ms | to LEMON | to Boost |\n");
    std::printf("|---|---|---|---|---|---|---|---|---|\n");
    for (int junctions : {34, 66, 130, 250})
        same = time_shape(asked("junctions grow", layered(junctions, 4 * junctions, 8, 5), true, 0), program) && same;
    for (int lines : {250, 500, 750, 1000})
        same = time_shape(asked("lines grow", layered(MOST_JUNCTIONS, lines, 8, 6), true, 0), program) && same;

    Measured largest = command(program, plant_file(shapes[2]));
    std::printf("\npeak memory of `sheet` at the largest size with 64 trials: %ld KiB\n", largest.kilobytes);
    return same ? 0 : 1;
}
