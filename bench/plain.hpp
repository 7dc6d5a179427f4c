// The same search written plainly in C++: no proofs, no shared code with the library, the same answers.
#pragma once

#include <algorithm>
#include <cstddef>
#include <cstdint>
#include <limits>
#include <optional>
#include <utility>
#include <vector>

namespace plain {

struct Run {
    std::uint16_t a, b;
    std::uint64_t cost;
};

struct Plan {
    std::uint64_t cost;
    std::uint32_t count;
    std::vector<std::uint8_t> row;
};

// What can be dug, and what is to be joined; the outlets rise.
struct District {
    std::size_t junctions;
    std::vector<Run> runs;
    std::vector<std::uint8_t> open;
    std::vector<std::uint16_t> outlets;
};

class Search {
public:
    explicit Search(const District& district)
        : d(district),
          sets(std::size_t{1} << (d.outlets.size() - 1)),
          labels(d.junctions * sets),
          ways(labels.size()),
          keys(labels.size()),
          places(labels.size(), absent) {
        waiting.reserve(labels.size());
    }

    // A cheapest network, or none where the outlets cannot be joined.
    std::optional<Plan> plan() {
        measure();
        for (std::size_t i = 1; i < d.outlets.size(); ++i)
            offer(d.outlets[i], std::size_t{1} << (i - 1), 0, {Back::start, 0});
        const std::size_t goal = code_of(d.outlets[0], sets - 1);
        std::uint32_t count = 0;
        while (!waiting.empty()) {
            const std::size_t code = take();
            ways[code].turn = ++count;
            if (code == goal) {
                std::vector<std::uint8_t> row(d.runs.size(), 0);
                draw(d.outlets[0], sets - 1, row);
                return Plan{labels[code].cost, count, std::move(row)};
            }
            try_runs(static_cast<std::uint16_t>(code / sets), code % sets, labels[code].cost);
            try_forks(code / sets, code % sets, labels[code].cost);
        }
        return std::nullopt;
    }

private:
    static constexpr std::uint32_t absent = std::numeric_limits<std::uint32_t>::max();
    static constexpr std::uint64_t unreached = std::numeric_limits<std::uint64_t>::max();

    enum class Back : std::uint8_t { start, run, fork };

    struct Label {
        bool reached = false;
        std::uint64_t cost = 0;
    };

    struct Origin {
        Back kind = Back::start;
        std::uint16_t number = 0;
    };

    // The turn is 0 where the label is not settled.
    struct Way {
        std::uint32_t turn = 0;
        Origin back;
    };

    std::size_t code_of(std::size_t v, std::size_t set) const { return v * sets + set; }

    // ---- the farthest outlet

    void measure() {
        const std::size_t k = d.outlets.size();
        distances.assign(d.junctions * k, unreached);
        for (std::size_t j = 0; j < k; ++j)
            distances[d.outlets[j] * k + j] = 0;
        for (bool changed = true; changed;) {
            changed = false;
            for (std::size_t i = 0; i < d.runs.size(); ++i) {
                if (!d.open[i])
                    continue;
                const Run& run = d.runs[i];
                for (std::size_t j = 0; j < k; ++j) {
                    std::uint64_t& a = distances[run.a * k + j];
                    std::uint64_t& b = distances[run.b * k + j];
                    if (b != unreached && b + run.cost < a) {
                        a = b + run.cost;
                        changed = true;
                    }
                    if (a != unreached && a + run.cost < b) {
                        b = a + run.cost;
                        changed = true;
                    }
                }
            }
        }
    }

    // The greatest distance from v to an outlet that is not in the set; the root is in none.
    std::uint64_t estimate(std::size_t v, std::size_t set) const {
        const std::size_t k = d.outlets.size();
        const std::uint64_t* row = &distances[v * k];
        std::uint64_t most = 0;
        for (std::size_t j = 0; j < k; ++j)
            if ((j == 0 || !(set >> (j - 1) & 1)) && row[j] != unreached)
                most = std::max(most, row[j]);
        return most;
    }

    // ---- the candidates of a turn

    void try_runs(std::uint16_t v, std::size_t set, std::uint64_t cost) {
        const Run* const runs = d.runs.data();
        const std::uint8_t* const open = d.open.data();
        const std::size_t count = d.runs.size();
        for (std::size_t i = 0; i < count; ++i) {
            if (!open[i])
                continue;
            const Run& run = runs[i];
            if (run.a == v || run.b == v)
                offer(run.a == v ? run.b : run.a, set, cost + run.cost, {Back::run, static_cast<std::uint16_t>(i)});
        }
    }

    void try_forks(std::size_t v, std::size_t set, std::uint64_t cost) {
        // The sets that share nothing with this one, by rising number.
        for (std::size_t other = ((set + 1) & ~set); other < sets; other = ((other | set) + 1) & ~set) {
            const std::size_t code = code_of(v, other);
            if (ways[code].turn != 0)
                offer(v, set | other, cost + labels[code].cost, {Back::fork, static_cast<std::uint16_t>(other)});
        }
    }

    [[gnu::noinline]] void offer(std::size_t v, std::size_t set, std::uint64_t cost, Origin back) {
        const std::size_t code = code_of(v, set);
        if (ways[code].turn != 0)
            return;
        Label& label = labels[code];
        if (label.reached && cost >= label.cost)
            return;
        label = {true, cost};
        ways[code].back = back;
        put(code, cost + estimate(v, set));
    }

    // ---- a binary heap of codes, least key first and least code among equals

    bool before(std::uint32_t a, std::uint32_t b) const {
        return keys[a] != keys[b] ? keys[a] < keys[b] : a < b;
    }

    void put(std::size_t code, std::uint64_t key) {
        keys[code] = key;
        if (places[code] == absent) {
            places[code] = static_cast<std::uint32_t>(waiting.size());
            waiting.push_back(static_cast<std::uint32_t>(code));
        }
        rise(places[code]);
    }

    std::size_t take() {
        const std::uint32_t first = waiting[0];
        const std::uint32_t last = waiting.back();
        places[first] = absent;
        waiting.pop_back();
        if (!waiting.empty()) {
            waiting[0] = last;
            places[last] = 0;
            sink(0);
        }
        return first;
    }

    void rise(std::size_t at) {
        const std::uint32_t code = waiting[at];
        while (at > 0) {
            const std::size_t up = (at - 1) / 2;
            if (!before(code, waiting[up]))
                break;
            move(at, waiting[up]);
            at = up;
        }
        move(at, code);
    }

    void sink(std::size_t at) {
        const std::uint32_t code = waiting[at];
        for (;;) {
            std::size_t next = 2 * at + 1;
            if (next >= waiting.size())
                break;
            if (next + 1 < waiting.size() && before(waiting[next + 1], waiting[next]))
                ++next;
            if (!before(waiting[next], code))
                break;
            move(at, waiting[next]);
            at = next;
        }
        move(at, code);
    }

    void move(std::size_t at, std::uint32_t code) {
        waiting[at] = code;
        places[code] = static_cast<std::uint32_t>(at);
    }

    // ---- drawing

    void draw(std::size_t v, std::size_t set, std::vector<std::uint8_t>& row) const {
        for (;;) {
            const Origin back = ways[code_of(v, set)].back;
            switch (back.kind) {
            case Back::start:
                return;
            case Back::run: {
                const Run& run = d.runs[back.number];
                row[back.number] = 1;
                v = run.a == v ? run.b : run.a;
                break;
            }
            case Back::fork:
                draw(v, back.number, row);
                set -= back.number;
                break;
            }
        }
    }

    const District& d;
    const std::size_t sets;
    std::vector<Label> labels;
    std::vector<Way> ways;
    std::vector<std::uint64_t> keys;
    std::vector<std::uint32_t> waiting;
    std::vector<std::uint32_t> places;
    std::vector<std::uint64_t> distances;
};

}  // namespace plain
