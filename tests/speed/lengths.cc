// Computes the least cost at each of some lengths with CLP: a linear program of the times of the events and the days taken from each piece of
// an activity. From one length to the next only the bound of the end's time changes, and the dual simplex goes on from the last basis. It is
// compared with the program, and shares no code with it.
//
//   lengths FILE LENGTH..   a deck without quotes, of the cards PROJECT, EVENT, ACT and PIECE; prints each length and the cost, and to
//                           standard error the processor time of solving
#include <cmath>
#include <coin/ClpSimplex.hpp>
#include <ctime>
#include <iostream>

#include "plan.h"

struct Program {
    ClpSimplex simplex;
    double normal_cost = 0;
    std::vector<CoinBigIndex> starts{0};
    std::vector<int> columns;
    std::vector<double> elements, most, slopes, least;

    void piece(double units, double slope) {
        columns.push_back(int(most.size()));
        elements.push_back(1);
        most.push_back(units);
        slopes.push_back(slope);
    }

    // The row of an activity: from its begin to its end, and the days taken from it, are together at least its normal duration.
    void add(const PlanActivity &a) {
        double first = double(a.normal) - double(a.crash);
        for (const auto &piece : a.pieces) first -= double(piece.first);
        columns.push_back(a.from);
        elements.push_back(-1);
        columns.push_back(a.to);
        elements.push_back(1);
        piece(first, double(a.slope));
        for (const auto &further : a.pieces) piece(double(further.first), double(further.second));
        starts.push_back(CoinBigIndex(columns.size()));
        least.push_back(double(a.normal));
        normal_cost += double(a.cost);
    }

    explicit Program(const Plan &plan) : most(plan.events, COIN_DBL_MAX), slopes(plan.events, 0) {
        most[plan.start] = 0;
        for (const PlanActivity &a : plan.activities) add(a);
        simplex.setLogLevel(0);
        simplex.resize(0, int(most.size()));
        for (std::size_t k = 0; k < most.size(); ++k) {
            simplex.setColumnBounds(int(k), 0, most[k]);
            simplex.setObjectiveCoefficient(int(k), slopes[k]);
        }
        simplex.addRows(int(least.size()), least.data(), nullptr, starts.data(), columns.data(), elements.data());
    }
};

int main(int count, char **words) {
    if (count < 3) return 2;
    const Plan plan = deck_plan(words[1]);
    const std::clock_t begin = std::clock();
    Program program(plan);
    std::vector<double> costs;
    for (int k = 2; k < count; ++k) {
        program.simplex.setColumnUpper(plan.end, std::stod(words[k]));
        if (k == 2) program.simplex.initialDualSolve();
        else program.simplex.dual();
        if (!program.simplex.isProvenOptimal()) return 1;
        costs.push_back(program.normal_cost + program.simplex.objectiveValue());
    }
    std::cerr << double(std::clock() - begin) / CLOCKS_PER_SEC << '\n';
    for (int k = 2; k < count; ++k) std::cout << words[k] << ' ' << std::llround(costs[k - 2]) << '\n';
    return 0;
}
