// Answers of an outside program, to compare with, by its first argument. FILE is planar_code. `bends` and `best` print
// the lines of the report up to the bends, by LEMON's network simplex, and totals after each file.
//
//   bends FILES   the fewest bends of each graph
//   best FILES    the fewest bends with whichever face as the outer one
//   times FILE N  a line: the nanoseconds of building and solving the networks of all graphs, each the least of N times
//   turning FILE  a line: how many vertices have degree 2, and how few of them turn in shapes with the fewest bends
//   frames FILE   the lines of `planarbend frames` for a file without faults
#include "planar.hpp"
#include <chrono>
#include <cstdlib>

// The fewest bends with whichever face as the outer one.
static long best_bends(Graph graph) {
  long best = fewest_bends(graph);
  for (graph.outer = 0; graph.outer < static_cast<int>(graph.degree.size()); ++graph.outer)
    best = std::min(best, fewest_bends(graph));
  return best;
}

// The nanoseconds of a network, built and solved: the least of so many times.
static long least_time(const Graph &graph, int rounds) {
  long least = 1l << 60;
  for (int round = 0; round < rounds; ++round) {
    const auto begin = std::chrono::steady_clock::now();
    fewest_bends(graph);
    const std::chrono::nanoseconds took = std::chrono::steady_clock::now() - begin;
    least = std::min<long>(least, took.count());
  }
  return least;
}

// Calls `each` with the graphs of a file, and returns how many there are. Ends the program if one breaks a rule.
template <class Each>
static long each_graph(const std::string &text, Each each) {
  size_t at = 15;
  Graph graph;
  long graphs = 0;
  for (; next_record(text, at, graph); ++graphs) {
    if (broken_rule(graph)) std::exit(1);
    each(graph);
  }
  return graphs;
}

static int print_times(const std::string &text, int rounds) {
  long sum = 0;
  const long graphs = each_graph(text, [&](const Graph &graph) { sum += least_time(graph, rounds); });
  return std::printf("graphs=%ld networks=%ld\n", graphs, sum) < 0;
}

static int print_turning(const std::string &text) {
  const int bend = 1000;  // more than vertices can turn
  long two = 0, bends = 0, turning = 0;
  const long graphs = each_graph(text, [&](const Graph &graph) {
    for (const auto &neighbours : graph.lists) two += neighbours.size() == 2;
    const long cost = least_cost(graph, bend, 1);
    bends += cost / bend;
    turning += cost % bend;
  });
  return std::printf("graphs=%ld bends=%ld two=%ld turning=%ld\n", graphs, bends, two, turning) < 0;
}

static void print_report(const std::string &text, const std::string &mode) {
  size_t at = 15;
  Graph graph;
  long number = 0, accepted = 0, all_bends = 0;
  for (; next_record(text, at, graph); ++number) {
    const char *rule = broken_rule(graph);
    if (rule) {
      std::printf("graph %ld refused %s\n", number + 1, rule);
      continue;
    }
    const long bends = mode == "best" ? best_bends(graph) : fewest_bends(graph);
    ++accepted;
    all_bends += bends;
    std::printf("graph %ld ok n=%d m=%d f=%zu bends=%ld\n", number + 1, graph.vertices, graph.darts() / 2, graph.degree.size(),
                bends);
  }
  std::printf("graphs %ld accepted %ld bends %ld\n", number, accepted, all_bends);
}

// ---- Records.

// The place after the record that begins here; 0 if none is whole.
static size_t end_of_record(const std::string &text, size_t place) {
  if (place == text.size()) return 0;
  for (int left = static_cast<unsigned char>(text[place++]); left > 0; --left) {
    const size_t zero = text.find('\0', place);
    if (zero == std::string::npos) return 0;
    place = zero + 1;
  }
  return place;
}

static int print_frames(const std::string &text) {
  size_t place = 15, number = 0;
  for (size_t end; (end = end_of_record(text, place)) != 0; place = end)
    std::printf("record %zu n=%d bytes=%zu\n", ++number, static_cast<unsigned char>(text[place]), end - place);
  return std::printf("end complete records=%zu\n", number) < 0;
}

int main(int count, char **words) {
  const std::string mode = count > 1 ? words[1] : "";
  if (count < 3) return 2;
  if (mode == "frames") return print_frames(bytes_of(words[2]));
  if (mode == "turning") return print_turning(bytes_of(words[2]));
  if (mode == "times" && count > 3) return print_times(bytes_of(words[2]), std::atoi(words[3]));
  if (mode != "bends" && mode != "best") return 2;
  for (int file = 2; file < count; ++file) print_report(bytes_of(words[file]), mode);
  return 0;
}
