// For each graph of a planar_code file and random conditions: whether libplanarbend and LEMON's network simplex find as few
// bends, or both none. Arguments: the file, how many conditions for each graph, and a seed. Angles and turns are given at
// random, or as they are in a shape of the graph with a few changed. It looks at shapes, prices, cuts and drawings by their
// definitions, and at the points alone for what is given. At last it prints counts; the first disagreement ends it by status 1.
#include "laws.h"
#include "planar.hpp"
#include <cstdlib>
#include <random>

// What is asked for, and what LEMON makes of it.
struct Case {
  struct asked given = {};
  bool best = false;
  int result = 0, outer = -1;
  long bends = -1;
};

// The fewest bends of a shape that has what is given, with the outer face of the graph; -1 if there is none. A given angle is
// a flow that is taken off its vertex and put to its face, given turns one from face to face, and their arcs are left out.
static long fewest_bends_with(const Graph &graph, const struct asked &given) {
  using Net = lemon::SmartDigraph;
  const int n = graph.vertices, faces = static_cast<int>(graph.degree.size());
  Net net;
  std::vector<int> supplies;
  long bends = 0;
  for (int v = 1; v <= n; ++v) supplies.push_back(4 - static_cast<int>(graph.lists[v].size()));
  for (int f = 0; f < faces; ++f) supplies.push_back(f == graph.outer ? -(graph.degree[f] + 4) : 4 - graph.degree[f]);
  for (int node = 0; node < n + faces; ++node) net.addNode();
  Net::ArcMap<int> upper(net), cost(net);
  const auto add = [&](int from, int to, int most, int price) {
    const auto arc = net.addArc(net.nodeFromId(from), net.nodeFromId(to));
    upper[arc] = most, cost[arc] = price;
  };
  for (int d = 0; d < graph.darts(); ++d) {
    const int head = graph.head[d] - 1, face = n + graph.face[d], across = n + graph.face[graph.reverse[d]];
    if (given.angle[d] > 0) supplies[head] -= given.angle[d] - 1, supplies[face] += given.angle[d] - 1;
    else add(head, face, 3, 0);
    if (!given.has_turns[d]) add(face, across, 1 << 20, 1);
    else if (given.turns[d] > 0) supplies[face] -= given.turns[d], supplies[across] += given.turns[d], bends += given.turns[d];
  }
  Net::NodeMap<int> supply(net);
  for (int node = 0; node < n + faces; ++node) supply[net.nodeFromId(node)] = supplies[node];
  lemon::NetworkSimplex<Net> simplex(net);
  simplex.upperMap(upper).costMap(cost).supplyMap(supply);
  return simplex.run() == lemon::NetworkSimplex<Net>::OPTIMAL ? bends + simplex.totalCost() : -1;
}

static void give_turns(const Graph &graph, struct asked &given, int dart, int turns) {
  const int back = graph.reverse[dart];
  given.has_turns[dart] = given.has_turns[back] = 1;
  given.turns[dart] = turns, given.turns[back] = -turns;
}

// Angles and turns at random: a share of those of a shape, of which a few may be changed, or a few alone.
static void give(const Graph &graph, const planarbend_lists &shape, std::mt19937 &random, struct asked &given) {
  static const unsigned shares[] = {0, 0, 0, 1, 3, 6, 9, 10};
  static const int angles[] = {1, 1, 1, 2, 2, 2, 3, 4}, turns[] = {0, 0, 0, 0, 1, -1, 1, -1, 2, -2, 5, -40};
  const unsigned share = shares[random() % 8];
  for (int d = 0; d < graph.darts(); ++d) {
    if (random() % 10 < share) given.angle[d] = shape.angles[d];
    if (d < graph.reverse[d] && random() % 10 < share)
      give_turns(graph, given, d, static_cast<int>(shape.turns[d].left) - static_cast<int>(shape.turns[d].right));
  }
  for (unsigned round = share > 0 ? random() % 5 / 2 : 1 + random() % 4; round > 0; --round) {
    const int dart = static_cast<int>(random() % graph.darts());
    if (random() % 2) given.angle[dart] = static_cast<uint8_t>(angles[random() % 8]);
    else give_turns(graph, given, dart, turns[random() % 12]);
  }
}

// Whether all edges together have more turns than can be given.
static bool are_many(const Graph &graph, const struct asked &given) {
  long sum = 0;
  for (int d = 0; d < graph.darts(); ++d) sum += std::abs(given.turns[d]);
  return sum / 2 > PLANARBEND_MAX_BENDS;
}

static Case random_case(Graph graph, const planarbend_lists &shape, std::mt19937 &random) {
  const int darts = graph.darts(), faces = static_cast<int>(graph.degree.size());
  Case made;
  const unsigned some = random() % 5, inner = random() % 4, way = random() % 3;
  for (int d = 0; d < darts && way == 0; ++d)
    if (random() % 8 < some) give_turns(graph, made.given, d, 0);
  if (way > 0) give(graph, shape, random, made.given);
  for (int f = 0; f < faces; ++f) made.given.inner[f] = random() % (way > 0 ? 40 : 4) < inner;
  if (random() % 64 == 0) std::fill_n(made.given.inner, faces, uint8_t{1});
  made.best = random() % 4 == 0;
  made.result = are_many(graph, made.given) ? PLANARBEND_ARGUMENT : PLANARBEND_NO_OUTER;
  if (made.result == PLANARBEND_ARGUMENT) return made;
  for (int f = 0; f < faces; ++f) {
    if (made.given.inner[f]) continue;
    if (!made.best) {
      if (made.outer < 0 || graph.degree[f] > graph.degree[made.outer]) made.outer = f;
      continue;
    }
    made.result = PLANARBEND_NO_SHAPE;
    graph.outer = f;
    const long bends = fewest_bends_with(graph, made.given);
    if (bends >= 0 && (made.bends < 0 || bends < made.bends)) made.bends = bends, made.outer = f;
  }
  graph.outer = made.outer;
  if (!made.best && made.outer >= 0) made.bends = fewest_bends_with(graph, made.given);
  if (made.outer >= 0) made.result = made.bends < 0 ? PLANARBEND_NO_SHAPE : PLANARBEND_OK;
  return made;
}

// Memory for the lists and the cut of a call.
struct Answer {
  planarbend_counts counts = planarbend_room(MOST_VERTICES);
  std::vector<uint8_t> angles = std::vector<uint8_t>(2 * counts.edges);
  std::vector<planarbend_turns> turns = std::vector<planarbend_turns>(2 * counts.edges);
  std::vector<int32_t> vertex_prices = std::vector<int32_t>(counts.vertices), face_prices = std::vector<int32_t>(counts.faces);
  std::vector<planarbend_point> points = std::vector<planarbend_point>(counts.vertices), corners;
  std::vector<uint32_t> corner_starts = std::vector<uint32_t>(counts.edges + 1);
  uint8_t vertices[MOST_VERTICES], faces[MOST_FACES];
  planarbend_lists lists{};
  planarbend_cut cut{};

  // Calls the library, with room for as many corners as there are.
  int call(planarbend *object, const planarbend_request &request) {
    if (corners.empty()) corners.resize(counts.corners);
    for (;;) {
      lists = {sizeof lists, angles.data(), angles.size(), turns.data(), turns.size(), vertex_prices.data(), vertex_prices.size(),
               face_prices.data(), face_prices.size(), points.data(), points.size(), corner_starts.data(), corner_starts.size(),
               corners.data(), corners.size()};
      cut = {sizeof cut, vertices, sizeof vertices, faces, sizeof faces, 0};
      const int result = planarbend_layout(object, &request, &counts, &lists, &cut);
      if (result != PLANARBEND_ROOM) return result;
      corners.resize(counts.corners);
    }
  }
};

static planarbend_request request_of(const std::string &record) {
  planarbend_request request = {};
  request.size = sizeof request;
  request.record8 = reinterpret_cast<const uint8_t *>(record.data());
  request.record8_count = record.size();
  return request;
}

// What is wrong with the answer of the library, or null.
static const char *fault_of(planarbend *object, const Graph &graph, const std::string &record, const Case &asked, int drawing,
                            std::mt19937 &random, Answer &answer) {
  static struct plane plane;
  std::vector<planarbend_turns_along> turns;
  std::vector<planarbend_angle_at> angles;
  std::vector<planarbend_dart> inner;
  for (int d = 0; d < graph.darts(); ++d) {
    const uint16_t from = static_cast<uint16_t>(graph.tail[d]), to = static_cast<uint16_t>(graph.head[d]);
    const bool is_named = d < graph.reverse[d] || random() % 2;  // an edge by one dart or by both
    if (asked.given.has_turns[d] && is_named) turns.push_back({from, to, static_cast<int16_t>(asked.given.turns[d])});
    if (asked.given.angle[d] > 0) angles.push_back({from, to, asked.given.angle[d]});
    if (asked.given.inner[graph.face[d]]) inner.push_back({from, to});
  }
  planarbend_request request = request_of(record);
  request.outer = asked.best ? PLANARBEND_OUTER_BEST : PLANARBEND_OUTER_FIRST, request.drawing = drawing;
  request.turns = turns.data(), request.turns_count = turns.size();
  request.angles = angles.data(), request.angles_count = angles.size();
  request.inner = inner.data(), request.inner_count = inner.size();
  const int result = answer.call(object, request);
  trace(&plane, request.record8);
  if (result != asked.result) return "another result";
  if (result == PLANARBEND_NO_SHAPE) return fault_of_cut(&plane, &asked.given, &answer.cut);
  if (result != PLANARBEND_OK) return nullptr;
  if (answer.counts.bends != asked.bends || static_cast<int>(answer.counts.outer_face) != asked.outer) return "other bends";
  long length = 0;
  const char *fault = fault_of_shape(&plane, &asked.given, &answer.counts, &answer.lists);
  if (fault == nullptr) fault = fault_of_prices(&plane, &asked.given, &answer.lists);
  if (fault == nullptr && drawing > 0 && answer.counts.corners < MOST_PIECES - MOST_EDGES)
    fault = fault_of_drawing(&plane, &answer.counts, &answer.lists, &length);
  return fault == nullptr && drawing > 0 ? fault_of_given(&plane, &asked.given, &answer.lists) : fault;
}

int main(int count, char **words) {
  if (count != 4) return 2;
  const std::string text = bytes_of(words[1]);
  std::mt19937 random(std::atoi(words[3]));
  planarbend *object;
  if (planarbend_new(&object) != PLANARBEND_OK) return 2;
  long graphs = 0, cases = 0, none = 0, no_outer = 0, bends = 0;
  Graph graph;
  Answer shape, answer;
  for (size_t at = 15, from = at; next_record(text, at, graph); from = at) {
    if (broken_rule(graph)) continue;
    ++graphs;
    const std::string record = text.substr(from, at - from);
    for (int round = std::atoi(words[2]); round > 0; --round, ++cases) {
      planarbend_request free = request_of(record);
      free.outer = static_cast<int>(random() % 2);
      if (shape.call(object, free) != PLANARBEND_OK) return 2;
      const Case asked = random_case(graph, shape.lists, random);
      none += asked.result == PLANARBEND_NO_SHAPE;
      no_outer += asked.result == PLANARBEND_NO_OUTER;
      bends += asked.result == PLANARBEND_OK ? asked.bends : 0;
      const char *fault = fault_of(object, graph, record, asked, round % 3, random, answer);
      if (fault != nullptr) {
        std::printf("graph %ld, case %ld: %s\n", graphs, cases, fault);
        return 1;
      }
    }
  }
  planarbend_free(object);
  std::printf("graphs=%ld cases=%ld noshape=%ld noouter=%ld bends=%ld\n", graphs, cases, none, no_outer, bends);
}
