// Planar code, the rules for graphs, faces, and the fewest bends by LEMON's network simplex: written apart from the
// product, with which it shares no code.
#pragma once
#include <algorithm>
#include <cstdint>
#include <cstdio>
#include <fstream>
#include <lemon/network_simplex.h>
#include <lemon/smart_graph.h>
#include <string>
#include <vector>

struct Graph {
  int vertices = 0;
  std::vector<std::vector<int>> lists;   // by vertex, from 1
  std::vector<int> tail, head, reverse, after, face;
  std::vector<int> degree;               // by face
  int outer = 0;
  int darts() const { return static_cast<int>(head.size()); }
};

// Reads a whole file; an empty string where it cannot be read.
inline std::string bytes_of(const char *name) {
  std::ifstream in(name, std::ios::binary | std::ios::ate);
  std::string text(in ? static_cast<size_t>(in.tellg()) : 0, 0);
  in.seekg(0);
  in.read(text.data(), static_cast<std::streamsize>(text.size()));
  return text;
}

// The entry of this many bytes, the least first, and moves on; -1 where none is whole there.
inline int next_entry(const std::string &text, size_t &place, size_t bytes) {
  if (place + bytes > text.size()) return -1;
  int entry = 0;
  for (size_t byte = bytes; byte-- > 0;) entry = entry << 8 | static_cast<unsigned char>(text[place + byte]);
  place += bytes;
  return entry;
}

// One record from `at`; false where none is whole there. After a byte 0 its entries have two bytes.
inline bool next_record(const std::string &text, size_t &at, Graph &graph) {
  size_t place = at;
  const size_t bytes = place < text.size() && text[place] == 0 ? ++place, 2 : 1;
  const int n = next_entry(text, place, bytes);
  if (n <= 0) return false;
  graph.vertices = n;
  graph.lists.assign(n + 1, {});
  for (int v = 1; v <= n; ++v)
    for (;;) {
      const int entry = next_entry(text, place, bytes);
      if (entry < 0) return false;
      if (entry == 0) break;
      graph.lists[v].push_back(entry);
      if (bytes == 1 && graph.lists[v].size() > 254) return false;
    }
  at = place;
  return true;
}

// The first broken rule, or nullptr; fills in darts and faces on the way.
inline const char *broken_rule(Graph &graph) {
  const int n = graph.vertices;
  for (int u = 1; u <= n; ++u)
    for (int v : graph.lists[u])
      if (v > n) return "range";
  for (int u = 1; u <= n; ++u)
    for (int v : graph.lists[u])
      if (v == u) return "loop";
  static std::vector<int> places;
  places.assign(static_cast<size_t>(n + 1) * (n + 1), -1);
  const auto place = [n](int u, int v) -> int & { return places[static_cast<size_t>(u) * (n + 1) + v]; };
  graph.tail.clear();
  graph.head.clear();
  graph.after.clear();
  for (int u = 1; u <= n; ++u)
    for (const int &v : graph.lists[u]) {
      if (place(u, v) >= 0) return "multi";
      place(u, v) = graph.darts();
      graph.tail.push_back(u);
      graph.head.push_back(v);
      const bool is_last = &v == &graph.lists[u].back();
      graph.after.push_back(is_last ? graph.darts() - static_cast<int>(graph.lists[u].size()) : graph.darts());
    }
  const int darts = graph.darts();
  for (int d = 0; d < darts; ++d)
    if (place(graph.head[d], graph.tail[d]) < 0) return "asymmetric";
  if (darts == 0) return "edgeless";
  for (int u = 1; u <= n; ++u)
    if (graph.lists[u].size() > 4) return "degree";
  std::vector<int> seen(n + 1, 0), met{1};
  seen[1] = 1;
  for (size_t at = 0; at < met.size(); ++at)
    for (int v : graph.lists[met[at]])
      if (!seen[v]++) met.push_back(v);
  if (static_cast<int>(met.size()) != n) return "disconnected";
  graph.reverse.resize(darts);
  for (int d = 0; d < darts; ++d) graph.reverse[d] = place(graph.head[d], graph.tail[d]);
  graph.face.assign(darts, -1);
  graph.degree.clear();
  for (int d = 0; d < darts; ++d) {
    if (graph.face[d] >= 0) continue;
    int size = 0;
    for (int e = d; graph.face[e] < 0; e = graph.after[graph.reverse[e]]) {
      graph.face[e] = static_cast<int>(graph.degree.size());
      ++size;
    }
    graph.degree.push_back(size);
  }
  const auto longest = std::max_element(graph.degree.begin(), graph.degree.end());
  graph.outer = static_cast<int>(longest - graph.degree.begin());
  return 2 * n - darts + 2 * static_cast<int>(graph.degree.size()) == 4 ? nullptr : "genus";
}

// The least cost of a shape, by the cost of a bend and that of a vertex of degree 2 that turns: such a vertex has two
// units, and has both in one corner. The edges of marked darts stay straight. -1 if there is none.
inline long least_cost(const Graph &graph, int bend, int turn, const std::vector<bool> &straight = {}) {
  using Net = lemon::SmartDigraph;
  const int n = graph.vertices, darts = graph.darts(), faces = static_cast<int>(graph.degree.size());
  Net net;
  net.reserveNode(n + faces);
  net.reserveArc(2 * darts);
  for (int v = 0; v < n + faces; ++v) net.addNode();
  Net::ArcMap<int> upper(net), cost(net);
  Net::NodeMap<int> supply(net);
  for (int d = 0; d < darts; ++d) {
    const auto corner = net.addArc(net.nodeFromId(graph.head[d] - 1), net.nodeFromId(n + graph.face[d]));
    upper[corner] = 3;
    cost[corner] = 0;
    if (turn > 0 && graph.lists[graph.head[d]].size() == 2) {
      const auto second = net.addArc(net.source(corner), net.target(corner));
      upper[corner] = upper[second] = 1;
      cost[second] = turn;
    }
    if (!straight.empty() && (straight[d] || straight[graph.reverse[d]])) continue;
    const auto crossing =
        net.addArc(net.nodeFromId(n + graph.face[d]), net.nodeFromId(n + graph.face[graph.reverse[d]]));
    upper[crossing] = 1 << 20;
    cost[crossing] = bend;
  }
  for (int v = 1; v <= n; ++v) supply[net.nodeFromId(v - 1)] = 4 - static_cast<int>(graph.lists[v].size());
  for (int f = 0; f < faces; ++f)
    supply[net.nodeFromId(n + f)] = f == graph.outer ? -(graph.degree[f] + 4) : 4 - graph.degree[f];
  lemon::NetworkSimplex<Net> simplex(net);
  simplex.upperMap(upper).costMap(cost).supplyMap(supply);
  if (simplex.run() != lemon::NetworkSimplex<Net>::OPTIMAL) return -1;
  return simplex.totalCost();
}

inline long fewest_bends(const Graph &graph, const std::vector<bool> &straight = {}) {
  return least_cost(graph, 1, 0, straight);
}
