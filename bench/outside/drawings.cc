// Points for orthogonal representations, by the compaction of OGDF (the Open Graph Drawing Framework).
// Reads graphs from standard input, each as whole numbers and words with spaces between: how many vertices and darts there are;
// a dart with the outer face on its left; for each dart, in the order of docs/JSON.md, its tail, its reverse, its angle and its
// turns, or `-` if it has none. All numbers begin with 0.
// Prints two lines a graph, each the points of a drawing in the form that docs/JSON.md has for them: those of the
// longest paths in the constraint graphs of the boxes, and those of the flow compaction that begins with these.
#include <iostream>
#include <map>
#include <ogdf/orthogonal/FlowCompaction.h>
#include <ogdf/orthogonal/LongestPathCompaction.h>
#include <ogdf/orthogonal/OrthoRep.h>
#include <ogdf/planarity/PlanRep.h>
#include <string>
#include <utility>
#include <vector>

struct Dart {
  int tail = 0, reverse = 0, angle = 0;
  std::string turns;
};

struct Shape {
  int vertices = 0, outer = 0;
  std::vector<Dart> darts;
};

// The next shape; false where the input ends.
static bool next_shape(std::istream &in, Shape &shape) {
  size_t darts = 0;
  if (!(in >> shape.vertices >> darts >> shape.outer)) return false;
  shape.darts.assign(darts, {});
  for (Dart &dart : shape.darts) in >> dart.tail >> dart.reverse >> dart.angle >> dart.turns;
  if (!in) throw std::runtime_error("a shape is cut off");
  return true;
}

// Vertices and edges in OGDF, and the adjacency entry of each dart. It is a representation of no other graph, so all
// its vertices are plain points, without boxes round them.
struct Drawn {
  ogdf::Graph none;
  ogdf::PlanRep plane;
  std::vector<ogdf::node> vertices;
  std::vector<ogdf::adjEntry> darts;

  explicit Drawn(const Shape &shape) : plane(none), darts(shape.darts.size()) {
    for (int v = 0; v < shape.vertices; ++v) vertices.push_back(plane.newNode());
    std::vector<ogdf::List<ogdf::adjEntry>> around(vertices.size());
    for (size_t d = 0; d < darts.size(); ++d) {
      const size_t back = shape.darts[d].reverse, tail = shape.darts[d].tail;
      if (d < back) {
        const ogdf::edge edge = plane.newEdge(vertices[tail], vertices[shape.darts[back].tail]);
        darts[d] = edge->adjSource();
        darts[back] = edge->adjTarget();
      }
      around[tail].pushBack(darts[d]);
    }
    for (size_t v = 0; v < vertices.size(); ++v) plane.sort(vertices[v], around[v]);
  }
};

// Sets angles and bends. OGDF has the angle of an entry at its own vertex, between it and the next one clockwise, with
// the face on the right; a bend `0` turns to the right.
static void represent(const Shape &shape, const Drawn &drawn, ogdf::OrthoRep &rep) {
  for (size_t d = 0; d < drawn.darts.size(); ++d) {
    rep.angle(drawn.darts[d]) = shape.darts[shape.darts[d].reverse].angle;
    std::string bends;
    for (const char turn : shape.darts[d].turns)
      if (turn != '-') bends += turn == 'R' ? '0' : '1';
    rep.bend(drawn.darts[d]).set(bends.c_str());
  }
  std::string error;
  if (!rep.check(error)) throw std::runtime_error(error);
}

using Point = std::pair<int, int>;

// The corners of each edge, by its ends, from the lesser of them to the other.
static std::map<Point, std::vector<ogdf::node>> corners_of(const Drawn &drawn) {
  ogdf::NodeArray<int> number(drawn.plane, -1);
  for (size_t v = 0; v < drawn.vertices.size(); ++v) number[drawn.vertices[v]] = static_cast<int>(v);
  std::map<Point, std::vector<ogdf::node>> found;
  for (const ogdf::node vertex : drawn.vertices) {
    ogdf::adjEntry first;
    forall_adj(first, vertex) {
      std::vector<ogdf::node> between;
      ogdf::adjEntry at = first;
      for (; number[at->twinNode()] < 0; at = at->twin()->cyclicSucc()) between.push_back(at->twinNode());
      const int head = number[at->twinNode()];
      if (number[vertex] < head) found[{number[vertex], head}] = between;
    }
  }
  return found;
}

static void print_points(const Shape &shape, const Drawn &drawn, const ogdf::GridLayout &layout) {
  int left = layout.x(drawn.vertices[0]), bottom = layout.y(drawn.vertices[0]);
  ogdf::node node;
  forall_nodes(node, drawn.plane) {
    left = std::min(left, layout.x(node));
    bottom = std::min(bottom, layout.y(node));
  }
  const auto listed = [&](const std::vector<ogdf::node> &nodes) {
    std::string text;
    for (const ogdf::node one : nodes)
      text += (text.empty() ? "[" : ",[") + std::to_string(layout.x(one) - left) + "," +
              std::to_string(layout.y(one) - bottom) + "]";
    return "[" + text + "]";
  };
  const auto corners = corners_of(drawn);
  std::string edges;
  for (const Dart &dart : shape.darts)
    if (const int head = shape.darts[dart.reverse].tail; dart.tail < head)
      edges += (edges.empty() ? "" : ",") + listed(corners.at({dart.tail, head}));
  std::cout << "{\"corners\":[" << edges << "],\"vertices\":" << listed(drawn.vertices) << "}\n";
}

static void draw(const Shape &shape) {
  Drawn drawn(shape);
  ogdf::CombinatorialEmbedding embedding(drawn.plane);
  embedding.setExternalFace(embedding.rightFace(drawn.darts[shape.darts[shape.outer].reverse]));
  ogdf::OrthoRep rep(embedding);
  represent(shape, drawn, rep);
  rep.normalize();
  rep.dissect2(&drawn.plane);
  rep.orientate();
  rep.computeCageInfoUML(drawn.plane);
  const ogdf::RoutingChannel<int> channels(drawn.plane, 1, 0.0);
  ogdf::GridLayoutMapped layout(drawn.plane, rep, 1.0, 0.0, 1);
  ogdf::LongestPathCompaction().constructiveHeuristics(drawn.plane, rep, channels, layout);
  rep.undissect();
  print_points(shape, drawn, layout);
  ogdf::FlowCompaction().improvementHeuristics(drawn.plane, rep, channels, layout);
  print_points(shape, drawn, layout);
}

int main() {
  std::ios::sync_with_stdio(false);
  Shape shape;
  try {
    while (next_shape(std::cin, shape)) draw(shape);
  } catch (const std::exception &error) {
    std::cout.flush();
    std::cerr << "drawings: " << error.what() << '\n';
    return 1;
  }
}
