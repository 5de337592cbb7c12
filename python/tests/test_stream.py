"""Streams of graphs: layouts whose points another reader checks, exceptions, and examples/stream.py up to a million graphs."""
from __future__ import annotations

import gc
import itertools
import json
import os
import random
import resource
import subprocess
import sys
import threading
import unittest
from collections.abc import Iterator
from typing import Any, BinaryIO
from unittest import mock

import support
import planarbend
from planarbend.layout import laid_out, library
from planarbend.layout.planar_code import HEADER
from planarbend.layout.reports import End, Graph, line_of

SCRIPT = support.EXAMPLES / "stream.py"
TRIANGLE, EDGE, POINT = bytes([3, 2, 3, 0, 3, 1, 0, 1, 2, 0]), bytes([2, 2, 0, 1, 0]), bytes([1, 0])
GRAPHS, SEED = 40, 2026
MANY, GROWTH = 15_000, 16_000  # graphs, and kB
LONG = 1_000_010  # more than one run takes
STEPS = [(1, 0), (0, 1), (-1, 0), (0, -1)]
Path = list[tuple[int, int]]


def random_graph(source: random.Random, vertices: int) -> Any:
    """A random connected planar graph of maximum degree 4."""
    import networkx

    graph = networkx.Graph()
    graph.add_node(0)
    for vertex in range(1, vertices):
        graph.add_edge(vertex, source.choice([one for one in graph if graph.degree(one) < 4][-6:]))
    for _ in range(vertices):
        one, other = source.sample(range(vertices), 2)
        if not graph.has_edge(one, other) and max(graph.degree(one), graph.degree(other)) < 4:
            graph.add_edge(one, other)
            if not networkx.check_planarity(graph)[0]:
                graph.remove_edge(one, other)
    return graph


def step(one: tuple[int, int], other: tuple[int, int]) -> tuple[int, int]:
    """The direction from a point to another."""
    (x, y), (end, top) = one, other
    return (end > x) - (end < x), (top > y) - (top < y)


def inner(path: Path) -> Path:
    """The whole points between the ends of a path."""
    (x, y), found = path[0], []
    for point in path[1:]:
        dx, dy = step((x, y), point)
        while (x, y) != point:
            x, y = x + dx, y + dy
            found.append((x, y))
    return found[:-1]


class Layouts(unittest.TestCase):
    @support.needs_networkx
    def test_points_draw_random_embeddings(self) -> None:
        import networkx

        source, rotations = random.Random(SEED), []

        def embeddings() -> Iterator[Any]:
            for _ in range(GRAPHS):
                embedding = networkx.check_planarity(random_graph(source, source.randint(2, 40)))[1]
                rotations.append({vertex: list(embedding.neighbors_cw_order(vertex)) for vertex in embedding})
                yield embedding

        count = 0
        for count, layout in enumerate(planarbend.layouts(embeddings(), outer="best"), 1):
            self.assertEqual(layout.number, count)
            self.draws(layout, rotations[count - 1])
        self.assertEqual(count, GRAPHS)

    def draws(self, layout: planarbend.Layout, rotation: dict[Any, list[Any]]) -> None:
        """The points draw the embedding without crossings, along the axes, and the order round each vertex is kept."""
        met, first = list(layout.points.values()), {}
        for tail, head in ((tail, head) for tail in rotation for head in rotation[tail]):
            path = layout.path(tail, head)
            self.assertEqual(path, layout.path(head, tail)[::-1])
            self.assertTrue(all(step(*pair) in STEPS for pair in itertools.pairwise(path)), path)
            first[tail, head] = STEPS.index(step(*path[:2]))
            met += inner(path) if str(tail) < str(head) else []
        self.assertEqual(len(met), len(set(met)))
        for tail, heads in rotation.items():
            angles = [first[tail, head] for head in heads]
            self.assertEqual(sum((one - other) % 4 or 4 for one, other in zip(angles, angles[1:] + angles[:1])), 4)
        self.assertEqual(sum(map(len, layout.corners.values())), 2 * layout.bends)

    def test_parts(self) -> None:
        found = planarbend.Layouts([planarbend.Record.read(record) for record in (TRIANGLE, EDGE) * 5], most=3)
        self.assertEqual([(one.number, one.bends) for one in found], [(n + 1, (n + 1) % 2) for n in range(10)])

    def test_memory_does_not_grow(self) -> None:
        before = resource.getrusage(resource.RUSAGE_SELF).ru_maxrss
        record = planarbend.Record.read(TRIANGLE)
        self.assertEqual(sum(1 for _ in planarbend.layouts(itertools.repeat(record, MANY))), MANY)
        self.assertLess(resource.getrusage(resource.RUSAGE_SELF).ru_maxrss - before, GROWTH)


class Exceptions(unittest.TestCase):
    def test_a_graph_that_is_refused(self) -> None:
        hub = {0: [1, 2, 3, 4, 5], **{leaf: [0] for leaf in range(1, 6)}}
        with planarbend.layouts([{"a": ["b"], "b": ["a"]}, hub, {"c": ["d"], "d": ["c"]}]) as found:
            self.assertEqual(next(found).points.keys(), {"a", "b"})
            with self.assertRaisesRegex(planarbend.GraphRefused, "^graph 2: refused degree: vertex .* has [0-9]+ neighbours$"):
                next(found)
            self.assertEqual(next(found).number, 3)

    @support.needs_networkx
    def test_what_is_no_graph(self) -> None:
        import networkx

        for graphs, kind in (([{"a": ["z"]}], ValueError), ({"a": ["b"], "b": ["a"]}, TypeError),
                             (networkx.path_graph(2), TypeError), ([networkx.path_graph(2)], TypeError)):
            with self.subTest(graphs), self.assertRaises(kind):
                list(planarbend.layouts(graphs))

    @support.needs_networkx
    def test_a_single_graph_is_refused_by_the_call(self) -> None:
        import networkx

        graph = {"a": ["b"], "b": ["a"]}
        stand_in = mock.patch.multiple(library, is_wanted=lambda: True, Library=mock.Mock())
        for single in (graph, planarbend.Record.of(graph), networkx.path_graph(2), networkx.PlanarEmbedding(), "ab"):
            with self.subTest(single), self.assertRaisesRegex(TypeError, "single graph"):
                planarbend.Layouts(single)
            with self.subTest(single, by="the library"), stand_in, self.assertRaisesRegex(TypeError, "single graph"):
                planarbend.layouts(single)
        with stand_in:
            self.assertIsInstance(planarbend.layouts([graph]), laid_out.LibraryLayouts)

    def test_what_the_caller_raises(self) -> None:
        def graphs() -> Iterator[dict[str, list[str]]]:
            yield {"a": ["b"], "b": ["a"]}
            raise KeyError("lost")

        found = planarbend.layouts(graphs())
        self.assertEqual(next(found).points.keys(), {"a", "b"})
        with self.assertRaises(KeyError):
            next(found)

    def test_a_stream_that_is_left(self) -> None:
        """The program does not run on when nobody takes further layouts, whether or not garbage is collected."""
        gc.disable()
        self.addCleanup(gc.enable)
        found = planarbend.Layouts(itertools.repeat(planarbend.Record.read(TRIANGLE)))
        next(found)
        child = found.runs[0].child
        self.assertIsNone(child.poll())
        del found
        self.assertIsNotNone(child.poll())

    def test_no_program(self) -> None:
        with mock.patch.dict(os.environ, PLANARBEND="/nowhere"), self.assertRaises(planarbend.NoProgram):
            planarbend.layouts([])


class Script(unittest.TestCase):
    """examples/stream.py, which cuts a stream into runs."""

    def ran(self, text: bytes, *words: str) -> tuple[int, list[str]]:
        """The status and the lines of a run."""
        done = subprocess.run([sys.executable, SCRIPT, *words], input=text, capture_output=True, check=False)
        return done.returncode, done.stdout.decode().splitlines()

    def test_reports(self) -> None:
        records = (TRIANGLE + EDGE) * 5
        for rest, ending in ((b"", "complete"), (b"\3\2", "truncated"), (b"\0", "large"), (b"\5" + b"\1" * 300, "oversize")):
            for most in ("1", "3", "10", "1000000") if ending == "complete" else ("3", "10"):
                with self.subTest(ending, most=most):
                    status, lines = self.ran(HEADER + records + rest, "-k", most)
                    *graphs, last = map(line_of, lines)
                    self.assertEqual([one.number for one in graphs if isinstance(one, Graph)], list(range(1, 11)))
                    self.assertEqual((last, status), (End(ending, 10), 0 if ending == "complete" else 3))

    def test_json_lines(self) -> None:
        lines = list(map(json.loads, self.ran(HEADER + (TRIANGLE + EDGE) * 5, "--json", "-k", "3")[1]))
        self.assertEqual([line["graph"] for line in lines[:-1]], list(range(1, 11)))
        self.assertEqual(lines[-1], {"end": "complete", "file": 1, "graphs": 10})

    def test_no_header(self) -> None:
        for text in (b"", b">>planar_code", b"nothing of the kind"):
            status, lines = self.ran(text)
            self.assertEqual((status, lines[-1]), (3, "end header graphs=0"))

    def test_a_million_and_ten_graphs(self) -> None:
        def feed(sink: BinaryIO) -> None:
            with sink:
                sink.write(HEADER)
                for _ in range(LONG // 10):
                    sink.write(EDGE + POINT * 9)

        with subprocess.Popen([sys.executable, SCRIPT], stdin=subprocess.PIPE, stdout=subprocess.PIPE, bufsize=1 << 20) as child:
            assert child.stdin and child.stdout
            feeder = threading.Thread(target=feed, args=(child.stdin,))
            feeder.start()
            count, last = 0, b""
            for last in child.stdout:
                if last.startswith(b"graph "):
                    count += 1
                    self.assertTrue(last.startswith(b"graph %d %s" % (count, b"refused" if count % 10 != 1 else b"ok ")), last)
            feeder.join()
        self.assertEqual((count, last, child.returncode), (LONG, b"end complete graphs=%d\n" % LONG, 0))
