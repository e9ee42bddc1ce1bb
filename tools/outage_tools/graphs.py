"""Graphs, by Debian's networkx: what hangs together, how a walk comes to a node, what lies on loops."""

from collections import defaultdict
from collections.abc import Hashable, Iterable, Iterator
from typing import Any, TypeAlias, TypeVar

from outage_tools.errors import lacks

Graph: TypeAlias = Any  # of networkx, which has no types
Node = TypeVar("Node", bound=Hashable)
Key = TypeVar("Key", bound=Hashable)

START = object()  # stands before the nodes from which a walk begins


def networkx() -> Any:
    """Debian's networkx."""
    try:
        import networkx as found
    except ImportError:
        raise lacks("networks are looked at", "python3-networkx") from None
    return found


def graph_of(nodes: Iterable[Node], edges: Iterable[tuple[Node, Node, Hashable]]) -> Graph:
    """Nodes, and edges with a key each: several may join the same two nodes."""
    graph = networkx().MultiGraph()
    graph.add_nodes_from(nodes)
    graph.add_edges_from(edges)
    return graph


def reached(graph: Graph, node: Node) -> set[Node]:
    """The nodes to which a walk leads, with the one that it begins at."""
    found: set[Node] = networkx().node_connected_component(graph, node)
    return found


def is_joined(graph: Graph, node: Node, other: Node) -> bool:
    """A walk leads from one node to the other. What few nodes hang together with is soon found."""
    found: bool = networkx().has_path(graph, node, other)
    return found


def steps(graph: Graph, starts: Iterable[Node]) -> Iterator[tuple[Node, Node]]:
    """A walk in breadth from some nodes: each other node that it comes to, behind the node that it comes from."""

    def beside(node: Any) -> Iterator[Node]:
        return iter(starts if node is START else graph.adj[node])

    walk = networkx().algorithms.traversal.breadth_first_search.generic_bfs_edges
    return (step for step in walk(graph, START, neighbors=beside) if step[0] is not START)


def loops(edges: Iterable[tuple[Node, Node, Key]]) -> Iterator[set[Key]]:
    """The keys of edges any two of which lie on a common loop; what is on no loop is left out."""
    graph, keys = networkx().Graph(), defaultdict[frozenset[Node], set[Key]](set)
    for a, b, key in edges:
        if a != b:
            graph.add_edge(a, b)
            keys[frozenset((a, b))].add(key)
    for part in networkx().biconnected_component_edges(graph):
        found = set[Key]().union(*(keys[frozenset(ends)] for ends in part))
        if len(found) > 1:
            yield found
