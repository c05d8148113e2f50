#include <string>
#include <vector>
#include <queue>
#include <bitset>
#include <array>
#include <tuple>
#include <iterator>
#include <algorithm>
struct Edge { int to; int weight; };
struct Graph { std::vector<std::vector<Edge>> edges; explicit Graph(int n) : edges(n) {} void add(int a, int b, int w) { edges[a].push_back(Edge{b, w}); edges[b].push_back(Edge{a, w}); } };
struct Later { bool operator()(const std::pair<int, int>& a, const std::pair<int, int>& b) const { return a.first > b.first; } };
std::vector<int> distances(const Graph& g, int from) {
    std::vector<int> d(g.edges.size(), 1000000); d[from] = 0;
    std::priority_queue<std::pair<int, int>, std::vector<std::pair<int, int>>, Later> q; q.push(std::make_pair(0, from));
    while (!q.empty()) { std::pair<int, int> p = q.top(); q.pop(); if (p.first > d[p.second]) continue; for (const Edge& e : g.edges[p.second]) if (d[p.second] + e.weight < d[e.to]) { d[e.to] = d[p.second] + e.weight; q.push(std::make_pair(d[e.to], e.to)); } }
    return d;
}
int main(int argc, char**) {
    Graph g(6); for (int i = 0; i < 5; ++i) g.add(i, i + 1, i * argc + 1); g.add(0, 5, 3);
    std::vector<int> d = distances(g, 0);
    std::array<std::string, 3> names{{"a", "b", "c"}}; std::bitset<64> bits; bits.set(3);
    std::tuple<int, std::string, double> t(1, "x", 2.5);
    std::reverse(d.begin(), d.end()); std::sort(names.begin(), names.end());
    std::string joined; for (const std::string& s : names) joined += s + std::get<1>(t);
    return *std::max_element(d.begin(), d.end()) + (int)bits.count() + (int)joined.size();
}
