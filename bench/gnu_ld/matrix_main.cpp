#include <vector>
#include <string>
#include <map>
#include <functional>
#include <algorithm>
#include "matrix.h"
static double square(double x) { return x * x; }
int main(int argc, char**) {
    Matrix a(3), b(3);
    for (int i = 0; i < 3; ++i) for (int j = 0; j < 3; ++j) { a.at(i, j) = i + j * argc; b.at(i, j) = square(i - j); }
    Matrix c = a * b; Sum<int> s; s.add(3); s.add(4);
    std::map<std::string, double> m; m["trace"] = trace(c); m["sum"] = s.total();
    std::vector<std::pair<std::string, double>> v(m.begin(), m.end());
    std::sort(v.begin(), v.end());
    std::function<double(double)> f = square;
    return (int)f(v[0].second) + (int)name_of(2)[0] + (int)name_of(2.0)[0];
}
