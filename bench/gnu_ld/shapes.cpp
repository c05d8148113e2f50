#include <vector>
#include <string>
#include <map>
#include <algorithm>
#include <memory>
#include <cstdio>
#include <functional>
struct Shape {  virtual double area() const = 0; };
struct Square : Shape { double s; explicit Square(double v) : s(v) {} double area() const override { return s * s; } };
struct Circle : Shape { double r; explicit Circle(double v) : r(v) {} double area() const override { return 3.14159 * r * r; } };
template <class T> T largest(const std::vector<T>& v) { T best = v[0]; for (const T& x : v) if (best < x) best = x; return best; }
static int helper(int a, int b) { return a * 31 + b; }
int count_words(const std::string& text, std::map<std::string, int>& words) {
    std::string word; int n = 0;
    for (char c : text) {
        if (c == ' ') { if (!word.empty()) { ++words[word]; ++n; } word.clear(); }
        else word.push_back(c);
    }
    if (!word.empty()) { ++words[word]; ++n; }
    return n;
}
int main(int argc, char** argv) {
    Square square(argc); Circle circle(argc * 2); std::vector<Shape*> shapes;
    shapes.push_back(&square);
    shapes.push_back(&circle);
    std::vector<double> areas;
    for (auto& s : shapes) areas.push_back(s->area());
    std::sort(areas.begin(), areas.end(), [](double a, double b) { return a > b; });
    std::map<std::string, int> words;
    int n = count_words(argv[0], words);
    std::function<int(int)> f = [n](int x) { return helper(x, n); };
    std::printf("%f %d %d\n", largest(areas), n, f(3));
    return 0;
}
