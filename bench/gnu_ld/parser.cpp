#include <list>
#include <set>
#include <deque>
#include <string>
#include <sstream>
#include <unordered_map>
#include <numeric>
#include <algorithm>
#include <cstring>
namespace parse {
struct Token { std::string text; int kind; bool operator<(const Token& o) const { return kind < o.kind || (kind == o.kind && text < o.text); } };
class Lexer {
    const char* at;
public:
    explicit Lexer(const char* s) : at(s) {}
    bool next(Token& t) {
        while (*at == ' ') ++at;
        if (!*at) return false;
        t.text.clear();
        t.kind = (*at >= '0' && *at <= '9') ? 1 : (*at == '+' || *at == '*' || *at == '(' || *at == ')') ? 2 : 3;
        if (t.kind == 2) { t.text.push_back(*at++); return true; }
        while (*at && *at != ' ' && std::strchr("+*()", *at) == nullptr) t.text.push_back(*at++);
        return true;
    }
};
class Parser {
    std::deque<Token> tokens; std::unordered_map<std::string, long> names;
    long primary() {
        if (tokens.empty()) return 0;
        Token t = tokens.front(); tokens.pop_front();
        if (t.kind == 1) return std::stol(t.text);
        if (t.text == "(") { long v = sum(); if (!tokens.empty()) tokens.pop_front(); return v; }
        return names[t.text];
    }
    long product() { long v = primary(); while (!tokens.empty() && tokens.front().text == "*") { tokens.pop_front(); v *= primary(); } return v; }
    long sum() { long v = product(); while (!tokens.empty() && tokens.front().text == "+") { tokens.pop_front(); v += product(); } return v; }
public:
    Parser(const char* s) { Lexer l(s); Token t; while (l.next(t)) tokens.push_back(t); }
    void set(const std::string& n, long v) { names[n] = v; }
    long run() { return sum(); }
    std::set<Token> all() const { return std::set<Token>(tokens.begin(), tokens.end()); }
};
}
int main(int argc, char** argv) {
    parse::Parser p("1 + 2 * (x + 4) * 10");
    p.set("x", argc);
    std::set<parse::Token> s = p.all();
    std::list<int> l; for (int i = 0; i < 10; ++i) l.push_front(i * argc);
    l.sort(); l.unique(); l.reverse();
    std::ostringstream o; o << p.run() << ' ' << s.size() << ' ' << std::accumulate(l.begin(), l.end(), 0);
    return o.str().size() > 100;
}
