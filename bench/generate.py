#!/usr/bin/env python3
"""Writes C++ code without headers, to be measured: generate.py FOLDER MODULES FUNCTIONS [SEED]

FOLDER gets MODULES files of FUNCTIONS functions each, with classes, templates, virtual methods,
anonymous namespaces, lambdas and chains of forced inlining, and main.cpp, which calls them all."""
import os
import random
import sys

LIBRARY = """#pragma once
#define NOINLINE __attribute__((noinline))
#define FORCE __attribute__((always_inline)) inline
extern "C" volatile int g_sink;
namespace lib {
template <typename T> struct Opt { T v; bool has; FORCE T get(T d) const { g_sink++; return has ? v : d; } };
template <typename T, int N> struct Ring {
  T d[N]; int n = 0;
  FORCE void push(const T &t) { d[n++ % N] = t; g_sink += n; }
  FORCE T at(int i) const { return d[(i + n) % N]; }
  T sum() const { T s = T(); for (int i = 0; i < N; i++) s += at(i); return s; }
  template <typename Fn> auto map(Fn f) const {
    Ring<decltype(f(d[0])), N> r; for (int i = 0; i < N; i++) r.push(f(at(i))); return r; }
};
template <typename A, typename B> struct Pair {
  A a; B b;
  FORCE Pair swap1() const { return Pair{a, b}; }
  FORCE int mix(int k) const { g_sink ^= k; return (int)a * k + (int)b; }
};
struct Obj { virtual ~Obj() {} virtual int run(int) = 0; virtual int cost(int a) const { return a; } };
FORCE int s1(int a) { g_sink += 1; return a * 5 + g_sink; }
FORCE int s2(int a) { g_sink += 2; return s1(a) ^ s1(a + 1); }
FORCE int s3(int a) { int r = s2(a + 1); g_sink += 3; return r; }
FORCE int s4(int a) { g_sink += 4; return s3(a) + s1(a); }
FORCE int s5(int a) { return s4(a * 3) - 5; }
FORCE int s6(int a) { g_sink += 6; return s5(a) + Pair<int, char>{a, 'c'}.mix(a); }
FORCE int s7(int a) { return s6(a ^ 7); }
FORCE int s8(int a) { g_sink += 8; return s7(a) + 8; }
FORCE int s9(int a) { return s8(a) * 9; }
FORCE int s10(int a) { g_sink -= 10; return s9(a - 10); }
}
"""

MAIN = """#include "all.h"
extern "C" {
volatile int g_sink;
int _fltused = 1;
void __chkstk() {}
void *memset(void *d, int c, decltype(sizeof(0)) n) { volatile char *p = (char *)d; while (n--) *p++ = c; return d; }
void *memcpy(void *d, const void *s, decltype(sizeof(0)) n) {
  volatile char *p = (char *)d; const char *q = (const char *)s; while (n--) *p++ = *q++; return d; }
int _purecall() { return 0; }
}
void operator delete(void *) noexcept {}
void operator delete(void *, decltype(sizeof(0))) noexcept {}
"""

# Each kind of function: what is written of it, and how it is called. @N is its name, and @T and @U
# are types. @D is one of the functions s1 to s10 that it calls, and @A, @B and @C are others of
# these. @M is the number of its module, and @R a length.
KINDS = [
    ("""NOINLINE int @N(@T a, @U b, const Public@M &p) {
  int r = lib::s@D((int)a);
  for (int i = 0; i < p.a; i++) {
    r += lib::s@A(i) * (int)b;
    if (r > 1000) r -= p.tab[0][i & 1];
  }
  return r;
}""", "@N((@T)r, (@U)r, p)"),
    ("""class C@N : public lib::Obj { @T x; @U y; public: C@N(@T a) : x(a), y(0) { g_sink++; }
  NOINLINE int run(int q) override { return lib::s@D(q) + (int)x; }
  int cost(int a) const override { return a + (int)y; }
  NOINLINE static @T make(@U z) { return (@T)(z + g_sink); }
  NOINLINE bool operator<(const C@N &o) const { return x < o.x; } };""",
     "(C@N((@T)r) < C@N(C@N::make((@U)r)) ? C@N(1).run(r) : 0)"),
    ("""NOINLINE int @N(int a) {
  lib::Ring<@T, @R> ring{};
  ring.push((@T)a);
  auto r = ring.map([a](@T v) { g_sink++; return (int)v + lib::s@A(a); });
  return r.sum() + (int)ring.sum();
}""", "@N(r)"),
    ("""namespace { NOINLINE int @N(int a, int (*cb)(int, @T)) {
  int r = cb(a, (@T)a);
  r += lib::s@D(r);
  return r + lib::Opt<@U>{(@U)r, r > 3}.get((@U)2);
} }""", "@N(r, [](int x, @T y) { g_sink += x; return x + (int)y; })"),
    ("""template <typename T, typename U> struct T@N {
  T a; U b;
  NOINLINE T calc(U k) const { g_sink++; return (T)(a + (T)k + (T)b); }
  struct In { T q; NOINLINE T f() { return q + (T)lib::s@D(3); } } in;
};
NOINLINE int @N(State@M st, int *p, @T &q) {
  T@N<@T, int> x{(@T)*p, 2, {1}};
  q = x.calc(3);
  return (int)st + (int)x.in.f() + (int)T@N<long, @U>{1, 2, {3}}.calc((@U)4);
}""", "[&] { @T q = 0; return @N(State@M::S@M_1, &r, q) + (int)q; }()"),
    ("""static NOINLINE int @N(int n) {
  if (n <= 1) return lib::s@D(n);
  return @N(n - 1) + @N(n - 2);
}""", "@N(r & 3)"),
    ("""struct V@N { @T v[4]; V@N &operator+=(const V@N &o) { for (int i = 0; i < 4; i++) v[i] += o.v[i]; return *this; } };
NOINLINE int @N(V@N *a, const V@N *b, @T V@N::*pm[2]) {
  *a += *b;
  return lib::s@D((int)a->v[1]);
}""", "[&] { V@N a{}, b{}; return @N(&a, &b, nullptr); }()"),
    ("""NOINLINE int @N(@T a, unsigned sel) {
  switch (sel & 7) {
  case 0: return lib::s@D((int)a);
  case 1: g_sink++; return (int)a;
  case 2: return lib::s@C(2);
  case 5: return lib::Pair<@T, @U>{a, 1}.mix(4);
  default: break;
  }
  int r = 0;
  while (sel--) r += lib::s@B((int)sel);
  return r;
}""", "@N((@T)r, (unsigned)r)"),
]
TYPES = ["int", "unsigned", "long long", "short", "char", "double", "float", "unsigned char", "bool", "wchar_t"]


def function(chance, module, number):
    """A function of any kind, and its call."""
    kind = chance.randrange(8)
    words = {"@N": f"f{module}_{number}", "@M": str(module), "@R": str(number % 13 + 2)}
    words["@D"] = str(chance.randrange(1, 11))
    words["@T"], words["@U"] = chance.choice(TYPES), chance.choice(TYPES)
    words["@A"] = str(chance.randrange(1, 5 if kind == 0 else 4))
    words["@C"] = str(chance.randrange(1, 11))
    words["@B"] = str(chance.randrange(1, 6))
    texts = KINDS[kind]
    for word, text in words.items():
        texts = tuple(it.replace(word, text) for it in texts)
    return texts


def module(chance, number, functions):
    """The text of a module."""
    space = f"namespace ns{number % 17} {{ namespace mod{number} {{"
    tab = f"int tab[{number % 9 + 1}][{number % 5 + 2}];"
    states = ", ".join(f"S{number}_{it} = {it * 3}" for it in range(6))
    lines = [
        '#include "all.h"',
        space,
        f"struct Public{number} {{ int a; {chance.choice(TYPES)} b; Public{number} *next; const char *name; {tab} }};",
        f"enum class State{number} : int {{ {states} }};",
    ]
    calls = []
    for it in range(functions):
        text, call = function(chance, number, it)
        lines.append(text)
        calls.append(f"  r += {call};")
    lines += [f"int entry(int r) {{\n  Public{number} p{{}};", *calls, "  (void)p;\n  return r;\n}\n} }"]
    return "\n".join(lines) + "\n"


def main():
    folder, modules, functions = sys.argv[1], int(sys.argv[2]), int(sys.argv[3])
    chance = random.Random(int(sys.argv[4]) if len(sys.argv) > 4 else 7)
    os.makedirs(folder, exist_ok=True)
    write = lambda name, text: open(f"{folder}/{name}", "w").write(text)
    write("lib.h", LIBRARY)
    for it in range(modules):
        write(f"m{it}.cpp", module(chance, it, functions))
    declared = "".join(
        f"namespace ns{it % 17} {{ namespace mod{it} {{ int entry(int); struct Public{it}; }} }}\n" for it in range(modules)
    )
    write("all.h", '#pragma once\n#include "lib.h"\n' + declared)
    calls = "".join(f"  r += ns{it % 17}::mod{it}::entry(r);\n" for it in range(modules))
    write("main.cpp", MAIN + 'extern "C" int start() {\n  int r = g_sink;\n' + calls + "  return r;\n}\n")


main()
